"""Every call through the package: document 01's bench examples, every number and slice, and desks that fail."""
from __future__ import annotations

import doctest
import os
import re
import shlex
import sys
import textwrap
import threading
import unittest
import unittest.mock

from . import helping
import ntekuzino
from ntekuzino import Desk, DeskError, Piece, Session, calls, desk as desks

K9 = [2048, 1053696, 2097153]
PANEL_WORDS = [7171, 3073, 1024, 4, 4100, 6149, 5122, 2053]
# Document 000's panel has no names; these are a maker's.
NAMES = b".ilb PUMP VALVE HEAT\n.ob PUMP VALVE HEAT\n"
MAKER = b".i 3\n.o 3\n" + NAMES + b".type fr\n.e\n"
UNTYPED = MAKER.replace(b".type fr\n", b"")
# The sheet of document 000's panel, its rows moved.
CAME_BACK = b".i 3\n.o 3\n.type f\n0-- 001 # seen\n-1- 100\n1-1 010\n.e\n"
NAMED_SHEET = CAME_BACK.replace(b".o 3\n", b".o 3\n" + NAMES)
TWICE = NAMED_SHEET.replace(b"1-1 010\n", b"-1- 100\n")
TWO_ONES = NAMED_SHEET.replace(b"1-1 010\n", b"1-1 011\n")


class BenchExamples(unittest.TestCase):
    """On the proved desk; `SecondDesk` runs the same on the second program."""

    words: list[str] | None = None

    def setUp(self) -> None:
        self.desk = Desk(self.words)
        self.addCleanup(self.desk.close)

    def test_fresh(self) -> None:
        fresh = ntekuzino.fresh(2, [7, 7, 7], desk=self.desk)
        self.assertEqual((fresh.code, fresh.sheet_count, fresh.sheet), (0, 2, [0, 1048576, 0]))
        self.assertTrue(fresh.done)
        for n in (0, 11):
            refused = ntekuzino.fresh(n, [7], desk=self.desk)
            self.assertEqual((refused.code, refused.sheet, refused.done), (2, [7], False))

    def test_take(self) -> None:
        taken = ntekuzino.take(1, 0, 0, 2, 0, [0, 5], 1, desk=self.desk)
        self.assertEqual((taken.code, taken.book, taken.sheet, taken.struck, taken.added), (0, [0, 0], [1024, 0], 1, 1))
        again = ntekuzino.take(1, 0, 0, taken.book, 1, taken.sheet, 1, desk=self.desk)
        self.assertEqual((again.code, again.book_count, again.sheet_count), (1, 1, 1))
        self.assertEqual(ntekuzino.take(1, 2, 0, 1, 0, [0], 1, desk=self.desk).code, 6)

    def test_learn(self) -> None:
        learned = ntekuzino.learn(3, PANEL_WORDS, 8, 7, desk=self.desk)
        self.assertEqual((learned.code, learned.piece.sheet, learned.book), (0, K9, sorted(PANEL_WORDS)))
        k8 = ntekuzino.learn(3, [7171, 3073], 2, 5, desk=self.desk)
        self.assertEqual((k8.code, k8.place, k8.book, k8.sheet), (9, 1, [0, 0], [0] * 5))

    def test_join(self) -> None:
        joined = ntekuzino.join(1, Piece([0], [1024]), Piece([1024], [1]), 2, [7], desk=self.desk)
        self.assertEqual((joined.code, joined.book, joined.sheet_count, joined.sheet), (0, [0, 1024], 0, [0]))
        wrong_count = ntekuzino.join(1, Piece([0], [1024], 2), Piece([1024], [1]), 2, 1, desk=self.desk)
        self.assertEqual(wrong_count.code, 3)

    def test_apply(self) -> None:
        self.assertEqual(ntekuzino.apply(3, K9, 5, desk=self.desk).state, 2)
        self.assertEqual(ntekuzino.apply(1, [0, 1024], 0, desk=self.desk).code, 5)

    def test_session(self) -> None:
        started = ntekuzino.session_start(1, 1, desk=self.desk)
        self.assertEqual(started.session, Session(1, 0, 1, 0, 0))
        taken = ntekuzino.session_take(started.session, 0, 0, 1, started.sheet, desk=self.desk)
        self.assertEqual((taken.code, taken.session, taken.book, taken.sheet), (0, Session(1, 1, 1, 1, 1), [0], [1024]))

    def test_read_write_run(self) -> None:
        reading = ntekuzino.read(helping.PANEL.decode(), 9, desk=self.desk)
        self.assertEqual((reading.code, reading.n, reading.words, reading.list[8]), (0, 3, PANEL_WORDS, 0))
        self.assertEqual(ntekuzino.read(b"\xff", 1, desk=self.desk).place, 1)
        self.assertEqual(ntekuzino.write_sheet(3, K9, desk=self.desk).text, helping.PANEL_SHEET)
        short = ntekuzino.write_sheet(3, K9, out=b"?" * 5, desk=self.desk)
        self.assertEqual((short.code, short.out, short.text), (12, b"?" * 5, b""))
        ran = ntekuzino.run(helping.PANEL, desk=self.desk)
        self.assertEqual((ran.text, ran.sheet[:3]), (helping.PANEL_SHEET, K9))

    def test_read_sheet(self) -> None:
        """Every number, and every word of the slice."""
        for text, room, answer in [
            (CAME_BACK, 5, (0, 0, 3, 3, [*K9, 0, 0])), (CAME_BACK.decode(), 3, (0, 0, 3, 3, K9)), (helping.PANEL_SHEET, 4, (0, 0, 3, 3, [*K9, 0])),
            (NAMED_SHEET, 3, (0, 0, 3, 3, K9)), (b".i 2\n.o 2\n.type f\n.e", 0, (0, 0, 2, 0, [])), (b".i 2\n.o 2\n.type f\n-- 01\n.e\n", 2, (0, 0, 2, 1, [1048576, 0])),
            # 8 counts rows as written, and comes before 5.
            (CAME_BACK, 2, (8, 0, 0, 0, [0, 0])), (TWICE, 2, (8, 0, 0, 0, [0, 0])), (TWICE, 3, (5, 0, 0, 0, [0, 0, 0])), (CAME_BACK, 0, (8, 0, 0, 0, [])),
            (CAME_BACK.replace(b"1-1 010", b"01- 100"), 3, (5, 0, 0, 0, [0, 0, 0])), (CAME_BACK.replace(b"0-- 001", b"--- 100"), 4, (5, 0, 0, 0, [0, 0, 0, 0])),
            # 11 comes before both.
            (TWO_ONES, 1, (11, 8, 0, 0, [0])), (TWICE.replace(b".o 3\n", b".o 3\n.p 2\n"), 1, (11, 3, 0, 0, [0])), (CAME_BACK.replace(b"100", b"000"), 3, (11, 5, 0, 0, [0, 0, 0])),
            (CAME_BACK.replace(b"100", b"1-0"), 3, (11, 5, 0, 0, [0, 0, 0])), (helping.PANEL, 3, (11, 3, 0, 0, [0, 0, 0])), (b"", 1, (11, 1, 0, 0, [0])),
            (CAME_BACK.replace(b".type f\n", b""), 3, (11, 3, 0, 0, [0, 0, 0])),
        ]:
            got = ntekuzino.read_sheet(text, [7] * room, desk=self.desk)
            self.assertEqual((got.code, got.place, got.n, got.count, got.list), answer, (text, room))
            self.assertEqual((got.done, got.words), (answer[0] == 0, answer[4][: answer[3]]))
        reading = ntekuzino.read(CAME_BACK, [7], desk=self.desk)
        self.assertEqual((reading.code, reading.place, reading.list), (11, 3, [0]))

    def test_sheets_written_are_read(self) -> None:
        """The same words and the same names, with a maker's names in between."""
        for n, words, panel in [(3, K9, b""), (3, K9, MAKER), (3, K9, NAMED_SHEET), (1, [], b""), (10, [9437185, 9438208], helping.recording("names-of-sixteen"))]:
            text = ntekuzino.write_sheet(n, words, panel=panel, desk=self.desk).text
            reading = ntekuzino.read_sheet(text, desk=self.desk)
            self.assertEqual((reading.code, reading.n, reading.words), (0, n, words))
            names = [ntekuzino.lookup(one, b"", 0, desk=self.desk).name for one in (text, panel or helping.PANEL)]
            self.assertEqual(names[0], names[1])
            self.assertEqual(ntekuzino.write_sheet(n, reading.words, panel=text, desk=self.desk).text, text)

    def test_names(self) -> None:
        named = helping.PANEL_SHEET.replace(b".o 3\n", b".o 3\n" + NAMES)
        for panel, maker, text in [
            (helping.PANEL, MAKER, named), (MAKER, b"junk", named), (MAKER.decode(), "", named), (helping.recording("names-no-rows"), MAKER, helping.PANEL_SHEET),
            (helping.PANEL, b"junk", helping.PANEL_SHEET), (b"junk", MAKER, helping.PANEL_SHEET), (b"", MAKER, helping.PANEL_SHEET),
            (UNTYPED, MAKER, helping.PANEL_SHEET), (helping.PANEL, UNTYPED, helping.PANEL_SHEET),
            (NAMED_SHEET, b"junk", named), (CAME_BACK, MAKER, named), (CAME_BACK, NAMED_SHEET, named), (TWICE, b"", named), (TWO_ONES, MAKER, helping.PANEL_SHEET),
            (helping.PANEL, TWO_ONES, helping.PANEL_SHEET),
        ]:
            self.assertEqual(ntekuzino.write_sheet(3, K9, panel=panel, maker=maker, desk=self.desk).text, text, (panel, maker))
        refused = ntekuzino.write_sheet(3, K9, panel=MAKER, out=len(named) - 1, desk=self.desk)
        self.assertEqual((refused.code, refused.text), (12, b""))
        longest = helping.recording("names-of-sixteen")
        self.assertEqual(ntekuzino.write_sheet(10, [], panel=longest, desk=self.desk).text.splitlines()[2:4], longest.splitlines()[4:6])

    def test_lookup(self) -> None:
        nothing = ntekuzino.LookedUp(0, 0, 0, b"")
        for panel, maker, column, found in [
            (MAKER, b"", 0, ntekuzino.LookedUp(0, 15, 4, b"PUMP")), (helping.PANEL, MAKER, 2, ntekuzino.LookedUp(1, 26, 4, b"HEAT")),
            (MAKER, b"junk", 1, ntekuzino.LookedUp(0, 20, 5, b"VALVE")), (helping.PANEL.decode(), MAKER.decode(), 1, ntekuzino.LookedUp(1, 20, 5, b"VALVE")),
            (MAKER, MAKER, 3, nothing), (MAKER, b"", 2**64 - 1, nothing), (helping.PANEL, helping.PANEL, 0, nothing), (b"", MAKER, 0, nothing), (helping.PANEL, b"junk", 0, nothing),
            (UNTYPED, MAKER, 0, nothing), (helping.PANEL, UNTYPED, 0, nothing),
            # A sheet is as good as a recording, also where reading it gives 5; one that both readers refuse with 11 is not.
            (NAMED_SHEET, b"", 1, ntekuzino.LookedUp(0, 20, 5, b"VALVE")), (helping.PANEL, NAMED_SHEET, 2, ntekuzino.LookedUp(1, 26, 4, b"HEAT")),
            (CAME_BACK, MAKER, 0, ntekuzino.LookedUp(1, 15, 4, b"PUMP")), (TWICE, b"", 2, ntekuzino.LookedUp(0, 26, 4, b"HEAT")), (NAMED_SHEET, MAKER, 3, nothing),
            (TWO_ONES, MAKER, 0, nothing), (helping.PANEL, TWO_ONES, 0, nothing), (CAME_BACK, CAME_BACK, 0, nothing),
        ]:
            self.assertEqual(ntekuzino.lookup(panel, maker, column, desk=self.desk), found, (panel, maker, column))

    def test_largest_slices(self) -> None:
        text = b"#" * desks.MOST_BYTES
        self.assertEqual(ntekuzino.read(text, desk=self.desk).place, 2)
        self.assertEqual(ntekuzino.read_sheet(text, desk=self.desk).place, 2)
        with self.assertRaises(ValueError):
            ntekuzino.read(text + b"#", desk=self.desk)
        with self.assertRaises(ValueError):
            ntekuzino.fresh(1, desks.MOST_WORDS + 1, desk=self.desk)

    def test_numbers_that_no_request_holds(self) -> None:
        for make in (
            lambda: ntekuzino.fresh(2**32, 1, desk=self.desk),
            lambda: ntekuzino.fresh(1, [2**32], desk=self.desk),
            lambda: ntekuzino.fresh(-1, 1, desk=self.desk),
            lambda: ntekuzino.write_sheet(1, [0], out=[256], desk=self.desk),
            lambda: ntekuzino.lookup(b"", b"", 2**64, desk=self.desk),
        ):
            with self.assertRaises((ValueError, OverflowError)):
                make()
        self.assertEqual(ntekuzino.fresh(1, 1, desk=self.desk).code, 0)


class SecondDesk(BenchExamples):
    words = [str(helping.SECOND)]


class Words(unittest.TestCase):
    def test_words(self) -> None:
        self.assertEqual(ntekuzino.transition_of(ntekuzino.transition(7, 3)), (7, 3))
        self.assertEqual(ntekuzino.rule_of(2097153), ntekuzino.Rule(2, (), (0,)))
        self.assertEqual(ntekuzino.rule_of(1053696), ntekuzino.Rule(1, (0, 2), ()))
        self.assertEqual([ntekuzino.columns(3, 3), ntekuzino.state_of("110")], ["110", 3])

    def test_examples_told(self) -> None:
        """Those of the docstring and of README.md."""
        for told in (doctest.testmod(ntekuzino), doctest.testfile(str(helping.ROOT / "README.md"), module_relative=False)):
            self.assertEqual(told.failed, 0)
            self.assertGreater(told.attempted, 2)

    def test_recordings_told(self) -> None:
        """README.md's tank is the stored one, and the rows that it reads stand in its sheet."""
        readme = (helping.ROOT / "README.md").read_text()
        self.assertIn(textwrap.indent(helping.recording("dairy-tank").decode(), "    "), readme)
        rows = re.findall(r"(?m)^\| `([01-]{5} [01]{5})` \|", readme)
        self.assertEqual([row for row in rows if f"\n{row}\n" not in helping.stored("dairy-tank").decode()], [])
        self.assertEqual(len(rows), 5)

    def test_versions_agree(self) -> None:
        header = (helping.ROOT / "include" / "ntekuzino.h").read_text()
        project = (helping.ROOT / "python" / "pyproject.toml").read_text()
        self.assertIn(f'#define NTEKUZINO_VERSION "{ntekuzino.__version__}"', header)
        self.assertIn(f'version = "{ntekuzino.__version__}"', project)
        self.assertRegex(ntekuzino.version(), rf"^ntekuzino {ntekuzino.__version__} [0-9a-f]{{64}}$")


def says(answer: bytes, then: str = "") -> list[str]:
    """A desk that answers so and goes on as told."""
    return [sys.executable, "-c", f"import sys,time,os\nsys.stdin.buffer.read(8)\nsys.stdout.buffer.write({answer!r})\nsys.stdout.flush()\n{then}"]


class Failures(unittest.TestCase):
    def test_answers_short(self) -> None:
        with Desk(says(bytes(16))) as desk:
            for _ in range(2):
                with self.assertRaises(DeskError):
                    ntekuzino.fresh(1, 1, desk=desk)
            self.assertTrue(desk.ended)

    def test_dies(self) -> None:
        desk = Desk()
        self.assertEqual(ntekuzino.fresh(1, 1, desk=desk).code, 0)
        desk._process.kill()
        with self.assertRaises(DeskError):
            ntekuzino.fresh(1, 1, desk=desk)

    def test_no_desk(self) -> None:
        with self.assertRaises(DeskError):
            Desk(["/nowhere/desk"])
        with self.assertRaises(DeskError):
            desks.version([sys.executable, "-c", ""])

    def test_told_by_the_environment(self) -> None:
        told = says(b"", "raise SystemExit(3)")
        with unittest.mock.patch.dict(os.environ, NTEKUZINO_DESK=" ".join(shlex.quote(word) for word in told)):
            self.assertEqual(desks.command(), told)

    def test_another_process(self) -> None:
        with Desk() as desk:
            child = os.fork()
            if child == 0:
                try:
                    ntekuzino.fresh(1, 1, desk=desk)
                except DeskError:
                    os._exit(7)
                os._exit(0)
            self.assertEqual(os.waitstatus_to_exitcode(os.waitpid(child, 0)[1]), 7)
            child = os.fork()
            if child == 0:
                desk.close()
                os._exit(0)
            os.waitpid(child, 0)
            self.assertEqual(ntekuzino.fresh(1, 1, desk=desk).code, 0)

    def test_broken_off(self) -> None:
        with Desk() as desk:
            stdin = desk._process.stdin

            class Interrupted:
                def write(self, _: object) -> None:
                    raise KeyboardInterrupt

                def close(self) -> None:
                    stdin.close()

            desk._process.stdin = Interrupted()  # type: ignore[assignment]
            with self.assertRaises(KeyboardInterrupt):
                ntekuzino.fresh(1, 1, desk=desk)
            with self.assertRaises(DeskError):
                ntekuzino.fresh(1, 1, desk=desk)

    def test_threads(self) -> None:
        wrong: list[int] = []

        def ask(n: int) -> None:
            for _ in range(50):
                if calls.fresh(n, 10).sheet_count != n:
                    wrong.append(n)

        threads = [threading.Thread(target=ask, args=[n]) for n in range(1, 9)]
        for thread in threads:
            thread.start()
        for thread in threads:
            thread.join()
        self.assertEqual(wrong, [])
