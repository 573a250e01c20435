"""The commands as people meet them: files, standard input, terminals, lost output, wrong arguments."""
from __future__ import annotations

import os
import re
import subprocess
import textwrap
import unittest

from . import helping
from .helping import PANEL, PANEL_SHEET, RECORDINGS, ROOT, InFolder, at_terminal, ran

RULESHEET, NTEKUZINO = ROOT / "rulesheet", ROOT / "ntekuzino"
NAMES = b".ilb PUMP VALVE HEAT\n.ob PUMP VALVE HEAT\n"
WHY_TYPED = (
    b"A recording has `.type fr` among its headers; without the line the published format means `fd`, where a `0` of an output says nothing. "
    b"Whoever knows that every `0` was seen adds the line: no program can know it."
)


def with_names(text: bytes, names: bytes = NAMES) -> bytes:
    """A recording, or a sheet, with name lines after `.o`."""
    return text.replace(b".o 3\n", b".o 3\n" + names)


class Rulesheet(InFolder):
    def test_file_and_input(self) -> None:
        for done in (ran(RULESHEET, RECORDINGS / "panel.pla"), ran(RULESHEET, "--", RECORDINGS / "panel.pla"), ran(RULESHEET, input=PANEL)):
            self.assertEqual((done.returncode, done.stdout, done.stderr), (0, PANEL_SHEET, b""))

    def test_odd_names(self) -> None:
        for name in ("-v", "a  b", "two\nlines", "--help"):
            self.put(name, PANEL)
            self.assertEqual(ran(RULESHEET, "--", name, cwd=self.folder).stdout, PANEL_SHEET, name)

    def test_a_refusal(self) -> None:
        done = ran(RULESHEET, RECORDINGS / "refused-7.pla")
        self.assertEqual((done.returncode, done.stdout, done.stderr), (1, b"refused 7 at 1\n", b""))

    def test_more_than_is_read(self) -> None:
        done = ran(RULESHEET, input=b"#" * 1_000_000)
        self.assertEqual((done.returncode, done.stdout), (1, b"refused 13 at 0\n"))

    def test_no_terminal(self) -> None:
        done = ran(RULESHEET)
        self.assertEqual((done.returncode, done.stdout, done.stderr), (1, b"refused 11 at 1\n", b""))

    def test_terminal(self) -> None:
        status, shown = at_terminal(RULESHEET, typed=b"\x04")
        self.assertEqual(status, 1)
        self.assertIn(b"reading a recording from standard input", shown)

    def test_help(self) -> None:
        done = ran(RULESHEET, "--help")
        self.assertEqual(done.returncode, 0)
        self.assertIn(b"usage: rulesheet [FILE]", done.stdout)

    def test_could_not(self) -> None:
        self.put("folder/file", b"")
        cases = [(["nowhere"], b"no file nowhere"), (["folder"], b"folder is a folder"), ([""], b"no file"), (["a", "b"], b"one recording"), (["-x"], b"no such option: -x")]
        for words, said in cases:
            done = ran(RULESHEET, *words, cwd=self.folder)
            self.assertEqual((done.returncode, done.stdout), (2, b""), words)
            self.assertIn(said, done.stderr)
            self.assertEqual(done.stderr.count(b"\n"), 1, done.stderr)

    def test_lost_input(self) -> None:
        shell = f"{RULESHEET} <&-"
        self.assertEqual(ran("sh", "-c", shell).returncode, 2)
        with open("/proc/self/mem", "rb") as unreadable:
            done = ran(RULESHEET, stdin=unreadable)
        self.assertEqual((done.returncode, done.stdout), (2, b""))

    def test_lost_output(self) -> None:
        for lost in (">/dev/full", ">&-"):
            done = ran("sh", "-c", f"{RULESHEET} {RECORDINGS}/panel.pla {lost}")
            self.assertEqual((done.returncode, done.stdout), (2, b""), lost)
            self.assertEqual(done.stderr, b"rulesheet: cannot write to standard output\n")


class Ntekuzino(InFolder):
    def test_sheet(self) -> None:
        done = ran(NTEKUZINO, "sheet", RECORDINGS / "panel.pla")
        self.assertEqual((done.returncode, done.stdout, done.stderr), (0, PANEL_SHEET, b""))
        done = ran(NTEKUZINO, "sheet", input=PANEL)
        self.assertEqual((done.returncode, done.stdout, done.stderr), (0, PANEL_SHEET, b""))

    def test_sheets(self) -> None:
        self.put("a", PANEL)
        self.put("b", b".i 1\n")
        done = ran(NTEKUZINO, "sheet", "a", "b", cwd=self.folder)
        self.assertEqual((done.returncode, done.stdout), (1, b"# a\n" + PANEL_SHEET + b"# b\nrefused 11 at 2\n"))
        self.assertEqual(done.stderr, b"ntekuzino: b: The text ends after line 1, with no end mark. A recording ends with a line `.e` or `.end`.\n")

    def test_rooms(self) -> None:
        shuffled = RECORDINGS / "cell-cycle-shuffled.pla"
        done = ran(NTEKUZINO, "sheet", shuffled)
        self.assertEqual((done.returncode, done.stdout), (0, helping.stored("cell-cycle")))
        self.assertIn(b"the library's room, 22 rules", done.stderr)
        done = ran(NTEKUZINO, "sheet", "--exact", shuffled)
        self.assertEqual((done.returncode, done.stdout), (1, b"refused 9 at 8\n"))
        self.assertIn(b"After row 9 (line 13)", done.stderr)

    def test_explain(self) -> None:
        done = ran(NTEKUZINO, "explain", RECORDINGS / "refused-7.pla")
        self.assertEqual(done.returncode, 1)
        self.assertIn(b"Rows 1 and 2", done.stdout)
        done = ran(NTEKUZINO, "explain", RECORDINGS / "panel.pla")
        self.assertEqual((done.returncode, done.stdout), (0, b"Nothing is refused: 8 rows of 3 relays give a sheet of 3 rules.\n"))
        done = ran(NTEKUZINO, "explain", input=b".i 3\r\n")
        self.assertIn(b"line 1: .i 3\\r\n", done.stdout)

    def test_join(self) -> None:
        """A recording in pieces, in any order and with rows twice, gives what the whole gives."""
        rows = [line for line in PANEL.splitlines(True) if line[:1] in b"01"]
        head = b".i 3\n.o 3\n.type fr\n"
        pieces = [self.put(f"{k}.pla", head + b"".join(rows[k : k + 4]) + b".e\n") for k in (0, 2, 4)]
        for names in (pieces, pieces[::-1], [RECORDINGS / "panel.pla"]):
            done = ran(NTEKUZINO, "join", *names)
            self.assertEqual((done.returncode, done.stdout, done.stderr), (0, PANEL_SHEET, b""))

    def test_join_refused(self) -> None:
        a, b = self.put("a", b".i 2\n.o 2\n.type fr\n10 01\n.e\n"), self.put("b", b".i 2\n.o 2\n.type fr\n1- 11\n.e\n")
        done = ran(NTEKUZINO, "join", a, b)
        self.assertEqual((done.returncode, done.stdout), (1, b"refused 7 at 0\n"))
        self.assertIn(b"disagree on state 10: 01 follows in one, 11 in the other", done.stderr)
        done = ran(NTEKUZINO, "join", a, RECORDINGS / "panel.pla")
        self.assertEqual((done.returncode, done.stdout), (2, b""))
        self.assertIn(b"has 2 relays", done.stderr)
        done = ran(NTEKUZINO, "join", a, self.put("c", b""))
        self.assertEqual((done.returncode, done.stdout), (1, b"refused 11 at 1\n"))

    def test_apply(self) -> None:
        done = ran(NTEKUZINO, "apply", RECORDINGS / "panel.pla", "111", "101")
        self.assertEqual((done.returncode, done.stdout, done.stderr), (0, b"111 110\n101 010\n", b""))
        for state in ("11", "1111", "11-", "", "1\n1"):
            done = ran(NTEKUZINO, "apply", RECORDINGS / "panel.pla", state)
            self.assertEqual((done.returncode, done.stdout), (2, b""), state)
        self.assertEqual(ran(NTEKUZINO, "apply", RECORDINGS / "refused-7.pla", "1").returncode, 1)

    def test_help(self) -> None:
        self.assertEqual(ran(NTEKUZINO, "--help").returncode, 0)
        for part in ("sheet", "explain", "check", "join", "apply", "archive"):
            done = ran(NTEKUZINO, part, "--help")
            self.assertEqual(done.returncode, 0)
            self.assertIn(b"Example: ntekuzino " + part.encode(), done.stdout)
        self.assertRegex(ran(NTEKUZINO, "--version").stdout, rb"^package 4\.\d+\.\d+, library ntekuzino 4\.\d+\.\d+ [0-9a-f]{64}\n$")

    def test_could_not(self) -> None:
        self.put("folder/file", b"")
        for words in ([], ["frob"], ["sheet", "nowhere"], ["sheet", "folder"], ["sheet", "--frob"], ["explain", "a", "b"], ["check"], ["check", "nowhere"], ["check", "folder"], ["check", RECORDINGS / "panel.out", "nowhere"], ["check", "a", "b", "c"], ["join"], ["apply", "x"], ["archive", "a"], ["archive", "nowhere", "out"]):
            done = ran(NTEKUZINO, *words, cwd=self.folder)
            self.assertEqual((done.returncode, done.stdout), (2, b""), words)
            self.assertNotIn(b"Traceback", done.stderr, words)
            self.assertNotEqual(done.stderr, b"")

    def test_terminal(self) -> None:
        status, shown = at_terminal(NTEKUZINO, "sheet", typed=b"\x04")
        self.assertEqual(status, 1)
        self.assertIn(b"reading a recording from standard input", shown)

    def test_lost_streams(self) -> None:
        for lost in (">/dev/full", ">&-", "<&-"):
            done = ran("sh", "-c", f"{NTEKUZINO} sheet {'' if lost == '<&-' else RECORDINGS / 'panel.pla'} {lost}")
            self.assertEqual((done.returncode, done.stdout), (2, b""), lost)
            self.assertEqual(done.stderr.count(b"\n"), 1, done.stderr)

    def test_a_desk_that_fails(self) -> None:
        for desk in ("true", "false", "/nowhere/desk", "head -c 8"):
            done = ran(NTEKUZINO, "sheet", RECORDINGS / "panel.pla", env={**os.environ, "NTEKUZINO_DESK": desk})
            self.assertEqual((done.returncode, done.stdout), (2, b""), desk)
            self.assertIn(b"ntekuzino: the desk", done.stderr)


class Check(InFolder):
    """A sheet that came back: its one text, and whether it is a recording's."""

    def setUp(self) -> None:
        super().setUp()
        self.came_back = b".i 3\n.o 3\n.type f\n0-- 001\n1-1 010 # seen\n-1- 100\n.e\n"
        self.put("back", self.came_back)
        self.put("panel.pla", PANEL)

    def check(self, *words: object) -> tuple[int, bytes, bytes]:
        done = ran(NTEKUZINO, "check", *words, cwd=self.folder)
        return done.returncode, done.stdout, done.stderr

    def test_its_one_text(self) -> None:
        self.assertEqual(self.check("back"), (0, PANEL_SHEET, b""))
        self.put("named", with_names(self.came_back))
        self.assertEqual(self.check("named"), (0, with_names(PANEL_SHEET), b""))
        for written in (RECORDINGS / "panel.out", RECORDINGS / "dairy-tank.out"):
            self.assertEqual(self.check(written), (0, written.read_bytes(), b""))

    def test_refused(self) -> None:
        for text, line, why in [
            (PANEL, b"refused 11 at 3", b"The type of a sheet is `f`, not `fr`. A text of `.type fr` is a recording, not a sheet: `ntekuzino sheet` prints its sheet. (line 3: .type fr)"),
            (self.came_back.replace(b"0-- 001", b"-1- 100"), b"refused 5 at 0", b"Rows 1 and 3 (lines 4 and 6) are one rule, `-1- 100`; a sheet has each rule once."),
            (b".i 1\n.o 1\n.type f\n" + b"0 1\n" * 65537 + b".e\n", b"refused 8 at 0", b"The text has 65,537 rows; there is room for 65,536."),
            (b"#" * 2_097_153, b"refused 13 at 0", b"The text has more than 2,097,152 bytes; there is room for 2,097,152."),
        ]:
            self.put("bad", text)
            for words in (["bad"], ["bad", "panel.pla"]):
                self.assertEqual(self.check(*words), (1, line + b"\n", b"ntekuzino: bad: " + why + b"\n"))

    def test_the_recordings_own(self) -> None:
        self.assertEqual(self.check("back", "panel.pla"), (0, PANEL_SHEET + b"# This is the sheet of panel.pla.\n", b""))
        # Names on one side alone do not part them; nor does the room of the program.
        self.put("named.pla", with_names(PANEL))
        self.put("named", with_names(self.came_back))
        for sheet, recording, printed in [("back", "named.pla", PANEL_SHEET), ("named", "panel.pla", with_names(PANEL_SHEET)), ("named", "named.pla", with_names(PANEL_SHEET))]:
            self.assertEqual(self.check(sheet, recording), (0, printed + f"# This is the sheet of {recording}.\n".encode(), b""))
        status, printed, said = self.check(RECORDINGS / "cell-cycle.out", RECORDINGS / "cell-cycle-shuffled.pla")
        self.assertEqual((status, printed.splitlines()[-1], said), (0, f"# This is the sheet of {RECORDINGS}/cell-cycle-shuffled.pla.".encode(), b""))

    def test_other_rules(self) -> None:
        self.put("edited", self.came_back.replace(b"0-- 001", b"0-1 001\n-11 001\n10- 010").replace(b"1-1 010", b"1-1 100"))
        status, printed, said = self.check("edited", "panel.pla")
        rows = b"-1- 100\n1-1 100\n10- 010\n0-1 001\n-11 001\n"
        sheet = b".i 3\n.o 3\n.type f\n.p 5\n" + rows + b".e\n"
        told = (
            b"# This is not the sheet of panel.pla: 2 rules are missing, 4 are too many.\n# missing: 1-1 010\n# missing: 0-- 001\n"
            b"# too many: 1-1 100\n# too many: 10- 010\n# too many: 0-1 001\n# too many: -11 001\n"
        )
        self.assertEqual((status, printed, said), (1, sheet + told, b""))
        # It is still the same sheet.
        self.put("printed", printed)
        self.assertEqual(self.check("printed"), (0, sheet, b""))
        self.put("fewer", b".i 3\n.o 3\n.type f\n0-- 001\n1-1 010\n.e\n")
        self.assertTrue(self.check("fewer", "panel.pla")[1].endswith(b".e\n# This is not the sheet of panel.pla: 1 rule is missing, 0 are too many.\n# missing: -1- 100\n"))
        self.put("more", self.came_back.replace(b".e\n", b"000 010\n.e\n"))
        self.assertTrue(self.check("more", "panel.pla")[1].endswith(b".e\n# This is not the sheet of panel.pla: 0 rules are missing, 1 is too many.\n# too many: 000 010\n"))

    def test_another_panel(self) -> None:
        self.put("two.pla", b".i 2\n.o 2\n.type fr\n.e\n")
        self.assertEqual(self.check("back", "two.pla"), (1, PANEL_SHEET + b"# This is not the sheet of two.pla: it has 3 relays, the recording 2.\n", b""))
        self.put("named", with_names(self.came_back))
        self.put("other.pla", with_names(PANEL, b".ilb PUMP FLOAT HEAT\n.ob PUMP FLOAT HEAT\n"))
        told = b"# This is not the sheet of other.pla: named and other.pla call relay 1 differently: VALVE in one, FLOAT in the other.\n"
        self.assertEqual(self.check("named", "other.pla"), (1, with_names(PANEL_SHEET) + told, b""))

    def test_a_refused_recording(self) -> None:
        self.put("bad\n.pla", PANEL.replace(b"110 100", b"111 100"))
        told = b"# bad\\x0a.pla has no sheet to hold this against: refused 7 at 1.\n"
        why = b"ntekuzino: bad\\x0a.pla: Rows 1 and 2 (lines 4 and 5) disagree on state 111: one says that 110 follows, the other 100.\n"
        self.assertEqual(self.check("back", "bad\n.pla"), (1, PANEL_SHEET + told, why))
        status, printed, said = self.check("back", "back")
        self.assertEqual((status, printed), (1, PANEL_SHEET + b"# back has no sheet to hold this against: refused 11 at 3.\n"))
        self.assertIn(b"A text of `.type f` is a sheet, not a recording", said)

    def test_readme(self) -> None:
        """The run that README.md shows, line for line."""
        told = textwrap.dedent(re.search(r"(?m)^    \$ cat back\.pla\n(?:    .*\n)+", (ROOT / "README.md").read_text())[0])  # type: ignore[index]
        text, printed = told.removeprefix("$ cat back.pla\n").split("$ ./ntekuzino check back.pla recordings/panel.pla\n")
        self.put("back.pla", text.encode())
        self.put("recordings/panel.pla", PANEL)
        self.assertEqual(self.check("back.pla", "recordings/panel.pla"), (1, printed.encode(), b""))

    def test_lost_output(self) -> None:
        done = ran("sh", "-c", f"{NTEKUZINO} check {RECORDINGS}/panel.out >/dev/full")
        self.assertEqual((done.returncode, done.stderr), (2, b"ntekuzino: cannot write to standard output: No space left on device\n"))


class Names(InFolder):
    """Names in sheets: the recording's own, a maker's, those of recordings joined, and those made different for other tools."""

    def sheet(self, *words: object) -> bytes:
        done = ran(NTEKUZINO, "sheet", *words)
        self.assertEqual((done.returncode, done.stderr), (0, b""))
        return done.stdout

    def could_not(self, said: bytes, *words: object) -> None:
        done = ran(NTEKUZINO, *words, cwd=self.folder)
        self.assertEqual((done.returncode, done.stdout, done.stderr), (2, b"", b"ntekuzino: " + said + b"\n"))

    def test_own(self) -> None:
        tank = RECORDINGS / "dairy-tank.pla"
        for words in ([], ["--exact"], ["--maker", self.put("junk", b"junk")]):
            self.assertEqual(self.sheet(*words, tank), helping.stored("dairy-tank"))
        self.assertEqual(ran(RULESHEET, tank).stdout, helping.stored("dairy-tank"))

    def test_maker(self) -> None:
        maker, panel = self.put("maker", with_names(b".i 3\n.o 3\n.type fr\n.e\n")), self.put("panel", PANEL)
        for words in ([], ["--exact"]):
            self.assertEqual(self.sheet("--maker", maker, *words, panel), with_names(PANEL_SHEET))
        done = ran(NTEKUZINO, "sheet", "--maker", maker, input=PANEL)
        self.assertEqual((done.returncode, done.stdout), (0, with_names(PANEL_SHEET)))
        # A maker's sheet is as good as a recording, be it no good sheet.
        for text in (PANEL_SHEET, PANEL_SHEET.replace(b".p 3\n", b"").replace(b"1-1 010", b"-1- 100")):
            self.put("maker's sheet", with_names(text))
            self.assertEqual(self.sheet("--maker", self.folder / "maker's sheet", panel), with_names(PANEL_SHEET))
        # A recording that is refused is refused as ever.
        done = ran(NTEKUZINO, "sheet", "--maker", self.put("junk", b"junk"), RECORDINGS / "refused-7.pla")
        self.assertEqual((done.returncode, done.stdout), (1, b"refused 7 at 1\n"))
        done = ran(NTEKUZINO, "sheet", "--maker", RECORDINGS / "dairy-tank.pla", "panel", cwd=self.folder)
        self.assertEqual((done.returncode, done.stdout), (0, with_names(PANEL_SHEET, b".ilb PUMP VALVE FLOAT\n.ob PUMP VALVE FLOAT\n")))
        self.assertEqual(done.stderr, f"ntekuzino: panel: {RECORDINGS}/dairy-tank.pla names 5 relays, the recording has 3; it is given the first names\n".encode())

    def test_a_maker_without_names(self) -> None:
        self.put("panel", PANEL)
        for text, why in [
            (b"", b"line 1 breaks the layout. The text is empty. A recording ends with a line `.e` or `.end`."),
            (with_names(b".i 3\n.o 3\n.type fr\n.e\n", b".ilb A B C-1\n"), b"line 3 breaks the layout. The third name, `C-1`, has `-` in it; a name has letters, digits and underscores, and blanks part the names."),
            (with_names(PANEL, b".p 1\n"), b"line 3 breaks the layout. It says 1, but the text has 8 rows."),
            (with_names(PANEL).replace(b".type fr\n", b""), b"line 5 breaks the layout. No type line stands before line 5, the first row. " + WHY_TYPED),
            (PANEL, b"it has no lines `.ilb` and `.ob`."),
            (PANEL_SHEET, b"it has no lines `.ilb` and `.ob`."),
            (with_names(PANEL_SHEET).replace(b"1-1 010", b"1-1 011"), b"line 8 breaks the layout. The output has 2 `1`s, in columns 1 and 2; a row is a rule for one relay: write a row for each."),
            (helping.recording("names"), b"it names 2 of the recording's 3 relays."),
        ]:
            self.put("maker", text)
            self.could_not(b"maker gives no names: " + why, "sheet", "--maker", "maker", "panel")
        self.put("maker", b"#" * 2_097_153)
        self.could_not(b"maker has more than 2,097,152 bytes: there is no room for such a maker's text", "sheet", "--maker", "maker", "panel")
        self.could_not(b"cannot read nowhere: No such file or directory", "sheet", "--maker", "nowhere", "panel")

    def test_next(self) -> None:
        named = self.put("named", with_names(PANEL))
        self.assertEqual(self.sheet("--next", "_next", named), with_names(PANEL_SHEET, b".ilb PUMP VALVE HEAT\n.ob PUMP_next VALVE_next HEAT_next\n"))
        self.assertEqual(self.sheet("--next", "1", "--maker", named, RECORDINGS / "panel.pla"), with_names(PANEL_SHEET, b".ilb PUMP VALVE HEAT\n.ob PUMP1 VALVE1 HEAT1\n"))
        # No names, no suffix; and a refusal is no sheet.
        self.assertEqual(self.sheet("--next", "_next", RECORDINGS / "panel.pla"), PANEL_SHEET)
        done = ran(NTEKUZINO, "sheet", "--next", "_next", RECORDINGS / "refused-11-names-dot.pla")
        self.assertEqual((done.returncode, done.stdout), (1, b"refused 11 at 5\n"))
        # It is for other tools: such names are not read here.
        done = ran(NTEKUZINO, "sheet", input=with_names(PANEL, b".ilb PUMP VALVE HEAT\n.ob PUMP_next VALVE_next HEAT_next\n"))
        self.assertEqual((done.returncode, done.stdout), (1, b"refused 11 at 4\n"))

    def test_no_suffix(self) -> None:
        self.put("named", with_names(PANEL, b".ilb A B A_next\n.ob A B A_next\n"))
        for suffix in ("", " ", "_next ", "n#xt", "näxt", "a\n"):
            shown = suffix.replace("\n", "\\x0a").encode()
            self.could_not(b"--next " + shown + b": a suffix has one or more letters, digits or underscores", "sheet", "--next", suffix, "named")
        self.could_not(b"--next _next gives the output of A the name of the input A_next: take another suffix", "sheet", "--next", "_next", "named")
        self.assertEqual(self.sheet("--next", "_", self.folder / "named").splitlines()[3], b".ob A_ B_ A_next_")

    def test_join(self) -> None:
        """Named and nameless recordings of one panel, in any order."""
        head, rows = with_names(b".i 3\n.o 3\n.type fr\n"), [line for line in PANEL.splitlines(True) if line[:1] in b"01"]
        named = [self.put(f"named-{k}", head + b"".join(rows[k : k + 4]) + b".e\n") for k in (0, 4)]
        nameless = self.put("nameless", PANEL)
        for files in (named, named[::-1], [nameless, *named], [nameless, named[1]]):
            done = ran(NTEKUZINO, "join", *files)
            self.assertEqual((done.returncode, done.stdout, done.stderr), (0, with_names(PANEL_SHEET), b""))
        self.assertEqual(ran(NTEKUZINO, "join", nameless, nameless).stdout, PANEL_SHEET)

    def test_join_other_names(self) -> None:
        self.put("a", PANEL)
        self.put("b", with_names(PANEL))
        self.put("c", with_names(PANEL, b".ilb PUMP FLOAT HEAT\n.ob PUMP FLOAT HEAT\n"))
        self.could_not(b"b and c call relay 1 differently: VALVE in one, FLOAT in the other", "join", "a", "b", "b", "c")

    def test_join_disagreement(self) -> None:
        named = b".i 2\n.o 2\n.ilb PUMP VALVE\n.ob PUMP VALVE\n.type fr\n10 01\n.e\n"
        done = ran(NTEKUZINO, "join", self.put("a", b".i 2\n.o 2\n.type fr\n10 11\n.e\n"), self.put("b", named))
        self.assertEqual((done.returncode, done.stdout), (1, b"refused 7 at 0\n"))
        self.assertIn(b"disagree on state 10: 11 follows in one, 01 in the other; they differ on PUMP\n", done.stderr)

    def test_apply(self) -> None:
        self.put("named", with_names(PANEL))
        done = ran(NTEKUZINO, "apply", "named", "111", "101", cwd=self.folder)
        self.assertEqual((done.returncode, done.stdout, done.stderr), (0, b"111 110\n101 010\n", b""))
        self.could_not(b"11 is no state of this panel: 3 of 0 and 1, for PUMP, VALVE, HEAT", "apply", "named", "11")


class FirstBuild(InFolder):
    """The build in a clone that has nothing yet, with a stand-in for rt that proves nothing."""

    def clone(self, rt: str) -> dict[str, str]:
        for name in ("tools/prove", "tools/program", "tools/clib", "rulesheet", "crates.txt"):
            path = self.put(f"clone/{name}", (ROOT / name).read_bytes())
            path.chmod(0o755)
        self.put("clone/crates/table/src/lib.rt", b"")
        self.put("clone/crates/rulesheet/src/main.rt", b"")
        self.put("bin/rt", f"#!/bin/sh\n{rt}\n".encode()).chmod(0o755)
        return {**os.environ, "PATH": f"{self.folder / 'bin'}:{os.environ['PATH']}"}

    def test_says_how_far(self) -> None:
        env = self.clone("echo noise; for k in a b c; do echo \"logic=proved functions=1\"; done; mkdir -p out; echo x > out/rulesheet")
        done = ran(self.folder / "clone/tools/program", "--built", "rulesheet", env=env)
        self.assertEqual((done.returncode, done.stdout), (0, b""))
        # The program, what crates.txt says it needs, and what that needs; the kit's libraries are not ours to prove.
        self.assertIn(b"proving 20 crates and building rulesheet", done.stderr)
        self.assertIn(b"proving: 3 of 20 crates, ", done.stderr)
        self.assertNotIn(b"noise", done.stderr)
        self.assertIn("noise", (self.folder / "clone/target/prove-rulesheet.log").read_text())
        self.assertEqual(ran(self.folder / "clone/tools/program", "--built", "rulesheet", env=env).stderr, b"")

    def test_two_at_once(self) -> None:
        env = self.clone("echo run >> ../../runs; sleep 1; mkdir -p out; echo x > out/rulesheet")
        words = [self.folder / "clone/tools/program", "--built", "rulesheet"]
        both = [subprocess.Popen(words, env=env, stderr=subprocess.PIPE) for _ in range(2)]
        said = b"".join(one.communicate(timeout=60)[1] for one in both)
        self.assertEqual([one.returncode for one in both], [0, 0])
        self.assertEqual((self.folder / "clone/runs").read_text(), "run\n")
        self.assertIn(b"another call is proving; waiting for it", said)

    def test_fails_plainly(self) -> None:
        env = self.clone("echo 'rt: table is not proved'; exit 1")
        done = ran(self.folder / "clone/rulesheet", env=env)
        self.assertEqual((done.returncode, done.stdout), (2, b""))
        self.assertIn(b"the proof or the build failed", done.stderr)
        self.assertIn(b"target/prove-rulesheet.log", done.stderr)

    @unittest.skipUnless(os.path.exists("/usr/bin/setpriv") and os.getuid() == 0, "a folder that cannot be written needs another user")
    def test_cannot_write(self) -> None:
        env = self.clone("exit 1")
        subprocess.run(["chmod", "-R", "a+rX", self.folder], check=True)
        done = ran("setpriv", "--reuid=65534", "--regid=65534", "--clear-groups", self.folder / "clone/rulesheet", env=env)
        self.assertEqual((done.returncode, done.stdout), (2, b""))
        self.assertIn(b"cannot write to", done.stderr)
        self.assertEqual(done.stderr.count(b"\n"), 1, done.stderr)
