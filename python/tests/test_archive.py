"""The archive run: every answer is its own recording's, whatever happened to names, times, disks and runs before."""
from __future__ import annotations

import csv
import fcntl
import html.parser
import os
import shutil
import signal
import subprocess
import time
import unittest
from pathlib import Path
from urllib.parse import unquote_to_bytes

from .helping import PANEL, PANEL_SHEET, RECORDINGS, ROOT, InFolder, at_terminal, ran, recording, stored

ARCHIVE = [ROOT / "ntekuzino", "archive"]
REST, REST_SHEET = b".i 1\n.o 1\n.type fr\n0 0\n.e\n", b".i 1\n.o 1\n.type f\n.p 1\n1 1\n.e\n"
BAD, BAD_ANSWER = recording("refused-7"), b"refused 7 at 1\n"
ODD_NAMES = ["-v", "*", "a  b", "it's \"so\"", "two\nlines", os.fsdecode(b"\xff"), "$(touch x)", "é", "new..", "half-1", "table", ".archive", "a&<b>", "100%25", "n" * 251]


class Archived(InFolder):
    def setUp(self) -> None:
        super().setUp()
        self.texts, self.out = self.folder / "texts", self.folder / "out"
        self.texts.mkdir()

    def add(self, name: str, text: bytes) -> Path:
        return self.put(f"texts/{name}.pla", text)

    def run_(self, status: int, out: Path | None = None, **how: object) -> tuple[str, str]:
        done = ran(*ARCHIVE, self.texts, out or self.out, **how)
        printed, said = done.stdout.decode("utf-8", "replace"), done.stderr.decode("utf-8", "replace")
        self.assertEqual(done.returncode, status, printed + said)
        self.assertNotIn("Traceback", said)
        return printed, said

    def answer(self, name: str) -> bytes:
        return (self.out / f"{name}.out").read_bytes()

    def no_tables(self) -> None:
        for name in ("table.txt", "table.csv", "index.html"):
            self.assertFalse((self.out / name).exists(), name)

    def no_halves(self) -> None:
        self.assertEqual(list((self.out / ".archive").glob("half-*")), [])


class Answers(Archived):
    def test_stored_recordings(self) -> None:
        self.texts = RECORDINGS
        printed, said = self.run_(1)
        names = sorted(path.stem for path in RECORDINGS.glob("*.pla"))
        for name in names:
            expected = stored("cell-cycle" if name == "cell-cycle-shuffled" else name)
            if expected.startswith((b"refused 8", b"refused 9", b"refused 13")):
                expected = ran(ROOT / "ntekuzino", "sheet", RECORDINGS / f"{name}.pla").stdout
            self.assertEqual(self.answer(name), expected, name)
        self.assertEqual((self.out / "table.txt").read_text(), printed)
        for row in (
            r"panel\.pla +3 +8 +3  sheet",
            r"cell-cycle-shuffled\.pla +10 +1024 +22  sheet, library's room",
            r"refused-7\.pla +1 +2 +-  refused 7 at 1",
            r"refused-11-nul\.pla +- +- +-  refused 11 at 5",
            r"refused-11-no-type-line\.pla +- +- +-  refused 11 at 4: no type line before line 4",
            r"refused-11-no-type-line-end-missing\.pla +- +- +-  refused 11 at 4",
            r"dairy-tank\.pla +5 +7 +40  sheet",
            r"refused-11-names-dot\.pla +- +- +-  refused 11 at 5",
        ):
            self.assertRegex(printed, rf"(?m)^{row}$")
        self.assertIn("passed over: README.md: its name does not end in .pla\n", printed)
        self.assertIn(f"{len(names)} of {len(names)}: ", said)
        again, said = self.run_(1)
        self.assertEqual((again, said.count(" (kept)\n")), (printed, len(names)))

    def test_odd_names(self) -> None:
        for name in ODD_NAMES:
            self.add(name, PANEL)
        printed, _ = self.run_(0)
        for name in ODD_NAMES:
            self.assertEqual(self.answer(name), PANEL_SHEET, name)
        self.assertEqual(printed.count("\n"), len(ODD_NAMES) + 2)
        self.assertIn(" (kept)", self.run_(0)[1])
        self.assertFalse((self.folder / "x").exists())
        links = Links((self.out / "index.html").read_text("utf-8"))
        for name in ODD_NAMES:
            self.assertIn(os.path.realpath(self.texts / f"{name}.pla"), links.targets(self.out))
            self.assertIn(os.path.realpath(self.out / f"{name}.out"), links.targets(self.out))

    def test_passed_over(self) -> None:
        self.add("a", PANEL)
        for name in ("texts/X.PLA", "texts/notes.txt", "texts/.pla", "texts/folder/b.pla", "texts/c.pla/d"):
            self.put(name, PANEL)
        self.run_(0)
        self.put("out/gone.out", b"")
        printed, _ = self.run_(0)
        for line in (
            "X.PLA: its name does not end in .pla", "notes.txt: its name does not end in .pla", ".pla: its name does not end in .pla",
            "folder: a folder", "c.pla: a folder", "out/gone.out: an answer without a recording",
        ):
            self.assertIn(f"passed over: {line}\n", printed)
            self.assertIn(line, (self.out / "index.html").read_text())

    def test_no_type_line(self) -> None:
        """It is told plainly, and the recording stays as it is: only a person adds the line."""
        untyped = self.add("old", PANEL.replace(b".type fr\n", b"# fr\n"))
        self.add("rowless", b".i 1\n.o 1\n.e\n")
        self.add("new", PANEL)
        self.add("other", b".i 1\n.o 2\n")
        printed, said = self.run_(1)
        for name, words in (("old", "refused 11 at 4: no type line before line 4"), ("rowless", "refused 11 at 3: no type line before line 3"), ("other", "refused 11 at 2")):
            self.assertRegex(printed, rf"(?m)^{name}\.pla +- +- +-  {words}$")
            self.assertIn(f"{name}.pla: {words}\n", said)
        self.assertEqual(self.answer("old"), b"refused 11 at 4\n")
        why = "No type line stands before line 4, the first row."
        with open(self.out / "table.csv", encoding="utf-8", newline="") as table:
            row = {row["file"]: row for row in csv.DictReader(table)}["old.pla"]
        self.assertEqual((row["answer"], row["code"], row["place"], row["line"], row["why"][: len(why)]), ("refused 11 at 4", "11", "4", "111 110", why))
        page = (self.out / "index.html").read_text("utf-8")
        self.assertIn("the text breaks the layout (2 for want of a type line)", page)
        self.assertIn(why, page)
        self.assertIn("old.pla: refused 11 at 4: no type line before line 4 (kept)\n", self.run_(1)[1])
        self.assertEqual(untyped.read_bytes(), PANEL.replace(b".type fr\n", b"# fr\n"))
        self.add("old", PANEL)
        self.add("rowless", REST)
        (self.texts / "other.pla").unlink()
        self.run_(0)
        self.assertEqual(self.answer("old"), PANEL_SHEET)
        self.assertNotIn("type line", (self.out / "index.html").read_text("utf-8"))

    def test_unreadable(self) -> None:
        self.add("a", PANEL)
        (self.texts / "gone.pla").symlink_to("nowhere")
        os.mkfifo(self.texts / "pipe.pla")
        printed, _ = self.run_(2)
        self.assertRegex(printed, r"(?m)^gone\.pla +- +- +-  cannot be read: No such file or directory$")
        self.assertRegex(printed, r"(?m)^pipe\.pla +- +- +-  cannot be read: it is no file$")
        self.assertIn("3 recordings, 1 sheets, 0 refused, 2 not read\n", printed)


class Kept(Archived):
    def test_names_swapped(self) -> None:
        a, b = self.add("a", PANEL), self.add("b", REST)
        self.run_(0)
        a.rename(self.texts / "c")
        b.rename(a)
        (self.texts / "c").rename(b)
        _, said = self.run_(0)
        self.assertNotIn("(kept)", said)
        self.assertEqual((self.answer("a"), self.answer("b")), (REST_SHEET, PANEL_SHEET))

    def test_older_file_copied_over(self) -> None:
        old = self.put("old", REST)
        os.utime(old, (1, 1))
        a = self.add("a", PANEL)
        self.run_(0)
        shutil.copy2(old, a)
        self.assertEqual(a.stat().st_mtime, 1)
        self.run_(0)
        self.assertEqual(self.answer("a"), REST_SHEET)

    def test_answers_swapped_damaged_gone(self) -> None:
        for name, text in (("a", PANEL), ("b", REST), ("c", PANEL), ("d", PANEL), ("e", PANEL)):
            self.add(name, text)
        self.run_(0)
        (self.out / "a.out").write_bytes(REST_SHEET)
        (self.out / "b.out").write_bytes(PANEL_SHEET)
        (self.out / "c.out").write_bytes(PANEL_SHEET[:-1])
        (self.out / "d.out").unlink()
        _, said = self.run_(0)
        self.assertEqual(said.count("(kept)"), 1)
        self.assertEqual([self.answer(name) for name in "abcde"], [PANEL_SHEET, REST_SHEET, PANEL_SHEET, PANEL_SHEET, PANEL_SHEET])

    def test_another_library(self) -> None:
        self.add("a", PANEL)
        self.run_(0)
        desk = ran(ROOT / "tools/program", "--command", "desk").stdout.decode().splitlines()
        other = self.put("other", b'#!/bin/sh\n[ "$1" != --version ] || { echo ntekuzino 1.0.0 other; exit; }\nexec ' + " ".join(desk).encode() + b"\n")
        other.chmod(0o755)
        _, said = self.run_(0, env={**os.environ, "NTEKUZINO_DESK": str(other)})
        self.assertNotIn("(kept)", said)

    def test_records_damaged(self) -> None:
        self.add("a", PANEL)
        self.run_(0)
        for damage in (b"", b"{}", b"[]", b'{"name": "a"}', b"\xff"):
            for record in (self.out / ".archive").glob("*.json"):
                record.write_bytes(damage)
            self.assertNotIn("(kept)", self.run_(0)[1])
        self.assertEqual(self.answer("a"), PANEL_SHEET)

    def test_changes_are_told(self) -> None:
        for name in "abc":
            self.add(name, PANEL)
        self.run_(0)
        self.assertIn("no run before", (self.out / "index.html").read_text())
        self.run_(0)
        self.assertIn('<h2 id="changed">Changed since the last run</h2>\n<p>Nothing.</p>', (self.out / "index.html").read_text())
        (self.texts / "a.pla").unlink()
        self.add("b", BAD)
        self.add("d", PANEL)
        printed, _ = self.run_(1)
        page = (self.out / "index.html").read_text()
        self.assertIn("<li>new: d</li><li>gone: a</li><li>answered otherwise: b</li>", page)
        self.assertIn("out/a.out: an answer without a recording", printed)


class Stopped(Archived):
    def many(self, count: int) -> None:
        for k in range(count):
            self.add(f"{k:03}", recording("003-rule-110-ring-09"))

    def whole(self) -> int:
        answers = sorted(self.out.glob("*.out"))
        for answer in answers:
            self.assertEqual(answer.read_bytes(), stored("003-rule-110-ring-09"), answer.name)
        return len(answers)

    def test_killed_and_gone_on(self) -> None:
        self.many(120)
        for number, least in ((signal.SIGTERM, 3), (signal.SIGINT, 9), (signal.SIGKILL, 15)):
            run = subprocess.Popen([*ARCHIVE, self.texts, self.out], stdout=subprocess.PIPE, stderr=subprocess.PIPE)
            deadline = time.monotonic() + 60
            while len(list(self.out.glob("*.out"))) < least and run.poll() is None and time.monotonic() < deadline:
                time.sleep(0.005)
            run.send_signal(number)
            printed, said = run.communicate()
            self.assertEqual((printed, run.returncode), (b"", -9 if number == signal.SIGKILL else 128 + number))
            self.assertTrue(number == signal.SIGKILL or b"broken off; the same command goes on" in said)
            self.no_tables()
            done = self.whole()
        self.assertLess(done, 120)
        (self.out / ".archive" / "half-1-x").write_bytes(b"half")
        _, said = self.run_(0)
        self.assertGreaterEqual(said.count("(kept)"), done - 2)
        self.assertEqual(self.whole(), 120)
        self.no_halves()

    def test_one_run_at_a_time(self) -> None:
        self.many(2)
        self.run_(0)
        with open(self.out / ".archive" / "lock", "wb") as lock:
            fcntl.flock(lock, fcntl.LOCK_EX)
            _, said = self.run_(2)
        self.assertIn("another run writes to", said)
        self.assertTrue((self.out / "table.txt").exists())
        self.run_(0)

    def test_a_desk_that_dies(self) -> None:
        self.many(5)
        desk = self.put("desk", b'#!/bin/sh\n[ "$1" != --version ] || { echo ntekuzino 1.0.0 dies; exit; }\nhead -c 100 >/dev/null\n')
        desk.chmod(0o755)
        _, said = self.run_(2, env={**os.environ, "NTEKUZINO_DESK": str(desk)})
        self.assertIn("the desk ended", said)
        self.assertEqual(self.whole(), 0)
        self.no_tables()

    def test_full_disk(self) -> None:
        disk = self.folder / "disk"
        disk.mkdir()
        page = os.sysconf("SC_PAGESIZE")
        if ran("mount", "-t", "tmpfs", "-o", f"size={16 * page}", "tmpfs", disk).returncode != 0:
            self.skipTest("no small disk can be mounted here")
        self.addCleanup(ran, "umount", disk)
        self.out = disk / "out"
        self.many(30)
        self.add("zzz", BAD)
        _, said = self.run_(2)
        self.assertRegex(said.splitlines()[-1], r"^ntekuzino: cannot write .*: No space left on device$")
        self.no_tables()
        self.no_halves()
        self.assertGreater(self.whole(), 0)
        ran("mount", "-o", f"remount,size={2048 * page}", disk)
        self.assertIn("(kept)", self.run_(1)[1])
        self.assertEqual(self.answer("zzz"), BAD_ANSWER)

    def test_lost_table(self) -> None:
        self.add("a", PANEL)
        done = ran("sh", "-c", f"{ROOT}/ntekuzino archive {self.texts} {self.out} >/dev/full")
        self.assertEqual(done.returncode, 2)
        self.assertIn(b"cannot write to standard output", done.stderr)


class Folders(Archived):
    def test_a_folder_in_the_way(self) -> None:
        self.add("a", PANEL)
        self.run_(0)
        (self.out / "a.out").unlink()
        (self.out / "a.out").mkdir()
        _, said = self.run_(2)
        self.assertRegex(said, r"a\.out: Is a directory")
        self.assertEqual(list((self.out / "a.out").iterdir()), [])
        self.no_tables()

    def test_files_of_others(self) -> None:
        self.add("a", PANEL)
        mine = self.put("out/a.out", b"mine")
        self.assertIn("no archive run made", self.run_(2)[1])
        self.assertEqual((mine.read_bytes(), list(self.out.iterdir())), (b"mine", [mine]))

    def test_nothing_to_run(self) -> None:
        self.assertIn("no recording (*.pla)", self.run_(2)[1])
        self.assertFalse(self.out.exists())
        self.add("a", PANEL)
        self.assertIn("OUT must not be FOLDER", self.run_(2, self.texts / ".")[1])
        self.assertEqual([path.name for path in self.texts.iterdir()], ["a.pla"])
        self.run_(0, self.texts / "answers")
        self.run_(0, self.texts / "answers")
        for folders in (["", self.out], [self.texts, ""]):
            done = ran(*ARCHIVE, *folders, cwd=self.texts)
            self.assertEqual((done.returncode, done.stderr), (2, b"ntekuzino: FOLDER and OUT must be named\n"))
        self.put("file", b"")
        self.assertIn("cannot write to", self.run_(2, self.folder / "file" / "out")[1])

    def test_old_name_of_the_command(self) -> None:
        self.add("a", PANEL)
        done = ran(ROOT / "archive", self.texts, self.out)
        self.assertEqual((done.returncode, self.answer("a")), (0, PANEL_SHEET))


class Told(Archived):
    def test_tables(self) -> None:
        self.add("good", PANEL)
        self.add("bad, \"so\"", BAD)
        self.add("cr", PANEL.replace(b"\n", b"\r\n"))
        self.add("named", recording("refused-11-names-swapped"))
        self.run_(1)
        with open(self.out / "table.csv", newline="", encoding="utf-8") as file:
            rows = {row["file"]: row for row in csv.DictReader(file)}
        self.assertEqual(rows["good.pla"]["rules"], "3")
        self.assertEqual((rows["bad, \"so\".pla"]["code"], rows["bad, \"so\".pla"]["place"]), ("7", "1"))
        self.assertIn("CR", rows["cr.pla"]["why"])
        page = (self.out / "index.html").read_text("utf-8")
        self.assertLess(page.index("bad, &quot;so&quot;.pla"), page.index("good.pla"))
        self.assertIn("ends with CR", page)
        self.assertIn("Rows 1 and 2 (lines", page)
        self.assertIn("<code>.ilb</code> in line 5 has other names: the first is <code>a</code> there and <code>b</code> here.<br><code>.ob b a</code>", page)
        for target in Links(page).targets(self.out):
            self.assertTrue(os.path.exists(target), target)

    def test_one_line_on_a_terminal(self) -> None:
        for name in "abc":
            self.add(name, PANEL)
        status, shown = at_terminal(*ARCHIVE, self.texts, self.out, typed=b"")
        self.assertEqual(status, 0)
        self.assertIn(b"3 of 3 recordings, 0 left", shown)
        self.assertNotIn(b"a.pla: sheet", shown)

    def test_a_terminal_and_a_failure(self) -> None:
        """The sentence stands on a line of its own."""
        self.add("a", PANEL)
        desk = self.put("desk", b'#!/bin/sh\n[ "$1" != --version ] || echo ntekuzino 1.0.0 dies\n')
        desk.chmod(0o755)
        status, shown = at_terminal("env", f"NTEKUZINO_DESK={desk}", *ARCHIVE, self.texts, self.out, typed=b"")
        self.assertEqual(status, 2)
        self.assertRegex(shown, rb"(?m)^ntekuzino: the desk ended")


class Links(html.parser.HTMLParser):
    """The links of a page; the page's tags are closed in order."""

    def __init__(self, page: str) -> None:
        super().__init__()
        self.found: list[str] = []
        self.open: list[str] = []
        self.feed(page)
        assert self.open == [], self.open

    def handle_starttag(self, tag: str, attrs: list[tuple[str, str | None]]) -> None:
        self.found += [value or "" for name, value in attrs if name == "href"]
        if tag not in ("meta", "br"):
            self.open.append(tag)

    def handle_endtag(self, tag: str) -> None:
        assert self.open.pop() == tag, tag

    def targets(self, out: Path) -> list[str]:
        return [os.path.realpath(os.path.join(out, os.fsdecode(unquote_to_bytes(href)))) for href in self.found if not href.startswith("#")]


if __name__ == "__main__":
    unittest.main()
