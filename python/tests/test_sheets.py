"""Sheets that come back from site: those of sheets/, and every sheet of recordings/ with its rows moved and comments put in."""
from __future__ import annotations

import random
import unittest
from pathlib import Path

from . import helping
from ntekuzino import Desk, check, texts
from ntekuzino.explaining import why_refused
from ntekuzino.faults import SHEET

SHEETS = helping.ROOT / "sheets"
REMARKS = [b"", b"", b" # seen on Monday", b"#", b"\t# .e", b" # 1-1 010 \xe9\r"]


def moved(sheet: bytes, chance: random.Random) -> bytes:
    """A printed sheet as it may come back: rows and headers in another order, blanks, blank lines and comments put in, the number of rows gone or not."""
    lines = sheet.splitlines()
    headers = [line for line in lines if line[:1] == b"." and line != b".e" and (chance.randrange(2) or not line.startswith(b".p"))]
    rows = [line for line in lines if line[:1] != b"."]
    for part in headers, rows:
        chance.shuffle(part)
    after = []
    for line in [*headers, *rows, chance.choice([b".e", b".end"])]:
        after += [b"# a remark", b" \t", b""][: chance.randrange(-2, 4)] if chance.randrange(4) == 0 else []
        after.append(chance.choice([b"", b" ", b"\t"]) + line.replace(b" ", chance.choice([b" ", b"\t", b"  "])) + chance.choice(REMARKS))
    return b"\n".join(after) + chance.choice([b"\n", b""])


def rows_of(text: bytes) -> list[str]:
    return [row.written for row in texts.rows(text)]


class CameBack(unittest.TestCase):
    """On the proved desk; `OnSecondDesk` runs the same on the second program."""

    words: list[str] | None = None

    def setUp(self) -> None:
        self.desk = Desk(self.words)
        self.addCleanup(self.desk.close)

    def assert_stored(self, path: Path) -> bool:
        """Gives whether it is a good sheet."""
        text, printed = path.read_bytes(), path.with_suffix(".out").read_bytes()
        outcome = check(text, desk=self.desk)
        self.assertEqual(outcome.printed, printed)
        self.assertEqual(path.name.startswith(f"refused-{outcome.code}-"), not outcome.done)
        if outcome.done:
            self.assertEqual(check(printed, desk=self.desk).printed, printed)
            return True
        told = why_refused(text, outcome, self.desk, SHEET)
        self.assertTrue(told.why)
        self.assertNotIn("does not belong there", told.why)
        return False

    def test_stored(self) -> None:
        good = []
        for path in sorted(SHEETS.glob("*.pla")):
            with self.subTest(path.name):
                good.append(self.assert_stored(path))
        self.assertGreater(good.count(True), 10)
        self.assertGreater(good.count(False), 20)
        self.assertEqual([path.name for path in SHEETS.glob("*.out") if not path.with_suffix(".pla").exists()], [])

    def test_every_sheet_of_recordings(self) -> None:
        """One sheet is written as one text, however its rows stood."""
        chance, reordered = random.Random(3), 0
        for path in sorted(helping.RECORDINGS.glob("*.out")):
            printed = path.read_bytes()
            if printed.startswith(b"refused"):
                continue
            with self.subTest(path.name):
                text = moved(printed, chance)
                reordered += rows_of(text) != rows_of(printed)
                self.assertEqual(check(printed, desk=self.desk).printed, printed)
                self.assertEqual(check(text, desk=self.desk).printed, printed)
        self.assertGreater(reordered, 30)


class OnSecondDesk(CameBack):
    words = [str(helping.SECOND)]
