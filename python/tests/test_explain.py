"""Refusals in words: every kind of fault has its sentence, and no text makes the explanation fail."""
from __future__ import annotations

import random
import unittest

from . import helping
from ntekuzino import Desk, check, texts
from ntekuzino.explaining import explained, why_refused
from ntekuzino.faults import RECORDING, SHEET, Kind, line_fault
from ntekuzino.sheets import Outcome, in_library, in_program, sheet

HEAD = b".i 3\n.o 3\n.type fr\n"
NAMED = HEAD + b".ilb PUMP VALVE HEAT\n.ob PUMP VALVE HEAT\n"

# A text, the line that is refused, and words of the explanation.
FAULTS = [
    (b"", "refused 11 at 1", "The text is empty"),
    (HEAD + b"111 110\n", "refused 11 at 5", "ends after line 4, with no end mark"),
    (b"\xef\xbb\xbf" + HEAD + b".e\n", "refused 11 at 1", "byte order mark"),
    (b"\xff\xfe.\x00i\x00", "refused 11 at 1", "UTF-16"),
    ((HEAD + b"111 110\n.e\n").replace(b"\n", b"\r\n"), "refused 11 at 1", "ends with CR, as Windows writes line ends (5 lines do)"),
    (HEAD + b"111 110\r\n.e\n", "refused 11 at 4", "(1 line does)"),
    (b".i 3\n.i 3\n", "refused 11 at 2", "`.i` stands twice: line 1 has it already"),
    (HEAD + b".type fr\n", "refused 11 at 4", "`.type` stands twice: line 3"),
    (b".i 3\n.o 4\n", "refused 11 at 2", "`.i` in line 1 says 3"),
    (b".o 3\n.i 4\n", "refused 11 at 2", "`.o` in line 1 says 3"),
    (b".i 0\n", "refused 11 at 1", "1 to 10 relays"),
    (b".i 11\n", "refused 11 at 1", "1 to 10 relays"),
    (b".i 03\n", "refused 11 at 1", "leading zeros"),
    (b".i x\n", "refused 11 at 1", "`x` is no number"),
    (b".i\n", "refused 11 at 1", "`.i` has 0 values"),
    (b".i 3 4\n", "refused 11 at 1", "`.i` has 2 values"),
    (b".type fd\n", "refused 11 at 1", "The type of a recording is `fr`, not `fd`. In a text of `.type fd` a `0` of an output says nothing"),
    (b".type f\n", "refused 11 at 1", "A text of `.type f` is a sheet, not a recording: `ntekuzino check` reads it."),
    (helping.PANEL_SHEET, "refused 11 at 3", "A text of `.type f` is a sheet, not a recording: `ntekuzino check` reads it."),
    (b"11- 100\n.type f\n", "refused 11 at 1", "Line 2 says `.type f`: of a sheet `ntekuzino check` tells what is wrong."),
    (helping.PANEL_SHEET.replace(b"\n", b"\r\n"), "refused 11 at 1", "Line 3 says `.type f`"),
    (HEAD + b".p 01\n", "refused 11 at 4", "no leading zeros"),
    (HEAD + b".p x\n", "refused 11 at 4", "`x` is no number"),
    (HEAD + b".p 2\n111 110\n.e\n", "refused 11 at 4", "It says 2, but the text has 1 row"),
    (HEAD + b".phase 111\n", "refused 11 at 4", "`.phase` is no header"),
    (HEAD + b"111 110\n.p 1\n.e\n", "refused 11 at 5", "before the first row, which is line 4"),
    (b".i 3\n111 110\n", "refused 11 at 2", "there must be `.o`"),
    (b"111 110\n", "refused 11 at 1", "there must be `.i` and `.o`"),
    (b".o 3\n.e\n", "refused 11 at 2", "Before the end mark there must be `.i`"),
    (b".i 3\n.o 3\n.p 1\n111 110\n.e\n", "refused 11 at 4", "No type line stands before line 4, the first row. A recording has `.type fr` among its headers"),
    (b".i 3\n.o 3\n# .type fr\n.e\n", "refused 11 at 4", "No type line stands before line 4, the end mark. A recording has"),
    (b".i 3\n.o 3\n111 110\n.type fr\n.e\n", "refused 11 at 3", "Whoever knows that every `0` was seen adds the line"),
    (b".i 3\n.o 3\n.ilb A B C\n111 110\n.e\n", "refused 11 at 4", "No type line stands before line 4, the first row."),
    (b".i 3\n.o 3\n", "refused 11 at 3", "ends after line 2, with no end mark"),
    (HEAD + b".e 3\n", "refused 11 at 4", "`.e` stands alone"),
    (HEAD + b"11 110\n", "refused 11 at 4", "The row has 2 input columns; the panel has 3 relays"),
    (HEAD + b"111 1101\n", "refused 11 at 4", "4 output columns"),
    (HEAD + b"111 1-0\n", "refused 11 at 4", "Column 1 of the output is `-`"),
    (HEAD + b"12- 110\n", "refused 11 at 4", "Column 1 of the input is `2`"),
    (HEAD + b"111\n", "refused 11 at 4", "two fields, input and output; this one has 1"),
    (HEAD + b"111 110 110\n", "refused 11 at 4", "this one has 3. A comment begins with `#`."),
    (HEAD + b".e\n111 110\n", "refused 11 at 5", "After the end mark, line 4"),
    (HEAD + b"111\xa0110\n", "refused 11 at 4", "Byte 4 of the line is 160 (hexadecimal a0)"),
    (HEAD + b"\x00\n", "refused 11 at 4", "Byte 1 of the line is 0"),
    (HEAD + b"000 001\n-11 110\n\n# here\n1-1 010\n.e\n", "refused 7 at 4", "Rows 2 and 3 (lines 5 and 8) disagree on state 111: one says that 110 follows, the other 010"),
    (NAMED + b"111 110\n111 001\n.e\n", "refused 7 at 1", "one says that 110 follows, the other 001; they differ on PUMP, VALVE, HEAT."),
    (NAMED + b"111 110\n111 100\n.e\n", "refused 7 at 1", "one says that 110 follows, the other 100; they differ on VALVE."),
    (HEAD + b"111 110\n111 100\n.e\n", "refused 7 at 1", "one says that 110 follows, the other 100."),
    (HEAD + b".ilb\n", "refused 11 at 4", "`.ilb` has no names; it takes one for each relay"),
    (b".ob a b c d e f g h i j k\n", "refused 11 at 1", "`.ob` has 11 names; a panel has 1 to 10 relays"),
    (HEAD + b".ilb PUMP VALVE-1 HEAT\n", "refused 11 at 4", "The second name, `VALVE-1`, has `-` in it; a name has letters, digits and underscores"),
    (HEAD + b".ilb PUMP, VALVE, HEAT\n", "refused 11 at 4", "The first name, `PUMP,`, has `,` in it; a name has letters, digits and underscores, and blanks part the names"),
    (HEAD + b".ilb PUMP VALVE .HEAT\n", "refused 11 at 4", "The third name, `.HEAT`, has `.` in it"),
    (HEAD + b".ilb PUMP VALVE K\xc4LTE\n", "refused 11 at 4", "Byte 18 of the line is 196 (hexadecimal c4)"),
    (b".ob a abcdefghijklmnopq\n", "refused 11 at 1", "The second name, `abcdefghijklmnopq`, has 17 characters; a name has 1 to 16"),
    (HEAD + b".ilb PUMP VALVE PUMP\n", "refused 11 at 4", "The third name, `PUMP`, is the first as well; the names of a line differ"),
    (HEAD + b".ilb PUMP VALVE\n", "refused 11 at 4", "`.i` in line 1 says 3, but `.ilb` has 2 names"),
    (b".o 2\n.ob PUMP\n", "refused 11 at 2", "`.o` in line 1 says 2, but `.ob` has 1 name."),
    (b".ilb A B C D\n.i 3\n", "refused 11 at 2", "`.i` says 3, but `.ilb` in line 1 has 4 names"),
    (b".i 1\n.ob A\n.o 2\n", "refused 11 at 3", "`.i` in line 1 says 1"),
    (b".ob A\n.o 2\n", "refused 11 at 2", "`.o` says 2, but `.ob` in line 1 has 1 name."),
    (HEAD + b".ilb PUMP VALVE HEAT\n.ob PUMP VALVE HEAR\n", "refused 11 at 5", "`.ilb` in line 4 has other names: the third is `HEAT` there and `HEAR` here"),
    (HEAD + b".ob PUMP VALVE HEAT\n.ilb PUMP valve HEAT\n", "refused 11 at 5", "`.ob` in line 4 has other names: the second is `VALVE` there and `valve` here"),
    (b".ilb A B\n.ob A\n", "refused 11 at 2", "`.ilb` in line 1 has 2 names, `.ob` has 1; both must have the same"),
    (HEAD + b".ilb PUMP VALVE HEAT\n111 110\n", "refused 11 at 5", "`.ilb` in line 4 has no `.ob` beside it before the first row; a recording has both or neither"),
    (HEAD + b".ob PUMP VALVE HEAT\n.e\n", "refused 11 at 5", "`.ob` in line 4 has no `.ilb` beside it before the end mark"),
    (HEAD + b".ilb PUMP VALVE HEAT\n", "refused 11 at 5", "ends after line 4, with no end mark"),
    (NAMED + b".ilb PUMP VALVE HEAT\n", "refused 11 at 6", "`.ilb` stands twice: line 4 has it already"),
    (HEAD + b"111 110\n.ilb PUMP VALVE HEAT\n", "refused 11 at 5", "before the first row, which is line 4"),
    (NAMED + b".e\n.ob PUMP VALVE HEAT\n", "refused 11 at 7", "After the end mark, line 6"),
    (HEAD + b".ilbA B C\n", "refused 11 at 4", "`.ilbA` is no header of a recording: they are `.i`, `.o`, `.ilb`, `.ob`"),
    (HEAD + b".ilb PUMP VALVE HEAT\r\n", "refused 11 at 4", "ends with CR"),
    (b"#" * 24577, "refused 13 at 0", "The text has 24,577 bytes; there is room for 24,576"),
    (b".i 10\n.o 10\n.type fr\n" + b"---------- 0000000000\n" * 65 + b".e\n", "refused 8 at 0", "The rows stand for 66,560 states"),
]

SHEET_HEAD = b".i 3\n.o 3\n.type f\n"
SHEET_NAMED = SHEET_HEAD + b".ilb PUMP VALVE HEAT\n.ob PUMP VALVE HEAT\n"

# The same of sheets.
SHEET_FAULTS = [
    (b"", "refused 11 at 1", "The text is empty. A sheet ends with a line `.e` or `.end`."),
    (SHEET_HEAD + b"1-1 011\n", "refused 11 at 4", "The output has 2 `1`s, in columns 1 and 2; a row is a rule for one relay: write a row for each."),
    (SHEET_HEAD + b"1-1 111\n", "refused 11 at 4", "The output has 3 `1`s, in columns 0, 1 and 2;"),
    (SHEET_HEAD + b"1-1 000\n", "refused 11 at 4", "The output has no `1`; a row is a rule for one relay"),
    (SHEET_HEAD + b"1-1 1-0\n", "refused 11 at 4", "Column 1 of the output is `-`; only `0`, `1` can stand there."),
    (SHEET_HEAD + b"1-1 1100\n", "refused 11 at 4", "4 output columns"),
    (SHEET_HEAD + b"1- 100\n", "refused 11 at 4", "2 input columns"),
    (helping.PANEL, "refused 11 at 3", "The type of a sheet is `f`, not `fr`. A text of `.type fr` is a recording, not a sheet: `ntekuzino sheet` prints its sheet."),
    (b".type fd\n", "refused 11 at 1", "The type of a sheet is `f`, not `fd`."),
    (b".i 3\n.o 3\n-1- 100\n.type f\n", "refused 11 at 3", "No type line stands before line 3, the first row. A sheet has `.type f` among its headers; without the line the text may be a recording."),
    (b".i 3\n.o 3\n.e\n", "refused 11 at 3", "No type line stands before line 3, the end mark. A sheet has"),
    (SHEET_HEAD + b".p 2\n-1- 100\n.e\n", "refused 11 at 4", "It says 2, but the text has 1 row."),
    (SHEET_HEAD + b".phase 111\n", "refused 11 at 4", "`.phase` is no header of a sheet"),
    (SHEET_HEAD + b".ilb A B C\n.e\n", "refused 11 at 5", "`.ilb` in line 4 has no `.ob` beside it before the end mark; a sheet has both or neither."),
    (SHEET_HEAD + b".ilb A B C\n.ob A_n B_n C_n\n", "refused 11 at 5", "`.ilb` in line 4 has other names: the first is `A` there and `A_n` here."),
    (SHEET_HEAD.replace(b"\n", b"\r\n"), "refused 11 at 1", "ends with CR, as Windows writes line ends (3 lines do)"),
    (SHEET_HEAD + b"-1- 100\n\n0-- 001\n-1- 100\n.e\n", "refused 5 at 0", "Rows 1 and 3 (lines 4 and 7) are one rule, `-1- 100`; a sheet has each rule once."),
    (SHEET_HEAD + b"-1- 100\n01- 010\n# x\n01- 100\n.e\n", "refused 5 at 0", "Row 3 (line 7), `01- 100`, has all conditions of row 1 (line 4), `-1- 100`, and more: relay 0 pulls in by the latter already"),
    (SHEET_NAMED + b"01- 001\n0-- 001\n.e\n", "refused 5 at 0", "Row 1 (line 6), `01- 001`, has all conditions of row 2 (line 7), `0-- 001`, and more: HEAT pulls in by the latter already"),
    (SHEET_HEAD + b"1-0 010\n--- 010\n.e\n", "refused 5 at 0", "Row 1 (line 4), `1-0 010`, has all conditions of row 2 (line 5), `--- 010`, and more"),
    (b".i 1\n.o 1\n.type f\n" + b"1 1\n" * 65536 + b".e\n", "refused 5 at 0", "Rows 1 and 2 (lines 4 and 5) are one rule, `1 1`"),
    (b".i 1\n.o 1\n.type f\n" + b"1 1\n" * 65537 + b".e\n", "refused 8 at 0", "The text has 65,537 rows; there is room for 65,536."),
    (b"#" * 2_097_153, "refused 13 at 0", "The text has more than 2,097,152 bytes; there is room for 2,097,152."),
]


def damaged(text: bytes, chance: random.Random) -> bytes:
    """A text with bytes put in, taken out or changed, and with lines that change places, are gone or stand twice."""
    lines = text.splitlines(True)
    for _ in range(chance.randrange(3)):
        line, at = lines.pop(chance.randrange(len(lines))), chance.randrange(len(lines))
        lines[at:at] = [line] * chance.choice([0, 1, 1, 2])
    after = bytearray(b"".join(lines))
    for _ in range(chance.randrange(3)):
        at = chance.randrange(len(after))
        after[at : at + chance.randrange(2)] = bytes(chance.choices(b"01-.# \t\nieoptyfrlbAPUM_23\r\xff", k=chance.randrange(3)))
    return bytes(after)


class Explained(unittest.TestCase):
    def setUp(self) -> None:
        self.desk = Desk()
        self.addCleanup(self.desk.close)

    def test_every_fault(self) -> None:
        for text, line, words in FAULTS:
            with self.subTest(words):
                done, told = explained(text, self.desk)
                self.assertFalse(done)
                self.assertEqual(told.splitlines()[0], line)
                self.assertIn(words, told)

    def test_every_fault_of_a_sheet(self) -> None:
        for text, line, words in SHEET_FAULTS:
            with self.subTest(words):
                outcome = check(text, desk=self.desk)
                self.assertEqual(outcome.printed.decode(), line + "\n")
                self.assertIn(words, why_refused(text, outcome, self.desk, SHEET).why)

    def test_a_recording_is_no_sheet(self) -> None:
        """`explain` points to `check` where a type line says `f`, and nowhere else."""
        for text in (helping.PANEL + b"junk\n", b".i 3\n.o 3\n# .type f\n.e\n", b".type fr\n.type f\n", b".type fd\n"):
            self.assertNotIn("ntekuzino check", explained(text, self.desk)[1])

    def test_stored_refusals(self) -> None:
        for path in sorted(helping.RECORDINGS.glob("*.pla")):
            with self.subTest(path.name):
                printed = path.with_suffix(".out").read_bytes()
                done, told = explained(path.read_bytes(), self.desk)
                self.assertEqual(done, not printed.startswith(b"refused"))
                if not done:
                    self.assertEqual(told.splitlines()[0] + "\n", printed.decode())
                    self.assertNotIn("does not belong there", told)

    def test_nothing_refused(self) -> None:
        self.assertEqual(explained(helping.PANEL, self.desk), (True, "Nothing is refused: 8 rows of 3 relays give a sheet of 3 rules."))

    def test_no_room_on_the_way(self) -> None:
        _, told = explained(helping.recording("cell-cycle-shuffled"), self.desk)
        self.assertIn("After row 9 (line 13) the sheet has 1,", told)
        self.assertIn("there is room for 1,024", told)
        self.assertIn("of 22 rules: `ntekuzino sheet` prints it", told)

    def test_damaged_texts(self) -> None:
        """Whatever stands there: the code is the library's, and there is a sentence, for the library's line and for none before it."""
        chance = random.Random(12)
        whole = [helping.PANEL, HEAD + b".p 1\n1-1 010 # c\n.e\n", NAMED + b"1-1 010\n.e\n", b".ob A B_1 # c\n.i 2\n.ilb\tA  B_1\n.o 2\n.type fr\n0- 01\n.end\n"]
        refused = 0
        for _ in range(1500):
            text = damaged(chance.choice(whole), chance)
            outcome = in_program(text, self.desk)
            if not outcome.done:
                refused += 1
                with self.subTest(text):
                    self.assert_explained(text, outcome, RECORDING)
        self.assertGreater(refused, 1000)

    def test_damaged_sheets(self) -> None:
        """The same of sheets; some are still good, and some are well laid out and no good sheets."""
        chance = random.Random(3)
        whole = [helping.PANEL_SHEET, SHEET_NAMED + b"1-1 010\n-1- 010 # c\n.e\n", b".ob A B_1 # c\n.i 2\n.ilb\tA  B_1\n.o 2\n.type f\n0- 01\n-1 01\n1- 10\n.end\n"]
        whole.append(helping.stored("dairy-tank").replace(b".p 40\n", b""))
        codes = []
        for _ in range(1500):
            text = damaged(chance.choice(whole), chance)
            outcome = check(text, desk=self.desk)
            codes.append(outcome.code)
            if not outcome.done:
                with self.subTest(text):
                    self.assert_explained(text, outcome, SHEET)
        self.assertEqual(set(codes), {0, 5, 11})
        self.assertGreater(codes.count(11), 750)
        self.assertGreater(codes.count(5), 20)

    def assert_explained(self, text: bytes, outcome: Outcome, kind: Kind) -> None:
        told = why_refused(text, outcome, self.desk, kind)
        self.assertTrue(told.why)
        if outcome.code != 11:
            return
        self.assertNotIn("does not belong there", told.why)
        lines = texts.lines(text)
        for line in lines[: outcome.place - 1]:
            # The number after `.p` is compared last.
            if line.fields[:1] != (b".p",):
                self.assertEqual(line_fault(lines, line.number, kind), "", line.number)


class Rooms(unittest.TestCase):
    def test_both_rooms_answer_alike(self) -> None:
        """Where the program has room, the library's larger one changes nothing."""
        with Desk() as desk:
            for path in sorted(helping.RECORDINGS.glob("*.pla")):
                text, printed = path.read_bytes(), path.with_suffix(".out").read_bytes()
                with self.subTest(path.name):
                    self.assertEqual(in_program(text, desk).printed, printed)
                    self.assertEqual(sheet(text, exact=True, desk=desk).printed, printed)
                    if not printed.startswith((b"refused 8", b"refused 9", b"refused 13")):
                        self.assertEqual(in_library(text, desk).printed, printed)

    def test_maker(self) -> None:
        """In either room: a recording's own names come first, then the maker's; without them the sheet is the same but for these lines."""
        maker = NAMED + b".e\n"
        lines = b".ilb PUMP VALVE HEAT\n.ob PUMP VALVE HEAT\n"
        with Desk() as desk:
            for exact, of_maker in ((False, maker), (True, maker), (False, maker.decode())):
                named = sheet(helping.PANEL, maker=of_maker, exact=exact, desk=desk)
                self.assertEqual((named.in_library, named.printed), (False, helping.PANEL_SHEET.replace(b".o 3\n", b".o 3\n" + lines)))
            long = sheet(helping.PANEL + b"#" * 30000, maker=maker, desk=desk)
            self.assertEqual((long.in_library, long.printed), (True, named.printed))
            self.assertEqual(sheet(helping.recording("names"), maker=maker, desk=desk).printed, helping.stored("names"))
            self.assertEqual(sheet(helping.PANEL, maker=b"junk", desk=desk).printed, helping.PANEL_SHEET)
            self.assertEqual(sheet(helping.recording("refused-7"), maker=maker, desk=desk).printed, helping.stored("refused-7"))

    def test_larger_room(self) -> None:
        with Desk() as desk:
            outcome = sheet(helping.recording("cell-cycle-shuffled"), desk=desk)
            self.assertEqual((outcome.in_library, outcome.printed), (True, helping.stored("cell-cycle")))
            long = helping.PANEL + b"#" * 30000
            self.assertEqual(sheet(long, desk=desk).printed, helping.PANEL_SHEET)
            many = HEAD + b"--- 000\n" * 200 + b".e\n"
            self.assertEqual(sheet(many, desk=desk).printed, b".i 3\n.o 3\n.type f\n.p 0\n.e\n")
            # Text of 65,536 rules fits: 11 random rows have more rules than the program has room for.
            chance = random.Random(7)
            states = chance.sample(range(1024), 40)
            rows = b"".join(b"%s %s\n" % tuple(f"{x:010b}".encode() for x in (state, chance.randrange(1024))) for state in states)
            ten = b" ".join(b"RELAY_%d_OF_TEN__" % k for k in range(10))
            names = b".ilb " + ten + b"\n.ob " + ten + b"\n"
            large = sheet(b".i 10\n.o 10\n.type fr\n" + names + rows + b".e\n", desk=desk)
            self.assertTrue(large.in_library and large.done)
            self.assertGreater(len(large.printed), 65536)
            self.assertEqual(large.printed.split(names), [b".i 10\n.o 10\n", sheet(b".i 10\n.o 10\n.type fr\n" + rows + b".e\n", desk=desk).printed[12:]])
            beyond = sheet(b"#" * 3_000_000, desk=desk)
            self.assertEqual(beyond.printed, b"refused 13 at 0\n")
            self.assertIn("more than 2,097,152 bytes", why_refused(b"#" * 3_000_000, beyond, desk).why)
