"""A refusal in words. It tells why the proved library refused; it never refuses by itself."""
from __future__ import annotations

from dataclasses import dataclass
from typing import Sequence

from . import calls, texts
from .calls import Text
from .desk import MOST_BYTES, MOST_WORDS, Desk
from .faults import RECORDING, SHEET, Kind, no_type_line, sheet_line, why_unread
from .sheets import NO_ROOM, Outcome, in_library, in_program, names_of, sizes
from .texts import Row, counted


def _other_successor(text: bytes, place: int, n: int, words: list[int], names: Sequence[str]) -> str:
    state, successor = calls.transition_of(words[place])
    first = next(k for k, word in enumerate(words) if calls.transition_of(word)[0] == state)
    a, b = texts.row_of_word(text, first), texts.row_of_word(text, place)
    one, other = calls.columns(n, calls.transition_of(words[first])[1]), calls.columns(n, successor)
    return (
        f"Rows {a.number} and {b.number} (lines {a.line} and {b.line}) disagree on state {calls.columns(n, state)}: "
        f"one says that {one} follows, the other {other}{texts.on_which(names, one, other)}."
    )


def _sheet_room(text: bytes, place: int, n: int, words: list[int], room: int, desk: Desk) -> str:
    row = texts.row_of_word(text, place)
    so_far = calls.learn(n, words[: place + 1], desk=desk)
    rules = f"{so_far.sheet_count:,}" if so_far.done else f"more than {MOST_WORDS:,}"
    return (
        f"After row {row.number} (line {row.line}) the sheet has {rules} rules; there is room for {room:,}. "
        "Rows in increasing order of state may need less on the way; the sheet is the same."
    )


def _rule_of(row: Row) -> int:
    """The word of a sheet's row."""
    on, off = (sum(1 << i for i, cell in enumerate(row.cells) if cell == mark) for mark in "10")
    return row.successor.index("1") << 20 | on << 10 | off


def _part_of(word: int, rows: dict[int, Row]) -> Row | None:
    """A row of the same relay whose conditions are some of those of a rule, not all."""
    body = part = word % (1 << 20)
    while part:
        part = (part - 1) & body
        if word - body + part in rows:
            return rows[word - body + part]
    return None


def _no_good_sheet(text: bytes, names: Sequence[str]) -> str:
    """Which two rows of a sheet's text cannot stand beside each other."""
    rows: dict[int, Row] = {}
    for row in texts.rows(text):
        other = rows.setdefault(_rule_of(row), row)
        if other is not row:
            return f"Rows {other.number} and {row.number} (lines {other.line} and {row.line}) are one rule, `{row.written}`; a sheet has each rule once."
    for word, row in rows.items():
        less = _part_of(word, rows)
        if less:
            relay = names[word >> 20] if names else f"relay {word >> 20}"
            return (
                f"Row {row.number} (line {row.line}), `{row.written}`, has all conditions of row {less.number} (line {less.line}), "
                f"`{less.written}`, and more: {relay} pulls in by the latter already, and a sheet has the smallest conditions alone."
            )
    return ""


def _no_list_room(text: bytes, kind: Kind, room: int) -> str:
    if kind is SHEET:
        return f"The text has {sum(1 for _ in texts.rows(text)):,} rows; there is room for {room:,}."
    return f"The rows stand for {sum(row.states for row in texts.rows(text)):,} states, repeats counted; there is room for {room:,}."


def _why(text: bytes, outcome: Outcome, desk: Desk, kind: Kind) -> tuple[str, str]:
    """The faulty line, where there is one, and the reason in words."""
    if outcome.code == 11:
        return why_unread(text, outcome.place, kind)
    if outcome.code == 13:
        most = MOST_BYTES if outcome.in_library else calls.PROGRAM_BYTES
        # Of a longer file no more was read.
        size = f"more than {MOST_BYTES:,}" if len(text) > MOST_BYTES else f"{len(text):,}"
        return "", f"The text has {size} bytes; there is room for {most:,}."
    room = MOST_WORDS if outcome.in_library else calls.PROGRAM_WORDS
    if outcome.code == 8:
        return "", _no_list_room(text, kind, room)
    if outcome.code == 5:
        return "", _no_good_sheet(text, names_of(text, desk))
    reading = calls.read(text, MOST_WORDS, desk=desk)
    if outcome.code == 7:
        return "", _other_successor(text, outcome.place, reading.n, reading.words, names_of(text, desk))
    if outcome.code == 9:
        return "", _sheet_room(text, outcome.place, reading.n, reading.words, room, desk)
    return "", ""


@dataclass(frozen=True)
class Explanation:
    """Why a text is refused: the outcome, the faulty line as it stands or nothing, sentences, and for want of a type line the same in short."""

    outcome: Outcome
    line: str
    why: str
    short: str = ""

    def __str__(self) -> str:
        first = self.outcome.printed.decode("ascii").rstrip("\n")
        shown = f"line {self.outcome.place}: {self.line}\n" if self.line else ""
        return f"{first}\n{shown}{self.why}"


def why_refused(text: bytes, outcome: Outcome, desk: Desk, kind: Kind = RECORDING) -> Explanation:
    """A refusal in words, of a recording or of a sheet's text."""
    short = no_type_line(text, outcome.place) if outcome.code == 11 else ""
    return Explanation(outcome, *_why(text, outcome, desk, kind), short)


def explain(text: Text, *, desk: Desk | None = None) -> str:
    """What there is to say of a recording: why the program refuses it, or what its sheet has."""
    return explained(calls.as_bytes(text), desk or calls.shared())[1]


def explained(text: bytes, desk: Desk) -> tuple[bool, str]:
    """The same, after whether the program gives a sheet."""
    outcome = in_program(text, desk)
    if outcome.done:
        n, rules = sizes(outcome.printed)
        count = sum(1 for _ in texts.rows(text))
        return True, f"Nothing is refused: {counted(count, 'row', 'rows')} of {counted(n, 'relay', 'relays')} give a sheet of {counted(rules, 'rule', 'rules')}."
    told = str(why_refused(text, outcome, desk))
    typed = sheet_line(text) if outcome.code == 11 else 0
    if typed not in (0, outcome.place):
        told += f"\nLine {typed} says `.type f`: of a sheet `ntekuzino check` tells what is wrong."
    if outcome.code in NO_ROOM:
        larger = in_library(text, desk)
        if larger.done:
            return False, f"{told}\nIn the library's room there is a sheet, of {sizes(larger.printed)[1]:,} rules: `ntekuzino sheet` prints it."
        told += f"\nIn the library's room: {why_refused(text, larger, desk)}"
    return False, told
