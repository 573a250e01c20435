"""The public calls of the library, each as a function with named results. What they do is README.md's and docs/01's."""
from __future__ import annotations

import atexit
import os
import threading
from dataclasses import dataclass
from typing import List, NamedTuple, Sequence, Union

from .desk import Call, Desk

#: A lent slice: what it holds, or its length, for a slice of zeros.
Lent = Union[int, Sequence[int]]
#: A text: bytes, or a string, which is sent as UTF-8.
Text = Union[bytes, str]

FRESH = Call(1, "w", "W", 6)
TAKE = Call(2, "wwwcc", "WW", 6)
LEARN = Call(3, "w", "wWW", 6)
JOIN = Call(4, "wcccc", "wwwwWW", 6)
APPLY = Call(5, "wwc", "w", 7)
SESSION_START = Call(6, "w", "W", 11)
SESSION_TAKE = Call(7, "wccccww", "WW", 11)
READ = Call(8, "", "bW", 4)
WRITE_SHEET = Call(9, "wc", "wbbB", 7)
RUN = Call(10, "", "bWWWB", 1)
LOOKUP = Call(11, "c", "bb", 3)
READ_SHEET = Call(12, "", "bW", 4)

#: The program's rooms: list, book and sheet words, and bytes in and out.
PROGRAM_WORDS = 1_024
PROGRAM_BYTES = 24_576


class Rule(NamedTuple):
    """A rule: relay `head` pulls in next where all relays of `on` are on and all of `off` are off."""

    head: int
    on: tuple[int, ...]
    off: tuple[int, ...]


def transition(state: int, successor: int) -> int:
    """The word of a transition."""
    return state * 1024 + successor


def transition_of(word: int) -> tuple[int, int]:
    """State and successor of a transition's word."""
    return word // 1024, word % 1024


def _relays(mask: int) -> tuple[int, ...]:
    return tuple(i for i in range(10) if mask >> i & 1)


def rule_of(word: int) -> Rule:
    """A rule's word, taken apart."""
    return Rule(word // 1_048_576, _relays(word // 1024 % 1024), _relays(word % 1024))


def columns(n: int, state: int) -> str:
    """A state as a text writes it: relay 0 is the leftmost column."""
    return "".join("1" if state >> i & 1 else "0" for i in range(n))


def state_of(cells: str) -> int:
    """The number of a state written as columns."""
    return sum(1 << i for i, cell in enumerate(cells) if cell == "1")


@dataclass(frozen=True)
class Answer:
    """What every call but lookup, run and the two that read answers. Code 0 is done; numbers that a call has no use for are 0."""

    code: int
    place: int
    book_count: int
    sheet_count: int
    struck: int
    added: int

    @property
    def done(self) -> bool:
        return self.code == 0


@dataclass(frozen=True)
class Fresh(Answer):
    """Fresh's answer, and the sheet slice after."""

    sheet: list[int]


@dataclass(frozen=True)
class Taken(Answer):
    """The answer of take, learn or join, and both slices after, zeros beyond the counts included."""

    book: list[int]
    sheet: list[int]

    @property
    def piece(self) -> Piece:
        """Book and sheet in use, as join takes them."""
        return Piece(self.book[: self.book_count], self.sheet[: self.sheet_count])


@dataclass(frozen=True)
class Applied(Answer):
    """Apply's answer, and the state that follows."""

    state: int


@dataclass(frozen=True)
class Written(Answer):
    """The answer of write_sheet, the text's length, and the byte slice after."""

    length: int
    out: bytes

    @property
    def text(self) -> bytes:
        return self.out[: self.length]


class Session(NamedTuple):
    """A bench session: sizes, counts, and totals of struck and added."""

    n: int
    book_count: int
    sheet_count: int
    struck: int
    added: int


@dataclass(frozen=True)
class Started(Answer):
    """The answer of session_start, the session and the sheet slice after."""

    session: Session
    sheet: list[int]


@dataclass(frozen=True)
class SessionTaken(Answer):
    """The answer of session_take, the session and both slices after."""

    session: Session
    book: list[int]
    sheet: list[int]


@dataclass(frozen=True)
class Reading:
    """The answer of read or read_sheet, and the list slice after."""

    code: int
    place: int
    n: int
    count: int
    list: List[int]

    @property
    def done(self) -> bool:
        return self.code == 0

    @property
    def words(self) -> List[int]:
        """The words in use: transitions, or a sheet's rules."""
        return self.list[: self.count]


@dataclass(frozen=True)
class Ran:
    """What run printed, and all four slices after."""

    length: int
    list: List[int]
    book: List[int]
    sheet: List[int]
    out: bytes

    @property
    def text(self) -> bytes:
        return self.out[: self.length]


class LookedUp(NamedTuple):
    """A column's name: which text it stands in, 0 the panel's, 1 the maker's; how many bytes are before it and how many it has; and itself.
    Where there is no name the numbers are 0 and the name is empty."""

    text: int
    start: int
    length: int
    name: bytes


class Piece(NamedTuple):
    """A book and a sheet; their counts where they are not their lengths."""

    book: Sequence[int]
    sheet: Sequence[int]
    book_count: int | None = None
    sheet_count: int | None = None

    @property
    def counts(self) -> tuple[int, int]:
        books = len(self.book) if self.book_count is None else self.book_count
        sheets = len(self.sheet) if self.sheet_count is None else self.sheet_count
        return books, sheets


def lent(slice_: Lent) -> Sequence[int]:
    """What a lent slice holds."""
    return [0] * slice_ if isinstance(slice_, int) else slice_


def as_bytes(text: Text) -> bytes:
    """A text as it is sent."""
    return text.encode("utf-8", "surrogateescape") if isinstance(text, str) else bytes(text)


_shared: tuple[int, Desk] | None = None
_shared_lock = threading.Lock()


def shared() -> Desk:
    """The desk that calls without one of their own use: started with the first call of a process, and kept open."""
    global _shared
    with _shared_lock:
        if _shared is None or _shared[0] != os.getpid() or _shared[1].ended:
            _shared = (os.getpid(), Desk())
            atexit.register(_shared[1].close)
        return _shared[1]


def _six(numbers: List[int]) -> tuple[int, int, int, int, int, int]:
    code, place, book_count, sheet_count, struck, added = numbers[:6]
    return code, place, book_count, sheet_count, struck, added


def _session(numbers: List[int]) -> Session:
    n, book_count, sheet_count, struck, added = numbers[6:]
    return Session(n, book_count, sheet_count, struck, added)


def fresh(n: int, sheet: Lent, *, desk: Desk | None = None) -> Fresh:
    """Writes the fresh sheet: n rules with empty bodies."""
    numbers, (after,) = (desk or shared()).ask(FRESH, [n], [lent(sheet)])
    return Fresh(*_six(numbers), after)


def take(n: int, state: int, successor: int, book: Lent, book_count: int, sheet: Lent, sheet_count: int, *, desk: Desk | None = None) -> Taken:
    """Takes the transition from `state` to `successor` into book and sheet."""
    numbers, (book_after, sheet_after) = (desk or shared()).ask(TAKE, [n, state, successor, book_count, sheet_count], [lent(book), lent(sheet)])
    return Taken(*_six(numbers), book_after, sheet_after)


def learn(n: int, words: Sequence[int], book: Lent = 1_024, sheet: Lent = 65_536, *, desk: Desk | None = None) -> Taken:
    """Learns a list of transition words into book and sheet."""
    numbers, (book_after, sheet_after) = (desk or shared()).ask(LEARN, [n], [words, lent(book), lent(sheet)])
    return Taken(*_six(numbers), book_after, sheet_after)


def join(n: int, a: Piece, b: Piece, book: Lent = 1_024, sheet: Lent = 65_536, *, desk: Desk | None = None) -> Taken:
    """Joins two pieces: the union of the books, and the sheet of both."""
    slices = [a.book, a.sheet, b.book, b.sheet, lent(book), lent(sheet)]
    numbers, (book_after, sheet_after) = (desk or shared()).ask(JOIN, [n, *a.counts, *b.counts], slices)
    return Taken(*_six(numbers), book_after, sheet_after)


def apply(n: int, sheet: Sequence[int], state: int, sheet_count: int | None = None, *, desk: Desk | None = None) -> Applied:
    """The state that follows `state` by the sheet."""
    count = len(sheet) if sheet_count is None else sheet_count
    numbers, _ = (desk or shared()).ask(APPLY, [n, state, count], [sheet])
    return Applied(*_six(numbers), numbers[6])


def session_start(n: int, sheet: Lent, *, desk: Desk | None = None) -> Started:
    """Starts a session on a fresh sheet."""
    numbers, (after,) = (desk or shared()).ask(SESSION_START, [n], [lent(sheet)])
    return Started(*_six(numbers), _session(numbers), after)


def session_take(session: Session, state: int, successor: int, book: Lent, sheet: Lent, *, desk: Desk | None = None) -> SessionTaken:
    """Take through a session."""
    numbers, (book_after, sheet_after) = (desk or shared()).ask(SESSION_TAKE, [*session, state, successor], [lent(book), lent(sheet)])
    return SessionTaken(*_six(numbers), _session(numbers), book_after, sheet_after)


def read(text: Text, list_: Lent = 65_536, *, desk: Desk | None = None) -> Reading:
    """Reads a recording's text into transition words."""
    (code, place, n, count), (after,) = (desk or shared()).ask(READ, [], [as_bytes(text), lent(list_)])
    return Reading(code, place, n, count, after)


def read_sheet(text: Text, list_: Lent = 65_536, *, desk: Desk | None = None) -> Reading:
    """Reads a sheet's text into rule words, which come in increasing order and are a good sheet."""
    (code, place, n, count), (after,) = (desk or shared()).ask(READ_SHEET, [], [as_bytes(text), lent(list_)])
    return Reading(code, place, n, count, after)


def _text_room(n: int, rules: int) -> int:
    """How long the text of so many rules can be: its headers with two lines of ten names of 16 characters, and its rows."""
    return 64 + 2 * (5 + 10 * 17) + rules * (2 * min(n, 10) + 2)


def write_sheet(
    n: int,
    sheet: Sequence[int],
    sheet_count: int | None = None,
    panel: Text = b"",
    maker: Text = b"",
    out: Lent | bytes | None = None,
    *,
    desk: Desk | None = None,
) -> Written:
    """Writes a sheet as text, with names if `lookup` finds one in `panel` and `maker` for every column.
    Without `out` the byte slice is as long as the text of so many rules can be."""
    count = len(sheet) if sheet_count is None else sheet_count
    room = _text_room(n, len(sheet)) if out is None else out
    numbers, (after,) = (desk or shared()).ask(WRITE_SHEET, [n, count], [sheet, as_bytes(panel), as_bytes(maker), lent(room)])
    return Written(*_six(numbers), numbers[6], bytes(after))


def lookup(panel: Text, maker: Text, column: int, *, desk: Desk | None = None) -> LookedUp:
    """The name of a column: from the panel's text or, if that is good and has no names, from the maker's. Each may be a recording or a sheet."""
    texts = as_bytes(panel), as_bytes(maker)
    (text, start, length), _ = (desk or shared()).ask(LOOKUP, [column], texts)
    return LookedUp(text, start, length, texts[text][start : start + length])


def run(
    text: Text,
    list_: Lent = PROGRAM_WORDS,
    book: Lent = PROGRAM_WORDS,
    sheet: Lent = PROGRAM_WORDS,
    out: Lent | bytes = PROGRAM_BYTES,
    *,
    desk: Desk | None = None,
) -> Ran:
    """The program `rulesheet` on slices; by default the program's own rooms."""
    slices = [as_bytes(text), lent(list_), lent(book), lent(sheet), lent(out)]
    (length,), (list_after, book_after, sheet_after, out_after) = (desk or shared()).ask(RUN, [], slices)
    return Ran(length, list_after, book_after, sheet_after, bytes(out_after))
