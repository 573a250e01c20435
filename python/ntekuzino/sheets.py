"""From a recording's text to what is printed: in the program's rooms first, then, where these are too small, in the library's."""
from __future__ import annotations

import itertools
import re
from dataclasses import dataclass, replace

from . import calls
from .calls import Text
from .desk import MOST_BYTES, MOST_WORDS, Desk, DeskError

_REFUSAL = re.compile(rb"refused (\d+) at (\d+)\n")
_SIZES = re.compile(rb"\.i (\d+)\n(?:\..*\n)*?\.p (\d+)\n")

#: Codes that say that a room was too small: for the list or book, for the sheet, for the text.
NO_ROOM = (8, 9, 13)


@dataclass(frozen=True)
class Outcome:
    """What is printed for a recording, or for a sheet that is checked: the sheet, or the line of a refusal with its code and place."""

    printed: bytes
    code: int
    place: int
    in_library: bool

    @property
    def done(self) -> bool:
        return self.code == 0

    @property
    def text(self) -> str:
        return self.printed.decode("ascii")


def refusal(code: int, place: int, in_library: bool) -> Outcome:
    """The outcome of a refusal."""
    return Outcome(b"refused %d at %d\n" % (code, place), code, place, in_library)


def in_program(text: bytes, desk: Desk) -> Outcome:
    """What `rulesheet` prints."""
    # Above 24,576 bytes the length alone decides, so the first of them are enough.
    printed = calls.run(text[:MOST_BYTES], desk=desk).text
    refusal = _REFUSAL.fullmatch(printed)
    if refusal:
        return Outcome(printed, int(refusal[1]), int(refusal[2]), False)
    if printed.startswith(b".i ") and printed.endswith(b"\n.e\n"):
        return Outcome(printed, 0, 0, False)
    raise DeskError("what the desk answered is neither a sheet nor a refusal")


def in_library(text: bytes, desk: Desk, maker: bytes = b"") -> Outcome:
    """The same with 65,536 words for the list and for the sheet, and texts of up to 2,097,152 bytes; names are the recording's, or else the maker's."""
    if len(text) > MOST_BYTES:
        return refusal(13, 0, True)
    reading = calls.read(text, MOST_WORDS, desk=desk)
    if not reading.done:
        return refusal(reading.code, reading.place, True)
    learned = calls.learn(reading.n, reading.words, desk=desk)
    if not learned.done:
        return refusal(learned.code, learned.place, True)
    written = calls.write_sheet(reading.n, learned.piece.sheet, panel=text, maker=maker, desk=desk)
    if not written.done:
        return refusal(written.code, written.place, True)
    return Outcome(written.text, 0, 0, True)


def sheet(text: Text, *, maker: Text = b"", exact: bool = False, desk: Desk | None = None) -> Outcome:
    """What `rulesheet` prints; unless `exact`, in the library's rooms where the program's are too small. A recording without names has the maker's."""
    desk, sent, of_maker = desk or calls.shared(), calls.as_bytes(text), calls.as_bytes(maker)
    outcome = in_program(sent, desk)
    if outcome.done and of_maker:
        # The program is lent no maker's text. The library is, and has room for what the program has room for: the same sheet, with names.
        return replace(in_library(sent, desk, of_maker), in_library=False)
    if exact or outcome.code not in NO_ROOM:
        return outcome
    return in_library(sent, desk, of_maker)


def sizes(printed: bytes) -> tuple[int, int]:
    """Relays and rules of a printed sheet."""
    told = _SIZES.match(printed)
    if told is None:
        raise ValueError("this is no sheet")
    return int(told[1]), int(told[2])


def names_of(text: bytes, desk: Desk, maker: bytes = b"") -> tuple[str, ...]:
    """The names of a recording or a sheet, as the library looks them up: one for each of its relays, or none. Else those of the maker's text."""
    found = (calls.lookup(text, maker, column, desk=desk).name.decode("ascii") for column in itertools.count())
    return tuple(itertools.takewhile(bool, found))
