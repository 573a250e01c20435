"""A text as its lines stand, a recording's or a sheet's, for those who tell people about it. What is accepted, the proved reader decides."""
from __future__ import annotations

from dataclasses import dataclass
from typing import Iterator, Sequence

BLANKS = b" \t"


@dataclass(frozen=True)
class Line:
    """A line: its number from 1, its bytes as they stand, and its fields, which are separated by spaces and tabs, without the comment."""

    number: int
    raw: bytes
    fields: tuple[bytes, ...]

    @property
    def is_row(self) -> bool:
        return bool(self.fields) and not self.fields[0].startswith(b".")


@dataclass(frozen=True)
class Row:
    """A row of an accepted text: its number among the rows, from 1, its line, its input, and its output, the successor in a recording."""

    number: int
    line: int
    cells: str
    successor: str

    @property
    def states(self) -> int:
        """How many states a recording's row stands for."""
        return 1 << self.cells.count("-")

    @property
    def written(self) -> str:
        """The row as a sheet writes it."""
        return f"{self.cells} {self.successor}"


def lines(text: bytes) -> list[Line]:
    """The lines of a text; they end at LF, and the last may lack it."""
    pieces = text.split(b"\n")
    if pieces[-1] == b"":
        pieces.pop()
    return [Line(k, raw, _fields(raw)) for k, raw in enumerate(pieces, 1)]


def _fields(raw: bytes) -> tuple[bytes, ...]:
    plain = raw.split(b"#", 1)[0].replace(b"\t", b" ")
    return tuple(field for field in plain.split(b" ") if field)


def rows(text: bytes) -> Iterator[Row]:
    """The rows of an accepted text."""
    number = 0
    for line in lines(text):
        if line.is_row:
            number += 1
            yield Row(number, line.number, line.fields[0].decode("ascii"), line.fields[1].decode("ascii"))


def row_of_word(text: bytes, index: int) -> Row:
    """The row of an accepted text that the word `index`, from 0, of its list comes from: a row gives a word for each of its states."""
    for row in rows(text):
        if index < row.states:
            return row
        index -= row.states
    raise ValueError("the text has no such word")


def on_which(names: Sequence[str], a: str, b: str) -> str:
    """The end of a sentence about two states, written as columns: the relays on which they differ, by name; nothing where these have none."""
    differing = [name for name, x, y in zip(names, a, b) if x != y]
    return f"; they differ on {', '.join(differing)}" if differing else ""


def counted(number: int, one: str, many: str) -> str:
    """A number, with the word for one or for many."""
    return f"{number:,} {one if number == 1 else many}"


def shown(raw: bytes) -> str:
    """Bytes on one line, for people: what is no printable ASCII as \\xNN, CR and tab as \\r and \\t."""
    names = {9: "\\t", 13: "\\r", 92: "\\"}
    return "".join(names.get(byte, chr(byte) if 32 <= byte < 127 else f"\\x{byte:02x}") for byte in raw)


def shown_name(name: str) -> str:
    """A file's name on one line, whatever bytes it has."""
    return "".join(c if c.isprintable() else "".join(f"\\x{b:02x}" for b in c.encode("utf-8", "surrogateescape")) for c in name)
