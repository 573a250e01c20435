"""Names on the contacts, for the command: looked up by the library, held against each other, and made different for other tools."""
from __future__ import annotations

import re
from typing import Sequence

from . import calls
from .desk import MOST_WORDS, Desk
from .faults import RECORDING, SHEET, sheet_line, why_unread
from .files import CouldNot
from .sheets import names_of, sizes
from .texts import shown_name

_NAME_LINES = re.compile(rb"\n\.ilb (.+)\n\.ob (.+)\n")
_SUFFIX = re.compile("[A-Za-z0-9_]+")


def printed_names(printed: bytes) -> tuple[str, ...]:
    """The names of a printed sheet, or none."""
    found = _NAME_LINES.search(printed)
    return tuple(found[1].decode("ascii").split(" ")) if found else ()


# ---- a maker's text


def _why_no_names(maker: bytes, named: int, n: int, desk: Desk) -> str:
    # By its type line: the other reader refuses it with 11 there, if not before.
    kind, read = (SHEET, calls.read_sheet) if sheet_line(maker) else (RECORDING, calls.read)
    reading = read(maker, MOST_WORDS, desk=desk)
    if reading.code == 11:
        return f"line {reading.place} breaks the layout. {why_unread(maker, reading.place, kind)[1]}"
    return f"it names {named} of the recording's {n} relays." if named else "it has no lines `.ilb` and `.ob`."


def told_of_maker(name: str, maker: bytes, text: bytes, printed: bytes, desk: Desk) -> str:
    """What is to be said of a maker's text beside a recording and its printed sheet, which the library does not tell. That it gives no names
    where it was consulted is said by CouldNot: nobody who names a maker's text wants a sheet without names."""
    n, named = sizes(printed)[0], len(names_of(text, desk, maker))
    if not printed_names(printed):
        raise CouldNot(f"{shown_name(name)} gives no names: {_why_no_names(maker, named, n, desk)}")
    return f"{shown_name(name)} names {named} relays, the recording has {n}; it is given the first names" if named > n else ""


# ---- files of one panel


def other_names(files: Sequence[str], named: Sequence[Sequence[str]]) -> str:
    """Which two of the files that have names call a relay differently; nothing where all agree. Their numbers of relays are equal."""
    having = [(file, names) for file, names in zip(files, named) if names]
    for file, names in having[1:]:
        for relay, (a, b) in enumerate(zip(having[0][1], names)):
            if a != b:
                return f"{shown_name(having[0][0])} and {shown_name(file)} call relay {relay} differently: {a} in one, {b} in the other"
    return ""


# ---- names that differ, for other tools


def judge_suffix(suffix: str) -> None:
    """What is put behind a name must leave a name."""
    if not _SUFFIX.fullmatch(suffix):
        raise CouldNot(f"--next {shown_name(suffix)}: a suffix has one or more letters, digits or underscores")


def with_suffix(printed: bytes, suffix: str) -> bytes:
    """A printed sheet with a suffix behind each name of an output; as it is where it has no names."""
    found = _NAME_LINES.search(printed)
    if found is None:
        return printed
    inputs = found[1].split(b" ")
    outputs = [name + suffix.encode("ascii") for name in inputs]
    for relay, output in zip(inputs, outputs):
        if output in inputs:
            raise CouldNot(f"--next {suffix} gives the output of {relay.decode()} the name of the input {output.decode()}: take another suffix")
    return printed[: found.start(2)] + b" ".join(outputs) + printed[found.end(2) :]
