"""Sheets that come back from site: read by the proved library, written again as their one text, and held against a recording's sheet."""
from __future__ import annotations

from . import calls, texts
from .calls import Text
from .desk import MOST_BYTES, MOST_WORDS, Desk
from .naming import other_names, printed_names
from .sheets import Outcome, refusal, sizes
from .texts import counted, shown_name


def check(text: Text, *, desk: Desk | None = None) -> Outcome:
    """A sheet's text as its one text, with the names that it has; or the line of a refusal, of reading, or 13 where it has more bytes than a desk takes."""
    desk, sent = desk or calls.shared(), calls.as_bytes(text)
    if len(sent) > MOST_BYTES:
        return refusal(13, 0, True)
    # A row with its LF has four bytes or more, so no smaller room is refused than the largest.
    reading = calls.read_sheet(sent, min(MOST_WORDS, len(sent) // 4), desk=desk)
    if not reading.done:
        return refusal(reading.code, reading.place, True)
    written = calls.write_sheet(reading.n, reading.words, panel=sent, desk=desk)
    if not written.done:
        return refusal(written.code, written.place, True)
    return Outcome(written.text, 0, 0, True)


def _rows(printed: bytes) -> list[str]:
    return [row.written for row in texts.rows(printed)]


def _without(rows: list[str], others: list[str]) -> list[str]:
    there = set(others)
    return [row for row in rows if row not in there]


def _not_of_one_panel(files: tuple[str, str], sheet: bytes, of_recording: bytes) -> str:
    """What shows that a sheet and a recording's sheet, both as printed, are not of one panel: there is no comparing their rules then."""
    n, other = sizes(sheet)[0], sizes(of_recording)[0]
    if n != other:
        return f"it has {counted(n, 'relay', 'relays')}, the recording {other}"
    return other_names(files, [printed_names(sheet), printed_names(of_recording)])


def compared(files: tuple[str, str], sheet: bytes, of_recording: bytes) -> tuple[bool, list[str]]:
    """Whether a printed sheet has the rules of a recording's printed sheet, and the comment lines that tell it; `files` are the names of both."""
    this_is_not = f"This is not the sheet of {shown_name(files[1])}"
    panel = _not_of_one_panel(files, sheet, of_recording)
    if panel:
        return False, [f"{this_is_not}: {panel}."]
    ours, theirs = _rows(sheet), _rows(of_recording)
    missing, over = _without(theirs, ours), _without(ours, theirs)
    if not missing and not over:
        return True, [f"This is the sheet of {shown_name(files[1])}."]
    told = f"{this_is_not}: {counted(len(missing), 'rule is', 'rules are')} missing, {counted(len(over), 'is', 'are')} too many."
    return False, [told, *(f"missing: {row}" for row in missing), *(f"too many: {row}" for row in over)]
