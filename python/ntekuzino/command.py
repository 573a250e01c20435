"""The command `ntekuzino`. Status 0: done; 1: the library refused, or a sheet is not the recording's; 2: it could not be done (usage, unreadable, unwritable, nothing run)."""
from __future__ import annotations

import argparse
import os
import signal
import sys
from pathlib import Path
from typing import NamedTuple, NoReturn, Sequence

from . import __version__, calls, desk as desks
from .archive import archive
from .checking import check, compared
from .desk import MOST_BYTES, Desk, DeskError
from .explaining import explained, why_refused
from .faults import RECORDING, SHEET, Kind
from .files import CouldNot, could_not
from .naming import judge_suffix, other_names, told_of_maker, with_suffix
from .sheets import Outcome, in_library, names_of, sheet, sizes
from .texts import on_which, shown_name

DONE, REFUSED, COULD_NOT = 0, 1, 2


class BrokenOff(Exception):
    """A signal asked the run to end."""

    def __init__(self, number: int) -> None:
        super().__init__(number)
        self.number = number


def say(what: str) -> None:
    """A line for people, on standard error."""
    try:
        print(what.encode("utf-8", "replace").decode("utf-8"), file=sys.stderr, flush=True)
    except (OSError, ValueError):
        pass


def put(answer: bytes) -> None:
    """Writes to standard output at once: an answer that is lost is no answer."""
    try:
        while answer:
            answer = answer[os.write(1, answer) :]
    except OSError as error:
        raise CouldNot(f"cannot write to standard output: {error.strerror}") from error


def read_input(name: str | None) -> bytes:
    """A file, or standard input where none is given; at most one byte more than a desk takes."""
    try:
        if name is not None:
            with open(name, "rb") as file:
                return file.read(MOST_BYTES + 1)
        if sys.stdin is None:
            raise CouldNot("standard input is closed")
        if sys.stdin.isatty():
            say("ntekuzino: reading a recording from standard input (Ctrl-D ends it; --help tells more)")
        return sys.stdin.buffer.read(MOST_BYTES + 1)
    except OSError as error:
        raise could_not("read", name if name is not None else "standard input", error) from error


def _tell_refusal(name: str | None, text: bytes, outcome: Outcome, desk: Desk, kind: Kind = RECORDING) -> None:
    """On standard error: which input, the line, and the reason."""
    told = why_refused(text, outcome, desk, kind)
    line = f" (line {outcome.place}: {told.line})" if told.line else ""
    say(f"ntekuzino: {shown_name(name) if name is not None else 'standard input'}: {told.why}{line}")


# ---- the parts


def _read_maker(name: str | None) -> bytes:
    """The maker's text, or an empty one where none is named."""
    maker = b"" if name is None else read_input(name)
    if len(maker) > MOST_BYTES:
        raise CouldNot(f"{shown_name(name or '')} has more than {MOST_BYTES:,} bytes: there is no room for such a maker's text")
    return maker


def _note(name: str | None, note: str) -> None:
    """On standard error: what is to be known of a sheet that was printed."""
    say(f"ntekuzino: {'' if name is None else f'{shown_name(name)}: '}{note}")


def _one_sheet(name: str | None, maker: bytes, args: argparse.Namespace, desk: Desk) -> bool:
    """Prints what there is for a recording, and gives whether it is a sheet."""
    text = read_input(name)
    outcome = sheet(text, maker=maker, exact=args.exact, desk=desk)
    # Both may find that there is nothing to print.
    of_maker = told_of_maker(args.maker, maker, text, outcome.printed, desk) if outcome.done and args.maker is not None else ""
    printed = outcome.printed if args.next is None else with_suffix(outcome.printed, args.next)
    if len(args.files) > 1:
        put(f"# {shown_name(name or '')}\n".encode("utf-8", "replace"))
    put(printed)
    if not outcome.done:
        _tell_refusal(name, text, outcome, desk)
    elif outcome.in_library:
        _note(name, f"the program `rulesheet` has no room for this recording; this is the sheet from the library's room, {sizes(printed)[1]:,} rules")
    if of_maker:
        _note(name, of_maker)
    return outcome.done


def _sheet(args: argparse.Namespace) -> int:
    if args.next is not None:
        judge_suffix(args.next)
    maker = _read_maker(args.maker)
    with Desk() as desk:
        done = [_one_sheet(name, maker, args, desk) for name in args.files or [None]]
    return DONE if all(done) else REFUSED


def _explain(args: argparse.Namespace) -> int:
    with Desk() as desk:
        done, told = explained(read_input(args.file), desk)
    put(f"{told}\n".encode())
    return DONE if done else REFUSED


def _against(args: argparse.Namespace, printed: bytes, recording: bytes, desk: Desk) -> bool:
    """Prints a checked sheet and, as comments, whether it is the recording's; gives whether it is."""
    learned = in_library(recording, desk)
    if learned.done:
        same, told = compared((args.sheet, args.recording), printed, learned.printed)
    else:
        same, told = False, [f"{shown_name(args.recording)} has no sheet to hold this against: {learned.text.rstrip()}."]
    put(printed + "".join(f"# {line}\n" for line in told).encode("utf-8", "replace"))
    if not learned.done:
        _tell_refusal(args.recording, recording, learned, desk)
    return same


def _check(args: argparse.Namespace) -> int:
    text = read_input(args.sheet)
    recording = None if args.recording is None else read_input(args.recording)
    with Desk() as desk:
        outcome = check(text, desk=desk)
        if outcome.done and recording is not None:
            return DONE if _against(args, outcome.printed, recording, desk) else REFUSED
        put(outcome.printed)
        if not outcome.done:
            _tell_refusal(args.sheet, text, outcome, desk, SHEET)
    return DONE if outcome.done else REFUSED


class _Refused(Exception):
    """A recording was refused; it has been told."""


class _Learned(NamedTuple):
    """A recording that was not refused: its text, relays, names if it has any, book and sheet."""

    text: bytes
    n: int
    names: tuple[str, ...]
    piece: calls.Piece


def _learned(name: str, desk: Desk) -> _Learned:
    """What is learned from a recording; a refusal is printed."""
    text = read_input(name)
    outcome = in_library(text, desk)
    if not outcome.done:
        put(outcome.printed)
        _tell_refusal(name, text, outcome, desk)
        raise _Refused
    reading = calls.read(text, desk=desk)
    return _Learned(text, reading.n, names_of(text, desk), calls.learn(reading.n, reading.words, desk=desk).piece)


def _disagreement(n: int, files: Sequence[str], pieces: Sequence[calls.Piece], names: Sequence[str]) -> str:
    """Where the book of the last piece is against one before it."""
    last = dict(calls.transition_of(word) for word in pieces[-1].book)
    for file, piece in zip(files, pieces[:-1]):
        for word in piece.book:
            state, successor = calls.transition_of(word)
            if last.get(state, successor) != successor:
                a, b = calls.columns(n, successor), calls.columns(n, last[state])
                both = f"{shown_name(file)} and {shown_name(files[len(pieces) - 1])} disagree on state {calls.columns(n, state)}"
                return f"{both}: {a} follows in one, {b} in the other{on_which(names, a, b)}"
    return "the recordings disagree on a state"


def _judge_one_panel(files: Sequence[str], learned: Sequence[_Learned]) -> None:
    """Recordings of one panel have equally many relays, and those with names the same ones."""
    n = learned[0].n
    for name, other in zip(files, learned):
        if other.n != n:
            raise CouldNot(f"{shown_name(files[0])} has {n} relays, {shown_name(name)} has {other.n}: they are not of one panel")
    differ = other_names(files, [each.names for each in learned])
    if differ:
        raise CouldNot(differ)


def _join(args: argparse.Namespace) -> int:
    with Desk() as desk:
        try:
            learned = [_learned(name, desk) for name in args.files]
        except _Refused:
            return REFUSED
        _judge_one_panel(args.files, learned)
        n, whole = learned[0].n, learned[0].piece
        named = next((each for each in learned if each.names), learned[0])
        pieces = [each.piece for each in learned]
        for k, piece in enumerate(pieces[1:], 2):
            joined = calls.join(n, whole, piece, desk=desk)
            if not joined.done:
                put(b"refused %d at %d\n" % (joined.code, joined.place))
                more = _disagreement(n, args.files, pieces[:k], named.names) if joined.code == 7 else "the joined sheet has too many rules for the library's room"
                say(f"ntekuzino: {more}")
                return REFUSED
            whole = joined.piece
        put(_written(n, whole, named.text, desk))
    return DONE


def _written(n: int, piece: calls.Piece, panel: bytes, desk: Desk) -> bytes:
    written = calls.write_sheet(n, piece.sheet, panel=panel, desk=desk)
    if not written.done:
        raise CouldNot(f"the sheet could not be written: code {written.code}")
    return written.text


def _apply(args: argparse.Namespace) -> int:
    with Desk() as desk:
        try:
            _, n, names, piece = _learned(args.file, desk)
        except _Refused:
            return REFUSED
        for cells in args.states:
            if len(cells) != n or cells.strip("01"):
                order = f"for {', '.join(names)}" if names else "relay 0 leftmost"
                raise CouldNot(f"{shown_name(cells)} is no state of this panel: {n} of 0 and 1, {order}")
        for cells in args.states:
            applied = calls.apply(n, piece.sheet, calls.state_of(cells), desk=desk)
            if not applied.done:
                raise CouldNot(f"{cells} was refused: code {applied.code}")
            put(f"{cells} {calls.columns(n, applied.state)}\n".encode())
    return DONE


def _archive(args: argparse.Namespace) -> int:
    def broken_off(number: int, _: object) -> NoReturn:
        raise BrokenOff(number)

    for number in (signal.SIGTERM, signal.SIGHUP, signal.SIGINT):
        signal.signal(number, broken_off)
    if not args.folder or not args.out:
        raise CouldNot("FOLDER and OUT must be named")
    result = archive(Path(args.folder), Path(args.out), sys.stderr if sys.stderr is not None else open(os.devnull, "w"))
    put((Path(args.out) / "table.txt").read_bytes())
    return result.status


# ---- the command line


def _parser() -> argparse.ArgumentParser:
    parser = argparse.ArgumentParser(
        prog="ntekuzino",
        description="One rule sheet from one recording, by the proved library.",
        epilog="Status: 0 done, 1 refused, or not that recording's sheet, 2 could not (usage, unreadable, unwritable, nothing run).",
    )
    parser.add_argument("--version", action="store_true", help="print the version of the package and of the library")
    parts = parser.add_subparsers(metavar="PART", dest="part")

    def part(name: str, what: str, example: str, make: object) -> argparse.ArgumentParser:
        one = parts.add_parser(name, help=what, description=what, epilog=f"Example: {example}", formatter_class=argparse.RawDescriptionHelpFormatter)
        one.set_defaults(make=make)
        return one

    one = part("sheet", "print the sheet of each recording, or `refused C at P`", "ntekuzino sheet recordings/panel.pla", _sheet)
    one.add_argument("files", metavar="FILE", nargs="*", help="recordings; standard input where none is given")
    one.add_argument("--maker", metavar="TEXT", help="a maker's recording or sheet of the panel: its names go into the sheet of a recording that has none")
    one.add_argument("--next", metavar="SUFFIX", help="put SUFFIX behind the names of the outputs, for other tools; such a sheet is not read here")
    one.add_argument("--exact", action="store_true", help="keep to the room of the program `rulesheet`: 1,024 words, 24,576 bytes")

    one = part("explain", "say in words why a recording is refused", "ntekuzino explain recordings/refused-7.pla", _explain)
    one.add_argument("file", metavar="FILE", nargs="?", help="a recording; standard input where none is given")

    one = part("check", "print a sheet that came back as its one text, or `refused C at P`", "ntekuzino check recordings/panel.out recordings/panel.pla", _check)
    one.add_argument("sheet", metavar="SHEET", help="a sheet's text, its rows in any order")
    one.add_argument("recording", metavar="RECORDING", nargs="?", help="a recording: comments tell whether it has this sheet, and which rules differ")

    one = part("join", "learn recordings apart, join them, and print the one sheet", "ntekuzino join monday.pla tuesday.pla", _join)
    one.add_argument("files", metavar="FILE", nargs="+", help="recordings of one panel")

    one = part("apply", "print the state that follows each state by the recording's sheet", "ntekuzino apply recordings/panel.pla 101 111", _apply)
    one.add_argument("file", metavar="FILE", help="a recording")
    one.add_argument("states", metavar="STATE", nargs="+", help="a state as columns of 0 and 1, relay 0 leftmost")

    one = part("archive", "the sheet or the refusal of every FOLDER/NAME.pla as OUT/NAME.out, with tables of all", "ntekuzino archive recordings answers", _archive)
    one.add_argument("folder", metavar="FOLDER", help="a folder of recordings")
    one.add_argument("out", metavar="OUT", help="a new folder, or that of a run before")
    return parser


def _made(args: argparse.Namespace, parser: argparse.ArgumentParser) -> int:
    if args.version:
        put(f"package {__version__}, library {desks.version()}\n".encode())
        return DONE
    if args.part is None:
        parser.print_help(sys.stderr)
        return COULD_NOT
    made: int = args.make(args)
    return made


def main(arguments: Sequence[str] | None = None) -> int:
    """Runs the command, and gives its status."""
    parser = _parser()
    args = parser.parse_args(arguments)
    try:
        if sys.stdout is None:
            raise CouldNot("standard output is closed")
        return _made(args, parser)
    except (CouldNot, DeskError) as error:
        say(f"ntekuzino: {error}")
        return COULD_NOT
    except BrokenOff as broken:
        say("ntekuzino: broken off; the same command goes on")
        return 128 + broken.number
    except KeyboardInterrupt:
        return 128 + signal.SIGINT
