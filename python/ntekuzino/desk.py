"""The desk: one process over the proved library, held open, that answers requests (docs/DESK.md)."""
from __future__ import annotations

import os
import shlex
import shutil
import subprocess
import sys
import threading
from array import array
from pathlib import Path
from typing import NamedTuple, Sequence

#: The longest slice of words, and of bytes, that a desk takes.
MOST_WORDS = 65_536
MOST_BYTES = 2_097_152


class DeskError(Exception):
    """The desk could not be started, ended, or answered short. There is no answer then."""


class Call(NamedTuple):
    """A row of docs/DESK.md. Numbers: `w` of 32 bits, `c` of 64. Slices: `w` words, `b` bytes, capital where the call may write."""

    number: int
    numbers: str
    slices: str
    answers: int


def _found() -> list[str]:
    """The command that runs the desk: installed beside the package, of the clone, or on the PATH."""
    package = Path(__file__).resolve().parent
    installed = package.parent / "desk"
    if os.access(installed, os.X_OK) and installed.is_file():
        return [str(installed)]
    builder = package.parent.parent / "tools" / "program"
    if builder.is_file():
        built = subprocess.run([str(builder), "--command", "desk"], stdin=subprocess.DEVNULL, stdout=subprocess.PIPE)
        if built.returncode != 0:
            raise DeskError("the desk could not be built (tools/program --built desk)")
        return os.fsdecode(built.stdout).splitlines()
    on_path = shutil.which("ntekuzino-desk")
    if on_path:
        return [on_path]
    raise DeskError("no desk: set NTEKUZINO_DESK to its command, or put ntekuzino-desk (./install PREFIX) on the PATH")


_command: list[str] | None = None
_command_lock = threading.Lock()


def command() -> list[str]:
    """The words of the command that runs the desk: told by NTEKUZINO_DESK, else found, once."""
    global _command
    told = os.environ.get("NTEKUZINO_DESK")
    if told:
        return shlex.split(told)
    with _command_lock:
        if _command is None:
            _command = _found()
        return list(_command)


def version(words: Sequence[str] | None = None) -> str:
    """What the desk says of itself: the version, and the SHA-256 of the library and the desk it was made from."""
    words = command() if words is None else words
    try:
        told = subprocess.run([*words, "--version"], stdin=subprocess.DEVNULL, stdout=subprocess.PIPE)
    except OSError as error:
        raise DeskError(f"the desk could not be started: {error}") from error
    line = told.stdout.decode("ascii", "replace").strip()
    if told.returncode != 0 or not line.startswith("ntekuzino "):
        raise DeskError("the desk does not tell its version")
    return line


def _packed(kind: str, elements: Sequence[int]) -> array[int]:
    most, longest, name = (255, MOST_BYTES, "bytes") if kind in "bB" else (2**32 - 1, MOST_WORDS, "words")
    if len(elements) > longest:
        raise ValueError(f"a slice of {len(elements)} {name}: the desk takes {longest}")
    packed = array("Q", [len(elements)])
    packed.extend(elements)
    if max(elements, default=0) > most:
        raise ValueError(f"an element above {most}")
    return packed


class Desk:
    """A running desk. Use it with `with`, or close it; calls from several threads come one after the other."""

    def __init__(self, words: Sequence[str] | None = None) -> None:
        self._lock = threading.Lock()
        self._owner = os.getpid()
        self._why = ""
        self.command = command() if words is None else list(words)
        try:
            self._process = subprocess.Popen(self.command, stdin=subprocess.PIPE, stdout=subprocess.PIPE)
        except OSError as error:
            raise DeskError(f"the desk could not be started: {error}") from error

    def __enter__(self) -> Desk:
        return self

    def __exit__(self, *_: object) -> None:
        self.close()

    @property
    def ended(self) -> bool:
        """It was closed, or failed: no call will be answered any more."""
        return self._why != ""

    def close(self) -> None:
        """Ends the process. Without effect on a desk that has ended, or belongs to another process."""
        if self._why == "" and self._owner == os.getpid():
            self._end("the desk is closed")

    def _end(self, why: str) -> None:
        self._why = why
        self._process.kill()
        for pipe in (self._process.stdin, self._process.stdout):
            try:
                if pipe is not None:
                    pipe.close()
            except OSError:
                pass
        self._process.wait()

    def ask(self, call: Call, numbers: Sequence[int], slices: Sequence[Sequence[int]]) -> tuple[list[int], list[list[int]]]:
        """Makes a call: its numbers and lent slices in, the answer's numbers and every slice that the call may write out."""
        request = array("Q", [call.number, *numbers])
        for kind, number in zip(call.numbers, numbers):
            if kind == "w" and number > 2**32 - 1:
                raise ValueError(f"{number} has more than 32 bits")
        for kind, elements in zip(call.slices, slices):
            request.extend(_packed(kind, elements))
        lengths = [len(elements) for kind, elements in zip(call.slices, slices) if kind.isupper()]
        answer = self._exchange(request, call.answers + sum(lengths))
        at, after = call.answers, []
        for length in lengths:
            after.append(answer[at : at + length])
            at += length
        return answer[: call.answers], after

    def _exchange(self, request: array[int], expected: int) -> list[int]:
        if sys.byteorder == "big":
            request.byteswap()
        with self._lock:
            if self._owner != os.getpid():
                raise DeskError("the desk belongs to another process")
            if self._why:
                raise DeskError(self._why)
            try:
                stdin, stdout = self._process.stdin, self._process.stdout
                assert stdin is not None and stdout is not None
                stdin.write(request.tobytes())
                stdin.flush()
                got = stdout.read(8 * expected)
            except OSError as error:
                self._end(f"the desk ended: {error.strerror}")
                raise DeskError(self._why) from error
            except BaseException:
                # An answer half read would stand before the next one.
                self._end("the desk was broken off")
                raise
            if len(got) != 8 * expected:
                self._end(f"the desk ended within an answer, after {len(got)} of {8 * expected} bytes")
                raise DeskError(self._why)
        answer = array("Q")
        answer.frombytes(got)
        if sys.byteorder == "big":
            answer.byteswap()
        return answer.tolist()
