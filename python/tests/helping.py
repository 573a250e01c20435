"""What the tests share: the clone, its recordings, and commands run as people run them."""
from __future__ import annotations

import os
import pty
import shutil
import subprocess
import sys
import tempfile
import unittest
from pathlib import Path

ROOT = Path(__file__).resolve().parents[2]
RECORDINGS = ROOT / "recordings"
SECOND = ROOT / "second" / "target" / "release" / "second"
#: Seconds that a command may take.
LIMIT = "120"
PANEL, PANEL_SHEET = (RECORDINGS / "panel.pla").read_bytes(), (RECORDINGS / "panel.out").read_bytes()


def recording(name: str) -> bytes:
    return (RECORDINGS / f"{name}.pla").read_bytes()


def stored(name: str) -> bytes:
    return (RECORDINGS / f"{name}.out").read_bytes()


def ran(*words: object, **how: object) -> subprocess.CompletedProcess[bytes]:
    """A command of the clone, without a terminal; its output is kept. One that hangs is killed, with all it started."""
    how = {"stdin": subprocess.DEVNULL, "stdout": subprocess.PIPE, "stderr": subprocess.PIPE, **how}
    if "input" in how:
        del how["stdin"]
    return subprocess.run(["timeout", "-k", "1", LIMIT, *[os.fspath(word) for word in words]], **how)  # type: ignore[call-overload, arg-type, no-any-return]


def at_terminal(*words: object, typed: bytes) -> tuple[int, bytes]:
    """A command with a terminal for all three streams: its status, and what the terminal shows."""
    pid, terminal = pty.fork()
    if pid == 0:
        os.execvp("timeout", ["timeout", "--foreground", "-k", "1", LIMIT, *[os.fspath(word) for word in words]])  # type: ignore[arg-type]
    shown = b""
    os.write(terminal, typed)
    try:
        while piece := os.read(terminal, 65536):
            shown += piece
    except OSError:
        pass
    os.close(terminal)
    return os.waitstatus_to_exitcode(os.waitpid(pid, 0)[1]), shown


class InFolder(unittest.TestCase):
    """Each test has a folder of its own."""

    def setUp(self) -> None:
        self.folder = Path(tempfile.mkdtemp())
        self.addCleanup(shutil.rmtree, self.folder, ignore_errors=True)

    def put(self, name: str, contents: bytes) -> Path:
        path = self.folder / name
        path.parent.mkdir(parents=True, exist_ok=True)
        path.write_bytes(contents)
        return path


def built() -> None:
    """The desk and the program, before anything is timed or killed."""
    for name in ("desk", "rulesheet"):
        subprocess.run([ROOT / "tools" / "program", "--built", name], check=True, stdin=subprocess.DEVNULL)


sys.path.insert(0, str(ROOT / "python"))
built()
