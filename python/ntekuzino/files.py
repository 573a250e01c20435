"""Files that are written whole or not at all, and recordings read with their digest."""
from __future__ import annotations

import hashlib
import os
import stat
from pathlib import Path

from .desk import MOST_BYTES


class CouldNot(Exception):
    """Something could not be done, said in a plain sentence: status 2."""


def could_not(what: str, path: os.PathLike[str] | str, error: OSError) -> CouldNot:
    """The sentence for a failed read or write."""
    from .texts import shown_name

    return CouldNot(f"cannot {what} {shown_name(os.fspath(path))}: {error.strerror or error}")


def read_recording(path: Path) -> tuple[bytes, str]:
    """A recording, at most one byte more than a desk takes, and the SHA-256 of the whole file."""
    digest, text = hashlib.sha256(), b""
    # A pipe without a writer would be waited for.
    with open(os.open(path, os.O_RDONLY | os.O_NONBLOCK | os.O_CLOEXEC), "rb") as file:
        if not stat.S_ISREG(os.fstat(file.fileno()).st_mode):
            raise OSError(0, "it is no file")
        while piece := file.read(1 << 20):
            digest.update(piece)
            text += piece[: MOST_BYTES + 1 - len(text)]
    return text, digest.hexdigest()


def write_whole(path: Path, contents: bytes, beside: Path) -> None:
    """Writes, flushes and renames: `path` holds what it held, or all of `contents`. The half written file is `beside`, a folder of ours."""
    half = beside / f"half-{os.getpid()}-{hashlib.sha256(os.fsencode(path.name)).hexdigest()[:16]}"
    try:
        with open(half, "wb") as file:
            file.write(contents)
            file.flush()
            os.fsync(file.fileno())
        os.replace(half, path)
    except OSError as error:
        half.unlink(missing_ok=True)
        raise could_not("write", path, error) from error
