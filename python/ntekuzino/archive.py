"""The archive run: what is printed for every recording of a folder.

An answer is kept only where recording, library and answer are, by SHA-256, those it was made with."""
from __future__ import annotations

import fcntl
import hashlib
import json
import os
import threading
import time
from concurrent.futures import FIRST_EXCEPTION, ThreadPoolExecutor, wait
from dataclasses import asdict, dataclass, replace
from pathlib import Path
from typing import Callable, Iterable, TextIO

from . import desk as desks
from . import texts
from .desk import Desk
from .explaining import why_refused
from .files import CouldNot, could_not, read_recording, write_whole
from .pages import csv_table, html_page, text_table
from .sheets import Outcome, sheet, sizes

#: Raised when rows or explanations change their form, so that kept ones are made anew.
FORM = "3"
OWN = ".archive"
TABLES = ("table.txt", "table.csv", "index.html")


@dataclass(frozen=True)
class Entry:
    """What the tables say of a recording. `answer` is a sheet, a refusal, or why the recording could not be read; `short` is the reason of a
    refusal in a few words, for want of a type line alone."""

    name: str
    relays: int | None = None
    rows: int | None = None
    rules: int | None = None
    answer: str = ""
    code: int | None = None
    place: int | None = None
    line: str = ""
    why: str = ""
    short: str = ""
    recording_sha256: str = ""
    answer_sha256: str = ""
    version: str = ""

    @property
    def told(self) -> str:
        """The answer, and its reason if that is short."""
        return f"{self.answer}: {self.short}" if self.short else self.answer

    @property
    def is_sheet(self) -> bool:
        return self.code == 0

    @property
    def is_refused(self) -> bool:
        return self.code not in (None, 0)


@dataclass(frozen=True)
class Changes:
    """Names of recordings: new, gone, and answered otherwise than in the last run that came to its end."""

    new: list[str]
    gone: list[str]
    other: list[str]


@dataclass(frozen=True)
class Result:
    """What a run comes to."""

    entries: list[Entry]
    passed_over: list[tuple[str, str]]
    changes: Changes | None

    @property
    def status(self) -> int:
        if any(entry.code is None for entry in self.entries):
            return 2
        return 1 if any(entry.is_refused for entry in self.entries) else 0


def _sha256(contents: bytes) -> str:
    return hashlib.sha256(contents).hexdigest()


def _same(a: Path, b: Path) -> bool:
    return a.exists() and b.exists() and a.samefile(b)


def _survey(folder: Path, out: Path) -> tuple[list[str], list[tuple[str, str]]]:
    """The recordings of the folder by name, without `.pla`, and what is passed over, with the reason."""
    names, passed = [], []
    try:
        found = sorted(os.listdir(folder))
    except OSError as error:
        raise could_not("read", folder, error) from error
    for name in found:
        path = folder / name
        if path.is_dir():
            if not _same(path, out):
                passed.append((name, "a folder"))
        elif name.endswith(".pla") and name != ".pla":
            names.append(name[: -len(".pla")])
        else:
            passed.append((name, "its name does not end in .pla"))
    return names, passed


class Archive:
    """A folder of answers, which one run at a time writes."""

    def __init__(self, folder: Path, out: Path, say: Progress) -> None:
        self.folder, self.out, self.say = folder, out, say
        self.own = out / OWN
        self.names, self.passed = _survey(folder, out)
        if not self.names:
            raise CouldNot(f"no recording (*.pla) in {texts.shown_name(os.fspath(folder))}")
        self.version = f"{desks.version()} archive {FORM}"
        self._claim()

    # ---- the folder of answers

    def _claim(self) -> None:
        """Makes the folder ours, for one run at a time, and clears what a broken-off run left half done."""
        try:
            self.out.mkdir(parents=True, exist_ok=True)
            if self.out.samefile(self.folder):
                raise CouldNot("OUT must not be FOLDER itself; a folder inside it is fine")
            if not self.own.is_dir() and any(self.out.iterdir()):
                raise CouldNot(f"{texts.shown_name(os.fspath(self.out))} holds files that no archive run made; give a new or an empty folder")
            self.own.mkdir(exist_ok=True)
            self._lock = open(self.own / "lock", "wb")
        except OSError as error:
            raise could_not("write to", self.out, error) from error
        try:
            fcntl.flock(self._lock, fcntl.LOCK_EX | fcntl.LOCK_NB)
        except OSError:
            raise CouldNot(f"another run writes to {texts.shown_name(os.fspath(self.out))}") from None
        for half in self.own.glob("half-*"):
            half.unlink(missing_ok=True)

    def _answer(self, name: str) -> Path:
        return self.out / f"{name}.out"

    def _record(self, name: str) -> Path:
        """Where the entry of a recording is kept: by the digest of its name, so that no name can meet another file."""
        return self.own / f"entry-{_sha256(os.fsencode(name))}.json"

    def _kept(self, name: str, digest: str) -> Entry | None:
        """The entry of an answer that stands, made by this library from a recording with this digest."""
        try:
            entry = Entry(**json.loads(self._record(name).read_text("utf-8")))
            answer = self._answer(name).read_bytes()
        except (OSError, ValueError, TypeError):
            return None
        true = (entry.name, entry.recording_sha256, entry.version, entry.answer_sha256)
        return entry if true == (name, digest, self.version, _sha256(answer)) else None

    def _store(self, entry: Entry, printed: bytes) -> None:
        # The record first: an answer without its record would not be known as ours, and one that is not the record's is made anew.
        write_whole(self._record(entry.name), json.dumps(asdict(entry)).encode(), self.own)
        write_whole(self._answer(entry.name), printed, self.own)

    def _drop(self, name: str) -> None:
        try:
            self._answer(name).unlink(missing_ok=True)
        except OSError as error:
            raise could_not("replace", self._answer(name), error) from error

    # ---- a run

    def run(self, workers: int) -> Result:
        """Answers what has no true answer yet, and writes the tables."""
        for table in TABLES:
            (self.out / table).unlink(missing_ok=True)
        kept, left = {}, []
        for name in self.names:
            entry = self._look(name)
            if entry is None:
                left.append(name)
            else:
                kept[name] = entry
        self.say.begin(len(self.names), kept.values())
        try:
            entries = {**kept, **self._answer_all(left, workers)}
        finally:
            self.say.end()
        result = Result([entries[name] for name in self.names], [*self.passed, *self._orphans()], self._changes(entries))
        self._write_tables(result)
        return result

    def _look(self, name: str) -> Entry | None:
        """The entry of a recording that needs no run. An answer that is not its own goes at once, so that none is left if the run stops."""
        try:
            _, digest = read_recording(self.folder / f"{name}.pla")
        except OSError as error:
            self._drop(name)
            return _unreadable(name, error)
        entry = self._kept(name, digest)
        if entry is None:
            self._drop(name)
        return entry

    def _answer_all(self, names: list[str], workers: int) -> dict[str, Entry]:
        """Each worker has a desk of its own. The first failure stops all."""
        own, entries, stop = threading.local(), {}, threading.Event()
        opened: list[Desk] = []

        def work(name: str) -> None:
            if stop.is_set():
                return
            if not hasattr(own, "desk"):
                own.desk = Desk()
                opened.append(own.desk)
            entry = self._make(name, own.desk)
            entries[name] = entry
            self.say.answered(entry)

        with ThreadPoolExecutor(max_workers=max(1, min(workers, len(names)))) as pool:
            try:
                futures = [pool.submit(work, name) for name in names]
                for future in wait(futures, return_when=FIRST_EXCEPTION).done:
                    future.result()
            finally:
                stop.set()
                for desk in opened:
                    desk.close()
        return entries

    def _make(self, name: str, desk: Desk) -> Entry:
        try:
            text, digest = read_recording(self.folder / f"{name}.pla")
        except OSError as error:
            return _unreadable(name, error)
        outcome = sheet(text, desk=desk)
        entry = _entry(name, text, outcome, desk)
        entry = replace(entry, recording_sha256=digest, answer_sha256=_sha256(outcome.printed), version=self.version)
        self._store(entry, outcome.printed)
        return entry

    # ---- what is told at the end

    def _orphans(self) -> list[tuple[str, str]]:
        """Answers in OUT whose recording is gone. They stay: the recording may come back."""
        answers = {f"{name}.out" for name in self.names}
        ours = {OWN, *TABLES}
        others = sorted(name for name in os.listdir(self.out) if name not in answers | ours and not _same(self.out / name, self.folder))
        return [(f"{self.out.name}/{name}", "an answer without a recording" if name.endswith(".out") else "no file of this run") for name in others]

    def _changes(self, entries: dict[str, Entry]) -> Changes | None:
        """Against the last run that came to its end."""
        try:
            last = json.loads((self.own / "last.json").read_text("utf-8"))
        except (OSError, ValueError):
            return None
        now = {name: entry.answer_sha256 for name, entry in entries.items()}
        return Changes(
            [name for name in now if name not in last],
            [name for name in last if name not in now],
            [name for name in now if name in last and last[name] != now[name]],
        )

    def _write_tables(self, result: Result) -> None:
        pages = (text_table(result), csv_table(result), html_page(result, self.folder, self.out, self.version))
        for table, page in zip(TABLES, pages):
            write_whole(self.out / table, page, self.own)
        last = {entry.name: entry.answer_sha256 for entry in result.entries}
        write_whole(self.own / "last.json", json.dumps(last).encode(), self.own)


def _unreadable(name: str, error: OSError) -> Entry:
    return Entry(name, answer=f"cannot be read: {error.strerror or error}")


def _entry(name: str, text: bytes, outcome: Outcome, desk: Desk) -> Entry:
    """The row of a recording, from what the library answered."""
    told = outcome.printed.decode("ascii").rstrip("\n")
    if outcome.done:
        relays, rules = sizes(outcome.printed)
        return Entry(name, relays, sum(1 for _ in texts.rows(text)), rules, "sheet, library's room" if outcome.in_library else "sheet", 0, 0)
    explanation = why_refused(text, outcome, desk)
    entry = Entry(name, answer=told, code=outcome.code, place=outcome.place, line=explanation.line, why=explanation.why, short=explanation.short)
    # A text that was not accepted has no sizes to tell.
    rows = [] if outcome.code in (11, 13) else list(texts.rows(text))
    return replace(entry, relays=len(rows[0].cells), rows=len(rows)) if rows else entry


class Progress:
    """How far a run is, on standard error: one line that changes on a terminal, else a line for each recording."""

    def __init__(self, stream: TextIO, clock: Callable[[], float] = time.monotonic) -> None:
        self.stream, self.clock = stream, clock
        self.live = stream.isatty()
        self.lock = threading.Lock()

    def begin(self, total: int, kept: Iterable[Entry]) -> None:
        self.total, self.kept, self.answered_now, self.began = total, 0, 0, self.clock()
        for entry in kept:
            self.kept += 1
            self._tell(entry, " (kept)" if entry.code is not None else "")

    def answered(self, entry: Entry) -> None:
        with self.lock:
            self.answered_now += 1
            self._tell(entry, "")

    def _tell(self, entry: Entry, note: str) -> None:
        done = self.kept + self.answered_now
        left = self.total - done
        if not self.live:
            self._write(f"{done} of {self.total}: {texts.shown_name(entry.name)}.pla: {entry.told}{note}\n")
            return
        seconds = (self.clock() - self.began) / self.answered_now * left if self.answered_now else 0
        about = f", about {seconds:.0f} s" if self.answered_now and left else ""
        self._write(f"\r\x1b[K{done} of {self.total} recordings, {left} left{about}")

    def end(self) -> None:
        """What is said next begins a line."""
        if self.live:
            self._write("\n")

    def _write(self, what: str) -> None:
        try:
            self.stream.write(what.encode("utf-8", "replace").decode("utf-8"))
            self.stream.flush()
        except (OSError, ValueError):
            pass


def archive(folder: Path, out: Path, errors: TextIO) -> Result:
    """Runs over a folder, on all processors that it may use."""
    if not folder.is_dir():
        raise CouldNot(f"no folder {texts.shown_name(os.fspath(folder))}")
    return Archive(folder, out, Progress(errors)).run(len(os.sched_getaffinity(0)))
