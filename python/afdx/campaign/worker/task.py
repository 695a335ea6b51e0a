"""Has the tasks of a campaign: each is a pure function of its recording, its table, its program and its question."""
from __future__ import annotations

import hashlib
import json
import os
import stat
from collections.abc import Iterable
from dataclasses import dataclass
from pathlib import Path
from typing import Any

FORM = 2  # of an answer; another form makes other keys
PIECE = 1 << 20
MISSING, IRREGULAR = "missing", "no regular file"  # what a capture may be


@dataclass(frozen=True)
class Recording:
    """Captures of the same time: port-K.pcap in a folder, or SWITCH/port-K.pcap of a network."""
    name: str
    folder: str
    files: tuple[str, ...]  # below the folder
    size: int  # bytes of all files
    by_content: bool
    identity: str


@dataclass(frozen=True)
class Table:
    """A configuration table, or a network file with the tables that it names."""
    name: str
    files: tuple[str, ...]  # the table, or the network file and then its tables
    switches: tuple[str, ...]  # of a network; none of a table
    unchecked: bool
    identity: str


@dataclass(frozen=True)
class Task:
    """One question about one recording under one table."""
    root: str
    program: str
    program_identity: str
    recording: Recording
    table: Table
    ask: str  # survey, run or trace
    keep: str  # which outputs are kept: none, policed or all
    scratch: str  # the folder for temporary files
    tries: int
    timeout: float  # seconds that a child of the task may take
    memory: int  # bytes that it is expected to take

    @property
    def key(self) -> str:
        """Returns the name of the answer: all that the answer is a function of, and nothing else. If outputs are kept,
        they lie by the table's name."""
        parts = [FORM, self.program_identity, self.recording.identity, self.table.identity, self.table.unchecked,
                 self.ask, self.keep, *([] if self.keep == "none" else [self.table.name])]
        return hashlib.sha256(json.dumps(parts).encode()).hexdigest()

    @property
    def answer(self) -> Path:
        """Returns the file of the answer."""
        return Path(self.root, "answers", self.key[:2], f"{self.key}.json.gz")


def task_of(fields: dict[str, Any]) -> Task:
    """Returns the task of an object of JSON."""
    fields = dict(fields)
    for name, kind in (("recording", Recording), ("table", Table)):
        values = {key: tuple(value) if isinstance(value, list) else value for key, value in fields[name].items()}
        fields[name] = kind(**values)
    return Task(**fields)


def content_of(path: str | Path) -> str:
    """Hashes a file's bytes."""
    digest = hashlib.sha256()
    with open(path, "rb") as file:
        while piece := file.read(PIECE):
            digest.update(piece)
    return digest.hexdigest()


def identity_of(name: str, folder: str, files: tuple[str, ...], by_content: bool) -> str:
    """Returns the identity of a recording as it is now."""
    return identity_by(name, files, signs_of(folder, files, by_content))


def identity_by(name: str, files: tuple[str, ...], signs: Iterable[str | OSError]) -> str:
    """Hashes a recording's name and the signs of its files, or why one cannot be read: that is a fault of this
    recording, and in no other's way."""
    digest = hashlib.sha256(name.encode("utf-8", "surrogateescape"))
    for file, sign in zip(files, signs):
        said = sign if isinstance(sign, str) else str(sign.strerror)
        digest.update(f"\n{file} {said}".encode())
    return digest.hexdigest()


def signs_of(folder: str, files: tuple[str, ...], by_content: bool) -> list[str | OSError]:
    """Returns what tells each file of a recording from another one of its name."""
    return [sign_of(os.path.join(folder, file), by_content) for file in files]


def sign_of(path: str, by_content: bool) -> str | OSError:
    """Returns size and time of change of a capture, or a hash of its bytes; or that it is none, which is not opened; or
    why it cannot be read."""
    try:
        status = os.stat(path)
        if not stat.S_ISREG(status.st_mode):
            return IRREGULAR
        return content_of(path) if by_content else f"{status.st_size} {status.st_mtime_ns}"
    except (FileNotFoundError, NotADirectoryError):
        return MISSING
    except OSError as error:
        return error


def table_identity(files: tuple[str, ...]) -> str:
    """Hashes the bytes of the files of a table or a network, in order."""
    return hashlib.sha256("\n".join(map(content_of, files)).encode()).hexdigest()
