"""Puts files, and makes folders for temporary files that a kill does not leave for ever."""
from __future__ import annotations

import contextlib
import fcntl
import os
import shutil
import tempfile
import time
from collections.abc import Callable, Iterator
from pathlib import Path
from typing import IO, Any, BinaryIO

from afdx.files import put_by

SCRATCH = ".afdx-campaign-scratch-"  # no user's own folder begins so: what no maker holds is removed
NEW, OLD = 3600, 86400  # seconds, by clocks that may differ


def put(path: Path, write: Callable[[BinaryIO], object]) -> None:
    """Puts a whole file, in folders that are made if they are not there."""
    path.parent.mkdir(parents=True, exist_ok=True)
    put_by(path, write)


def put_text(path: Path, text: str) -> None:
    """Puts a text."""
    put(path, lambda file: file.write(text.encode("utf-8", "surrogateescape")))


def put_copy(source: Path, path: Path) -> None:
    """Puts a copy of a file. The lock of what is not whole yet is held until that has its name."""
    with contextlib.ExitStack() as stack:
        read = stack.enter_context(open(source, "rb"))

        def write(file: BinaryIO) -> None:
            held = os.fdopen(os.dup(file.fileno()))
            lock(stack.enter_context(held), fcntl.LOCK_EX)
            shutil.copyfileobj(read, file, 1 << 20)

        put(path, write)


@contextlib.contextmanager
def marked(path: Path, mark: bytes) -> Iterator[None]:
    """Writes a mark, and has it stay: who writes another one waits, who wants the same does not. A kill may leave it
    empty."""
    path.parent.mkdir(parents=True, exist_ok=True)
    with open(path, "a+b") as file:
        lock(file, fcntl.LOCK_SH)
        while file.seek(0) or file.read() != mark:
            lock(file, fcntl.LOCK_EX)
            file.truncate(0)
            file.write(mark)
            file.flush()
            lock(file, fcntl.LOCK_SH)
        yield


def lock(file: IO[Any], how: int) -> None:
    """Waits for the lock of a file, if its file system has locks: else nobody gets one."""
    with contextlib.suppress(OSError):
        fcntl.flock(file, how)


def remove_left(path: Path) -> None:
    """Removes what `put_copy` left when it was killed: its lock is free. A new one that is empty may get it yet."""
    with contextlib.suppress(OSError), open(path, "r+b") as file:
        fcntl.flock(file, fcntl.LOCK_EX | fcntl.LOCK_NB)
        status = os.fstat(file.fileno())
        if status.st_size or status.st_mtime < time.time() - NEW:
            path.unlink()


def remove_old(path: Path) -> None:
    """Removes what `put` left when it was killed; it holds no lock, so what another worker may be putting yet stays."""
    with contextlib.suppress(OSError):
        if path.stat().st_mtime < time.time() - OLD:
            path.unlink()


@contextlib.contextmanager
def locked(folder: str | Path, how: int = fcntl.LOCK_EX) -> Iterator[None]:
    """Holds the lock of a folder; it is let go when the process ends, however that comes."""
    lock = os.open(folder, os.O_RDONLY | os.O_DIRECTORY)
    try:
        fcntl.flock(lock, how)
        yield
    finally:
        os.close(lock)


@contextlib.contextmanager
def scratch_folder(parent: str) -> Iterator[Path]:
    """Makes a folder for temporary files, whose lock its maker holds, and removes those whose maker is gone."""
    os.makedirs(parent, exist_ok=True)
    with contextlib.ExitStack() as stack:
        with locked(parent):
            sweep(parent)
            made = Path(tempfile.mkdtemp(prefix=SCRATCH, dir=parent))
            stack.callback(shutil.rmtree, made, ignore_errors=True)
            stack.enter_context(locked(made))
        yield made


def sweep(parent: str) -> None:
    """Removes the folders whose lock nobody holds."""
    for left in Path(parent).glob(f"{SCRATCH}*"):
        with contextlib.suppress(OSError), locked(left, fcntl.LOCK_EX | fcntl.LOCK_NB):
            shutil.rmtree(left, ignore_errors=True)
