"""Runs the program afdx as a child of a worker, within the limits of a task, and notes what it used.

`afdx.program` runs it for a command: without limits, and it ends with the command.
"""
from __future__ import annotations

import contextlib
import os
import signal
import subprocess
import tempfile
import threading
import time
from dataclasses import dataclass, field
from pathlib import Path
from typing import IO, NoReturn

TIMED_OUT = 124  # as timeout(1) ends
READ = 4096  # bytes of standard error, at most: what is kept of it is shorter


@dataclass
class Children:
    """Are the children of this process; each is the first of a process group."""
    beginning: set[int] = field(default_factory=set)  # the threads that begin one
    running: set[int] = field(default_factory=set)  # their numbers
    ending: bool = False  # whether this process is about to end, so that none begins


CHILDREN = Children()


@dataclass(frozen=True)
class Said:
    """How a child ended and what it printed. The status is 128 + N after signal N, as a shell has it."""
    status: int
    text: str
    line: str  # of standard error


@dataclass
class Used:
    """What the children of a task used."""
    seconds: float = 0.0
    processor: float = 0.0  # seconds
    memory: int = 0  # bytes, the most of one child


@dataclass
class Program:
    """Runs afdx; each call is one child."""
    path: str
    timeout: float  # seconds
    memory: int  # bytes of address space
    scratch: Path  # the folder for what is printed
    used: Used = field(default_factory=Used)

    def __call__(self, *arguments: str) -> Said:
        with tempfile.TemporaryFile(dir=self.scratch) as text, tempfile.TemporaryFile(dir=self.scratch) as line:
            status = self._run(arguments, text, line)
            text.seek(0)
            line.seek(0)
            said = line.read(READ).decode("utf-8", "surrogateescape").strip()
            if status and not said:
                said = no_room_in(line, self.scratch.parent)
            return Said(status, text.read().decode("ascii", "replace"), said)

    def _run(self, arguments: tuple[str, ...], text: IO[bytes], line: IO[bytes]) -> int:
        began = time.monotonic()
        child = begun([*limits(self.memory), self.path, *arguments], text, line)
        late = threading.Event()

        def end() -> None:
            late.set()
            end_group(child.pid)

        timer = threading.Timer(self.timeout, end)
        try:
            timer.start()
            # the child is not reaped before the timer is over, so its number can be no other process's
            os.waitid(os.P_PID, child.pid, os.WEXITED | os.WNOWAIT)
        finally:
            end_group(child.pid)  # also what a script has begun and left
        timer.cancel()
        timer.join()
        leave(child.pid)
        _, ended, usage = os.wait4(child.pid, 0)
        child.returncode = os.waitstatus_to_exitcode(ended)
        self.used.seconds += time.monotonic() - began
        self.used.processor += usage.ru_utime + usage.ru_stime
        self.used.memory = max(self.used.memory, usage.ru_maxrss * 1024)
        if late.is_set():
            return TIMED_OUT
        return child.returncode if child.returncode >= 0 else 128 - child.returncode


def no_room_in(file: IO[bytes], folder: Path) -> str:
    """Returns why nothing can be written into an empty file, as on a full disk, where a child's own words are lost."""
    try:
        os.write(file.fileno(), b"x")  # no write of `file`, which would try again as it is closed
    except OSError as error:
        return f"cannot write in {folder}: {error.strerror}"
    return ""


def end_group(child: int) -> None:
    """Kills a child that is not reaped, and all that it began which is in its process group."""
    with contextlib.suppress(ProcessLookupError, PermissionError):
        os.killpg(child, signal.SIGKILL)


def begun(words: list[str], text: IO[bytes], line: IO[bytes]) -> subprocess.Popen[bytes]:
    """Begins a child and notes it, unless this process is about to end: then its thread goes no further."""
    thread = threading.get_ident()
    CHILDREN.beginning.add(thread)
    try:
        if not CHILDREN.ending:
            child = subprocess.Popen(words, stdin=subprocess.DEVNULL, stdout=text, stderr=line, start_new_session=True)
            CHILDREN.running.add(child.pid)
            return child
    finally:
        CHILDREN.beginning.discard(thread)
    return stay()


def leave(child: int) -> None:
    """Notes that a child is over. If this process is about to end by a signal, its thread goes no further: what became
    of a child is no answer then."""
    if CHILDREN.ending:
        stay()
    CHILDREN.running.discard(child)


def stay() -> NoReturn:
    """Has a thread go no further, until this process ends."""
    while True:
        threading.Event().wait()


def end_all() -> None:
    """Kills all children with what they began: this process is about to end."""
    CHILDREN.ending = True
    while CHILDREN.beginning:
        time.sleep(0.01)
    for child in list(CHILDREN.running):
        end_group(child)


def limits(memory: int) -> list[str]:
    """Returns the command that sets a child's limits.

    It dies with the thread that started it, also with one that was gone before that was asked for, leaves no core, and
    gets no more address space than this. By util-linux, since code of ours between fork and exec may hang a process
    with threads.
    """
    of_this = ["sh", "-c", '[ "$PPID" = "$0" ] && exec "$@"', str(os.getpid())]
    return ["setpriv", "--pdeathsig", "KILL", *of_this, "prlimit", "--core=0", f"--as={memory}"]
