"""Says how far a campaign is: in a line on a terminal, else in a log file."""
import contextlib
import time
from collections.abc import Sequence
from pathlib import Path
from typing import Self

from afdx import program
from afdx.campaign.failures import COMMAND
from afdx.campaign.worker.task import Task
from afdx.campaign.worker.work import Outcome

TERMINAL, LOG = 0.5, 10.0  # seconds between lines


class Progress:
    """Counts what is answered, and says so."""

    def __init__(self, log: Path, tasks: Sequence[Task], left: Sequence[int]) -> None:
        self.terminal = program.Progress(COMMAND)
        self.log = log
        self.done = len(tasks) - len(left)
        self.left = len(left)
        self.failed = 0
        self.bytes_done = 0
        self.bytes_left = sum(tasks[number].recording.size for number in left)
        self.began = self.said = time.monotonic()

    def __enter__(self) -> Self:
        return self

    def note(self, task: Task | None, outcome: Outcome | None) -> None:
        """Notes an answer; without one it only says how far it is, if it is time for that."""
        if task is not None and outcome is not None:
            self.done += 1
            self.left -= 1
            self.failed += outcome.status != 0
            self.bytes_done += task.recording.size
            self.bytes_left -= task.recording.size
        now = time.monotonic()
        if now - self.said >= (TERMINAL if self.terminal.shown else LOG):
            self.said = now
            self.say()

    def line(self) -> str:
        """Returns how far it is."""
        rate = speed(self.bytes_done, self.bytes_left, time.monotonic() - self.began)
        return f"done {self.done}, left {self.left}, failed {self.failed}, {rate}"

    def say(self) -> None:
        """Says how far it is."""
        if self.terminal.shown:
            self.terminal.say(self.line())
        else:
            with contextlib.suppress(OSError), open(self.log, "a", encoding="utf-8") as file:  # answers matter more
                file.write(f"{time.strftime('%Y-%m-%d %H:%M:%S')} {self.line()}\n")

    def __exit__(self, *error: object) -> None:
        """Says it for the last time; of the line on a terminal nothing stays."""
        self.terminal.clear()
        if not self.terminal.shown:
            self.say()


def speed(done: int, left: int, seconds: float) -> str:
    """Writes the rate at which recordings were read, and the time that the rest takes at it.

    By the clock of another machine no time may have passed, or less than none.
    """
    rate = done / max(seconds, 1e-3)
    return f"{rate / 1e6:.1f} MB/s, {lasting(left / rate) if rate else '-'} to go"


def lasting(seconds: float) -> str:
    """Writes a time in its two greatest units."""
    minutes, rest = divmod(round(seconds), 60)
    if minutes == 0:
        return f"{rest} s"
    hours, minutes = divmod(minutes, 60)
    return f"{hours} h {minutes} min" if hours else f"{minutes} min {rest} s"
