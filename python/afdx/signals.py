"""Ends a command after a signal, so that what it began is removed on the way out."""
import signal
from collections.abc import Iterator
from contextlib import contextmanager
from dataclasses import dataclass
from types import FrameType

ENDING = (signal.SIGINT, signal.SIGTERM, signal.SIGHUP)


@dataclass
class Waiting:
    """Whether signals have to wait, and the one that does."""
    waits: bool = False
    number: int | None = None


waiting = Waiting()


def pass_over(*_: object) -> None:
    """Takes a signal that comes while the command ends."""


def end(number: int, _: FrameType | None = None) -> None:
    """Ends the command, with no traceback; no further signal disturbs that."""
    if waiting.waits:
        waiting.number = number
        return
    for ending in ENDING:
        signal.signal(ending, pass_over)
    signal.raise_signal(number)  # has Python take all that came at once: of one that is ignored it prints a traceback
    for ending in ENDING:
        signal.signal(ending, signal.SIG_IGN)
    raise SystemExit(128 + number)  # not sys.exit, whose exception pandas cannot raise again while it reads


def end_by_signals() -> None:
    """Has the command end by `end` after the signals that were not to be ignored when it began."""
    for number in ENDING:
        if signal.getsignal(number) is not signal.SIG_IGN:
            signal.signal(number, end)


@contextmanager
def held() -> Iterator[None]:
    """Has a signal wait to the end of the context, in which something is begun that has to be ended too."""
    waiting.waits = True
    try:
        yield
    finally:
        waiting.waits = False
        if waiting.number is not None:
            end(waiting.number)
