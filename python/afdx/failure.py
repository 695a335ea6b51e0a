"""Ends a command early: lines on standard error and an exit status; a traceback only for a defect of the command."""
import contextlib
import os
import sys
import traceback
from collections.abc import Callable, Sequence
from pathlib import Path

from afdx import signals

# The exit statuses of the program afdx, with their meaning.
USAGE = 2
INPUT = 3
LOAD = 4
DEVICE = 5


class Failure(Exception):
    """Ends a command with these lines and this exit status."""

    def __init__(self, status: int, *lines: str) -> None:
        super().__init__(*lines)
        self.status = status
        self.lines = lines


def failing(command: str, what: str, error: OSError) -> Failure:
    """Returns the failure of a device call, with the system's own words."""
    return Failure(DEVICE, f"{command}: {what}: {error.strerror or error}")


def failing_of(command: str, error: OSError) -> Failure:
    """Returns the failure of a device call of which no more is known than the error has."""
    what = "cannot go on" if error.filename is None else f"cannot read or write {error.filename}"
    return failing(command, what, error)


def encoded(text: str) -> bytes:
    """Returns a text as the locale has it, names of files by their own bytes; a text with signs that the locale lacks
    has these by their numbers."""
    try:
        return os.fsencode(text)
    except UnicodeEncodeError:
        return text.encode(sys.getfilesystemencoding(), "backslashreplace")


def take_streams() -> None:
    """Opens the standard streams that are closed, so that no file gets their numbers.

    Nothing can be written on an output that was closed, and nobody reads an error stream that was.
    """
    for number, flags in enumerate((os.O_RDONLY, os.O_RDONLY, os.O_WRONLY)):
        try:
            os.fstat(number)
        except OSError:
            os.open(os.devnull, flags)
    # buffered whatever the environment says, so that a write fails where it is told
    sys.stdout = open(1, "w", encoding=sys.getfilesystemencoding(), errors=sys.getfilesystemencodeerrors(),
                      closefd=False)
    sys.stderr = sys.stderr or open(2, "w", errors="backslashreplace", closefd=False)


def say(command: str, text: str) -> None:
    """Writes a text on standard output, whole."""
    try:
        sys.stdout.buffer.write(encoded(text))
        sys.stdout.flush()
    except OSError as error:
        raise failing(command, "cannot write standard output", error) from error


def run(main: Callable[[Sequence[str]], int]) -> int:
    """Runs a command over the program's arguments; returns its exit status, EX_SOFTWARE of sysexits.h after a defect.

    Python's own status would be 1, which of some commands means that something was found.
    """
    signals.end_by_signals()
    take_streams()
    try:
        return written(main)
    except Failure as failure:
        return ended(failure)
    except OSError as error:
        return ended(failing_of(Path(sys.argv[0]).name, error))
    except MemoryError:
        return ended(Failure(DEVICE, f"{Path(sys.argv[0]).name}: memory"))
    except Exception:
        tell(traceback.format_exc().rstrip("\n"))
        return os.EX_SOFTWARE


def written(main: Callable[[Sequence[str]], int]) -> int:
    """Returns the exit status of a command, once all that it printed is written."""
    try:
        status = main(sys.argv[1:])
    except SystemExit:  # after the help
        say(Path(sys.argv[0]).name, "")
        raise
    say(Path(sys.argv[0]).name, "")
    return status


def ended(failure: Failure) -> int:
    """Tells of a failure; returns its status."""
    tell(*failure.lines)
    with contextlib.suppress(OSError):
        sys.stdout.flush()
    sys.stdout = None  # type: ignore[assignment]  # its closing would fail once more
    return failure.status


def tell(*lines: str) -> None:
    """Writes lines on standard error. Once that takes none, what is kept there would fail again at the end."""
    try:
        sys.stderr.buffer.write(encoded("".join(f"{line}\n" for line in lines)))
        sys.stderr.buffer.flush()
    except OSError:
        sys.stderr = open(os.devnull, "w", encoding="utf-8")
