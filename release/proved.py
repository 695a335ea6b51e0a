#!/usr/bin/env python3
"""Runs a command that builds the program with its proofs, which the program then says of itself.

    proved.py COMMAND..

The last line of crates/afdx/src/version.rt, which `afdx --version` prints, is `not proved`. While the command runs it is `proved`
and git's name of the commit, which ends in `-dirty` if files differ from it; `proved of no commit` where git has none. The line
before it is then what `rt version` prints of the kit that proves. Afterwards both are as before, however the command has ended:
./test and ./demo --proved build the program so, and one that is built otherwise is not said to be proved. The status is the
command's.
"""

import argparse
import signal
import subprocess
import sys
from pathlib import Path

FILE = Path(__file__).resolve().parents[1] / "crates/afdx/src/version.rt"
NOT_PROVED = "not proved"
END = '";\n'
ENDING = (signal.SIGINT, signal.SIGTERM, signal.SIGHUP)


def proved() -> str:
    """Says of which commit a program is proved that is built now."""
    words = ["git", "-C", str(FILE.parent), "describe", "--always", "--dirty", "--abbrev=40", "--exclude=*"]
    try:
        said = subprocess.run(words, capture_output=True, text=True).stdout
    except OSError:  # there is no git
        said = ""
    return f"proved {said.strip()}" if said else "proved of no commit"


def kit() -> str:
    """Says which kit is on the path, if there is one."""
    try:
        return subprocess.run(["rt", "version"], capture_output=True, text=True).stdout.strip()
    except OSError:
        return ""


def parts() -> tuple[str, str]:
    """Reads what comes before the program's last two lines, and the first of them, which names the kit."""
    text = FILE.read_text(encoding="utf-8")
    before, named, last = text.removesuffix(END).rsplit("\n", 2)
    if not text.endswith(END) or not last.startswith((NOT_PROVED, "proved ")):
        sys.exit(f"{FILE} does not end as it should")
    return before, named


def say(before: str, *lines: str) -> None:
    """Has the program say these lines at last."""
    FILE.write_text("\n".join((before, *lines)) + END, encoding="utf-8")


def run(words: list[str]) -> int:
    """Runs a command to its end, with the signals that this process gets, and answers its status."""
    with subprocess.Popen(words) as process:
        for number in ENDING:
            signal.signal(number, lambda number, _: process.send_signal(number))
        status = process.wait()
    return status if status >= 0 else 128 - status


def end(number: int, _: object) -> None:
    """Ends this process in good order, so that the file is as before; no further signal disturbs that."""
    for ending in ENDING:
        signal.signal(ending, signal.SIG_IGN)
    sys.exit(128 + number)


def main() -> None:
    parser = argparse.ArgumentParser(description=__doc__, formatter_class=argparse.RawDescriptionHelpFormatter)
    parser.add_argument("command", nargs=argparse.REMAINDER)
    words = parser.parse_args().command
    if not words:
        parser.error("no command")
    for number in ENDING:
        signal.signal(number, end)
    before, named = parts()
    say(before, named, NOT_PROVED)  # a run that was killed may have left the other
    line = proved()
    try:
        say(before, kit() or named, line)
        status = run(words)
    except OSError as error:
        sys.exit(f"{words[0]}: {error.strerror}")
    finally:
        say(before, named, NOT_PROVED)
    sys.exit(status)


if __name__ == "__main__":
    main()
