#!/usr/bin/env python3
"""Runs a command whose standard error is a terminal, and keeps what that was sent.

    terminal.py --folder FOLDER [--both] [--pause SECONDS] COMMAND..

FOLDER/screen.txt has what stands on the terminal at the end, FOLDER/lines.txt each text that was written over another one, in its
order. The status is the command's.
"""
import argparse
import os
import pty
import signal
import subprocess
import sys
import threading
import time
from pathlib import Path

MEGABYTE = 1_000_000
ERASE = "\x1b[K"


def arguments() -> argparse.Namespace:
    parser = argparse.ArgumentParser(description="Runs a command whose standard error is a terminal")
    parser.add_argument("--folder", type=Path, required=True, help="what was sent goes there")
    parser.add_argument("--both", action="store_true", help="standard output is the same terminal")
    parser.add_argument("--pause", type=float, metavar="SECONDS", help="the command is stopped for so long once it has read a megabyte")
    parser.add_argument("command", nargs=argparse.REMAINDER)
    return parser.parse_args()


def received(terminal: int) -> bytes:
    """Reads what a terminal is sent until nobody has it open any more, which is an error of the system."""
    sent = b""
    while True:
        try:
            piece = os.read(terminal, 65_536)
        except OSError:
            return sent
        if not piece:
            return sent
        sent += piece


def has_read(process: int) -> int:
    """Returns how many bytes a process has read by calls of the system."""
    words = Path(f"/proc/{process}/io").read_text(encoding="ascii").split()
    return int(words[words.index("rchar:") + 1])


def pause(command: subprocess.Popen[bytes], seconds: float) -> None:
    """Stops a command for so long once it has read a megabyte."""
    while has_read(command.pid) < MEGABYTE and command.poll() is None:
        time.sleep(0.001)
    command.send_signal(signal.SIGSTOP)
    time.sleep(seconds)
    command.send_signal(signal.SIGCONT)


def screen(sent: str) -> list[str]:
    """Returns the lines of a terminal that was sent this text: a carriage return goes to a line's begin, and ERASE erases it from there
    on."""
    lines = []
    for line in sent.split("\r\n"):
        shown: list[str] = []
        for text in line.split("\r"):
            if text.startswith(ERASE):
                shown, text = [], text.removeprefix(ERASE)
            shown[:len(text)] = text
        lines.append("".join(shown))
    return lines


def main() -> None:
    options = arguments()
    ours, theirs = pty.openpty()
    output = theirs if options.both else None
    sent: list[bytes] = []
    with subprocess.Popen(options.command, stdout=output, stderr=theirs) as command:
        os.close(theirs)
        reader = threading.Thread(target=lambda: sent.append(received(ours)))
        reader.start()
        if options.pause is not None:
            pause(command, options.pause)
        status = command.wait()
        reader.join()
    text = sent[0].decode("ascii")
    options.folder.mkdir(exist_ok=True)
    (options.folder / "screen.txt").write_text("\n".join(screen(text)), encoding="ascii")
    texts = [piece.removeprefix(ERASE).strip() for piece in text.split("\r")]
    written = [piece for piece in texts if piece]
    (options.folder / "lines.txt").write_text("".join(f"{line}\n" for line in written), encoding="ascii")
    sys.exit(status)


if __name__ == "__main__":
    main()
