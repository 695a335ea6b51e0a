"""Runs the program afdx and says how far it is."""
import contextlib
import os
import shutil
import subprocess
import sys
import time
from dataclasses import dataclass
from pathlib import Path

from afdx import signals
from afdx.failure import DEVICE, Failure, failing

PACKAGE = Path(__file__).resolve().parent
TURN = 0.5  # seconds between two words on the terminal


class Progress:
    """Keeps a line on a terminal that says what is being done, and for how long."""

    def __init__(self, command: str) -> None:
        self.command = command
        self.began = time.monotonic()
        self.shown = sys.stderr.isatty()

    def say(self, what: str) -> None:
        if self.shown:
            sys.stderr.write(f"\r\033[K{self.command}: {what}, {time.monotonic() - self.began:.0f} s so far ")
            sys.stderr.flush()

    def clear(self) -> None:
        if self.shown:
            sys.stderr.write("\r\033[K")
            sys.stderr.flush()


@dataclass
class Answer:
    """What the program printed for some arguments, and how it ended."""
    status: int
    said: str
    line: str  # on standard error, without its line feed; several where rows of a network are refused one by one


def beside(package: Path) -> list[Path]:
    """Returns where the program is if it came with this package: in its repository, in the folder of the .tar.gz, or
    installed by the .deb."""
    tree = package.parents[1]
    installed = [tree.parent / "bin" / "afdx"] if tree.name == "share" else []
    return [tree / "crates" / "afdx" / "out" / "afdx", tree / "bin" / "afdx", *installed]


def find_program() -> str | None:
    """Finds the program, the first of these that is there: what AFDX in the environment names; the repository's own
    build, crates/afdx/out/afdx, where these commands are in a repository; where they came in a package the program of
    this package, bin/afdx of the .tar.gz, /usr/bin/afdx of the .deb; afdx on the path."""
    if named := os.environ.get("AFDX"):
        return named
    return next((str(file) for file in beside(PACKAGE) if os.access(file, os.X_OK)), None) or shutil.which("afdx")


class Program:
    """The program afdx, run for a command: that of a file if one is named."""

    def __init__(self, command: str, file: str | None = None) -> None:
        found = file or find_program()
        if not found:
            raise Failure(DEVICE, f"{command}: no program afdx: build it by ./demo --proved, put it on the path, "
                                  "or name it in AFDX")
        self.file = found
        self.progress = Progress(command)

    def ask(self, *arguments: str | os.PathLike[str]) -> Answer:
        """Runs the program over these arguments. Fails only where it cannot be run."""
        words = [os.fspath(argument) for argument in arguments]
        process = None
        try:
            with signals.held():
                process = self.begin(words)
            said, line = self.wait(process, "afdx " + " ".join(words[:2] if words[0] == "network" else words[:1]))
        finally:
            if process:
                process.kill()  # it goes on only if this command has to end before it
                process.wait()
        status = process.returncode if process.returncode >= 0 else 128 - process.returncode
        return Answer(status, os.fsdecode(said), os.fsdecode(line).removesuffix("\n"))

    def begin(self, words: list[str]) -> subprocess.Popen[bytes]:
        try:
            return subprocess.Popen([self.file, *words], stdout=subprocess.PIPE, stderr=subprocess.PIPE)
        except OSError as error:
            raise failing(self.progress.command, f"cannot run {self.file}", error) from error

    def wait(self, process: subprocess.Popen[bytes], what: str) -> tuple[bytes, bytes]:
        """Returns what a process prints until it ends."""
        try:
            while True:
                self.progress.say(what)
                with contextlib.suppress(subprocess.TimeoutExpired):
                    return process.communicate(timeout=TURN)
        finally:
            self.progress.clear()

    def answer(self, *arguments: str | os.PathLike[str]) -> str:
        """Returns what the program prints; if it fails, its line and its status end the command."""
        answer = self.ask(*arguments)
        if answer.status:
            raise Failure(answer.status, answer.line)
        return answer.said
