"""How a command ends, and what it began with it."""
import os
import signal
import subprocess
import sys
from pathlib import Path

import pytest

from afdx import signals

COMMAND = """
import sys, tempfile, time
from afdx.failure import Failure, run

def main(arguments):
    if arguments:
        raise Failure(3, "command: one", "command: two")
    with tempfile.TemporaryDirectory(dir="."):
        print("there", flush=True)
        time.sleep(60)

sys.exit(run(main))
"""

# a command with a defect
DEFECT = """
import sys
from afdx.failure import run

sys.exit(run(lambda arguments: len(arguments) // 0))
"""

# a command that something fails for which it does not look
FAILING = """
import os, sys
from afdx.failure import Failure, run

def fail(arguments):
    {0}

sys.exit(run(fail))
"""

# a command that two signals end at once
TWICE = """
import signal, sys
from afdx.failure import run

def main(arguments):
    signal.pthread_sigmask(signal.SIG_BLOCK, (signal.SIGINT, signal.SIGTERM))
    signal.raise_signal(signal.SIGINT)
    signal.raise_signal(signal.SIGTERM)
    signal.pthread_sigmask(signal.SIG_UNBLOCK, (signal.SIGINT, signal.SIGTERM))

sys.exit(run(main))
"""

# a command that runs a program, and takes long from the program's first word to its own next step
RUNNING = """
import subprocess, sys, time
from afdx.failure import run
from afdx.program import Program

class Slow(subprocess.Popen):
    def __init__(self, *words, **options):
        super().__init__(*words, **options)
        time.sleep(1)

subprocess.Popen = Slow
sys.exit(run(lambda arguments: len(Program("command").ask("check").said)))
"""

# a command whose signal comes while pandas reads
READING = """
import os, signal, sys
import pandas
from afdx.failure import run

class Source:
    def read(self, size=-1):
        os.kill(os.getpid(), signal.SIGTERM)

    def __iter__(self):
        return iter(())

sys.exit(run(lambda arguments: len(pandas.read_csv(Source()))))
"""


def take_signals() -> None:
    """Has signals not ignored, as they are in a process in the background."""
    for number in signals.ENDING:
        signal.signal(number, signal.SIG_DFL)


def begun(folder: Path, command: str, *arguments: str) -> "subprocess.Popen[str]":
    environment = {"PYTHONPATH": str(Path(__file__).parents[1]), "AFDX": "./afdx", "PATH": os.environ["PATH"]}
    return subprocess.Popen([sys.executable, "-c", command, *arguments], cwd=folder, stdout=subprocess.PIPE,
                            stderr=subprocess.PIPE, text=True, env=environment, preexec_fn=take_signals)


def test_a_failure(tmp_path: Path) -> None:
    process = begun(tmp_path, COMMAND, "fail")
    assert process.communicate() == ("", "command: one\ncommand: two\n")
    assert process.returncode == 3


def test_a_defect(tmp_path: Path) -> None:
    """Checks that a defect is told apart from status 1, which means that something was found."""
    process = begun(tmp_path, DEFECT)
    assert "ZeroDivisionError" in process.communicate()[1]
    assert process.returncode == 70


@pytest.mark.parametrize("what, said", [
    ("open('none')", "cannot read or write none: No such file or directory"),
    ("raise OSError(28, 'No space left on device')", "cannot go on: No space left on device"),
    ("bytes(1 << 62)", "memory")])
def test_a_device_that_fails_is_no_defect(tmp_path: Path, what: str, said: str) -> None:
    process = begun(tmp_path, FAILING.format(what))
    assert process.communicate() == ("", f"-c: {said}\n")
    assert process.returncode == 5


def test_words_that_the_locale_lacks(tmp_path: Path) -> None:
    """Checks that characters that the locale lacks are told by their numbers, and bytes of a name of a file as they
    are."""
    for words, told in ((r"'K\u00fcche \u65e5'", rb"K\xfcche \u65e5"), ("os.fsdecode(bytes([255]))", b"\xff")):
        environment = {"LC_ALL": "C", "PYTHONUTF8": "0", "PYTHONCOERCECLOCALE": "0"}
        done = subprocess.run([sys.executable, "-c", FAILING.format(f"raise Failure(3, {words})")], cwd=tmp_path,
                              capture_output=True, env=environment | {"PYTHONPATH": str(Path(__file__).parents[1])})
        assert (done.returncode, done.stdout, done.stderr) == (3, b"", told + b"\n")


@pytest.mark.parametrize("number", [signal.SIGINT, signal.SIGTERM, signal.SIGHUP])
def test_a_signal(tmp_path: Path, number: signal.Signals) -> None:
    """Checks that nothing is left and nothing is printed, though the signal comes twice."""
    with begun(tmp_path, COMMAND) as process:
        assert process.stdout and process.stdout.readline() == "there\n"
        process.send_signal(number)
        process.send_signal(number)
        assert process.communicate() == ("", "")
    assert process.returncode == 128 + number
    assert list(tmp_path.iterdir()) == []


def test_two_signals_at_once(tmp_path: Path) -> None:
    with begun(tmp_path, TWICE) as process:
        assert process.communicate() == ("", "")
    assert process.returncode == 128 + signal.SIGINT


def test_a_signal_while_pandas_reads(tmp_path: Path) -> None:
    with begun(tmp_path, READING) as process:
        assert process.communicate() == ("", "")
    assert process.returncode == 128 + signal.SIGTERM


def test_a_signal_while_a_program_is_begun(tmp_path: Path) -> None:
    """Checks that the program that was being begun is ended all the same."""
    program = tmp_path / "afdx"
    program.write_text('#!/bin/sh\necho $$ >process\nkill -TERM $PPID\nexec sleep 60\n')
    program.chmod(0o755)
    with begun(tmp_path, RUNNING) as process:
        assert process.communicate() == ("", "")
    assert process.returncode == 128 + signal.SIGTERM
    with pytest.raises(ProcessLookupError):
        os.kill(int((tmp_path / "process").read_text()), 0)


# a command that prints what it found, or its help
PRINTING = """
import argparse, sys
from afdx.failure import run

def main(arguments):
    argparse.ArgumentParser(prog="command").parse_args(arguments)
    print("found")
    return 1

sys.exit(run(main))
"""


def ended(folder: Path, redirection: str, *arguments: str, unbuffered: str = "") -> tuple[int, str]:
    """Returns the status and standard error of the printing command, of which a shell redirected the streams."""
    environment = {"PYTHONPATH": str(Path(__file__).parents[1]), "PATH": os.environ["PATH"],
                   "PYTHONUNBUFFERED": unbuffered}
    words = ["sh", "-c", f'exec "$@" {redirection}', "sh", sys.executable, "-c", PRINTING, *arguments]
    done = subprocess.run(words, cwd=folder, stderr=subprocess.PIPE, stdout=subprocess.DEVNULL, text=True,
                          env=environment)
    return done.returncode, done.stderr


@pytest.mark.parametrize("unbuffered", ["", "1"])
@pytest.mark.parametrize("arguments", [(), ("--help",)])
@pytest.mark.parametrize("redirection, why", [(">&-", "Bad file descriptor"),
                                              (">/dev/full", "No space left on device")])
def test_an_output_that_takes_nothing(tmp_path: Path, redirection: str, why: str, arguments: tuple[str, ...],
                                      unbuffered: str) -> None:
    """Checks that the failure is that of a device, whether the command printed its answer or its help."""
    status, said = ended(tmp_path, redirection, *arguments, unbuffered=unbuffered)
    assert (status, said) == (5, f"-c: cannot write standard output: {why}\n")


def test_an_error_stream_that_takes_nothing(tmp_path: Path) -> None:
    """Checks that the status is as with an error stream that takes all."""
    code = FAILING.format("raise Failure(3, 'command: one')")
    with open("/dev/full", "wb") as full:
        done = subprocess.run([sys.executable, "-c", code], cwd=tmp_path, stderr=full,
                              env={"PYTHONPATH": str(Path(__file__).parents[1])})
    assert done.returncode == 3


@pytest.mark.parametrize("redirection", ["2>&-", "<&- 2>&-"])
def test_an_error_stream_that_is_closed(tmp_path: Path, redirection: str) -> None:
    """Checks that the status is as with an error stream that is open."""
    assert ended(tmp_path, redirection) == (1, "")
    assert ended(tmp_path, redirection, "--no-such-option") == (2, "")


@pytest.mark.parametrize("command", ["campaign", "diff", "icd", "import", "skew", "view"])
def test_each_help_says_what_a_status_means(command: str) -> None:
    path = Path(__file__).resolve().parents[1] / "bin" / f"afdx-{command}"
    said = subprocess.run([sys.executable, str(path), "--help"], check=True, capture_output=True, text=True).stdout
    assert "Exit status 0: " in " ".join(said.split())
