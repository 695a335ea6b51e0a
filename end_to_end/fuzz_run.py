"""Runs the program on files, and says what is wrong with its answer.

Two judges say it. The first is a model, written from the pages: it says status, standard output, the line on standard
error and every file that is put, and all of it is compared, to the byte. The second are the promises that
docs/use/FORMATS.md and docs/use/MESSAGES.md make of every answer. They are asked of every answer, and stand alone if no
model can say what is right:

- the status is one of those that FORMATS has, so no signal ended the program;
- with status 0 nothing is on standard error, otherwise one line, of a form that MESSAGES has for this status;
- with another status than 0 standard output is empty, but for the lines of `network jitter` before J2; it is whole;
- after a refusal all files are as they were, and no `.new-` file is ever left.
"""
import re
import shutil
import subprocess
from collections.abc import Callable
from dataclasses import dataclass, field
from itertools import zip_longest
from pathlib import Path
from typing import Any

SECONDS = 60  # to answer in; none takes one
NAME = "[A-Za-z0-9_-]{1,16}"
ROW = "(port|link) [0-9]+"
PLACE = f"(top|{ROW})"
TOP_KEY = "version|constant|latency_us|port|link"
ROW_KEY = "id|mbit|buffer|max_delay_us|from|to|bag_ms|jitter_us|max_size|priority|police"
TABLE = [
    "C2 Toml", f"C3 UnknownKey, {PLACE}", f"C4 MissingKey, {ROW}, ({ROW_KEY})",
    f"C(5 Kind|6 Range), {PLACE}, ({TOP_KEY}|{ROW_KEY})", "C7 Constant", "C8 TwicePort, port [0-9]+",
    "C(9 TwiceLink|10 NoSuchPort|11 ToEmpty|12 ToTwice|13 ToOwnPort), link [0-9]+", "C14 TooMany, (port|link)"]
CAPTURE = [
    "P(2 NoHeader|3 Magic|4 Version|5 LinkType [0-9]+)(, port [0-9]+)?",
    "P(6 CutHeader|7 Huge|8 Fraction|9 Late|10 Backwards|11 CutData)(, port [0-9]+)?, record [0-9]+"]
LOAD = ["L(1 Rate|2 Buffer|3 HighDelay|4 LowDelay), port [0-9]+, need [0-9]+, limit [0-9]+"]
TEXTS = [
    "G1 Toml", "G2 UnknownKey, (top|(switch|wire) [0-9]+)", "G2 MissingKey, (switch|wire) [0-9]+, (name|table|from|to)",
    "G2 (Kind|Range), (top|(switch|wire) [0-9]+), (version|one_line|switch|wire|name|table|least_latency_us|from|to|delay_ns|down)",
    "G3 TwiceSwitch, switch [0-9]+", f"G3 Latency, switch {NAME}", "G3 (NoSuchSwitch|TwiceFrom|TwiceTo|OwnPort|NoSuchPort), wire [0-9]+",
    "G4 (Constant|Speed), wire [0-9]+", "G(5 NoRow|6 From|7 Size|7 Bag|7 Police), wire [0-9]+, link [0-9]+",
    f"G8 NoSource, switch {NAME}, link [0-9]+", "G9 TwiceSource, link [0-9]+"]


def rows(rule: str, numbers: str) -> str:
    """Gives the form of the lines of rows that one rule refuses: each row's, up to 100, and one for the rest."""
    return f"{rule}, {numbers}(\nafdx: network {rule}, {numbers}){{0,99}}(\nafdx: network {rule}, and [1-9][0-9]* more)?"


NETWORK = [
    rows("J1 Jitter", f"switch {NAME}, link [0-9]+, need [0-9]+, has [0-9]+"),
    rows("J2 NoJitter", f"switch {NAME}, link [0-9]+, need [0-9]+"),
    f"R2 Line, switch {NAME}, port [0-9]+, record [0-9]+"]
DEVICE = ["(get|put) (?s:.+)", "read", "write"]


def form(word: str, forms: list[str], end: str = "") -> str:
    """Gives the form of a line that begins so."""
    return f"afdx: {word} ({'|'.join(forms)}){end}\n"


SWITCH = f"(, switch {NAME})?"
FORMS = {
    0: "", 2: "afdx: usage\n",
    3: "|".join([form("table", TABLE, SWITCH), form("capture", CAPTURE, SWITCH), form("network", TEXTS)]),
    4: "|".join([form("load", LOAD, SWITCH), form("network", NETWORK)]),
    5: "|".join([form("device", DEVICE), "afdx: memory\n"])}

Files = dict[str, bytes]


@dataclass
class Answer:
    """What a run of the program came to, or has to come to."""
    status: int
    out: bytes = b""
    line: bytes = b""
    files: Files = field(default_factory=dict)  # all that are there then; of a model, those that are put

    def kind(self) -> str:
        """Says it in a word: the letter and number of a refusal, if there is one."""
        words = self.line.decode(errors="replace").replace(",", "").split()[1:]
        return next((word for word in words if re.fullmatch("[A-Z][0-9]+", word)), words[0] if words else "done")


@dataclass
class Trial:
    """A run that is to be made."""
    arguments: list[str]
    files: Files
    judge: Callable[[], Answer | None]  # says what is right; None if no model can
    stdin: bytes = b""
    folders: list[str] = field(default_factory=list)


def refusal(refused: Any, out: str = "") -> Answer:
    """Gives the answer that a `model.Refused` stands for."""
    return Answer(refused.status, out.encode(), refused.line.encode() + b"\n")


def put(room: Path, files: Files) -> None:
    for name, data in files.items():
        (room / name).parent.mkdir(parents=True, exist_ok=True)
        (room / name).write_bytes(data)


def lay_out(room: Path, trial: Trial) -> None:
    """Writes the files and makes the folders of a run."""
    for name in trial.folders:
        (room / name).mkdir(parents=True, exist_ok=True)
    put(room, trial.files)


def files_in(room: Path) -> Files:
    return {str(path.relative_to(room)): path.read_bytes() for path in room.rglob("*") if path.is_file()}


def made(program: str, trial: Trial, room: Path) -> Answer:
    """Makes a run in a folder that is made for it."""
    room.mkdir()
    try:
        lay_out(room, trial)
        words = [program, *trial.arguments]
        done = subprocess.run(words, cwd=room, input=trial.stdin, capture_output=True, timeout=SECONDS, check=False)
        return Answer(done.returncode, done.stdout, done.stderr, files_in(room))
    finally:
        shutil.rmtree(room)


def broken_promises(trial: Trial, answer: Answer) -> list[str]:
    """Says what no answer may be."""
    faults = []
    if not re.fullmatch(FORMS.get(answer.status, "no line").encode(), answer.line):
        faults.append(f"status {answer.status} with the line {answer.line!r:.300}")
    if answer.status and answer.out and b" J2 " not in answer.line:
        faults.append("something on standard output beside a refusal")
    if trial.arguments[0] != "alone" and answer.out and not answer.out.endswith(b"\n"):
        faults.append("standard output is not whole")
    if answer.status in (2, 3, 4) and answer.files != trial.files:
        faults.append("other files after a refusal")
    if any(".new-" in name for name in answer.files):
        faults.append("a .new- file is left")
    return faults


def difference(got: bytes, right: bytes) -> str:
    """Says in which line two texts differ first."""
    pairs = zip_longest(got.splitlines(), right.splitlines())
    lines = (f"{one!r:.200}, where the model has {other!r:.200}" for one, other in pairs if one != other)
    return next(lines, "other line ends than the model's")


def differences(trial: Trial, wanted: Answer, answer: Answer) -> list[str]:
    """Says where an answer is another than a model's."""
    faults = []
    if answer.status != wanted.status:
        faults.append(f"status {answer.status}, where the model has {wanted.status}")
    faults += [difference(got, right) for got, right in ((answer.line, wanted.line), (answer.out, wanted.out))
               if got != right]
    files = trial.files | wanted.files
    names = sorted(files.keys() | answer.files.keys())
    return faults + [f"{name} is another file" for name in names if files.get(name) != answer.files.get(name)]


def faults_of(trial: Trial, wanted: Answer | None, answer: Answer) -> list[str]:
    """Says what is wrong with an answer."""
    return broken_promises(trial, answer) + (differences(trial, wanted, answer) if wanted else [])
