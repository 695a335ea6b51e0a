"""Does a task: asks its question and puts the answer."""
from __future__ import annotations

import contextlib
import errno
import gzip
import json
import os
import signal
import socket
import time
import traceback
import zlib
from dataclasses import dataclass
from pathlib import Path
from typing import TypedDict

from afdx.campaign.worker.captures import CHANGED, DEVICE, GARBLED, INPUT, Refused, check_captures, check_listed
from afdx.campaign.worker.files import put, scratch_folder
from afdx.campaign.worker.program import TIMED_OUT, Program, Said, Used
from afdx.campaign.worker.questions import ask, keep
from afdx.campaign.worker.rows import ROOM, Rows, check_bounds, check_room, check_whole, rows_of
from afdx.campaign.worker.stamps import first_stamp
from afdx.campaign.worker.task import FORM, Task, content_of, signs_of, table_identity

LOST = 137  # as of a process that was killed
LONGEST = 30.0  # seconds between two tries of a task
AGAIN = ("device", "memory", "timeout", "signal", "program")  # faults of which another try may rid the task
PASSING = (*AGAIN, "changed")  # faults that another worker of the task may not meet: they leave what is kept

MOST = 1000  # letters of a line that are kept
CONTROLS = {number: f"\\x{number:02x}" for number in (*range(32), *range(127, 160))} | {9: " ", 10: " ", 13: " "}

PROGRAMS: dict[tuple[str, tuple[int, ...]], str] = {}  # the hash of each, by what tells whether it was written


@dataclass(frozen=True)
class Outcome:
    """What became of a try. Without an answer the task has to be tried again."""
    status: int
    answered: bool


class How(TypedDict):
    """Who found an answer, and at what cost."""
    seconds: float
    processor: float  # seconds
    memory: int  # bytes
    tries: int
    host: str
    at: float  # seconds after 1970


class Answer(TypedDict):
    """What the file of an answer has: a function of the task, but for `how`."""
    form: int
    key: str
    recording: str
    size: int  # bytes
    table: str
    ask: str
    status: int
    fault: str  # its kind; empty if there is none
    line: str
    text: str  # comma-separated values
    begin: int | None  # ns after 1970
    how: How


def work(task: Task, attempt: int) -> Outcome:
    """Does a task unless its answer is there. A fault that may pass is an answer in the last try alone.

    Outputs are kept before the answer is put, so an answer that is there has all of them.
    """
    if task.answer.exists():
        return Outcome(status_of(task.answer), True)
    with scratch_folder(task.scratch) as scratch:
        program = Program(task.program, task.timeout, address_space(task.memory), scratch)
        try:
            said, rows = asked(task, program, scratch)
            fault = fault_of(said)
        except Refused as refused:
            fault, said, rows = refused.fault, Said(refused.status, "", refused.line), None
        if fault in AGAIN and attempt < task.tries:
            return Outcome(said.status, False)
        if task.answer.exists():  # another worker's, as what is kept is
            return Outcome(status_of(task.answer), True)
        if task.keep != "none" and fault not in PASSING:
            keep(task, scratch, rows)
    if fault == "changed":
        note_change(task)
    put_answer(task, said, fault, program.used, attempt)
    return Outcome(said.status, True)


def work_hard(task: Task) -> Outcome:
    """Does a task for an engine that has many others: what nobody foresaw of this one ends none of them. A file that
    fails may be one that all need."""
    try:
        return work_often(task)
    except OSError:
        raise
    except Exception as error:
        with contextlib.suppress(OSError):
            traceback.print_exc()
        put_lost(task, f"{type(error).__name__}: {error}")
        return Outcome(status_of(task.answer), True)


def work_often(task: Task) -> Outcome:
    """Does a task in as many tries as it has."""
    for attempt in range(1, task.tries):
        outcome = work(task, attempt)
        if outcome.answered:
            return outcome
        time.sleep(min(LONGEST, 0.1 * 2 ** min(attempt, 9)))  # of more a float has no room for the power
    return work(task, task.tries)


def asked(task: Task, program: Program, scratch: Path) -> tuple[Said, Rows | None]:
    """Asks of a recording that is whole and stays as it is, as program and table do that the plan has; returns the rows
    of an answer with it."""
    check_captures(task.recording)
    before = looks(task)
    said = ask(task, program, scratch)
    check_listed(task.recording)
    check_planned(task)
    changed = [what for what, look in looks(task).items() if look != before[what]]
    if changed:  # so that another one may have been read
        raise Refused("changed", CHANGED, f"the {' and the '.join(changed)} changed meanwhile, and changed back")
    return said, None if said.status else checked_rows(task, said)


def looks(task: Task) -> dict[str, list[object]]:
    """Returns what tells whether recording, program and table were written, if only to be again as they were: of a
    recording, which something may link or archive meanwhile, sizes and times alone."""
    recording = task.recording
    return {"recording": [*signs_of(recording.folder, recording.files, by_content=False)],
            "program": [look(task.program)], "table": [look(file) for file in task.table.files]}


def look(path: str) -> tuple[int, ...]:
    """Returns what tells whether a file was written or renamed; nothing if it is not there."""
    try:
        return written(path)
    except OSError:
        return ()


def written(path: str) -> tuple[int, ...]:
    """Returns size and times of a file: also one that is given its old time of change has another one of its status."""
    status = os.stat(path)
    return status.st_size, status.st_mtime_ns, status.st_ctime_ns


def check_planned(task: Task) -> None:
    """Refuses a program or a table that is not the one that was listed."""
    try:
        changed = [what for what, now, planned in (
            ("program", program_identity(task.program), task.program_identity),
            ("table", table_identity(task.table.files), task.table.identity)) if now != planned]
    except OSError as error:
        raise Refused("program", DEVICE, f"cannot read {error.filename}: {error.strerror}") from error
    if changed:
        raise Refused("changed", CHANGED, f"the {' and the '.join(changed)} changed since the tasks were listed")


def checked_rows(task: Task, said: Said) -> Rows:
    """Returns the rows of an answer. What no afdx prints is refused, so that the store can read all that is one."""
    recorded = {os.path.dirname(file) for file in task.recording.files}  # the switches that have captures
    spans = set() if task.ask == "run" else set(task.table.switches or ("",))
    try:
        rows = rows_of(said.text)
        check_room(rows)
        check_whole(rows, recorded, spans)
        if not task.table.unchecked:
            check_bounds(rows)
    except ValueError as error:
        raise Refused("garbled", GARBLED, f"the program printed what no afdx prints, {error}") from error
    return rows


def fault_of(said: Said) -> str:
    """Returns the kind of a fault; empty if there is none."""
    kinds = {0: "", INPUT: "capture", DEVICE: "memory" if said.line == "afdx: memory" else "device",
             TIMED_OUT: "timeout", 126: "program", 127: "program"}
    return kinds.get(said.status, "signal" if 128 < said.status < 128 + signal.NSIG else "refused")


def address_space(memory: int) -> int:
    """Returns the most address space of a child of so much expected memory: it is more than what is touched."""
    return 2 * memory + (256 << 20)


def program_identity(path: str) -> str:
    """Returns the hash of the program, taken once as long as the file is not written."""
    version = (path, written(path))
    if version not in PROGRAMS:
        PROGRAMS[version] = content_of(path)
    return PROGRAMS[version]


def put_answer(task: Task, said: Said, fault: str, used: Used, tries: int) -> None:
    """Puts an answer."""
    recording, table = task.recording, task.table
    answer: Answer = {
        "form": FORM, "key": task.key, "recording": recording.name, "size": recording.size, "table": table.name,
        "ask": task.ask, "status": said.status, "fault": fault, "line": shown(said.line), "text": said.text,
        "begin": first_stamp(os.path.join(recording.folder, file) for file in recording.files),
        "how": {"seconds": used.seconds, "processor": used.processor, "memory": used.memory, "tries": tries,
                "host": socket.gethostname(), "at": time.time()}}
    text = json.dumps(answer, separators=(",", ":")).encode()
    put(task.answer, lambda file: file.write(gzip.compress(text, 6, mtime=0)))


def shown(line: str) -> str:
    """Returns a line as files and terminals take it: one, without control characters, and not too long."""
    plain = line.translate(CONTROLS)
    return plain if len(plain) <= MOST else f"{plain[:MOST]} .."


def changes_folder(root: str | Path) -> Path:
    """Returns the folder that has a file for each answer `changed`, by its key."""
    return Path(root, "changed")


def note_change(task: Task) -> None:
    """Notes that the answer will be `changed`, so that `run` finds it among all: of the task it is not true for good.

    Noted first: a worker that is killed in between leaves a note without an answer, and no answer without its note.
    """
    folder = changes_folder(task.root)
    folder.mkdir(parents=True, exist_ok=True)
    (folder / task.key).touch()


def put_lost(task: Task, line: str) -> None:
    """Puts the fault of a task that ended each worker which tried it, unless one of another driver answered it."""
    if not task.answer.exists():
        put_answer(task, Said(LOST, "", line), "lost", Used(), task.tries)


def answer_at(path: Path) -> Answer:
    """Reads an answer. One that something has damaged ends the command with its name, so that it can be removed."""
    try:
        with gzip.open(path) as file:
            answer: Answer = json.load(file)
        check_answer(answer, path)
        return answer
    except (EOFError, LookupError, TypeError, ValueError, RecursionError, zlib.error, gzip.BadGzipFile) as error:
        raise OSError(errno.EIO, "damaged: remove it, and `run` asks again", str(path)) from error


def check_answer(answer: Answer, path: Path) -> None:
    """Raises LookupError, TypeError or ValueError if this is no answer, or that of another key."""
    how = answer["how"]
    numbers = [answer["status"], answer["begin"] or 0, how["memory"], how["tries"]]
    measured = [how["seconds"], how["processor"], how["at"]]
    texts = [answer["fault"], answer["line"], answer["text"], how["host"]]
    if not (all(isinstance(value, int) for value in numbers) and all(isinstance(value, str) for value in texts)
            and all(isinstance(value, (int, float)) for value in measured)):
        raise TypeError
    if not all(abs(value) < ROOM for value in (*numbers, *measured)) or answer["key"] != path.name.partition(".")[0]:
        raise ValueError


def status_of(path: Path) -> int:
    """Returns the status of an answer."""
    return answer_at(path)["status"]
