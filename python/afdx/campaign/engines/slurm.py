"""Has arrays of Slurm do the tasks, each job some of them; polled, in rounds, until all is answered."""
import json
import os
import shlex
import subprocess
import sys
import time
from collections import Counter
from collections.abc import Iterable, Sequence
from dataclasses import asdict
from itertools import chain
from pathlib import Path

import afdx
from afdx import signals
from afdx.campaign.engines import Options
from afdx.campaign.failures import failure, file_failure, gone
from afdx.campaign.worker.files import put_text
from afdx.campaign.worker.task import Task
from afdx.campaign.worker.work import LOST, Outcome, put_lost, status_of
from afdx.failure import DEVICE

JOBS = 1000  # of an array; a Slurm as it comes takes 1001
JOB_TASKS = 50  # a job has no more tasks than this
JOB_BYTES = 1 << 30  # and no more bytes, unless it has one task
PAUSE = 2.0  # seconds between looks
PACKAGE = Path(afdx.__file__).resolve().parents[1]  # of the package; the nodes see it under the same path


def run(tasks: Sequence[Task], left: Sequence[int], options: Options) -> None:
    """Does what is left by arrays, one after the other. A task is a fault once all its tries were in vain."""
    sent: Counter[int] = Counter()
    waiting = list(left)
    while waiting:
        jobs = chunks(tasks, waiting, options.jobs)[:JOBS]
        Round(tasks, jobs, options).run()
        sent.update(chain.from_iterable(jobs))
        waiting = unanswered(tasks, waiting)
        for number in waiting:
            if sent[number] >= tasks[number].tries:
                put_lost(tasks[number], f"{sent[number]} jobs ended before they had answered")
                options.note(tasks[number], Outcome(LOST, True))
        waiting = unanswered(tasks, waiting)


def unanswered(tasks: Sequence[Task], numbers: Iterable[int]) -> list[int]:
    """Returns those of these tasks that have no answer."""
    return [number for number in numbers if not tasks[number].answer.exists()]


def chunks(tasks: Sequence[Task], left: Sequence[int], jobs: int) -> list[list[int]]:
    """Splits what is left, one part for each job: tasks enough that its start counts little, and some for all jobs."""
    most = max(1, min(JOB_TASKS, len(left) // (2 * jobs)))
    parts: list[list[int]] = []
    size = 0
    for number in left:
        size += tasks[number].recording.size
        if not parts or len(parts[-1]) == most or size > JOB_BYTES:
            parts.append([])
            size = tasks[number].recording.size
        parts[-1].append(number)
    return parts


class Round:
    """One array: sent, looked after until no job of it is left, and cancelled if the driver is interrupted."""

    def __init__(self, tasks: Sequence[Task], jobs: list[list[int]], options: Options) -> None:
        self.tasks, self.jobs, self.options = tasks, jobs, options
        self.waiting = list(chain.from_iterable(jobs))
        self.file = options.root / "rounds" / f"{time.time_ns()}-{os.getpid()}.jsonl"
        self.seen = time.monotonic()  # when Slurm answered last

    def run(self) -> None:
        """Sends the array and waits for its end."""
        lines = (json.dumps([asdict(self.tasks[number]) for number in job]) for job in self.jobs)
        put_text(self.file, "".join(f"{line}\n" for line in lines))
        array = ""
        try:
            with signals.held():  # so that an array that is queued is known, and cancelled
                array = self.submit()
            while self.is_queued(array):
                time.sleep(PAUSE)
                self.note()
        except SystemExit:  # by a signal
            if not array or self.cancelled(array):
                self.file.unlink()
            raise
        self.note()
        self.file.unlink()

    def submit(self) -> str:
        """Has Slurm queue the array; returns its number. A percent sign of a path is no pattern, and a path that is not
        UTF-8 goes there as it is. A Ctrl-C ends no sbatch, which may have queued the array."""
        need = max(self.tasks[number].memory for number in self.waiting)
        partition = self.options.address.partition(":")[2]
        command = ["sbatch", "--parsable", "--requeue", "--ntasks=1", "--job-name=afdx-campaign",
                   f"--array=0-{len(self.jobs) - 1}%{self.options.jobs}", f"--mem={-(-need // (1 << 20))}M",
                   f"--output={self.options.root}/slurm.log".replace("%", "%%"), "--open-mode=append",
                   *([f"--partition={partition}"] if partition else [])]
        try:
            said = subprocess.run(command, input=self.script(), capture_output=True, errors="surrogateescape",
                                  check=False, process_group=0)
        except OSError as error:
            raise file_failure("run sbatch", error) from error
        if said.returncode:
            raise failure(DEVICE, f"sbatch: {said.stderr.strip()}")
        return said.stdout.strip().partition(";")[0]

    def cancelled(self, array: str) -> bool:
        """Has Slurm cancel the array; returns whether it does, so that no job needs the round any more."""
        return subprocess.run(["scancel", array], capture_output=True, check=False).returncode == 0

    def script(self) -> str:
        """Returns what a job runs."""
        python, package, file = (shlex.quote(str(path)) for path in (sys.executable, PACKAGE, self.file))
        return (f"#!/bin/sh\nexport PYTHONPATH={package} PYTHONDONTWRITEBYTECODE=1\n"
                f"exec {python} -m afdx.campaign.worker {file} \"$SLURM_ARRAY_TASK_ID\"\n")

    def is_queued(self, array: str) -> bool:
        """Returns whether a job of the array waits or runs. Slurm may be away, and forgets what has ended."""
        said = subprocess.run(["squeue", "--noheader", "--format=%T", f"--jobs={array}"], capture_output=True,
                              text=True, check=False)
        if said.returncode == 0 or "Invalid job id" in said.stderr:
            self.seen = time.monotonic()
            return bool(said.stdout.strip())
        if time.monotonic() - self.seen > self.options.patience:
            raise gone(f"Slurm is gone: {said.stderr.strip()}")
        return True

    def note(self) -> None:
        """Notes the tasks that were answered since the last look."""
        left = set(unanswered(self.tasks, self.waiting))
        for number in self.waiting:
            if number not in left:
                self.options.note(self.tasks[number], Outcome(status_of(self.tasks[number].answer), True))
        self.waiting = [number for number in self.waiting if number in left]
        self.options.note(None, None)
