"""Has the workers of a Dask scheduler do the tasks.

The code goes along by value, so that the workers need the program, the folders and Debian's python3-distributed alone.
The scheduler knows of a few tasks for each thread, never of all.
"""
from __future__ import annotations

import logging
import sys
import time
from collections import Counter
from collections.abc import Sequence
from concurrent.futures import CancelledError
from dataclasses import asdict
from typing import Any

import cloudpickle
from distributed import Client, Future, Security, wait

from afdx import files
from afdx.campaign import worker
from afdx.campaign.engines import Options
from afdx.campaign.failures import failure, gone
from afdx.campaign.worker.task import Task, task_of
from afdx.campaign.worker.work import Outcome, put_lost, work
from afdx.failure import DEVICE

MEMORY = "MEM"  # the resource of a worker, in bytes, if it has one
AHEAD = 4  # tasks for each thread that the scheduler knows of
PAUSE = 2.0  # seconds between looks


def run(tasks: Sequence[Task], left: Sequence[int], options: Options) -> None:
    """Does what is left by the workers of the scheduler."""
    for module in (worker, files, sys.modules[__name__]):
        cloudpickle.register_pickle_by_value(module)
    for name in ("distributed", "tornado"):  # what they have to say of a scheduler that is gone is said in one line
        logging.getLogger(name).setLevel(logging.CRITICAL + 1)
    with connected(options) as client:
        Window(client, tasks, left, options).run()


def connected(options: Options) -> Client:
    """Returns a client of the scheduler, whose versions are those of the driver."""
    security = Security()
    if options.address.startswith("tls:") and security.get_connection_args("client")["ssl_context"] is None:
        raise failure(DEVICE, f"{options.address} needs certificates, as distributed.comm.tls of Dask's configuration")
    try:
        client = Client(options.address, security=security, timeout=options.patience)
    except OSError as error:
        raise gone(f"no engine at {options.address}") from error
    try:
        client.get_versions(check=True)
    except ValueError as error:
        raise failure(DEVICE, f"the versions at {options.address} differ: {' '.join(str(error).split())}") from error
    return client


def tried(fields: dict[str, Any], attempt: int) -> tuple[int, bool]:
    """Tries a task on a worker. What goes there and comes back are plain words, so that no class has to be there."""
    outcome = work(task_of(fields), attempt)
    return outcome.status, outcome.answered


class Window:
    """The tasks that the scheduler knows of, and those that wait for a place among them."""

    def __init__(self, client: Client, tasks: Sequence[Task], left: Sequence[int], options: Options) -> None:
        self.client, self.tasks, self.options = client, tasks, options
        self.queue = list(reversed(left))
        self.running: dict[Future, int] = {}
        self.tries: Counter[int] = Counter()
        self.seen = time.monotonic()  # when the scheduler and a worker were there last

    def run(self) -> None:
        """Keeps the window full until all is answered."""
        while self.queue or self.running:
            done = self.step()
            for future in done:
                self.settle(self.running.pop(future), future)
            if not done:
                self.options.note(None, None)

    def step(self) -> set[Future]:
        """Submits what there is room for, and waits a moment; returns the futures that came to an end.

        Never by `as_completed`, which waits for ever once the scheduler is gone. `wait` asks the default client, and
        fails at once if there is none. A client that gave up raises a bare Exception, so it is not the kind of error
        that says whether the scheduler is there, but the client's status.
        """
        try:
            self.fill()
            wait(list(self.running), timeout=PAUSE, return_when="FIRST_COMPLETED")
        except Exception:
            if self.client.status == "closed" or time.monotonic() - self.seen > self.options.patience:
                raise gone(f"the engine at {self.options.address} is gone") from None
        return {future for future in self.running if future.status != "pending"}

    def fill(self) -> None:
        """Submits tasks, a few for each thread there is."""
        workers: list[dict[str, Any]] = list(self.client.scheduler_info()["workers"].values())
        if not workers or self.client.status != "running":
            time.sleep(PAUSE)
            raise TimeoutError
        self.seen = time.monotonic()
        memory = max(int(there["resources"].get(MEMORY, 0)) for there in workers)
        room = AHEAD * sum(there["nthreads"] for there in workers)
        while self.queue and len(self.running) < room:
            self.submit(self.queue.pop(), memory)

    def submit(self, number: int, memory: int) -> None:
        """Has a worker try a task, for which it takes memory of a worker if workers say how much they have.

        Each try has a name of its own, since the scheduler remembers what became of a name.
        """
        task = self.tasks[number]
        self.tries[number] += 1
        name = f"afdx-{task.key}-{self.tries[number]}-{time.time_ns()}"
        resources = {MEMORY: min(task.memory, memory)} if memory else None
        self.running[self.client.submit(tried, asdict(task), self.tries[number], key=name, pure=False,
                                        resources=resources)] = number

    def settle(self, number: int, future: Future) -> None:
        """Notes an answer; a try without one is done again, a task that has ended all its workers is a fault."""
        if future.status == "finished":
            self.finished(number, future)
        elif future.status == "error":
            self.lost(number, future.exception())
        else:
            self.ask_again(number)
        future.release()

    def finished(self, number: int, future: Future) -> None:
        """Notes what came back of a try, if its outcome did not go with the scheduler or the worker that had it.

        A scheduler that goes takes it along also between the look at the future and the question for its result.
        """
        try:
            outcome = Outcome(*future.result())
        except (OSError, CancelledError):
            self.ask_again(number)
            return
        if outcome.answered:
            self.options.note(self.tasks[number], outcome)
        else:
            self.queue.append(number)

    def ask_again(self, number: int) -> None:
        """Does a task again of which nothing came back; that was no try. If its answer is there, it is taken."""
        self.tries[number] -= 1
        self.queue.append(number)

    def lost(self, number: int, error: BaseException | None) -> None:
        """Settles a try that ended with its worker, with a file that could not be written or, without an error, with
        the scheduler."""
        task = self.tasks[number]
        if error is None:
            self.ask_again(number)
            return
        if isinstance(error, OSError):
            raise error
        if self.tries[number] < task.tries:
            self.queue.append(number)
            return
        tries = "1 try" if task.tries == 1 else f"{task.tries} tries"
        put_lost(task, f"{tries} ended with the workers: {type(error).__name__}")
        self.options.note(task, Outcome(work(task, task.tries).status, True))
