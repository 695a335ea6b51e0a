"""Does the tasks by threads of the driver, each with one child at a time: one that is killed is a status, no more."""
import os
import threading
from collections.abc import Callable, Iterator, Sequence
from contextlib import contextmanager
from queue import Empty, SimpleQueue

from afdx.campaign.engines import Options
from afdx.campaign.failures import failure
from afdx.campaign.worker.task import Task
from afdx.campaign.worker.work import Outcome, work_hard
from afdx.failure import DEVICE

SHARE = 0.8  # of the machine's memory, for all tasks together
PAUSE = 1.0  # seconds between looks


class Memory:
    """The memory that tasks share. One that needs more than there is has all of it."""

    def __init__(self, size: int) -> None:
        self.size = self.free = size
        self.changed = threading.Condition()

    @contextmanager
    def taken(self, need: int) -> Iterator[None]:
        """Waits until so much is free, and takes it."""
        need = min(need, self.size)
        with self.changed:
            self.changed.wait_for(lambda: need <= self.free)
            self.free -= need
        try:
            yield
        finally:
            with self.changed:
                self.free += need
                self.changed.notify_all()


def run(tasks: Sequence[Task], left: Sequence[int], options: Options) -> None:
    """Does what is left by threads of this process. They hold up nobody who ends it: their children end with them."""
    memory = Memory(int(SHARE * os.sysconf("SC_PAGE_SIZE") * os.sysconf("SC_PHYS_PAGES")))
    waiting = iter(left)
    taking = threading.Lock()
    done: SimpleQueue[tuple[int, Outcome | Exception]] = SimpleQueue()

    def work() -> None:
        while True:
            with taking:
                number = next(waiting, None)
            if number is None:
                return
            done.put((number, outcome_of(tasks[number], memory)))

    begin(work, min(options.jobs, len(left)))
    for _ in left:
        number, outcome = next_of(done, options)
        if isinstance(outcome, Exception):
            raise outcome
        options.note(tasks[number], outcome)


def begin(work: Callable[[], None], count: int) -> None:
    """Begins so many threads. A system that gives fewer would not give their children either."""
    try:
        for _ in range(count):
            threading.Thread(target=work, daemon=True).start()
    except RuntimeError as error:
        raise failure(DEVICE, f"cannot begin {count} threads: {error}") from error


def outcome_of(task: Task, memory: Memory) -> Outcome | Exception:
    """Does a task; what it raises is for the thread that waits."""
    try:
        with memory.taken(task.memory):
            return work_hard(task)
    except Exception as error:
        return error


def next_of(done: SimpleQueue[tuple[int, Outcome | Exception]], options: Options) -> tuple[int, Outcome | Exception]:
    """Waits for the next task that is done."""
    while True:
        try:
            return done.get(timeout=PAUSE)
        except Empty:
            options.note(None, None)
