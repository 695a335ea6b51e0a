"""Finds the engine that does the tasks: a function `run(tasks, left, options)`, which ends once all is answered.

A task may be done more than once, by whomever: its answer is one file, put by a rename.
"""
import re
from collections.abc import Callable, Sequence
from dataclasses import dataclass
from importlib import import_module
from pathlib import Path

from afdx import modules
from afdx.campaign.failures import COMMAND, failure
from afdx.failure import USAGE
from afdx.campaign.worker.task import Task
from afdx.campaign.worker.work import Outcome

ENGINES = {r"local": "local", r"(tcp|tls)://[^/]+:\d+": "dask", r"slurm(:.+)?": "slurm"}  # by the form of the address

Note = Callable[[Task | None, Outcome | None], None]


@dataclass(frozen=True)
class Options:
    """What an engine is told beside the tasks."""
    root: Path
    address: str
    jobs: int  # tasks at once on this machine; of Slurm, jobs at once
    patience: float  # seconds that a scheduler may be away
    note: Note  # is called with each task that is answered, and with none while all wait


Engine = Callable[[Sequence[Task], Sequence[int], Options], None]


def engine_of(address: str) -> Engine:
    """Returns the engine of an address."""
    for form, name in ENGINES.items():
        if re.fullmatch(form, address):
            if name == "dask":
                modules.need(COMMAND, "distributed")
            engine: Engine = import_module(f"{__name__}.{name}").run
            return engine
    raise failure(USAGE, f"engine {address} is none of local, tcp://HOST:PORT, tls://HOST:PORT, slurm[:PARTITION]")
