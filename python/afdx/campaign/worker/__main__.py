"""Does the tasks of one job of a round: python3 -m afdx.campaign.worker ROUND NUMBER.

ROUND is a file with a line for each job, which is a list of tasks; NUMBER counts from 0.
"""
from __future__ import annotations

import json
import sys
from itertools import islice

from afdx.campaign.worker.task import task_of
from afdx.campaign.worker.work import work_hard


def main(path: str, number: str) -> None:
    """Does the tasks one after the other."""
    with open(path, encoding="utf-8") as file:
        line = next(islice(file, int(number), None))
    for task in map(task_of, json.loads(line)):
        work_hard(task)


if __name__ == "__main__":
    main(*sys.argv[1:])
