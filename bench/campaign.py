#!/usr/bin/python3
"""Times what a campaign does with its answers: the store, each question, and the page.

Writes answers of recordings under each of two tables, each with a count of each link and its delays at one port, drawn by
chance; one of a hundred links is policed in one spell. Prints the seconds of processor and of the clock.
"""
import argparse
import csv
import io
import random
import sys
import time
from collections.abc import Callable, Iterable, Iterator
from pathlib import Path
from typing import TypeVar

sys.dont_write_bytecode = True
sys.path.insert(0, str(Path(__file__).resolve().parents[1] / "python"))

from afdx.campaign.findings import QUESTIONS  # noqa: E402
from afdx.campaign.report import put_report  # noqa: E402
from afdx.campaign.store import collected, store_file  # noqa: E402
from afdx.campaign.worker.program import Said, Used  # noqa: E402
from afdx.campaign.worker.task import Recording, Table, Task  # noqa: E402
from afdx.campaign.worker.work import put_answer  # noqa: E402

PORTS = 24
Answer = TypeVar("Answer")
BOUND = 200_000  # ns
HOUR = 3600 * 10**9
SURVEY = ("kind port link priority seen cut short long foreign no-link wrong-port too-big clean passed policed offered full aged sent "
          "least greatest bound slack slack_per_mille occupied buffer at from to least_early greatest_early frames").split()


def rows(chance: random.Random, begin: int, links: int) -> Iterator[dict[str, object]]:
    """Makes up what afdx would say of a recording, row by row."""
    clean = dict.fromkeys(("cut", "short", "long", "foreign", "no-link", "wrong-port", "too-big"), 0)
    for port in range(1, PORTS + 1):
        yield {"kind": "in", "port": port, "seen": 9000, **clean, "clean": 9000}
        for priority in ("high", "low"):
            yield {"kind": "out", "port": port, "priority": priority, "offered": 5000, "full": 0, "aged": 0, "sent": 5000}
        yield {"kind": "buffer", "port": port, "occupied": 1374, "buffer": 16384, "at": begin}
    for link in range(links):
        policed = 20 if chance.random() < 0.01 else 0
        greatest = chance.randrange(20_000, 100_000)
        yield {"kind": "link", "link": link, "passed": 100, "policed": policed}
        yield {"kind": "delays", "port": link % PORTS + 1, "link": link, "sent": 100, "least": 6720, "greatest": greatest,
               "bound": BOUND, "slack": BOUND - greatest, "slack_per_mille": 1000 * (BOUND - greatest) // BOUND}
        if policed:
            yield {"kind": "spell", "link": link, "policed": policed, "from": begin, "to": begin + 10**8,
                   "least_early": 10, "greatest_early": 5_000_000}


def text_of(made: Iterable[dict[str, object]]) -> str:
    """Writes rows below a heading, as `afdx survey --csv` does."""
    text = io.StringIO()
    writer = csv.DictWriter(text, SURVEY, lineterminator="\n")
    writer.writeheader()
    writer.writerows(made)
    return text.getvalue()


def tasks_of(root: Path, recordings: int) -> list[Task]:
    """Makes up the tasks of a campaign that nobody has to run."""
    tables = [Table(name, (), (), False, name) for name in ("before", "after")]
    names = [f"r{number:05}" for number in range(recordings)]
    return [Task(str(root), "", "program", Recording(name, "", (), 10**9, False, name), table, "survey", "none", "", 1, 1.0, 1)
            for table in tables for name in names]


def timed(name: str, do: Callable[[], Answer]) -> Answer:
    """Does it, and prints how long it took."""
    began, used = time.monotonic(), time.process_time()
    done = do()
    print(f"{name}: {time.process_time() - used:.2f} s of processor, {time.monotonic() - began:.2f} s", flush=True)
    return done


def collect(root: Path, tasks: list[Task]) -> None:
    with collected(root, tasks) as base:
        for name in ("delays", "links", "spells"):
            print(f"  {name} {base.execute(f'select count(*) from {name}').fetchone()[0]:,}")


def main() -> None:
    parser = argparse.ArgumentParser(description=__doc__, formatter_class=argparse.RawDescriptionHelpFormatter)
    parser.add_argument("room", type=Path, help="the folder of the answers, which is made")
    parser.add_argument("recordings", type=int, help="how many")
    parser.add_argument("links", type=int, help="of each table")
    given = parser.parse_args()
    root, chance = given.room, random.Random(1)
    root.mkdir(parents=True, exist_ok=True)
    tasks = tasks_of(root, given.recordings)
    for number, task in enumerate(tasks):
        text = text_of(rows(chance, 10**18 + number * HOUR, given.links))
        put_answer(task, Said(0, text, ""), "", Used(5.0, 4.0, 10**9), 1)
    timed("store", lambda: collect(root, tasks))
    print(f"  {store_file(root).stat().st_size / 1e6:.1f} MB")
    with collected(root, tasks) as base:
        for question in QUESTIONS:
            timed(question.name, lambda: question.ask(base))
    timed("all of `afdx-campaign page`", lambda: put_report("campaign", root, tasks))
    print(f"  {(root / 'campaign.html').stat().st_size / 1e6:.1f} MB")


if __name__ == "__main__":
    main()
