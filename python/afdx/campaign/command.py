"""Runs the command afdx-campaign."""
import argparse
import os
import time
from collections.abc import Sequence
from pathlib import Path
from typing import TYPE_CHECKING, NoReturn

from afdx import modules
from afdx.campaign.answers import answered, digest, forget, forget_outdated, left_of
from afdx.campaign.engines import Options, engine_of
from afdx.campaign.failures import COMMAND, gone
from afdx.campaign.plan import get_plan, put_plan, tasks_of
from afdx.campaign.progress import Progress, speed
from afdx.campaign.settings import Campaign, read_campaign
from afdx.campaign.worker.program import end_all
from afdx.campaign.worker.questions import remove_parts
from afdx.campaign.worker.task import Task
from afdx.failure import Failure, failing_of, tell

if TYPE_CHECKING:
    from afdx.campaign.report import Sums

DONE, FAULTS = 0, 1
RECENT = 300  # seconds whose answers say how fast it is


def main(arguments: Sequence[str]) -> int:
    """Does what the arguments ask for."""
    options = options_of(arguments)
    modules.need(COMMAND, "jinja2", "matplotlib", "numpy")
    try:
        status: int = options.do(read_campaign(options.campaign), options)
        return status
    except SystemExit:  # by a signal
        end_at_once(gone("interrupted"))


def end_at_once(failure: Failure) -> NoReturn:
    """Tells of a failure and ends as a kill does, with all threads and the children that they wait for, and with what
    these began.

    An interpreter that ends in good order beside threads that work crashes now and then.
    """
    end_all()
    tell(*failure.lines)
    os._exit(failure.status)


def options_of(arguments: Sequence[str]) -> argparse.Namespace:
    """Reads the command line."""
    parser = argparse.ArgumentParser(
        prog=COMMAND, description="Runs afdx over the recordings of a campaign.",
        epilog="Exit status 0: all is answered; 1: all is answered, and some answers are faults; 2: usage; 3: the "
               "campaign file; 4: a table is refused; 5: a file fails, or the program or an engine can't be run; 6: "
               "interrupted, or the engine is gone, and the same command goes on; 70: a defect of this command.")
    commands = parser.add_subparsers(required=True, metavar="COMMAND")

    def command(name: str, do: object, text: str) -> argparse.ArgumentParser:
        made = commands.add_parser(name, help=text, description=text)
        made.add_argument("campaign", type=Path, metavar="CAMPAIGN.toml")
        made.set_defaults(do=do)
        return made

    made = command("run", run, "Answers what has no answer yet, and makes the page")
    made.add_argument("--engine", default="local", metavar="ENGINE",
                      help="local: threads of this process; tcp://HOST:PORT, tls://HOST:PORT: Dask; slurm[:PARTITION]")
    made.add_argument("-j", "--jobs", type=at_least_one, default=os.cpu_count() or 1, metavar="N",
                      help="tasks at once of local, jobs at once of slurm; as many as there are processors by default")
    made.add_argument("--dry", action="store_true", help="only say what there is to do")
    command("status", status, "Says how many tasks are answered, and how fast").add_argument(
        "--digest", action="store_true", help="print a hash of all that the answers say, too")
    command("page", page, "Makes the page of the answers that are there")
    command("again", again, "Forgets answers, so that `run` asks again").add_argument(
        "--status", type=int, required=True, metavar="N", help="those of this status")
    return parser.parse_args(arguments)


def at_least_one(text: str) -> int:
    """Reads a number from 1."""
    if not text.isdecimal() or int(text) < 1:
        raise argparse.ArgumentTypeError(f"{text} is no number from 1")
    return int(text)


def run(campaign: Campaign, options: argparse.Namespace) -> int:
    """Has the engine do what is left, and reports."""
    engine = engine_of(options.engine)
    tasks = tasks_of(campaign)
    left = left_of(campaign.root, tasks)
    if options.dry:
        size = sum(tasks[number].recording.size for number in left)
        print(f"{len(tasks)} tasks, {len(tasks) - len(left)} answered, {len(left)} left, of {size / 1e6:,.1f} MB")
        return DONE
    put_plan(campaign, tasks)
    forget_outdated(campaign.root, tasks)
    try:
        with Progress(campaign.root / "campaign.log", tasks, left) as progress:
            engine(tasks, left, Options(campaign.root, options.engine, options.jobs, campaign.limits.patience,
                                        progress.note))
    except (Failure, OSError) as error:  # an engine's threads may be at work
        end_at_once(error if isinstance(error, Failure) else failing_of(COMMAND, error))
    remove_parts(campaign.root)
    sums = report(campaign, tasks)
    if sums.left:  # another driver, or `again`, has forgotten answers meanwhile
        raise gone(f"{sums.left} of {sums.tasks} tasks have no answer any more")
    return FAULTS if sums.faults else DONE


def status(campaign: Campaign, options: argparse.Namespace) -> int:
    """Says how far a campaign is."""
    tasks = get_plan(campaign)
    there = [(task.recording.size, answer) for task, answer in answered(campaign.root, tasks)]
    failed = sum(1 for _, answer in there if answer["status"])
    left = sum(task.recording.size for task in tasks) - sum(size for size, _ in there)
    now = time.time()
    recent = [(size, answer["how"]["at"]) for size, answer in there if answer["how"]["at"] > now - RECENT]
    rate = speed(sum(size for size, _ in recent), left, now - min((at for _, at in recent), default=now - RECENT))
    print(f"{len(tasks)} tasks, {len(there)} answered, {failed} of them faults, {len(tasks) - len(there)} left, {rate}")
    if options.digest:
        print(f"digest {digest(campaign.root, tasks)}")
    return DONE


def page(campaign: Campaign, options: argparse.Namespace) -> int:
    """Makes the page of what there is."""
    return FAULTS if report(campaign, get_plan(campaign)).faults else DONE


def again(campaign: Campaign, options: argparse.Namespace) -> int:
    """Forgets the answers of a status."""
    forgotten = forget(campaign.root, get_plan(campaign), options.status)
    print(f"{forgotten} answers of status {options.status} forgotten")
    return DONE


def report(campaign: Campaign, tasks: list[Task]) -> "Sums":
    """Makes the page and the files beside it, and says what there is."""
    from afdx.campaign.report import put_report  # what draws takes longer than the other commands

    sums = put_report(campaign.file.name, campaign.root, tasks)
    print(f"{sums.tasks} tasks, {sums.answers} answered, {sums.faults} of them faults, {sums.left} left: "
          f"{os.path.relpath(campaign.root / 'campaign.html')}")
    return sums
