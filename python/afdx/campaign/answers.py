"""Finds the answers of a campaign in its folder."""
import contextlib
import hashlib
import json
from collections.abc import Iterable, Iterator
from pathlib import Path

from afdx.campaign.worker.files import remove_old
from afdx.campaign.worker.questions import is_kept_of_another
from afdx.campaign.worker.task import Task
from afdx.campaign.worker.work import PASSING, Answer, answer_at, changes_folder

ENDING = ".json.gz"


def keys_there(root: Path) -> set[str]:
    """Returns the keys of all answers that are there."""
    return {path.name.removesuffix(ENDING) for path in root.glob(f"answers/*/*{ENDING}")}


def files_there(root: Path) -> dict[str, str]:
    """Returns, by key, which files the answers are: another answer of a key is another file."""
    found = {}
    for path in root.glob(f"answers/*/*{ENDING}"):
        with contextlib.suppress(FileNotFoundError):  # forgotten at this moment
            status = path.stat()
            found[path.name.removesuffix(ENDING)] = f"{status.st_ino} {status.st_size} {status.st_mtime_ns}"
    return found


def outdated(root: Path, tasks: list[Task]) -> set[str]:
    """Returns the keys of answers that say of a task that something had changed, though all is now as its key says, and
    of those beside which the outputs of another one are kept, unless they leave these."""
    noted = {path.name for path in changes_folder(root).glob("*")}
    found = set()
    for task in tasks:
        another = task.keep != "none" and is_kept_of_another(task)
        if task.key in noted or another:
            with contextlib.suppress(FileNotFoundError):  # a worker may have been killed before it put the answer
                fault = answer_at(task.answer)["fault"]
                found.update([task.key] if fault == "changed" or another and fault not in PASSING else [])
    return found


def forget_outdated(root: Path, tasks: list[Task]) -> None:
    """Removes these answers, and the notes of those that are true now. A worker may have made a new one for an answer
    that it has yet to put."""
    keys = outdated(root, tasks)
    for task in tasks:
        if task.key in keys:
            task.answer.unlink(missing_ok=True)
    noted = {path.name: path for path in changes_folder(root).glob("*")}
    for key in {task.key for task in tasks} & noted.keys() - keys:
        remove_old(noted[key])


def left_of(root: Path, tasks: list[Task]) -> list[int]:
    """Returns the numbers of the tasks that have no answer, or none that is true any more."""
    there = keys_there(root) - outdated(root, tasks)
    return [number for number, task in enumerate(tasks) if task.key not in there]


def answered(root: Path, tasks: Iterable[Task]) -> Iterator[tuple[Task, Answer]]:
    """Returns the tasks that have an answer, each with it."""
    there = keys_there(root)
    for task in tasks:
        if task.key in there:
            yield task, answer_at(task.answer)


def digest(root: Path, tasks: list[Task]) -> str:
    """Returns one hash of all that the answers say, whoever found them, in whatever order and at whatever cost."""
    digest = hashlib.sha256()
    for task, answer in sorted(answered(root, tasks), key=lambda pair: (pair[0].key, pair[0].table.name)):
        said = [task.key, task.recording.name, task.table.name, answer["status"], answer["fault"], answer["line"],
                answer["text"], answer["begin"]]
        digest.update(json.dumps(said).encode())
    return digest.hexdigest()


def forget(root: Path, tasks: list[Task], status: int) -> int:
    """Removes the answers of this status; returns how many they were."""
    found = {task.answer for task, answer in answered(root, tasks) if answer["status"] == status}
    for answer in found:
        answer.unlink(missing_ok=True)
    return len(found)
