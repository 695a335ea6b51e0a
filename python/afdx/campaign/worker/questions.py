"""Asks the questions that there are of a recording; each is answered by comma-separated values that afdx writes."""
from __future__ import annotations

import contextlib
import hashlib
import json
from pathlib import Path

from afdx.campaign.worker.files import marked, put_copy, remove_left, remove_old
from afdx.campaign.worker.program import Program, Said
from afdx.campaign.worker.rows import Rows
from afdx.campaign.worker.task import Task

ASKS = ("survey", "run", "trace")
KEEPS = ("none", "policed", "all")
CSV = "--csv"
OUT = "kept"  # the outputs that are to be kept, in a task's folder for temporary files


def ask(task: Task, program: Program, scratch: Path) -> Said:
    """Returns the answer to the question of a task; its outputs are below `scratch` then."""
    of_networks = ("network",) if task.table.switches else ()
    files = (task.table.files[0], task.recording.folder)
    options = ("--unchecked",) if task.table.unchecked else ()
    if task.ask == "run":
        return run(task, program, scratch, (*of_networks, "run", *files), (*options, CSV))
    said = program(*of_networks, "survey", *files, *options, CSV)
    if task.ask == "survey" or said.status:
        return said
    traced = run(task, program, scratch, (*of_networks, "trace", *files), options)
    return traced if traced.status else said


def run(task: Task, program: Program, scratch: Path, arguments: tuple[str, ...], options: tuple[str, ...]) -> Said:
    """Runs a command that puts files."""
    out = scratch / OUT
    for folder in folders_in(task, out):
        folder.mkdir(parents=True)
    return program(*arguments, str(out), *options)


def wanted(task: Task, rows: Rows) -> bool:
    """Returns whether the outputs beside these rows are kept."""
    return task.keep == "all" or task.keep == "policed" and any(policed for *_, policed in rows.links)


def kept_place(task: Task) -> Path:
    """Returns where the outputs of a recording are kept."""
    return Path(task.root, "kept", task.table.name, task.recording.name)


def kept_mark(task: Task) -> Path:
    """Returns the file that has the key of the answer whose outputs are kept there."""
    words = json.dumps([task.table.name, task.recording.name])
    return Path(task.root, "newest", hashlib.sha256(words.encode()).hexdigest())


def is_kept_of_another(task: Task) -> bool:
    """Returns whether what is kept there is of another answer, as of a table that was changed and changed back."""
    with contextlib.suppress(FileNotFoundError):
        return kept_mark(task).read_bytes() != task.key.encode()
    return False


def folders_in(task: Task, place: Path) -> list[Path]:
    """Returns the folders of a place in which outputs lie: one for each switch of a network."""
    return [place / switch for switch in task.table.switches or (".",)]


def keep(task: Task, scratch: Path, rows: Rows | None) -> None:
    """Puts the outputs of a task, if they are to be kept by the rows of its answer, for those of an earlier one.

    Each file comes by a rename over what is there, and then alone that is removed which only the earlier answer has. So
    two workers that do one task, whose files are the same, take none from each other, whenever one of them is killed.
    The mark comes first, and the files of two answers one after the other.
    """
    out, place = scratch / OUT, kept_place(task)
    kept = rows is not None and wanted(task, rows)
    names = sorted(path.relative_to(out) for path in out.rglob("*") if path.is_file()) if kept else []
    with marked(kept_mark(task), task.key.encode()):
        for name in names:
            put_copy(out / name, place / name)
        for folder in folders_in(task, place):
            clear(folder, {place / name for name in names})


def clear(folder: Path, kept: set[Path]) -> None:
    """Removes the files in a folder but for these, and what another worker is putting, whose name begins with a dot.

    What lies in folders of it stays: a recording may lie in another one's.
    """
    for path in folder.glob("*"):
        if path.name.startswith("."):
            remove_left(path)
        elif path not in kept and not path.is_dir():
            path.unlink(missing_ok=True)


def remove_parts(root: Path) -> None:
    """Removes the parts of outputs and of answers that killed workers left anywhere in a campaign."""
    for path in (root / "kept").rglob(".*"):
        remove_left(path)
    for path in root.glob("answers/*/.*"):
        remove_old(path)
