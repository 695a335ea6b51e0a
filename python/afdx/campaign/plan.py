"""Lists the tasks of a campaign: each recording under each table."""
import contextlib
import glob
import hashlib
import json
import os
import shutil
import stat
from dataclasses import asdict, replace
from pathlib import Path

from afdx import toml
from afdx.campaign.failures import COMMAND, failure, file_failure
from afdx.campaign.settings import Campaign, Configured
from afdx.campaign.worker.files import put_text
from afdx.campaign.worker.task import Recording, Table, Task, identity_of, table_identity, task_of
from afdx.campaign.worker.work import program_identity
from afdx.failure import DEVICE, INPUT, LOAD, tell
from afdx.program import Program

LEAST_MEMORY = 64 << 20  # bytes that a task takes of any recording
OWN = {".", "answers", "changed", "csv", "kept", "newest", "rounds"}  # the root and its folders


def tasks_of(campaign: Campaign) -> list[Task]:
    """Lists the tasks. Tables are asked for first: one that is refused ends it before a recording is touched."""
    program = shutil.which(campaign.program)
    if program is None:
        raise failure(DEVICE, f"cannot run {campaign.program}: no such program")
    try:
        identity = program_identity(program)
        tables = [(checked(program, table), table) for table in campaign.tables]
        folders = folders_of(campaign.file.parent, campaign.recordings, campaign.root)
        return [Task(
            root=str(campaign.root), program=os.path.abspath(program), program_identity=identity, recording=recording,
            table=table, ask=campaign.ask, keep=campaign.keep, scratch=campaign.scratch, tries=campaign.limits.tries,
            timeout=campaign.limits.timeout, memory=int(campaign.limits.memory * recording.size) + LEAST_MEMORY)
            for table, configured in tables
            for recording in recordings_of(folders, captures_of(configured), campaign.by_content)]
    except OSError as error:
        raise file_failure(f"read {error.filename}", error) from error


def checked(program: str, configured: Configured) -> Table:
    """Returns the table, if afdx accepts it, or at least reads it if it is run unchecked."""
    path = str(configured.file)
    of_networks = ("network",) if configured.network else ()
    answer = Program(COMMAND, program).ask(*of_networks, "size" if configured.unchecked else "check", path)
    if answer.status:
        status = LOAD if answer.status in (INPUT, LOAD) else DEVICE  # out of memory and killed, too
        raise failure(status, f"table {configured.name}: {answer.line or f'{program} ended with {answer.status}'}")
    if not configured.network:
        return Table(configured.name, (path,), (), configured.unchecked, table_identity((path,)))
    switches = toml.read(COMMAND, configured.file).get("switch", [])
    files = (path, *(str(configured.file.parent / switch["table"]) for switch in switches))
    names = tuple(switch["name"] for switch in switches)
    return Table(configured.name, files, names, configured.unchecked, table_identity(files))


def captures_of(configured: Configured) -> tuple[str, ...]:
    """Returns the captures that a table or a network reads, below the folder of a recording."""
    top = toml.read(COMMAND, configured.file)
    if not configured.network:
        return tuple(f"port-{port['id']}.pcap" for port in top.get("port", []))
    wired = {wire["to"] for wire in top.get("wire", [])}
    return tuple(
        f"{switch['name']}/port-{port['id']}.pcap" for switch in top.get("switch", [])
        for port in toml.read(COMMAND, configured.file.parent / switch["table"]).get("port", [])
        if f"{switch['name']}.{port['id']}" not in wired)


def folders_of(folder: Path, patterns: tuple[str, ...], root: Path) -> dict[str, str]:
    """Finds the folders of recordings by name, which is the path below the part of the pattern without wildcards.

    The folder in which the patterns are is none of theirs: brackets in its name are not theirs either.
    """
    folders: dict[str, str] = {}
    for pattern in patterns:
        check_reach(folder, Path(pattern).parts)
        found = sorted(path for path in (str(folder / name) for name in glob.glob(pattern, root_dir=folder))
                       if may_be_folder(path) and not (glob.has_magic(pattern) and is_own(path, root)))
        if not found:
            raise failure(INPUT, f"no folder is {folder / pattern}")
        for path in found:
            name = name_of(path, folder / above(pattern))
            if folders.setdefault(name, path) != path:
                raise failure(INPUT, f"two recordings are called {name}: {folders[name]} and {path}")
    return folders


def check_reach(folder: Path, parts: tuple[str, ...]) -> None:
    """Raises the OSError of a folder that the parts of a pattern lead through and that cannot be looked into: glob
    passes over it, and recordings in it would be left out without a word."""
    for number, part in enumerate(parts):
        for name in glob.glob(str(Path(*parts[:number])), root_dir=folder):
            if not stat.S_ISDIR(os.stat(folder / name).st_mode):
                continue
            if glob.has_magic(part):
                os.scandir(folder / name).close()
            else:
                with contextlib.suppress(FileNotFoundError):
                    os.lstat(folder / name / part)


def may_be_folder(path: str) -> bool:
    """Returns whether a path is that of a folder, or cannot be followed, as a link to a disk that is away: that is a
    fault of this recording."""
    try:
        return stat.S_ISDIR(os.stat(path).st_mode)
    except OSError:
        return True


def is_own(path: str, root: Path) -> bool:
    """Returns whether a folder is the root of the campaign, or one that the campaign keeps in it."""
    return os.path.relpath(os.path.realpath(path), os.path.realpath(root)).partition("/")[0] in OWN


def name_of(path: str, above: Path) -> str:
    """Returns the name of a recording, which is its path below a folder, or that folder's own name."""
    name = os.path.relpath(path, above)
    if name == ".":
        name = os.path.basename(os.path.abspath(path))
    if not name.isprintable():
        raise failure(INPUT, f"a recording's name cannot be printed: {name!r}")
    if name.partition("/")[0] == "..":
        raise failure(INPUT, f"a recording's name leads out of the folder that has its outputs: {name}")
    return name


def above(pattern: str) -> str:
    """Returns the folder above the first wildcard of a pattern, or above a folder that has none."""
    parts = Path(pattern).parts
    plain = next((number for number, part in enumerate(parts) if glob.has_magic(part)), len(parts) - 1)
    return str(Path(*parts[:max(0, plain)]))


def recordings_of(folders: dict[str, str], files: tuple[str, ...], by_content: bool) -> list[Recording]:
    """Returns the recordings as they are now."""
    return [Recording(name, folder, files, size_of(folder, files), by_content,
                      identity_of(name, folder, files, by_content)) for name, folder in folders.items()]


def size_of(folder: str, files: tuple[str, ...]) -> int:
    """Returns the bytes of the captures that are there."""
    return sum(size_at(os.path.join(folder, file)) for file in files)


def size_at(path: str) -> int:
    """Returns the bytes of a file, none of what cannot be looked at: that is for the task."""
    try:
        return os.path.getsize(path)
    except OSError:
        return 0


def plan_file(root: Path) -> Path:
    """Returns the list of the tasks as `run` made it last."""
    return root / "tasks.jsonl"


def origin_of(campaign: Campaign) -> dict[str, str]:
    """Returns which campaign file it is, as seen from the root, so that both may move together, and a hash of what it
    says."""
    return {"file": os.path.relpath(campaign.file, campaign.root),
            "hash": hashlib.sha256(campaign.file.read_bytes()).hexdigest()}


def put_plan(campaign: Campaign, tasks: list[Task]) -> None:
    """Puts the list of tasks, below a line that says of which campaign file it is and how many they are."""
    rows = [origin_of(campaign) | {"tasks": len(tasks)}, *map(asdict, tasks)]
    put_text(plan_file(campaign.root), "".join(f"{json.dumps(row)}\n" for row in rows))


def get_plan(campaign: Campaign) -> list[Task]:
    """Gets the list of tasks, and warns if the campaign file changed since they were listed. A list of another campaign
    file is refused."""
    root, listed = campaign.root, plan_file(campaign.root)
    try:
        with open(listed, encoding="utf-8", errors="surrogateescape") as file:
            origin = json.loads(next(file, ""))
            said = str(origin["file"]), str(origin["hash"])
            tasks = [replace(task_of(json.loads(line)), root=str(root)) for line in file]
        if len(tasks) != origin["tasks"]:
            raise ValueError
    except FileNotFoundError as error:
        raise failure(DEVICE, f"no tasks in {root}: `afdx-campaign run` lists them") from error
    except OSError as error:
        raise file_failure(f"read {listed}", error) from error
    except (AttributeError, LookupError, TypeError, ValueError) as error:
        raise failure(DEVICE, f"no list of tasks, or one of another version: {listed}: "
                              "`afdx-campaign run` lists them") from error
    check_origin(campaign, *said)
    return tasks


def check_origin(campaign: Campaign, file: str, said: str) -> None:
    """Refuses a list of another campaign file, and warns if this one changed since the tasks were listed."""
    origin = origin_of(campaign)
    if file != origin["file"]:
        other = os.path.normpath(campaign.root / file)
        raise failure(DEVICE, f"the tasks in {campaign.root} are of {other}: `afdx-campaign run` lists those of "
                              f"{campaign.file}")
    if said != origin["hash"]:
        tell(f"{COMMAND}: {campaign.file} changed since its tasks were listed: `afdx-campaign run` lists them anew")
