"""Keeps the store: SQLite, made of the answers alone by one writer, so that it can be removed and made again."""
import contextlib
import errno
import sqlite3
from collections.abc import Iterator, Sequence
from pathlib import Path
from typing import Any

from afdx.campaign.answers import files_there
from afdx.campaign.failures import failure
from afdx.campaign.worker.files import locked
from afdx.campaign.worker.rows import PORT, rows_of
from afdx.campaign.worker.task import Task
from afdx.campaign.worker.work import Answer, answer_at
from afdx.failure import DEVICE

VERSION = 3  # of the schema; a store of another one is made again
BATCH = 200  # runs of a transaction
QUOTED = ", ".join(f'"{name}" integer' for name in PORT)
SCHEMA = f"""
create table if not exists tables (id integer primary key, name text not null unique, unchecked integer not null);
create table if not exists runs (
    id integer primary key, key text not null, file text not null, recording text not null,
    "table" integer not null references tables, begin integer, size integer not null, status integer not null,
    seconds real, processor real, memory integer, tries integer, host text, at real);
create unique index if not exists runs_of_tables on runs ("table", recording);
create table if not exists links (
    run integer not null, switch text not null, link integer not null, passed integer not null,
    policed integer not null, primary key (run, switch, link)) without rowid;
create index if not exists policed_links on links (run) where policed > 0;
create table if not exists ports (
    run integer not null, switch text not null, port integer not null, {QUOTED},
    primary key (run, switch, port)) without rowid;
create table if not exists delays (
    run integer not null, switch text not null, link integer not null, port integer not null, sent integer not null,
    least integer, greatest integer, bound integer, primary key (run, switch, link, port)) without rowid;
create table if not exists spells (
    run integer not null, switch text not null, link integer not null, begin integer not null, end integer not null,
    frames integer not null, least_early integer not null, greatest_early integer not null,
    primary key (run, switch, link, begin)) without rowid;
create table if not exists faults (
    run integer primary key, status integer not null, fault text not null, line text not null);
"""
STORED = 'select tables.name, key, file, runs.id from runs join tables on tables.id = runs."table"'
OF_RUNS = ("links", "ports", "delays", "spells", "faults")


def store_file(root: Path) -> Path:
    """Returns the file of the store."""
    return root / "store.sqlite"


@contextlib.contextmanager
def collected(root: Path, tasks: list[Task]) -> Iterator[sqlite3.Connection]:
    """Opens the store with all answers to these tasks, and no others. One writer at a time."""
    with locked(root):
        try:
            with contextlib.closing(opened(store_file(root))) as base:
                collect(base, root, tasks)
                yield base
        except (sqlite3.IntegrityError, sqlite3.ProgrammingError):  # defects of this command
            raise
        except sqlite3.OperationalError as error:
            raise failure(DEVICE, f"cannot write {store_file(root)}: {error}") from error
        except sqlite3.DatabaseError as error:
            raise failure(DEVICE, f"{store_file(root)} is damaged: remove it, and `page` makes it again") from error


def opened(path: Path) -> sqlite3.Connection:
    """Opens the store; what is none, or one of another version, is removed first."""
    with contextlib.suppress(sqlite3.DatabaseError):
        base = sqlite3.connect(path)
        if base.execute("pragma user_version").fetchone()[0] in (0, VERSION):
            return prepared(base)
        base.close()
    for ending in ("", "-wal", "-shm"):
        Path(f"{path}{ending}").unlink(missing_ok=True)
    return prepared(sqlite3.connect(path))


def prepared(base: sqlite3.Connection) -> sqlite3.Connection:
    """Makes the tables that are not there. What a loss of power takes is made again: nothing waits for the disk."""
    base.executescript(f"pragma journal_mode = wal; pragma synchronous = off; pragma cache_size = -200000; {SCHEMA}"
                       f"pragma user_version = {VERSION};")
    return base


def collect(base: sqlite3.Connection, root: Path, tasks: list[Task]) -> None:
    """Adds the answers that are new, and removes the runs that no task asks for or whose answer was forgotten.

    An answer is of what a table says, not of its name: tables of the same bytes share it, and it stays if it is asked
    for under another name. One that was forgotten and is there again is another file. Files are looked at before they
    are read: what is put in between is another one the next time.
    """
    there = files_there(root)
    wanted = {(task.table.name, task.key, there[task.key]): task for task in tasks if task.key in there}
    tables = name_tables(base, tasks)
    stored = {(table, key, file): number for table, key, file, number in base.execute(STORED)}
    remove(base, [number for place, number in stored.items() if place not in wanted])
    for number, place in enumerate(place for place in wanted if place not in stored):
        table, _, file = place
        add(base, wanted[place], tables[table], file, answer_at(wanted[place].answer))
        if number % BATCH == BATCH - 1:
            base.commit()
    base.execute("analyze")
    base.commit()


def remove(base: sqlite3.Connection, numbers: list[int]) -> None:
    """Removes runs."""
    rows = [(number,) for number in numbers]
    for table in OF_RUNS:
        base.executemany(f"delete from {table} where run = ?", rows)
    base.executemany("delete from runs where id = ?", rows)


def name_tables(base: sqlite3.Connection, tasks: list[Task]) -> dict[str, int]:
    """Returns the numbers of the tables, which are in the order of the campaign file."""
    names = {task.table.name: task.table.unchecked for task in tasks}
    stored = base.execute("select name, unchecked from tables order by id").fetchall()
    if stored != list(names.items()):
        remove(base, [number for number, in base.execute("select id from runs")])
        base.execute("delete from tables")
        base.executemany("insert into tables (name, unchecked) values (?, ?)", names.items())
    return dict(base.execute("select name, id from tables"))


def add(base: sqlite3.Connection, task: Task, table: int, file: str, answer: Answer) -> None:
    """Adds an answer."""
    how = answer["how"]
    run = base.execute(
        'insert into runs (key, file, recording, "table", begin, size, status, seconds, processor, memory, tries, '
        "host, at) values (?, ?, ?, ?, ?, ?, ?, ?, ?, ?, ?, ?, ?)",
        (task.key, file, task.recording.name, table, answer["begin"], task.recording.size, answer["status"],
         how["seconds"], how["processor"], how["memory"], how["tries"], how["host"], how["at"])).lastrowid
    if answer["status"]:
        line = answer["line"].encode("utf-8", "surrogateescape").decode("utf-8", "replace")  # as a file may be called
        base.execute("insert into faults values (?, ?, ?, ?)", (run, answer["status"], answer["fault"], line))
        return
    try:
        add_rows(base, run, answer["text"])
    except (ValueError, OverflowError, sqlite3.IntegrityError) as error:
        said = "has rows that no afdx prints: remove it, and `run` asks again"
        raise OSError(errno.EIO, said, str(task.answer)) from error


def add_rows(base: sqlite3.Connection, run: int | None, text: str) -> None:
    """Adds the rows of an answer."""
    rows = rows_of(text)
    insert(base, "links", run, rows.links)
    insert(base, "delays", run, rows.delays)
    insert(base, "spells", run, rows.spells)
    insert(base, "ports", run, [(*place, *values) for place, values in rows.ports.items()])


def insert(base: sqlite3.Connection, table: str, run: int | None, rows: Sequence[tuple[Any, ...]]) -> None:
    """Adds rows of a run."""
    if rows:
        places = ", ".join("?" * (1 + len(rows[0])))
        base.executemany(f"insert into {table} values ({places})", ((run, *row) for row in rows))
