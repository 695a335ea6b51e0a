"""Makes the page that is asked for.

What draws is imported once there is something to draw: it takes longer than the program takes to refuse an input. A
signal waits for that: modules that were compiled from Cython drop an exception that comes while they are imported.
"""
import errno
import os
import shutil
import tempfile
from collections.abc import Sequence
from dataclasses import dataclass
from functools import partial
from pathlib import Path
from typing import TYPE_CHECKING

from afdx import files, networks, signals, toml
from afdx.failure import DEVICE, USAGE, Failure, failing
from afdx.printed import CSV
from afdx.program import Program, Progress
from afdx.view import agreement, answers, provenance
from afdx.view.answers import Answers
from afdx.view.request import Request
from afdx.view.table import Table, table_of

if TYPE_CHECKING:
    from afdx.view.network.answers import NetworkAnswers, SizedNetwork
    from afdx.view.network.run import NetworkRun
    from afdx.view.run import Run


@dataclass(frozen=True)
class Sized:
    """A table that the program has read, and what it printed of its size."""
    name: str
    size: str
    table: Table


def check_place(command: str, out: Path) -> None:
    """Ends the command if no page can be put there, before all that takes long."""
    try:
        if out.is_dir():
            raise IsADirectoryError(errno.EISDIR, os.strerror(errno.EISDIR))
        tempfile.TemporaryFile(dir=out.parent).close()
    except OSError as error:
        raise failing(command, f"cannot write {out}", error) from error


def check_inputs(command: str, request: Request, names: Sequence[str]) -> None:
    """Ends the command if one of its inputs can be read but once, or would be replaced by the page or the file beside
    it."""
    answers.need_files(command, names)
    made = [request.page, request.rows] if request.recordings else [request.page]
    for name in names:
        if any(file.exists() and os.path.exists(name) and os.path.samefile(name, file) for file in made):
            raise Failure(USAGE, f"{command}: the page would replace {name}, of which it is made")


def sized(program: Program, name: str) -> Sized:
    size = program.answer("size", name, CSV)
    return Sized(name, size, table_of(toml.read(program.progress.command, Path(name))))


def read(answered: Answers, table: Table, unchecked: bool, progress: Progress) -> "Run":
    with signals.held():
        from afdx.view import run
    return run.read(answered, table, not unchecked, progress)


def run_of(program: Program, asked: Sized, folder: str) -> "Run":
    """Runs the program over a folder of captures."""
    with answers.answered(program, asked.size, asked.name, folder) as answered:
        return read(answered, asked.table, False, program.progress)


def drawn(request: Request, run: "Run", origin: provenance.Provenance, progress: Progress) -> str:
    with signals.held():
        from afdx.view.page import page
    return page(run, request.title, origin, progress, request.rows.name)


def origin_of(command: str, program: Program | None, request: Request, run: "Run",
              inputs: Sequence[str]) -> provenance.Provenance:
    """Returns where the page comes from: of recordings those that were read."""
    recorded = request.recorded(run.recordings.differences.ports if run.recordings else [])
    comparison = provenance.Comparison(request.comparing(), recorded)
    return provenance.provenance_of(command, program, request.words(), provenance.shown_by_name(inputs), comparison)


def put(command: str, request: Request, text: str, answered: Answers) -> None:
    """Puts the page under its name, and before it the file of all differences if there is one."""
    if answered.compared:
        try:
            with open(answered.compared.rows, "rb") as rows:
                files.put_by(request.rows, partial(shutil.copyfileobj, rows))
        except OSError as error:
            raise failing(command, f"cannot write {request.rows}", error) from error
    files.put(command, request.page, text.encode("utf-8", "replace"))


def make_by_program(command: str, request: Request) -> None:
    """Runs the program and puts the page of it."""
    program = Program(command)
    answers.need_files(command, [request.table])
    asked = sized(program, request.table)
    inputs = request.inputs(asked.table.ports)
    check_inputs(command, request, [*inputs, *request.recorded(asked.table.ports)])
    with answers.answered(program, asked.size, asked.name, request.folder, request.unchecked,
                          request.recordings) as answered:
        run = read(answered, asked.table, request.unchecked, program.progress)
        origin = origin_of(command, program, request, run, inputs)
        put(command, request, drawn(request, run, origin, program.progress), answered)


def make_by_answers(command: str, request: Request) -> None:
    """Puts the page of a run for which the program ran before."""
    kept = answers.kept(command, Path(request.answers), request.recordings)
    try:
        table = table_of(toml.read(command, Path(request.table)))
        inputs = [*request.inputs(table.ports), *map(str, kept.files())]
        check_inputs(command, request, [*inputs, *request.recorded(table.ports)])
        progress = Progress(command)
        run = read(kept, table, request.unchecked, progress)
        agreement.check(run)
        text = drawn(request, run, origin_of(command, None, request, run, inputs), progress)
    except (ArithmeticError, LookupError, TypeError, ValueError) as error:
        asked = "size, measure, trace and compare" if request.recordings else "size, measure and trace"
        raise Failure(DEVICE, f"{command}: the files in {request.answers} are not what {asked} answer "
                              f"of {request.table}") from error
    put(command, request, text, kept)


def drawn_network(request: Request, run: "NetworkRun", origin: provenance.Provenance, progress: Progress) -> str:
    with signals.held():
        from afdx.view.network.page import page
    return page(run, request.title, origin, progress)


def read_network(asked: "SizedNetwork", answered: "NetworkAnswers", progress: Progress) -> "NetworkRun":
    with signals.held():
        from afdx.view.network import run
    return run.read(asked, answered, progress)


def make_of_network(command: str, request: Request) -> None:
    """Runs the program over a network and puts the page of it."""
    with signals.held():
        from afdx.view.network import answers as network
    program = Program(command)
    asked = network.ask_size(program, request.table, request.unchecked)
    inputs = network.inputs_of(asked, request.folder)
    check_inputs(command, request, list(inputs))
    with network.answered(program, asked, request.folder) as answered:
        run = read_network(asked, answered, program.progress)
        origin = provenance.provenance_of(command, program, request.words(), inputs)
        text = drawn_network(request, run, origin, program.progress)
    files.put(command, request.page, text.encode("utf-8", "replace"))


def is_network(command: str, request: Request) -> bool:
    """Says whether the file is of a network. What is no TOML that Python reads counts as a table: the program says what
    is wrong with it."""
    try:
        answers.need_files(command, [request.table])
        return networks.is_network(toml.read(command, Path(request.table)))
    except Failure as failure:
        if failure.status == USAGE:
            raise
        return False


def make(command: str, request: Request) -> None:
    """Makes the page that is asked for, and puts it under its name."""
    check_place(command, request.page)
    if is_network(command, request):
        if request.answers or request.recordings:
            refused = "--answers" if request.answers else "--recorded"
            raise Failure(USAGE, f"{command}: {refused} is for a table, and {request.table} is of a network")
        make_of_network(command, request)
    elif request.answers:
        make_by_answers(command, request)
    else:
        make_by_program(command, request)
