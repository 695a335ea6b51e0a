"""Asks the program about a table or a network, and keeps all that is so of it."""
import re
from dataclasses import dataclass
from pathlib import Path
from typing import Any

from afdx import networks, printed, toml
from afdx.diff import rows
from afdx.diff.facts import NONE, Facts, Place
from afdx.failure import LOAD, Failure
from afdx.program import Answer, Program

# lines of a network whose files were all read, but do not fit together
UNFIT = re.compile(r"afdx: network (G3 NoSuchPort|G[4-9] )")


@dataclass
class Side:
    """A table or a network file."""
    path: Path
    content: dict[str, Any]
    facts: Facts

    def is_network(self) -> bool:
        return networks.is_network(self.content)


def refuse(program: Program, path: Path, answer: Answer) -> None:
    """Ends the command with the program's line, and the file that it is about."""
    raise Failure(answer.status, f"{program.progress.command}: {answer.line.removeprefix('afdx: ')}, {path}")


def verdict_of(answer: Answer) -> Facts:
    """Returns what `check` said: the first line where rows are refused one by one, since `need` says it of each."""
    return {Place("", "check", ""): {"verdict": answer.line.partition("\n")[0] or "accepted"}}


def words(field: str) -> str:
    """Returns a field as it is shown: a list with blanks, NONE if it is empty."""
    return printed.listed(field) or NONE


def bound(row: printed.Row, priority: str) -> str:
    """Returns the bound of a priority; where it has links and the others leave nothing, `none`."""
    return row[priority] or ("none" if row[f"{priority}_limit"] else NONE)


def load_facts(said: str, switch: str = "") -> Facts:
    """Returns what `afdx size` printed: of each port with links what they ask for, and the rules that it breaks."""
    return {Place(switch, "load", row["port"]):
            {"rate": row["rate"], "buffer": row["buffer"], "high": bound(row, "high"), "low": bound(row, "low"),
             "breaks": words(row["breaks"])} for row in printed.rows_of(said)}


def ask_table(program: Program, side: Side) -> None:
    """Adds the rows of a table and what the program says of them."""
    check = program.ask("check", side.path)
    if check.status not in (0, LOAD):
        refuse(program, side.path, check)
    load = load_facts(program.answer("size", side.path, printed.CSV))
    side.facts |= rows.table_facts(side.content) | load | verdict_of(check)


def need_facts(said: str, facts: Facts) -> Facts:
    """Returns what `afdx network jitter` printed, and by how much the row has less."""
    needs = {}
    for row in printed.rows_of(said):
        has = int(facts[Place(row["switch"], "link", row["link"])]["jitter_us"])
        lacks = str(max(0, int(row["jitter_us"]) - has))
        needs[Place(row["switch"], "need", row["link"])] = {"jitter_us": row["jitter_us"], "lacks": lacks}
    return needs


def way_facts(said: str) -> Facts:
    """Returns the ways that `afdx network check` printed."""
    return {Place("", "way", f"{row['link']} to {row['to']}"):
            {"start": words(row["from"]), "ways": words(row["ways"]), "least": words(row["least"]),
             "most": words(row["most"]), "jitter": words(row["jitter"])} for row in printed.rows_of(said)}


def ask_network(program: Program, side: Side) -> None:
    """Adds the rows of a network and of its tables, and what the program says of them."""
    check = program.ask("network", "check", side.path, printed.CSV)
    if check.status not in (0, LOAD) and not UNFIT.match(check.line):
        refuse(program, side.path, check)
    side.facts |= rows.network_facts(side.content)
    for switch in side.content.get("switch", []):
        table = side.path.parent / switch["table"]
        side.facts |= rows.table_facts(toml.read(program.progress.command, table), switch["name"])
        side.facts |= load_facts(program.answer("size", table, printed.CSV), switch["name"])
    jitters = program.ask("network", "jitter", side.path, printed.CSV)
    side.facts |= need_facts(jitters.said, side.facts)
    side.facts |= way_facts(check.said) | verdict_of(check)


def read(program: Program, path: Path) -> Side:
    """Returns all that is so of a table or a network file."""
    side = Side(path, toml.read(program.progress.command, path), {})
    if side.is_network():
        ask_network(program, side)
    else:
        ask_table(program, side)
    return side
