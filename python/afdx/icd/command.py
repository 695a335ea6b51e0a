"""Runs the command afdx-icd."""
import argparse
from collections.abc import Sequence
from pathlib import Path

from afdx import files
from afdx.failure import Failure, failing, say, tell
from afdx.icd import columns, jitters, mapping, network, routes, tables
from afdx.icd.complaints import Complaints
from afdx.icd.lists import List
from afdx.icd.network import Network
from afdx.icd.routes import Hop, NoWay
from afdx.program import Program

COMMAND = "afdx-icd"


def options_of(arguments: Sequence[str]) -> argparse.Namespace:
    parser = argparse.ArgumentParser(
        prog=COMMAND, description="Makes the tables of a network from its interface control document.",
        epilog="Each list is .csv or .xlsx. Exit status 0: the files are in NET and accepted; 2: usage; 3: a list is "
               "refused, each bad cell with a line; 4: the network is refused; 5: a file or the program fails.")
    parser.add_argument("icd", type=Path, metavar="ICD", help="the virtual links")
    parser.add_argument("ends", type=Path, metavar="ENDS", help="the end systems, each with the port that it is at")
    parser.add_argument("wires", type=Path, metavar="WIRES", help="the cables between the switches")
    parser.add_argument("net", type=Path, metavar="NET", help="the folder of the tables and network.toml")
    parser.add_argument("--mapping", type=Path, metavar="FILE", help="what the columns are called, and more")
    parser.add_argument("--unchecked", action="store_true", help="put the files of a network that is refused too")
    return parser.parse_args(arguments)


def hops_of(links: List, read: Network) -> dict[int, list[Hop]]:
    """Returns the ways of all links, by number. A link without one is a complaint."""
    graph, hops = routes.graph_of(read), {}
    for link in read.links:
        try:
            hops[link.id] = routes.hops_of(graph, read, link)
        except NoWay as error:
            links.complain(link.row, columns.VIA if link.via else columns.TARGETS, str(error))
    return hops


def read_all(options: argparse.Namespace, mapped: mapping.Mapping) -> tuple[Network, dict[int, list[Hop]], str]:
    """Reads the lists and finds the ways, or ends the command with all that is wrong. Ways are looked for only in sound
    lists of end systems and cables. Returns the network, the ways and lines of what was not read."""
    complaints = Complaints()
    lists = network.lists_of(COMMAND, [options.icd, options.ends, options.wires], mapped, complaints)
    read = network.read(lists)
    sound = all(order == lists[0].order for order, _ in complaints.rows)
    hops = hops_of(lists[0], read) if sound else {}
    complaints.refuse(COMMAND)
    tell(*complaints.warnings(COMMAND))
    return read, hops, "".join(f"{line}\n" for of in lists for line in of.passed_over())


def put_changed(folder: Path, texts: dict[str, bytes], made: dict[str, tables.Table]) -> str:
    """Puts the files that are not there already as they are; returns a line for each."""
    try:
        folder.mkdir(exist_ok=True)
    except OSError as error:
        raise failing(COMMAND, f"cannot make {folder}", error) from error
    said = []
    for name, text in texts.items():
        path = folder / name
        same = path.is_file() and files.get(COMMAND, path) == text
        if not same:
            files.put(COMMAND, path, text)
        table = made.get(path.stem)
        what = f"ports {len(table.ports)} links {len(table.rows)}" if table else f"switches {len(made)}"
        said.append(f"{name} {what} {'unchanged' if same else 'written'}\n")
    return "".join(said)


def main(arguments: Sequence[str]) -> int:
    options = options_of(arguments)
    mapped = mapping.read(COMMAND, options.mapping)
    read, hops, unread = read_all(options, mapped)
    made = tables.tables_of(read, hops, mapped)
    verdict = jitters.settle(Program(COMMAND), made, read)
    if not verdict.answer.status or options.unchecked:
        say(COMMAND, unread + put_changed(options.net, verdict.texts, made))
    if verdict.answer.status:
        raise Failure(verdict.answer.status, verdict.answer.line, *(f"{COMMAND}: {line}" for line in verdict.broken))
    last = [line for line in verdict.answer.said.splitlines() if line.startswith("greatest ") or line == "accepted"]
    say(COMMAND, "".join(f"{line}\n" for line in last))
    return 0
