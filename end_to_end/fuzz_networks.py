"""Draws networks as no page shows them, and says how `afdx network check`, `jitter` and `run` answer to them.

networks.py draws an accepted network, and what comes in. Then the tree of the network file is mutated: wires that go
the other way, are there twice, go to themselves, elsewhere or nowhere, close a ring or are gone; switches that are
there twice, are gone or have odd names; tables that are missing, no files, another's or at an odd path; values at their
limits or of other kinds. So are the trees of the tables: jitters a microsecond less, links that are gone or come in
elsewhere, other sizes, gaps, speeds and constants, and all that fuzz_tables.py does. Each file is written in an odd
spelling, and perhaps the text of one is mutated; of what comes in, a capture (fuzz_records.py).

The judge is a model for nearly every input: network_model.py, and table_model.py for each table. They go by the trees
that were written, and of a text that was mutated by Python's reader; where that cannot tell whether it is TOML, the
promises of every answer stand alone.
"""
import posixpath
import tomllib
from collections.abc import Sequence
from functools import cache
from random import Random
from typing import Any

import fuzz_bytes
import fuzz_captures
import fuzz_records
import fuzz_tables
import model
import network_model
import networks
from fuzz_run import Answer, Files, Trial, refusal
from fuzz_tables import Mutation, drawn, drop_a_key, listed, set_an_edge
from toml_reading import NoToml, Tree, Unknown

BASES = 60  # networks that are mutated: to draw one until it is accepted takes long
FOLDER = "net"  # of the network file and the tables
NET = f"{FOLDER}/net.toml"
CYRILLIC = "\N{CYRILLIC CAPITAL LETTER A}"
NAMES: list[Any] = ["A", "B", "a", "", "A.B", "A" * 16, "A" * 17, "-", "_", "-1", "0", "A ", " A", "Ä", CYRILLIC, "A\n",
                    "A\0", "../A", 1, True, ["A"], {}]
PATHS: list[Any] = ["", "none.toml", "./A.toml", ".//A.toml", "sub/../B.toml", "A.toml/", "sub", ".", "net.toml",
                    "B.toml", "/nonexistent/A.toml", "a\nb", "a\0", "x" * 300, "é.toml", "/dev/null", 1, [], {"a": 1}]
ENDS: list[Any] = ["A.1", "A.2", "B.1", "B.3", "A.0", "A.24", "A.25", "A.01", "A.", ".1", "A", "A.1.2", "A 1", "A.1 ",
                   "A.+1", "A.-1", "A.\N{FULLWIDTH DIGIT ONE}", "Z.1", "", "a.1", "A.1\n", 1, 1.5, ["A.1"],
                   {"switch": "A", "port": 1}]
DELAYS: list[Any] = [-1, 0, 1, 25, 999_999, 1_000_000, 1_000_001, 2**63 - 1, 2**63, 0.0, "25", True, []]
EDGES: dict[str, list[Any]] = {
    "version": [0, 1, 2, "1", 1.0], "name": NAMES, "table": PATHS, "from": ENDS, "to": ENDS, "delay_ns": DELAYS,
    "least_latency_us": [-1, 0, 1, 10, 99, 100, 101, 2**63, 0.0, "1", True, []],
    "down": [True, True, True, False, 0, 1, "true", "", [], {}],
    "one_line": [True, True, True, False, 0, 1, "true", "", [], {}],
    "switch": [[], {}, [1], "A"], "wire": [[], {}, [[]], 0]}
STRANGE_KEYS = ["color", "delay", "Name", "id", "", "port", "link", "delay_us", "constant"]
TERMS: list[tuple[str, list[Any]]] = [
    ("max_size", [64, 65, 1518]), ("bag_ms", [1, 2, 128]), ("police", ["byte", "frame"]), ("priority", ["high", "low"])]
LINES: list[tuple[str, list[int]]] = [("mbit", [10, 100, 1000]), ("buffer", [64, 3000]), ("max_delay_us", [1, 500])]

Sources = dict[str, Tree | bytes]  # of each file the tree that was written, or the text that was mutated


# --- Mutations of the network file ---


def rows(tree: Tree, key: str) -> list[Any]:
    found = tree.get(key)
    return found if isinstance(found, list) else []


def members(chance: Random, tree: Tree) -> Tree:
    """Draws the top, a switch or a wire."""
    found = listed(tree, "switch") + 2 * listed(tree, "wire")
    return chance.choice(found) if found and chance.random() < 0.9 else tree


def wire(chance: Random, tree: Tree) -> Tree:
    """Draws a wire; an empty one if there is none."""
    found = listed(tree, "wire")
    return chance.choice(found) if found else {}


def to_an_edge(chance: Random, tree: Tree) -> None:
    set_an_edge(chance, members(chance, tree), EDGES)


def wire_reversed(chance: Random, tree: Tree) -> None:
    row = wire(chance, tree)
    if "from" in row and "to" in row:
        row["from"], row["to"] = row["to"], row["from"]


def wire_to_itself(chance: Random, tree: Tree) -> None:
    row = wire(chance, tree)
    if "from" in row:
        row["to"] = row["from"]


def wire_elsewhere(chance: Random, tree: Tree) -> None:
    """Lets a wire begin or end where another does, or at another port."""
    row, key = wire(chance, tree), chance.choice(["from", "to"])
    ends = [end for end in (*wire(chance, tree).values(), row.get(key)) if isinstance(end, str) and end]
    if ends:
        end = chance.choice(ends)
        row[key] = f"{end[:-1]}{chance.randint(1, 9)}" if chance.random() < 0.5 else end


def wire_back(chance: Random, tree: Tree) -> None:
    """Adds the other direction of a wire."""
    row = wire(chance, tree)
    back = {key: row[other] for key, other in (("from", "to"), ("to", "from")) if other in row}
    rows(tree, "wire").append(back)


def row_again(chance: Random, tree: Tree) -> None:
    """Writes a switch or a wire again, perhaps with another value."""
    found = rows(tree, chance.choice(["switch", "wire"]))
    if found and isinstance(row := chance.choice(found), dict):
        copy = dict(row)
        found.insert(chance.randint(0, len(found)), copy)
        if copy and chance.random() < 0.5:
            key = chance.choice(list(copy))
            copy[key] = drawn(chance, EDGES.get(key, [0]))


def row_down(chance: Random, tree: Tree) -> None:
    """Lets a switch or a wire be down, or says that it is not."""
    found = rows(tree, chance.choice(["switch", "wire", "wire"]))
    if found and isinstance(row := chance.choice(found), dict):
        row["down"] = drawn(chance, EDGES["down"])


def over_one_line(chance: Random, tree: Tree) -> None:
    """Says of end systems that each has one line, or that it is not so."""
    tree["one_line"] = drawn(chance, EDGES["one_line"])


def row_gone(chance: Random, tree: Tree) -> None:
    found = rows(tree, chance.choice(["switch", "wire"]))
    if found:
        found.pop(chance.randrange(len(found)))


def rows_shuffled(chance: Random, tree: Tree) -> None:
    chance.shuffle(rows(tree, chance.choice(["switch", "wire"])))


def other_tables(chance: Random, tree: Tree) -> None:
    """Gives two switches each other's tables, or both one."""
    found = [row for row in listed(tree, "switch") if "table" in row]
    if len(found) > 1:
        one, other = chance.sample(found, 2)
        one["table"], other["table"] = other["table"], chance.choice([one["table"], other["table"]])


def with_a_key(chance: Random, tree: Tree) -> None:
    members(chance, tree)[chance.choice(STRANGE_KEYS)] = chance.choice([0, "A", []])


def without_a_key(chance: Random, tree: Tree) -> None:
    drop_a_key(chance, members(chance, tree))


def many_switches(chance: Random, tree: Tree) -> None:
    """Adds switches without ports up to the greatest number, or one more."""
    found = rows(tree, "switch")
    if chance.random() < 0.2:
        more = chance.choice([64, 65]) - len(found)
        found += [{"name": f"s{number}", "table": "empty.toml"} for number in range(more)]


OF_THE_NETWORK: Sequence[Mutation] = (
    to_an_edge, to_an_edge, wire_reversed, wire_to_itself, wire_elsewhere, wire_elsewhere, wire_back, row_again,
    row_down, row_down, over_one_line, over_one_line, row_gone, rows_shuffled, other_tables, with_a_key, without_a_key, many_switches)


# --- Mutations of a table ---


def link_of(chance: Random, tree: Tree) -> Tree:
    """Draws a link; an empty one if there is none."""
    found = listed(tree, "link")
    return chance.choice(found) if found else {}


def other_jitter(chance: Random, tree: Tree) -> None:
    """Makes a jitter a microsecond less or more, none or the greatest."""
    row = link_of(chance, tree)
    has = row.get("jitter_us", 0)
    if isinstance(has, int):
        row["jitter_us"] = chance.choice([max(has - 1, 0), has - 1, has + 1, 0, 10_000])


def other_terms(chance: Random, tree: Tree) -> None:
    key, values = chance.choice(TERMS)
    link_of(chance, tree)[key] = chance.choice(values)


def other_way(chance: Random, tree: Tree) -> None:
    """Lets a link come in or leave at other ports of the table."""
    row, ports = link_of(chance, tree), [port["id"] for port in listed(tree, "port") if "id" in port]
    if ports and chance.random() < 0.5:
        row["from"] = chance.choice(ports)
    elif ports:
        row["to"] = chance.sample(ports, chance.randint(1, min(3, len(ports))))


def other_number(chance: Random, tree: Tree) -> None:
    link_of(chance, tree)["id"] = chance.choice([link_of(chance, tree).get("id", 0), chance.randint(0, 65_535)])


def other_line(chance: Random, tree: Tree) -> None:
    """Gives a port another speed, buffer or delay, or the table another constant."""
    found = listed(tree, "port")
    if found and chance.random() < 0.8:
        key, values = chance.choice(LINES)
        chance.choice(found)[key] = chance.choice(values)
    else:
        tree["constant"] = "07000000"


def link_gone(chance: Random, tree: Tree) -> None:
    found = rows(tree, "link")
    if found:
        found.pop(chance.randrange(len(found)))


def as_any_table(chance: Random, tree: Tree) -> None:
    chance.choice(fuzz_tables.OF_THE_TREE)(chance, tree)


OF_A_TABLE: Sequence[Mutation] = (
    other_jitter, other_jitter, other_jitter, other_terms, other_terms, other_way, other_number, other_line, link_gone,
    as_any_table)


# --- What is right ---


def got(sources: Sources, path: str) -> Tree | bytes:
    """Gets a file by the path that a network file has, from its folder."""
    name = posixpath.join(FOLDER, path)
    found = sources.get(posixpath.normpath(name)) if not name.endswith("/") else None
    if name == "/dev/null":
        return b""
    if found is None:
        raise model.Refused(f"afdx: device get {name}", 5)
    return found


def net_of(sources: Sources) -> Any:
    """Reads the network file and its tables.

    Raises `model.Refused` with the first fault, and `Unknown`.
    """
    try:
        layout = network_model.layout_in(fuzz_tables.read(sources[NET]))
    except NoToml:
        network_model.refuse("G1 Toml")
    found = {switch.name: got(sources, switch.path) for switch in layout.switches}
    tables = {name: network_model.of_switch(name, fuzz_tables.table_of, source) for name, source in found.items()}
    return network_model.network_of(layout, tables)


def captures_in(net: Any, files: Files) -> Any:
    """Gets the captures of the ports without a wire."""
    given = {}
    for end in network_model.open_ends(net):
        name = f"in/{end.switch}/port-{end.port}.pcap"
        if name not in files:
            raise model.Refused(f"afdx: device get {name}", 5)
        given[end] = files[name]
    return given


def put_files(net: Any, outcomes: Any) -> Files:
    return {f"out/{name}/port-{port}.pcap": data
            for name in net.names for port, data in outcomes[name].captures.items()}


def answer_of(command: str, sources: Sources, files: Files) -> Answer | None:
    try:
        net = net_of(sources)
        if command == "check":
            return Answer(0, network_model.check(net).encode())
        if command == "jitter":
            lines, refused = network_model.jitter(net)
            return refusal(refused, lines) if refused else Answer(0, lines.encode())
        network_model.accept(net)
        outcomes = network_model.run(net, captures_in(net, files))
        return Answer(0, network_model.report(net, outcomes).encode(), files=put_files(net, outcomes))
    except model.Refused as refused:
        return refusal(refused)
    except Unknown:
        return None


# --- An input ---


@cache
def base(number: int) -> tuple[Any, Any]:
    """Draws a network that is accepted, and what comes in."""
    return networks.drawn_network(number, Random(number))


def trees_of(net: Any) -> dict[str, Tree]:
    tables = {f"{FOLDER}/{name}.toml": tomllib.loads(networks.table_text(net.tables[name])) for name in net.names}
    return {NET: tomllib.loads(networks.network_text(net))} | tables


def captures_of(chance: Random, net: Any, given: Any) -> Files:
    """Gives what comes in, of which a capture may be mutated or missing."""
    files: Files = {f"in/{end.switch}/port-{end.port}.pcap": data for end, data in given.items()}
    if chance.random() < 0.3:
        name = chance.choice(list(files))
        capture = fuzz_records.capture_of(chance, model.records_of(files[name], 0))
        fuzz_records.mutate(chance, capture, net.tables[name.split("/")[1]])
        files[name] = fuzz_records.text_of(chance, capture)
    if chance.random() < 0.05:
        del files[chance.choice(list(files))]
    return files


def draw(chance: Random) -> Trial:
    """Draws an input."""
    net, given = base(chance.randrange(BASES))
    trees, command = trees_of(net), chance.choice(["check", "check", "check", "jitter", "jitter", "run"])
    fuzz_tables.mutate(chance, trees[NET], OF_THE_NETWORK, 0 if chance.random() < 0.4 else 3)
    for tree in chance.sample(list(trees.values())[1:], chance.choice([0, 1, 1, 2])):
        fuzz_tables.mutate(chance, tree, OF_A_TABLE, 2)
    trees |= {f"{FOLDER}/empty.toml": {}, f"{FOLDER}/sub/none": {}}
    sources: Sources = dict(trees)
    files = {name: fuzz_tables.written(chance, tree) for name, tree in trees.items()}
    if chance.random() < 0.15:
        name = chance.choice(list(trees))
        sources[name] = files[name] = fuzz_bytes.mutated(chance, files[name], fuzz_tables.OF_THE_TEXT)
    files |= captures_of(chance, net, given) if command == "run" else {}
    files |= fuzz_captures.old_files(chance, [f"out/{name}/port-1.pcap" for name in net.names])
    folders = [f"{folder}/{name}" for folder in ("in", "out") for name in net.names]
    arguments = ["network", command, NET] + (["in", "out"] if command == "run" else [])
    return Trial(arguments, files, lambda: answer_of(command, sources, files), folders=folders)
