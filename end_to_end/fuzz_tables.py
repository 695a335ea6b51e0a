"""Draws tables as no page shows them, and says how `afdx check`, `size` and `run` answer to them.

A table is drawn by sizes.py, with loads that fit and loads that do not. Its tree is mutated: values at their limits and
past them or of other kinds; keys and rows that are missing, unknown, there twice or too many. It is written in an odd
spelling (toml_writing.py), and then perhaps the text is mutated.

The judge is a model for nearly every input: table_model.py says the first refusal, model.py the lines of a table that
is read. Of a text that was not mutated they say it of the tree that was written, so that no reader of TOML has a part
in it; of one that was, they go by Python's reader. Where that cannot tell whether a text is TOML (toml_reading.py), the
promises of every answer stand alone.
"""
import tomllib
from collections.abc import Callable, Sequence
from copy import deepcopy
from datetime import date, datetime, time, timezone
from random import Random
from typing import Any

import babblers
import fuzz_bytes
import model
import sizes
import table_model
from fuzz_run import Answer, Trial, refusal
from toml_reading import NUMBERS, NoToml, Tree, Unknown, leaves_of, tree_of
from toml_writing import Style, text_of

EDGES: dict[str, list[Any]] = {
    "version": [0, 1, 2, 3, 4, -1],
    "latency_us": [-1, 0, 1, 100, 101],
    "constant": ["03000000", "ffFFffFF", "0300000", "030000000", "02000000", "0100000A", "0x000003", "03 00 00", "",
                 "\N{FULLWIDTH DIGIT ZERO}3000000", "0300000g"],
    "port": [[], {}, [{}], [[]], [1], "port"],
    "link": [[], {}, [{}], [[]], [1], 0],
    "id": [-1, 0, 1, 2, 24, 25, 65_535, 65_536],
    "mbit": [0, 10, 11, 99, 100, 101, 1000, 1001, -100],
    "buffer": [-1, 0, 63, 64, 1517, 1518, 16_777_215, 16_777_216, 16_777_217],
    "max_delay_us": [-1, 0, 1, 499_999, 500_000, 500_001],
    "from": [0, 1, 2, 3, 24, 25, -1],
    "to": [[], [1], [2], [1, 1], [2, 3, 2], [0], [25], [24], list(range(1, 25)), list(range(25)), ["1"], [2, "a"],
           [25, True], [[1]], 2, {}],
    "bag_ms": [0, 1, 2, 3, 63, 64, 128, 129, 256, -1],
    "jitter_us": [-1, 0, 1, 9999, 10_000, 10_001],
    "max_size": [0, 63, 64, 1517, 1518, 1519],
    "priority": ["high", "low", "High", "low ", "", "hoch"],
    "police": ["byte", "frame", "bytes", "Frame", "", "none"]}
KINDS: list[Any] = [
    "", "1", "high", 0, 1, 2**31, 2**63 - 1, -2**63, 2**63, 2**64, -2**63 - 1, 0.0, 1.0, float("inf"), float("nan"),
    1e300, True, False, [], [1], [[]], {}, {"a": 1}, date(1979, 5, 27), time(7, 32), datetime(1979, 5, 27, 7, 32),
    datetime(2026, 1, 1, tzinfo=timezone.utc)]
STRANGE_KEYS = ["color", "ID", "Id", "id ", "", "größe", "id\n", "id\0", "ports", "police", "latency_us", "version",
                "buffer", "to", "[[link]]"]
PIECES = [b"[[link]]\n", b"[[port]]\n", b"[link]\n", b"[port]\n", b"[[link.x]]\n", b"id = 1\n", b"link = []\n",
          b"port.id = 1\n", b"a.b = 1\n", b"link.a = 1\n", b"[a]\n", b"[[a.b]]\n", b"\xef\xbb\xbf", b"\r", b"\0", b"\n",
          b"\x0c", b"=", b"'", b'"', b'"""', b"'''", b"#", b"[", b"]", b"{", b"}", b",", b"\\", b"_", b".", b"-", b"+",
          b"0", b"0x", b"e9", b"\xc3", b"\xed\xa0\x80", b"\xf4\x90\x80\x80", b"\xc0\x80", b"99999999999", b"inf",
          b'x = "\\ud800"\n', b"x = 07:32\n", b'x = """\n[[link]]\n"""\n', b"x = [\n[[link]]\n]\n", b"x = [[1],[2]]\n",
          b"1979-05-27", *(b"x = " + b"[" * depth + b"]" * depth + b"\n" for depth in (50, 79, 80, 81, 50_000)),
          b"[" * 50_000, b"x = " + b"{a = " * 50_000, b"x = " + b"{a = " * 50 + b"1" + b"}" * 50 + b"\n",
          *(b"a." * parts + b"a = 1\n" for parts in (50, 79, 80, 500)), b"[" + b"a." * 500 + b"a]\n"]
IN_PLACE_OF_A_LETTER = [b"0", b"9", b"-", b"_", b" ", b"a", b".", b"", b"00", b"\xd9\xa1"]

Mutation = Callable[[Random, Tree], None]


# --- Mutations of a tree ---


def drawn(chance: Random, values: Sequence[Any]) -> Any:
    """Draws a value of its own: a later mutation may change it, and the next input has the same ones to draw from."""
    return deepcopy(chance.choice(values))


def listed(tree: Tree, key: str) -> list[Any]:
    """Gives the rows under a key, as far as they are tables."""
    found = tree.get(key)
    return [row for row in found if isinstance(row, dict)] if isinstance(found, list) else []


def members(chance: Random, tree: Tree) -> Tree:
    """Draws the top, a port or a link."""
    rows = listed(tree, "port") + listed(tree, "link")
    return tree if not rows or chance.random() < 0.2 else chance.choice(rows)


def rows_of(chance: Random, tree: Tree) -> list[Any]:
    """Draws an array of rows; an empty one if there is none."""
    found = [rows for rows in (tree.get("port"), tree.get("link")) if isinstance(rows, list) and rows]
    return chance.choice(found) if found else []


def set_an_edge(chance: Random, row: Tree, edges: dict[str, list[Any]]) -> None:
    """Gives a key of the row, if one has edges, one of these."""
    keys = [key for key in row if key in edges]
    if keys:
        key = chance.choice(keys)
        row[key] = drawn(chance, edges[key])


def drop_a_key(chance: Random, row: Tree) -> None:
    """Takes a key out of a row, if it has one."""
    if row:
        del row[chance.choice(list(row))]


def to_an_edge(chance: Random, tree: Tree) -> None:
    set_an_edge(chance, members(chance, tree), EDGES)


def to_another_kind(chance: Random, tree: Tree) -> None:
    row = members(chance, tree)
    if row:
        row[chance.choice(list(row))] = drawn(chance, KINDS)


def without_a_key(chance: Random, tree: Tree) -> None:
    drop_a_key(chance, members(chance, tree))


def with_a_key(chance: Random, tree: Tree) -> None:
    key = chance.choice(STRANGE_KEYS)
    members(chance, tree)[key] = drawn(chance, EDGES.get(key, KINDS))


def row_again(chance: Random, tree: Tree) -> None:
    """Writes a row again, perhaps with another value, so that two rows have one number."""
    rows = rows_of(chance, tree)
    if rows and isinstance(row := chance.choice(rows), dict):
        copy = dict(row)
        rows.insert(chance.randint(0, len(rows)), copy)
        if copy and chance.random() < 0.5:
            key = chance.choice(list(copy))
            copy[key] = drawn(chance, EDGES.get(key, KINDS))


def without_a_row(chance: Random, tree: Tree) -> None:
    rows = rows_of(chance, tree)
    if rows:
        rows.pop(chance.randrange(len(rows)))


def rows_shuffled(chance: Random, tree: Tree) -> None:
    chance.shuffle(rows_of(chance, tree))


def no_row(chance: Random, tree: Tree) -> None:
    """Puts something else in the place of a row."""
    rows = rows_of(chance, tree)
    if rows:
        rows[chance.randrange(len(rows))] = drawn(chance, KINDS)


def many_ports(chance: Random, tree: Tree) -> None:
    """Makes as many ports as a table may have, or more."""
    if chance.random() < 0.3:
        row = {"mbit": 100, "buffer": 100_000, "max_delay_us": 500_000}
        tree["port"] = [{"id": number} | row for number in range(1, chance.choice([24, 25, 26]) + 1)]


def many_links(chance: Random, tree: Tree) -> None:
    """Makes as many links as a table may have, or about that; not often, since it takes time."""
    links = listed(tree, "link")
    if links and chance.random() < 0.02:
        tree["link"] = [links[0] | {"id": number} for number in range(chance.choice([4095, 4096, 4097]))]


OF_THE_TREE: Sequence[Mutation] = (
    to_an_edge, to_an_edge, to_an_edge, to_another_kind, to_another_kind, without_a_key, with_a_key, row_again,
    row_again, without_a_row, rows_shuffled, no_row, many_ports, many_links)


def mutate(chance: Random, tree: Tree, mutations: Sequence[Mutation], most: int) -> None:
    """Mutates a tree so often at most."""
    for _ in range(chance.randint(0, most)):
        chance.choice(mutations)(chance, tree)


# --- Mutations of a text ---


def piece(chance: Random, data: bytes) -> bytes:
    """Puts something that TOML knows at a place."""
    at = fuzz_bytes.place(chance, data)
    return data[:at] + chance.choice(PIECES) + data[at:]


def line_moved(chance: Random, data: bytes) -> bytes:
    """Moves a line, writes it twice or leaves it out."""
    lines = data.splitlines(keepends=True)
    if lines:
        found = lines.pop(chance.randrange(len(lines)))
        for _ in range(chance.choice([0, 1, 2])):
            lines.insert(chance.randint(0, len(lines)), found)
    return b"".join(lines)


def letter(chance: Random, data: bytes) -> bytes:
    """Puts something in the place of a digit or a letter."""
    places = [at for at, byte in enumerate(data) if chr(byte).isalnum()]
    if not places:
        return data
    at = chance.choice(places)
    return data[:at] + chance.choice(IN_PLACE_OF_A_LETTER) + data[at + 1:]


OF_THE_TEXT = (*fuzz_bytes.MUTATIONS, *[piece] * 4, *[line_moved] * 2, *[letter] * 2)


# --- What is right ---


def read(source: Tree | bytes) -> Tree:
    """Gives what a text says: the tree that was written, or of a mutated text what Python's reader finds.

    Raises `NoToml` also if a number in it is past 64 bits, and `Unknown`.
    """
    if isinstance(source, bytes):
        return tree_of(source)
    if any(type(leaf) is int and leaf not in NUMBERS for leaf in leaves_of(source)):
        raise NoToml
    return source


def table_of(source: Tree | bytes) -> Any:
    """Gives the table of a text.

    Raises `model.Refused` with its first fault, and `Unknown`.
    """
    try:
        return table_model.table_in(read(source))
    except NoToml:
        table_model.refuse("C2 Toml")


def answer_of(command: str, source: Tree | bytes) -> Answer | None:
    """Gives the answer to a table; for `run` no capture is there."""
    try:
        table = table_of(source)
        lines = model.size(table) if command == "size" else model.check(table)
        if command == "run" and table.ports:
            raise model.Refused(f"afdx: device get in/port-{table.ports[0].id}.pcap", 5)
        return Answer(0, b"" if command == "run" else lines.encode())
    except model.Refused as refused:
        return refusal(refused)
    except Unknown:
        return None


# --- An input ---


def draw_tree(chance: Random) -> Tree:
    """Draws a table, of version 3 or an older one."""
    tree = tomllib.loads(babblers.text_of(sizes.draw(chance)))
    tree["link"] = tree["link"][:chance.choice([1, 2, 4, len(tree["link"])])]
    tree["version"] = version = chance.choice([1, 2, 3, 3])
    if version < 3:
        del tree["latency_us"]
        tree["port"] = [port | {"mbit": min(port["mbit"], 100)} for port in tree["port"]]
    if version < 2:
        tree["link"] = [{key: value for key, value in link.items() if key != "police"} for link in tree["link"]]
        del tree["version"]
    return ({"constant": "030000Ab"} if chance.random() < 0.2 else {}) | tree


def written(chance: Random, tree: Tree) -> bytes:
    """Writes a tree, plainly or not."""
    return text_of(Style(chance, chance.random() < 0.6, chance.random() < 0.3), tree).encode()


def draw(chance: Random) -> Trial:
    """Draws an input."""
    command = chance.choice(["check", "check", "size", "run"])
    tree = draw_tree(chance)
    mutate(chance, tree, OF_THE_TREE, 4)
    source: Tree | bytes = tree
    data = written(chance, tree)
    if chance.random() < 0.4:
        source = data = fuzz_bytes.mutated(chance, data, OF_THE_TEXT)
    arguments = [command, "table.toml"] + ["in", "out"] * (command == "run")
    return Trial(arguments, {"table.toml": data}, lambda: answer_of(command, source), folders=["in", "out"])
