#!/usr/bin/env python3
"""Makes the ICD of a network of five switches in a ring with a chord, twenty end systems and 120 links; always the same.

It writes icd.csv, ends.csv, wires.csv, map.toml and ends.txt, which has of each way its two ends and how many switches the
shortest one has.
"""
import argparse
import csv
from collections.abc import Iterable, Iterator, Sequence
from pathlib import Path
from random import Random
from typing import Any

import openpyxl
from openpyxl.styles import Font

Row = tuple[Any, ...]
SWITCHES = ["SW1", "SW2", "SW3", "SW4", "SW5"]
CABLES = [("SW1", "SW2"), ("SW2", "SW3"), ("SW3", "SW4"), ("SW4", "SW5"), ("SW5", "SW1"), ("SW2", "SW5")]
COLUMNS = """\
[columns]
id = "VL_ID"
name = "VL_NAME"
from = "SRC_ES"
to = "DST_ES"
udp_payload = "MAX_PAYLOAD_UDP"
priority = "PRIO"
[columns.ends]
name = "ES_NAME"
"""
MAPPING = COLUMNS + """\
[switches]
latency_us = 8
least_latency_us = 8
"""


def ends() -> list[tuple[str, str, int, int]]:
    """Returns four end systems at each switch: their names, switches, ports and speeds."""
    return [(f"ES{4 * at + port}", switch, port, 10 if port == 4 else 100)
            for at, switch in enumerate(SWITCHES) for port in range(1, 5)]


def links(chance: Random) -> Iterator[Row]:
    """Yields links of all kinds to one, two or three end systems each."""
    names = [end[0] for end in ends()]
    for number in range(1, 121):
        source = names[number % len(names)]
        targets = chance.sample([name for name in names if name != source], chance.choice([1, 1, 2, 3]))
        bag = chance.choice([16, 32, 64, 128])
        yield (100 + number, f"{source}_{100 + number}", source, "|".join(targets), bag, chance.choice([0, 250, 500]),
               chance.choice([0, 17, 33, 129, 300]), "H" if bag == 16 else "L")


def wires() -> Iterator[Row]:
    """Yields the cables, at ports from 21 on."""
    used = dict.fromkeys(SWITCHES, 20)
    for at, cable in enumerate(CABLES):
        row: list[str | int] = []
        for switch in cable:
            used[switch] += 1
            row += [switch, used[switch]]
        yield (*row, 1000, 25 * at)


def switches_between(start: str, end: str) -> int:
    """Returns how many switches the shortest way has, both ends with it."""
    reached, count = {start}, 1
    while end not in reached:
        reached |= {there for a, b in CABLES for here, there in ((a, b), (b, a)) if here in reached}
        count += 1
    return count


def ways(rows: list[Row]) -> Iterator[str]:
    """Yields what `afdx network check` has to say of the ends of each way."""
    places = {name: (switch, port) for name, switch, port, _ in ends()}
    for number, _, source, targets, *_ in rows:
        start = places[source]
        for switch, port in sorted(places[target] for target in targets.split("|")):
            yield f"link {number} from {start[0]}.{start[1]} to {switch}.{port} switches {switches_between(start[0], switch)}"


def change(book: Any, order: str) -> None:
    """Puts a sheet before the links, or their headings alone on one, or strikes the first of them and the last heading through."""
    if order == "covered":
        book.create_sheet("Cover", 0)["A1"] = "ICD rev C"
    if order == "parted":
        book.create_sheet("Part 1", 0).append([cell.value for cell in book["Sheet"][1]])
    if order == "struck":
        for cell in (*book.active[3], book.active[1][-1]):
            cell.font = Font(strike=True)


def write(path: Path, heading: Row, rows: Iterable[Row], order: str = "") -> None:
    if path.suffix == ".csv":
        with open(path, "w", encoding="utf-8", newline="") as file:
            csv.writer(file, delimiter=";", lineterminator="\n").writerows([heading, *rows])
    else:
        book = openpyxl.Workbook()
        for row in [heading, *rows]:
            book.active.append(row)
        if path.stem == "icd":
            change(book, order)
        book.save(path)


def main() -> None:
    parser = argparse.ArgumentParser(description=__doc__, formatter_class=argparse.RawDescriptionHelpFormatter)
    parser.add_argument("folder", type=Path, help="is made")
    parser.add_argument("order", nargs="?", choices=["shuffled", "covered", "parted", "struck"], help=(
        "the same lists in workbooks: with their rows in another order, a cover before the links, a sheet of their headings before "
        "them, or a link and a heading struck through"))
    given = parser.parse_args()
    folder, chance = given.folder, Random(61)
    rows = list(links(chance))
    lists: dict[str, tuple[Row, Sequence[Row]]] = {
        "icd": (("VL_ID", "VL_NAME", "SRC_ES", "DST_ES", "BAG_MS", "JITTER_US", "MAX_PAYLOAD_UDP", "PRIO"), rows),
        "ends": (("ES_NAME", "SWITCH", "PORT", "MBIT"), ends()),
        "wires": (("SWITCH_A", "PORT_A", "SWITCH_B", "PORT_B", "MBIT", "DELAY_NS"), list(wires()))}
    folder.mkdir()
    for name, (heading, content) in lists.items():
        ordered = chance.sample(content, len(content)) if given.order == "shuffled" else content
        write(folder / f"{name}.{'xlsx' if given.order else 'csv'}", heading, ordered, given.order or "")
    (folder / "map.toml").write_text(MAPPING, encoding="utf-8")
    (folder / "ends.txt").write_text("".join(f"{way}\n" for way in ways(rows)), encoding="utf-8")


if __name__ == "__main__":
    main()
