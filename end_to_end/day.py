#!/usr/bin/env python3
"""Makes the materials of a day of tests: an ICD of 300 links, and recordings of runs in which something is hidden.

    day.py lists FOLDER             the ICD of three switches in a row and 24 end systems: links.csv, ends.csv, wires.csv, map.toml
    day.py runs NET FOLDER RUN..    these runs, by number, of the network whose tables are in NET; always the same

FOLDER/raw/RUN      what recorders made of a run: tap.pcapng.gz has twelve lines of SW1 on network A, those from its eight end systems
                    and from SW2, and those to SW2 and to two end systems; mirror2.pcap all that came into SW2, of both networks,
                    with check sequences; mirror3.pcap what came from the end systems of SW3, of both networks, by a clock that is
                    37.2 ms ahead and 20 ppm fast, some of it out of order
FOLDER/truth/RUN    captures: in, what the end systems sent on network A, and out, what the switches sent then; links.txt, what
                    became of each link; sent.txt, the frames of each link at each output of SW1 on network A and of SW2 on B;
                    policed.txt, the links that sent too much; recorded.txt, the frames that the tap shows late or not at all

In each third run a link sends more than it may for a while, in run 19 two links do. In run 7 the tap misses five frames that SW1 sent
to SW2, and shows five 900 us late that it sent to an end system.
"""
import argparse
import gzip
import sys
import tomllib
from collections import Counter, deque
from collections.abc import Iterator
from datetime import datetime, timezone
from pathlib import Path
from random import Random
from typing import Any

import icds
from model import LINE_OVERHEAD, SECOND, Record, capture_of
from recorded_network import Send, by_third_clock, frame, in_order, later, pcapng, reordered, sent, with_check_sequence, write

SWITCHES = ["SW1", "SW2", "SW3"]
LEFT, RIGHT = 19, 20  # the ports to the switch before and to the next one
ENDS = range(1, 9)  # the ports to end systems
LENGTH = 250_000_000  # ns
DELAY = 50  # ns of a cable between switches
GAPS = {100: 960, 1000: 96}  # ns between frames on a line of so many Mbit/s, with which the stamps of what a switch sends end
FAULTS, LATE = 5, 900_000  # of each kind, and ns
MAPPING = icds.COLUMNS + """\
[switches]
latency_us = 10
least_latency_us = 4
"""
INWARD = [("SW1", RIGHT, "SW2", LEFT), ("SW3", LEFT, "SW2", RIGHT)]  # from the outer switches to the inner one: the ends of the cables
Lines = dict[tuple[str, int], list[Record]]  # by switch and port

# --- The ICD ---


def end_system(switch: str, port: int) -> int:
    """Returns the number of the end system at a port."""
    return 8 * SWITCHES.index(switch) + port


def links(chance: Random) -> Iterator[icds.Row]:
    """Yields the links of each end system in turn, to one, two or three others."""
    names = [f"ES{number}" for number in range(1, 25)]
    for at in range(300):
        source = names[at % 24]
        targets = chance.sample([name for name in names if name != source], chance.choice([1, 2, 2, 3]))
        bag = chance.choice([8, 16, 16, 32, 32, 64, 128, 128]) if at % 5 else 4
        payload = chance.choice([17, 33, 65, 129, 200, 256] if bag <= 8 else [65, 129, 300, 500, 800, 1200])
        yield (101 + at, f"{source}_{101 + at}", source, "|".join(targets), bag, 500, payload, "H" if bag <= 8 else "L")


def make_lists(folder: Path) -> None:
    folder.mkdir()
    heading = ("VL_ID", "VL_NAME", "SRC_ES", "DST_ES", "BAG_MS", "JITTER_US", "MAX_PAYLOAD_UDP", "PRIO")
    icds.write(folder / "links.csv", heading, links(Random(7)))
    ends = [(f"ES{end_system(switch, port)}", switch, port, 100) for switch in SWITCHES for port in ENDS]
    icds.write(folder / "ends.csv", ("ES_NAME", "SWITCH", "PORT", "MBIT"), ends)
    wires = [(one, RIGHT, other, LEFT, 1000, DELAY) for one, other in zip(SWITCHES, SWITCHES[1:])]
    icds.write(folder / "wires.csv", ("SWITCH_A", "PORT_A", "SWITCH_B", "PORT_B", "MBIT", "DELAY_NS"), wires)
    (folder / "map.toml").write_text(MAPPING, encoding="utf-8")


# --- The switches, by the rules, of an accepted network: no buffer is full and no frame too old ---


def link_of(one: Record) -> int:
    return int.from_bytes(one.data[4:6], "big")


class Account:
    """Polices a link by bytes: what is left, in bytes times ns, grows in each ns by the largest frame."""

    def __init__(self, link: dict[str, Any]) -> None:
        self.gap: int = link["bag_ms"] * 1_000_000
        self.largest: int = link["max_size"]
        self.most = self.largest * (self.gap + link["jitter_us"] * 1000)
        self.left, self.last = self.most, 0
        self.counts = Counter[bool]()

    def passes(self, one: Record) -> bool:
        self.left = min(self.most, self.left + (one.stamp - self.last) * self.largest)
        self.last = one.stamp
        is_passed: bool = one.size * self.gap <= self.left
        self.left -= one.size * self.gap if is_passed else 0
        self.counts[is_passed] += 1
        return is_passed


class Switch:
    def __init__(self, table: dict[str, Any]) -> None:
        self.latency = table["latency_us"] * 1000
        self.mbit = {port["id"]: port["mbit"] for port in table["port"]}
        self.links = {link["id"]: link for link in table["link"]}
        self.accounts = {name: Account(link) for name, link in self.links.items()}
        self.passed: list[tuple[int, int, int, Record]] = []  # of each its stamp, its port and its place there

    def take(self, port: int, records: list[Record]) -> None:
        """Polices what comes in at a port. Each link comes in at one, so the order of ports is all one."""
        self.passed += [(one.stamp, port, at, one) for at, one in enumerate(records) if self.accounts[link_of(one)].passes(one)]

    def sent(self, port: int) -> Iterator[Record]:
        """Yields what leaves at a port, stamped when the line is free again: of what waits the first of high priority, if there is one."""
        arrived = sorted(self.passed, key=lambda row: row[:3])
        coming = deque(one for *_, one in arrived if port in self.links[link_of(one)]["to"])
        high, low = deque[Record](), deque[Record]()
        free = 0
        while coming or high or low:
            begin = free if high or low else max(free, coming[0].stamp + self.latency)
            while coming and coming[0].stamp + self.latency <= begin:
                one = coming.popleft()
                (high if self.links[link_of(one)]["priority"] == "high" else low).append(one)
            one = (high or low).popleft()
            free = begin + (one.size + LINE_OVERHEAD) * 8000 // self.mbit[port]
            yield Record(free, one.original, one.data)


def run(switches: dict[str, Switch], sends: Lines) -> tuple[Lines, Lines]:
    """Runs the switches; returns what comes in and what leaves at each port: between switches first from the outer ones to the inner one,
    then back."""
    came: Lines = dict(sends)
    left: Lines = {}
    for (name, port), records in sends.items():
        switches[name].take(port, records)
    for name, port, other, into in INWARD + [(other, into, name, port) for name, port, other, into in INWARD]:
        left[name, port] = list(switches[name].sent(port))
        came[other, into] = later(left[name, port], DELAY)
        switches[other].take(into, came[other, into])
    return came, left | {(name, port): list(switches[name].sent(port)) for name in SWITCHES for port in ENDS}


# --- What is sent ---


def babbling(number: int, rows: list[dict[str, Any]], chance: Random) -> dict[int, range]:
    """Draws the links that send too much in a run, with the instants of it."""
    rare = [row["id"] for row in rows if row["bag_ms"] >= 16 and row["from"] in ENDS]
    names = chance.sample(rare, 2 if number == 19 else number % 3 == 1)
    begins = [chance.randrange(50_000_000, 100_000_000) for _ in names]
    return {name: range(at, at + chance.randrange(50_000_000, 100_000_000), 500_000) for name, at in zip(names, begins)}


def wanted(sender: int, rows: list[dict[str, Any]], too_many: dict[int, range], chance: Random) -> list[Send]:
    """Draws what an end system would send of its links, most times one frame in each gap."""
    sends: list[Send] = []
    for row in rows:
        gap, babble = row["bag_ms"] * 1_000_000, too_many.get(row["id"], range(0))
        for at in sorted({*range(chance.randrange(gap), LENGTH, gap), *babble}):
            if at in babble or chance.random() < 0.9:
                size = row["max_size"] if at in babble else chance.randrange(64, row["max_size"] + 1)
                sends.append((at + chance.randrange(2000), row["id"], len(sends), frame(row["id"], sender, size, len(sends))))
    return sorted(sends)


# --- What is recorded ---


def slower(records: list[Record], chance: Random) -> list[Record]:
    """Returns the records as a switch sends them that takes up to 3 us longer than the rules."""
    return in_order([Record(one.stamp + chance.randrange(3000), one.original, one.data) for one in records])


def named(port: int, one: Record, what: str) -> str:
    """Returns how afdx-skew names a frame that SW1 was to send."""
    at = datetime.fromtimestamp(one.stamp // SECOND, timezone.utc)
    return f"port-{port} link {link_of(one)} {what} at {at:%Y-%m-%dT%H:%M:%S}.{one.stamp % SECOND:09}Z\n"


def tap(came: Lines, left: Lines, is_faulty: bool, chance: Random) -> tuple[bytes, str]:
    """Returns the recording of SW1's lines, and the frames that it shows late or not at all."""
    right, first = left["SW1", RIGHT], left["SW1", 1]
    lost = sorted(chance.sample(range(len(right)), FAULTS if is_faulty else 0))
    late = sorted(chance.sample(range(len(first)), FAULTS if is_faulty else 0))
    lines = {f"ES{port}": came["SW1", port] for port in ENDS}
    lines["SW2"] = later(came["SW1", RIGHT], -GAPS[1000])
    lines["to SW2"] = slower(later([one for at, one in enumerate(right) if at not in lost], -GAPS[1000]), chance)
    delayed = [Record(one.stamp + LATE * (at in late), one.original, one.data) for at, one in enumerate(first)]
    lines["to ES1"] = slower(later(in_order(delayed), -GAPS[100]), chance)
    lines["to ES2"] = slower(later(left["SW1", 2], -GAPS[100]), chance)
    hidden = [named(1, first[at], "apart") for at in late] + [named(RIGHT, right[at], "only-a") for at in lost]
    return gzip.compress(pcapng(lines), 1, mtime=0), "".join(hidden)


def mirrors(networks: list[Lines], chance: Random) -> tuple[bytes, bytes]:
    """Returns the recordings of SW2 and SW3."""
    second = [later(came["SW2", port], -GAPS[1000] * (port in (LEFT, RIGHT))) for came in networks for port in (*ENDS, LEFT, RIGHT)]
    third = [came["SW3", port] for came in networks for port in ENDS]
    return capture_of(with_check_sequence(in_order(*second))), capture_of(reordered(by_third_clock(in_order(*third)), chance))


def write_truth(folder: Path, switches: dict[str, Switch], came: Lines, left: Lines, policed: set[int]) -> None:
    """Writes what there is to find on network A. Ends the program if other links are policed than were to be."""
    for (name, port), records in left.items():
        write(folder / "out" / name / f"port-{port}.pcap", capture_of(records))
        if port in ENDS:
            write(folder / "in" / name / f"port-{port}.pcap", capture_of(came[name, port]))
    counts = {name: switches[name].accounts for name in SWITCHES}
    found = {link for accounts in counts.values() for link, account in accounts.items() if account.counts[False]}
    if found != policed:
        sys.exit(f"{sorted(found)} are policed, and {sorted(policed)} were to be")
    said = [f"{name} link {link} passed {account.counts[True]} policed {account.counts[False]}\n"
            for name, accounts in counts.items() for link, account in accounts.items()]
    write(folder / "links.txt", "".join(said).encode())
    write(folder / "policed.txt", "".join(f"{link}\n" for link in sorted(policed)).encode())


def make_run(net: Path, folder: Path, number: int) -> None:
    name, chance = f"run{number:02}", Random(1000 + number)
    tables = {switch: tomllib.loads((net / f"{switch}.toml").read_text(encoding="utf-8")) for switch in SWITCHES}
    too_many = babbling(number, [row for table in tables.values() for row in table["link"]], chance)
    sends = {(switch, port): wanted(end_system(switch, port), [row for row in table["link"] if row["from"] == port], too_many, chance)
             for switch, table in tables.items() for port in ENDS}
    networks: list[Lines] = []
    counts: list[str] = []
    for network, switch in (("A", "SW1"), ("B", "SW2")):
        switches = {one: Switch(table) for one, table in tables.items()}
        came, left = run(switches, {place: later(sent(some, network, 80, chance), number * 600 * SECOND) for place, some in sends.items()})
        networks.append(came)
        rows = Counter((link_of(one), port) for (one_switch, port), records in left.items() if one_switch == switch for one in records)
        counts += [f"{switch} link {link} out {port} sent {count}\n" for (link, port), count in sorted(rows.items())]
        if network == "A":
            recording, recorded = tap(came, left, number == 7, chance)
            write(folder / "raw" / name / "tap.pcapng.gz", recording)
            write(folder / "truth" / name / "recorded.txt", recorded.encode())
            write_truth(folder / "truth" / name, switches, came, left, set(too_many))
    write(folder / "truth" / name / "sent.txt", "".join(counts).encode())
    for mirror, recording in zip(("mirror2.pcap", "mirror3.pcap"), mirrors(networks, chance)):
        write(folder / "raw" / name / mirror, recording)


def main() -> None:
    parser = argparse.ArgumentParser(description=__doc__, formatter_class=argparse.RawDescriptionHelpFormatter)
    commands = parser.add_subparsers(dest="command", required=True)
    lists, runs = commands.add_parser("lists"), commands.add_parser("runs")
    lists.add_argument("folder", type=Path, help="is made")
    runs.add_argument("net", type=Path)
    runs.add_argument("folder", type=Path)
    runs.add_argument("run", type=int, nargs="+")
    given = parser.parse_args()
    if given.command == "lists":
        make_lists(given.folder)
    else:
        for number in given.run:
            make_run(given.net, given.folder, number)


if __name__ == "__main__":
    main()
