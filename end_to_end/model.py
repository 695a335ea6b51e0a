#!/usr/bin/env python3
"""A plain and slow model of the switch, written from docs/use/RULES.md and docs/use/FORMATS.md and from nothing else.

Of a table it prints the load of each port, then `accepted`; with IN and OUT it reads IN/port-K.pcap, writes OUT/port-K.pcap and
prints the counts, with `--verdict` the verdict's line after them.

Accounts are windows, not levels; a port's whole list of frames is scheduled anew for each arrival. Instants are
nanoseconds, all numbers whole. A refused capture or load is one line on standard error, with status 3 or 4. The table
itself is taken to be in order.
"""
import argparse
import struct
import sys
import tomllib
from collections.abc import Callable, Mapping
from dataclasses import dataclass, field
from itertools import takewhile
from pathlib import Path
from typing import Any, NoReturn

SECOND = 1_000_000_000
LAST_SECOND = 4_294_967_295
GREATEST_RECORD = 262_144
CHECK_SEQUENCE = 4
LINE_OVERHEAD = 20
VERDICTS = ["cut", "short", "long", "foreign", "no-link", "wrong-port", "too-big", "clean"]
PRIORITIES = ["high", "low"]
POLICINGS = ["byte", "frame"]
# A load of LOAD_UNIT is a line that is always busy.
LOAD_UNIT = 16 * 128_000_000


class Refused(Exception):
    """A line for standard error and a status."""

    def __init__(self, line: str, status: int) -> None:
        super().__init__(line)
        self.line, self.status = line, status


# --- The table ---


@dataclass
class Port:
    id: int
    tick: int  # ns of a byte
    buffer: int  # bytes
    max_delay: int  # ns
    latency: int  # ns, that of the switch


@dataclass
class Link:
    id: int
    source: int  # the ingress port
    to: list[int]
    bag: int  # ns
    jitter: int  # ns
    max_size: int  # bytes
    priority: str
    police: str


@dataclass
class Table:
    constant: bytes
    ports: list[Port]  # by rising number
    links: list[Link]  # in file order
    latency: int = 0  # ns, the most that the switch takes


def table_of(text: str) -> Table:
    return table_in(tomllib.loads(text))


def table_in(tree: dict[str, Any]) -> Table:
    """Returns the table that the tree of a text says."""
    latency = tree.get("latency_us", 0) * 1000
    ports = [Port(port["id"], {10: 800, 100: 80, 1000: 8}[port["mbit"]], port["buffer"], port["max_delay_us"] * 1000, latency)
             for port in tree.get("port", [])]
    links = [Link(link["id"], link["from"], link["to"], link["bag_ms"] * 1_000_000, link["jitter_us"] * 1000,
                  link["max_size"], link["priority"], link.get("police", "byte"))
             for link in tree.get("link", [])]
    return Table(bytes.fromhex(tree.get("constant", "03000000")), sorted(ports, key=lambda port: port.id), links, latency)


# --- Captures ---


@dataclass
class Record:
    stamp: int
    original: int
    data: bytes

    @property
    def size(self) -> int:
        return len(self.data) + CHECK_SEQUENCE


def records_of(data: bytes, port: int) -> list[Record]:
    """Returns the records of a capture, or refuses its first fault."""

    def refuse(fault: str, record: int | None = None) -> NoReturn:
        where = f"port {port}" if record is None else f"port {port}, record {record}"
        raise Refused(f"afdx: capture {fault}, {where}", 3)

    if len(data) < 24:
        refuse("P2 NoHeader")
    kinds = {"a1b2c3d4": (">", 1000), "d4c3b2a1": ("<", 1000), "a1b23c4d": (">", 1), "4d3cb2a1": ("<", 1)}
    if data[:4].hex() not in kinds:
        refuse("P3 Magic")
    order, unit = kinds[data[:4].hex()]
    if struct.unpack_from(order + "HH", data, 4) != (2, 4):
        refuse("P4 Version")
    (link_type,) = struct.unpack_from(order + "I", data, 20)
    if link_type != 1:
        refuse(f"P5 LinkType {link_type}")
    records: list[Record] = []
    at = 24
    while at < len(data):
        number = len(records) + 1
        if len(data) - at < 16:
            refuse("P6 CutHeader", number)
        seconds, fraction, captured, original = struct.unpack_from(order + "4I", data, at)
        stamp = seconds * SECOND + fraction * unit
        if captured > GREATEST_RECORD:
            refuse("P7 Huge", number)
        if fraction * unit >= SECOND:
            refuse("P8 Fraction", number)
        if seconds == LAST_SECOND:
            refuse("P9 Late", number)
        if records and stamp < records[-1].stamp:
            refuse("P10 Backwards", number)
        if len(data) - at - 16 < captured:
            refuse("P11 CutData", number)
        records.append(Record(stamp, original, data[at + 16:at + 16 + captured]))
        at += 16 + captured
    return records


def capture_of(records: list[Record]) -> bytes:
    """Returns the one text of these records."""
    text = bytes.fromhex("4d3cb2a1 02000400 00000000 00000000 00000400 01000000")
    for record in records:
        length = len(record.data)
        text += struct.pack("<4I", *divmod(record.stamp, SECOND), length, length) + record.data
    return text


# --- From the merge to each port's offers ---


@dataclass(eq=False)
class Arrival:
    port: int
    record: Record
    verdict: str = ""
    link: Link = None  # type: ignore[assignment]  # of a clean frame
    passed: bool = False

    @property
    def stamp(self) -> int:
        return self.record.stamp

    @property
    def size(self) -> int:
        return self.record.size


def verdict_of(table: Table, port: int, record: Record) -> tuple[str, Link | None]:
    """Returns the first case that holds, and the link of a clean frame."""
    if record.original > len(record.data):
        return "cut", None
    if record.size < 64:
        return "short", None
    if record.size > 1518:
        return "long", None
    if record.data[:4] != table.constant:
        return "foreign", None
    number = record.data[4] * 256 + record.data[5]
    links = [link for link in table.links if link.id == number]
    if not links:
        return "no-link", None
    if links[0].source != port:
        return "wrong-port", None
    if record.size > links[0].max_size:
        return "too-big", None
    return "clean", links[0]


def conforms(link: Link, passed: list[Arrival], frame: Arrival) -> bool:
    """Returns whether each window that ends with this frame, and begins with a passed one or with itself, keeps to the link's allowance: in
    bytes, or in frames."""
    sent, each_gap = 0, link.max_size if link.police == "byte" else 1
    for first in [frame] + passed[::-1]:
        sent += first.size if link.police == "byte" else 1
        length = frame.stamp - first.stamp
        if sent * link.bag > each_gap * (link.bag + link.jitter + length):
            return False
    return True


def police(table: Table, arrivals: list[Arrival]) -> None:
    """Marks the frames that their links' accounts pass."""
    for link in table.links:
        passed: list[Arrival] = []
        for frame in arrivals:
            if frame.link is link and conforms(link, passed, frame):
                passed.append(frame)
                frame.passed = True


# --- An output port ---


@dataclass
class Event:
    frame: Arrival
    sent: bool  # else aged
    begin: int
    end: int  # where it was sent: the instant when the line is free again


def service(port: Port, frames: list[Arrival]) -> list[Event]:
    """Returns all events of a port that is offered these frames and has room for them."""
    events: list[Event] = []
    waiting, free = list(frames), 0
    while waiting:
        begin = max(free, waiting[0].stamp + port.latency)
        there = list(takewhile(lambda frame: frame.stamp + port.latency <= begin, waiting))
        high = [frame for frame in there if frame.link.priority == "high"]
        frame = (high or there)[0]
        waiting.remove(frame)
        free = begin
        sent = begin - frame.stamp <= port.max_delay
        if sent:
            free += (frame.size + LINE_OVERHEAD) * port.tick
        events.append(Event(frame, sent, begin, free))
    return events


def occupied(port: Port, admitted: list[Arrival], stamp: int) -> int:
    """Returns the bytes that these frames fill at this instant, by a schedule of all of them."""
    gone = sum(event.frame.size for event in service(port, admitted)
               if (event.sent and event.end <= stamp) or (not event.sent and event.begin < stamp))
    return sum(frame.size for frame in admitted) - gone


def admission(port: Port, frames: list[Arrival]) -> list[Arrival]:
    """Returns the frames that find room, each judged against those that were admitted before it."""
    admitted: list[Arrival] = []
    for frame in frames:
        if occupied(port, admitted, frame.stamp + port.latency) + frame.size <= port.buffer:
            admitted.append(frame)
    return admitted


# --- A run ---


@dataclass
class Outcome:
    captures: dict[int, bytes] = field(default_factory=dict)  # by port
    report: str = ""
    verdict: str = ""


def arrivals_of(table: Table, captures: dict[int, bytes]) -> list[Arrival]:
    """Returns the arrivals of these captures, bytes by port, in the order of the merge, judged and policed."""
    arrivals: list[Arrival] = []
    for port in table.ports:
        arrivals += [Arrival(port.id, record) for record in records_of(captures[port.id], port.id)]
    arrivals.sort(key=lambda arrival: arrival.stamp)  # stable, so by port and place where stamps are equal
    for arrival in arrivals:
        arrival.verdict, link = verdict_of(table, arrival.port, arrival.record)
        if link:
            arrival.link = link
    police(table, arrivals)
    return arrivals


def number_of(count: int, thing: str) -> str:
    """Says so many of a thing."""
    return f"{count} {thing}" if count == 1 else f"{count} {thing}s"


def verdict_line(arrivals: list[Arrival], lost: int) -> str:
    """Returns the line of a run's verdict, from what became of each arrival, and from the number of copies that were offered and not
    sent."""
    policed = [arrival.link.id for arrival in arrivals if arrival.link and not arrival.passed]
    filtered = [arrival for arrival in arrivals if not arrival.link]
    links, frames = number_of(len(set(policed)), "link"), number_of(len(policed), "frame")
    return f"policed {links} {frames}, filtered {len(filtered)}, lost {lost}\n"


def run(table: Table, captures: dict[int, bytes]) -> Outcome:
    """Returns what comes out of the switch for these captures, bytes by port."""
    arrivals = arrivals_of(table, captures)
    outcome, ins, links, outs, lost = Outcome(), [], [], [], 0
    for port in table.ports:
        verdicts = [arrival.verdict for arrival in arrivals if arrival.port == port.id]
        counts = " ".join(f"{verdict} {verdicts.count(verdict)}" for verdict in VERDICTS)
        ins.append(f"in {port.id} seen {len(verdicts)} {counts}")
        offered = [arrival for arrival in arrivals if arrival.passed and port.id in arrival.link.to]
        admitted = admission(port, offered)
        events = service(port, admitted)
        lost += len(offered) - sum(event.sent for event in events)
        outcome.captures[port.id] = capture_of(
            [Record(event.end, event.frame.size, event.frame.record.data) for event in events if event.sent])
        for priority in PRIORITIES:
            of_all, of_admitted = ([frame for frame in frames if frame.link.priority == priority]
                                   for frames in (offered, admitted))
            sent = [event.sent for event in events if event.frame.link.priority == priority]
            outs.append(f"out {port.id} {priority} offered {len(of_all)} full {len(of_all) - len(of_admitted)} "
                        f"aged {sent.count(False)} sent {sent.count(True)}")
    for link in table.links:
        passed = [arrival.passed for arrival in arrivals if arrival.link is link]
        links.append(f"link {link.id} passed {passed.count(True)} policed {passed.count(False)}")
    outcome.report = "".join(line + "\n" for line in ins + links + outs)
    outcome.verdict = verdict_line(arrivals, lost)
    return outcome


# --- The load ---


@dataclass
class Load:
    """What the links of a port ask for, and the four rules."""
    rate: int
    buffer: int  # the least one, in bytes
    high: int | None  # ns
    low: int | None
    rules: list[tuple[str, int, int]]  # of name, need and limit
    lows: bool  # whether there are low links


def rate_of(port: Port, links: list[Link]) -> int:
    """Returns parts of the port's line that these links ask for in each nanosecond."""
    def sixteenths(link: Link) -> int:
        return 21 * link.max_size if link.police == "byte" else 16 * (link.max_size + LINE_OVERHEAD)

    return sum(port.tick * sixteenths(link) * (128_000_000 // link.bag) for link in links)


def burst_of(port: Port, links: list[Link]) -> int:
    """Returns the parts that they ask for at once."""
    return sum(rate_of(port, [link]) * (link.bag + link.jitter) for link in links)


def links_to(table: Table, port: Port) -> tuple[list[Link], list[Link], list[Link]]:
    """Returns the links that lead to a port: all, the high and the low ones."""
    links = [link for link in table.links if port.id in link.to]
    high, low = ([link for link in links if link.priority == priority] for priority in PRIORITIES)
    return links, high, low


def largest_of(port: Port, links: list[Link]) -> int:
    """Returns the line time of their largest frame, in ns."""
    return max(((link.max_size + LINE_OVERHEAD) * port.tick for link in links), default=0)


def bounds_of(table: Table, port: Port, burst: int, high_burst: int) -> tuple[int | None, int | None]:
    """Returns the bounds of the high and of the low links of a port, where all and the high ones ask for so much at once."""
    _, high, low = links_to(table, port)
    high_bound = low_bound = None
    if high:
        high_bound = (high_burst + LOAD_UNIT * largest_of(port, low)) // LOAD_UNIT + port.latency
    if low and rate_of(port, high) < LOAD_UNIT:
        low_bound = burst // (LOAD_UNIT - rate_of(port, high)) + port.latency
    return high_bound, low_bound


def load_of(table: Table, port: Port, scatter: int = 0) -> Load | None:
    """Returns the load of a port, where latencies differ by so many ns, as if the jitters were so much larger; None where it has no
    links."""
    links, high, low = links_to(table, port)
    if not links:
        return None
    burst = burst_of(port, links) + rate_of(port, links) * scatter
    high_bound, low_bound = bounds_of(table, port, burst, burst_of(port, high) + rate_of(port, high) * scatter)
    need, byte = burst + LOAD_UNIT * largest_of(port, links), LOAD_UNIT * port.tick
    rules = [("L1 Rate", rate_of(port, links), LOAD_UNIT), ("L2 Buffer", need, byte * port.buffer)]
    if high_bound is not None:
        rules.append(("L3 HighDelay", high_bound, port.max_delay))
    if low_bound is not None:
        rules.append(("L4 LowDelay", low_bound, port.max_delay))
    return Load(rate_of(port, links), -(-need // byte), high_bound, low_bound, rules, bool(low))


def brought(port: Port, line: Port, rounding: int | None, links: list[Link], spare: int) -> Callable[[int], int]:
    """Returns what links that come in at one port bring, by the length of a window in ns: no more than they may send and, where frames come
    one after the other over the line there by stamps that are rounded down by at most so many ns, than its first frame, that, the window's
    length and these parts beside."""
    burst, rate = burst_of(port, links), rate_of(port, links)
    if rounding is None:
        return lambda window: burst + rate * window
    first, worth = largest_of(line, links) + rounding, LOAD_UNIT * port.tick // line.tick
    return lambda window: min(burst + rate * window, worth * (first + window) + spare)


def least_burst(groups: list[Callable[[int], int]]) -> int:
    """Returns the most by which groups are above the port's line: what they bring gains on it ever less, so that it is where they gain
    nothing more."""
    def above(window: int) -> int:
        return sum(group(window) for group in groups) - LOAD_UNIT * window

    low, high = 0, 1 << 80
    while low < high:
        window = (low + high) // 2
        low, high = (low, window) if above(window + 1) <= above(window) else (window + 1, high)
    return above(low)


def later(group: Callable[[int], int], scatter: int) -> Callable[[int], int]:
    """Returns what comes of a group to the queues, by the length of a window in ns: it came to the switch in a longer one, where latencies
    differ by so many ns."""
    return lambda window: group(window + scatter)


def lesser_bursts(table: Table, port: Port, lines: Mapping[int, int], scatter: int = 0) -> tuple[int, int]:
    """Returns what all links of a port and its high ones ask for at once, where frames come one after the other over the lines of the ports
    with these numbers, by stamps that are rounded down by at most so many ns there, and latencies differ by so many ns."""
    links, high_links, _ = links_to(table, port)
    groups, high_groups = [], []
    for source in table.ports:
        rounding = lines.get(source.id)
        group, high = ([link for link in some if link.source == source.id] for some in (links, high_links))
        groups.append(later(brought(port, source, rounding, group, burst_of(port, high)), scatter))
        high_groups.append(later(brought(port, source, rounding, high, 0), scatter))
    return least_burst(groups), least_burst(high_groups)


def loads_of(table: Table, scatter: int = 0) -> list[tuple[Port, Load]]:
    """Returns the ports that have links, each with its load."""
    loads = ((port, load_of(table, port, scatter)) for port in table.ports)
    return [(port, load) for port, load in loads if load]


def check(table: Table) -> str:
    """Returns the lines of an accepted table, or refuses it by the first rule that fails at the lowest port."""
    lines = []
    for port, load in loads_of(table):
        for rule, need, limit in load.rules:
            if need > limit:
                raise Refused(f"afdx: load {rule}, port {port.id}, need {need}, limit {limit}", 4)
        high, low = ("-" if bound is None else bound for bound in (load.high, load.low))
        lines.append(f"port {port.id} rate {load.rate} buffer {load.buffer} high {high} low {low}")
    return "".join(line + "\n" for line in lines + ["accepted"])


def size(table: Table) -> str:
    """Returns the lines of a table, whether it is accepted or not."""
    lines = []
    for port, load in loads_of(table):
        high = "-" if load.high is None else f"{load.high} of {port.max_delay}"
        low = f"{'none' if load.low is None else load.low} of {port.max_delay}" if load.lows else "-"
        broken = [rule.split()[0] for rule, need, limit in load.rules if need > limit]
        lines.append(f"port {port.id} rate {load.rate} of {LOAD_UNIT} buffer {load.buffer} of {port.buffer} high {high} low {low} "
                     + " ".join(["breaks"] + broken if broken else ["fits"]))
    return "".join(line + "\n" for line in lines)


def captures_in(folder: str, table: Table) -> dict[int, bytes]:
    """Returns the bytes of each port's capture."""
    return {port.id: Path(folder, f"port-{port.id}.pcap").read_bytes() for port in table.ports}


def read(path: str | Path) -> Table:
    """Reads the table of a file."""
    return table_of(Path(path).read_bytes().decode())


def main(given: argparse.Namespace) -> str:
    table = read(given.table)
    if given.size:
        return size(table)
    if not given.folders:
        return check(table)
    source, target = given.folders
    outcome = run(table, captures_in(source, table))
    Path(target).mkdir(parents=True, exist_ok=True)
    for port, capture in outcome.captures.items():
        Path(target, f"port-{port}.pcap").write_bytes(capture)
    return outcome.report + outcome.verdict if given.verdict else outcome.report


def arguments() -> argparse.Namespace:
    parser = argparse.ArgumentParser(description=__doc__, formatter_class=argparse.RawDescriptionHelpFormatter)
    parser.add_argument("--size", action="store_true", help="says what each port needs and has, and the rules that it breaks")
    parser.add_argument("--verdict", action="store_true", help="ends the counts with the verdict's line")
    parser.add_argument("table", help="its load is judged if no folder is named")
    parser.add_argument("folders", nargs="*", metavar="IN OUT", help="the captures that come in, and the folder of those that go out")
    given = parser.parse_args()
    if len(given.folders) not in ((0,) if given.size else (0, 2)):
        parser.error("IN and OUT go together, and without --size")
    return given


if __name__ == "__main__":
    try:
        sys.stdout.write(main(arguments()))
    except Refused as refused:
        print(refused.line, file=sys.stderr)
        sys.exit(refused.status)
