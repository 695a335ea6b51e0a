#!/usr/bin/env python3
"""A plain and slow model of a network of switches; each switch is that of model.py.

A link's way is walked back from its end, row by row; its delays and jitters are summed from the first row on. Numbers are
whole, nanoseconds if nothing is said. A refusal is one line on standard error, with status 3 or 4; of jitters it is a line for
each row. The tables themselves are taken to be in order, their load is not.
"""
import argparse
import re
import struct
import sys
import tomllib
from collections.abc import Callable
from dataclasses import dataclass
from pathlib import Path
from typing import Any, NoReturn, TypeVar

import model
from model import Refused

MICROSECOND = 1000
LEAST_SIZE = 64
MOST_SWITCHES = 64
MOST_DELAY = 1_000_000
MOST_JITTER_US = 10_000
MOST_LATENCY_US = 100
MOST_LINES = 100  # of rows that one rule refuses
ROUNDING = 999  # ns; by so much the whole microseconds of a capture are below the instants at which frames came, at most

Members = dict[str, Any]
Answer = TypeVar("Answer")


# --- The network file ---


@dataclass(frozen=True)
class End:
    switch: str
    port: int

    def __str__(self) -> str:
        return f"{self.switch}.{self.port}"


@dataclass
class Wire:
    place: str
    start: End  # an output port
    end: End  # an ingress port
    delay: int
    down: bool = False


@dataclass
class Switch:
    name: str
    path: str  # of its table
    least: int = 0  # of its latencies; the table's is the most
    down: bool = False


@dataclass
class Layout:
    """What a network file says."""
    one_line: bool  # whether what an end system's port captured came over one line
    switches: list[Switch]
    wires: list[Wire]


def refuse(rule: str, *parts: str) -> NoReturn:
    """Refuses by a rule: with status 3 if its letter is G, of texts that make no network; with 4 if it is J or R, of what a network cannot
    do."""
    raise Refused(", ".join([f"afdx: network {rule}", *parts]), 3 if rule.startswith("G") else 4)


def known(place: str, keys: list[str], members: Members) -> None:
    if not set(members) <= set(keys):
        refuse("G2 UnknownKey", place)


def value(place: str, key: str, members: Members, kind: type) -> Any:
    """Returns a required value of this kind; a truth value is no number."""
    if key not in members:
        refuse("G2 MissingKey", place, key)
    if type(members[key]) is not kind:
        refuse("G2 Kind", place, key)
    return members[key]


def matched(place: str, key: str, members: Members, pattern: str) -> re.Match[str]:
    found = re.fullmatch(pattern, value(place, key, members, str))
    if not found:
        refuse("G2 Range", place, key)
    return found


def number(place: str, key: str, members: Members, least: int, most: int) -> int:
    found: int = value(place, key, members, int)
    if not least <= found <= most:
        refuse("G2 Range", place, key)
    return found


def flag(place: str, key: str, members: Members) -> bool:
    """Returns an optional truth value."""
    found: bool = value(place, key, members, bool) if key in members else False
    return found


def tables(key: str, top: Members) -> list[Members]:
    """Returns an array of tables; none where it is missing."""
    found = top.get(key, [])
    if type(found) is not list or any(type(members) is not dict for members in found):
        refuse("G2 Kind", "top", key)
    return found


def end_of(place: str, key: str, members: Members) -> End:
    found = matched(place, key, members, r"([A-Za-z0-9_-]{1,16})\.([1-9]|1[0-9]|2[0-4])")
    return End(found[1], int(found[2]))


def switch_of(place: str, members: Members, before: list[Switch]) -> Switch:
    known(place, ["name", "table", "least_latency_us", "down"], members)
    name = matched(place, "name", members, r"[A-Za-z0-9_-]{1,16}")[0]
    path = matched(place, "table", members, r"(?s).+")[0]
    least = number(place, "least_latency_us", members, 0, MOST_LATENCY_US) if "least_latency_us" in members else 0
    down = flag(place, "down", members)
    if any(switch.name == name for switch in before):
        refuse("G3 TwiceSwitch", place)
    return Switch(name, path, least * MICROSECOND, down)


def wire_of(place: str, members: Members, names: list[str], before: list[Wire]) -> Wire:
    known(place, ["from", "to", "delay_ns", "down"], members)
    start, end = end_of(place, "from", members), end_of(place, "to", members)
    delay = number(place, "delay_ns", members, 0, MOST_DELAY) if "delay_ns" in members else 0
    down = flag(place, "down", members)
    if start.switch not in names or end.switch not in names:
        refuse("G3 NoSuchSwitch", place)
    if any(wire.start == start for wire in before):
        refuse("G3 TwiceFrom", place)
    if any(wire.end == end for wire in before):
        refuse("G3 TwiceTo", place)
    if start == end:
        refuse("G3 OwnPort", place)
    return Wire(place, start, end, delay, down)


def layout_of(data: bytes) -> Layout:
    """Returns the layout of a network file's bytes."""
    try:
        top = tomllib.loads(data.decode("utf-8"))
    except ValueError:
        refuse("G1 Toml")
    return layout_in(top)


def layout_in(top: Members) -> Layout:
    """Returns the same of the tree of its text."""
    known("top", ["version", "one_line", "switch", "wire"], top)
    if "version" in top:
        number("top", "version", top, 1, 1)
    one_line = flag("top", "one_line", top)
    of_switches, of_wires = tables("switch", top), tables("wire", top)
    if len(of_switches) > MOST_SWITCHES:
        refuse("G2 Range", "top", "switch")
    switches: list[Switch] = []
    wires: list[Wire] = []
    for place, members in enumerate(of_switches, 1):
        switches.append(switch_of(f"switch {place}", members, switches))
    names = [switch.name for switch in switches]
    for place, members in enumerate(of_wires, 1):
        wires.append(wire_of(f"wire {place}", members, names, wires))
    return Layout(one_line, switches, wires)


# --- A network and the rows of its tables ---


@dataclass(eq=False)
class Row:
    """A link's row in the table of a switch."""
    switch: str
    link: model.Link


@dataclass
class Network:
    one_line: bool
    names: list[str]  # of the switches, in file order
    leasts: dict[str, int]  # of their latencies, by name
    down: set[str]  # the names of those that are down
    tables: dict[str, model.Table]  # by name
    wires: list[Wire]
    rows: list[Row]  # of all tables, by switch and place


def network_of(layout: Layout, tables_of: dict[str, model.Table]) -> Network:
    rows = [Row(switch.name, link) for switch in layout.switches for link in tables_of[switch.name].links]
    leasts = {switch.name: switch.least for switch in layout.switches}
    down = {switch.name for switch in layout.switches if switch.down}
    return Network(layout.one_line, [switch.name for switch in layout.switches], leasts, down, tables_of, layout.wires, rows)


def read(path: str | Path) -> Network:
    """Reads the network of a file, and of the tables beside it."""
    layout = layout_of(Path(path).read_bytes())
    return network_of(layout, {switch.name: model.read(Path(path).parent / switch.path) for switch in layout.switches})


def port_of(net: Network, end: End) -> model.Port:
    """Returns the row of a port that the switch has."""
    return next(port for port in net.tables[end.switch].ports if port.id == end.port)


def row_of(net: Network, switch: str, number: int) -> Row | None:
    return next((row for row in net.rows if row.switch == switch and row.link.id == number), None)


def wire_to(net: Network, end: End) -> Wire | None:
    return next((wire for wire in net.wires if wire.end == end), None)


def wire_from(net: Network, start: End) -> Wire | None:
    return next((wire for wire in net.wires if wire.start == start), None)


def is_up(net: Network, wire: Wire) -> bool:
    """Returns whether what leaves at its start comes at its end."""
    return not wire.down and not {wire.start.switch, wire.end.switch} & net.down


def rows_on(net: Network, wire: Wire) -> list[Row]:
    """Returns the rows of the first switch that lead to the wire."""
    return [row for row in net.rows if row.switch == wire.start.switch and wire.start.port in row.link.to]


# --- What the tables must agree on ---


def ports_are_there(net: Network) -> None:
    ends = {End(name, port.id) for name in net.names for port in net.tables[name].ports}
    for wire in net.wires:
        if not {wire.start, wire.end} <= ends:
            refuse("G3 NoSuchPort", wire.place)


def scatter_of(net: Network, name: str) -> int:
    """Returns by how much latencies of the switch may differ, in ns."""
    return net.tables[name].latency - net.leasts[name]


def latencies_are_least(net: Network) -> None:
    for name in net.names:
        if net.leasts[name] > net.tables[name].latency:
            refuse("G3 Latency", f"switch {name}")


def wires_fit(net: Network) -> None:
    for wire in net.wires:
        if net.tables[wire.start.switch].constant != net.tables[wire.end.switch].constant:
            refuse("G4 Constant", wire.place)
        if port_of(net, wire.start).tick != port_of(net, wire.end).tick:
            refuse("G4 Speed", wire.place)


def no_row(wire: Wire, here: Row, there: Row | None) -> str | None:
    return None if there else "G5 NoRow"


def other_port(wire: Wire, here: Row, there: Row) -> str | None:
    return None if there.link.source == wire.end.port else "G6 From"


def other_terms(wire: Wire, here: Row, there: Row) -> str | None:
    if there.link.max_size != here.link.max_size:
        return "G7 Size"
    if there.link.bag != here.link.bag:
        return "G7 Bag"
    return None if there.link.police == here.link.police else "G7 Police"


def rows_agree(net: Network) -> None:
    """Refuses rows that do not agree, rule by rule: by wire, then by the row of the switch that sends."""
    rules: list[Callable[[Wire, Row, Any], str | None]] = [no_row, other_port, other_terms]
    rows = [(wire, row, row_of(net, wire.end.switch, row.link.id)) for wire in net.wires for row in rows_on(net, wire)]
    for rule in rules:
        for wire, here, there in rows:
            if fault := rule(wire, here, there):
                refuse(fault, wire.place, f"link {here.link.id}")


def row_before(net: Network, row: Row) -> tuple[Wire, Row | None] | None:
    """Returns the wire on which a row's link comes and the row that sends it there; nothing for a source, and (wire, None) where the link
    does not come on it."""
    wire = wire_to(net, End(row.switch, row.link.source))
    if not wire:
        return None
    before = row_of(net, wire.start.switch, row.link.id)
    return wire, before if before and wire.start.port in before.link.to else None


def way_to(net: Network, row: Row) -> tuple[list[Row], list[Wire]] | None:
    """Returns the rows from the source to this one, and the wires between them; None where it has no source."""
    rows: list[Row] = [row]
    wires: list[Wire] = []
    while step := row_before(net, rows[0]):
        wire, before = step
        if before is None or before in rows:
            return None
        rows.insert(0, before)
        wires.insert(0, wire)
    return rows, wires


def whole_way(net: Network, row: Row) -> tuple[list[Row], list[Wire]]:
    """Returns the same where each row has a source."""
    way = way_to(net, row)
    assert way
    return way


def sources_are_there(net: Network) -> None:
    for row in net.rows:
        if not way_to(net, row):
            refuse("G8 NoSource", f"switch {row.switch}", f"link {row.link.id}")


def sources_are_one(net: Network) -> None:
    fed: set[int] = set()
    for row in net.rows:
        if row_before(net, row):
            continue
        if row.link.id in fed:
            refuse("G9 TwiceSource", f"link {row.link.id}")
        fed.add(row.link.id)


def texts_agree(net: Network) -> None:
    wires_fit(net)
    rows_agree(net)
    sources_are_there(net)
    sources_are_one(net)


def loads_fit(net: Network, rules: list[str] | None = None) -> None:
    """Refuses the first load that does not fit its table, by all rules or by these."""
    for name in net.names:
        loads = model.loads_of(net.tables[name], scatter_of(net, name))
        for port, rule, need, limit in ((port, *asked) for port, load in loads for asked in load.rules):
            if need > limit and (rules is None or rule in rules):
                raise Refused(f"afdx: load {rule}, port {port.id}, need {need}, limit {limit}, switch {name}", 4)


# --- Delays and jitters ---


@dataclass
class Delays:
    """What a frame takes for a part of its way, at least (with 64 bytes) and at most."""
    least: int = 0
    most: int = 0

    def __add__(self, other: "Delays") -> "Delays":
        return Delays(self.least + other.least, self.most + other.most)


def lines_of(net: Network, name: str) -> dict[int, int]:
    """Returns the ports of a switch over whose lines frames come one after the other, and by how much their stamps may be rounded down:
    what comes over a wire has exact ones; the others are those of end systems, if the network file says so of them."""
    wired = {wire.end.port for wire in net.wires if wire.end.switch == name}
    return {port.id: 0 if port.id in wired else ROUNDING for port in net.tables[name].ports if net.one_line or port.id in wired}


def bound_of(net: Network, row: Row, number: int) -> int:
    """Returns the bound of the link's priority at a port of its switch, where frames come one after the other over the lines that are known
    and latencies differ by the switch's scatter."""
    table, port = net.tables[row.switch], port_of(net, End(row.switch, number))
    high, low = model.bounds_of(table, port, *model.lesser_bursts(table, port, lines_of(net, row.switch), scatter_of(net, row.switch)))
    bound = high if row.link.priority == "high" else low
    assert bound is not None
    return bound


def through(net: Network, row: Row, number: int) -> Delays:
    """Returns the delays from a frame's arrival at a switch until it has left this port."""
    port = port_of(net, End(row.switch, number))
    least = net.leasts[row.switch] + (LEAST_SIZE + model.LINE_OVERHEAD) * port.tick
    return Delays(least, bound_of(net, row, number))


def before(net: Network, row: Row) -> tuple[list[Row], list[Wire], list[Delays]]:
    """Returns the way to a row, rows and wires, and the delays from the arrival at the first switch to that at each switch of it."""
    rows, wires = whole_way(net, row)
    sums = [Delays()]
    for there, wire in zip(rows, wires):
        cable = Delays(wire.delay, wire.delay)
        sums.append(sums[-1] + through(net, there, wire.start.port) + cable)
    return rows, wires, sums


def need_us(first: Row, delays: Delays) -> int:
    """Returns the whole microseconds of jitter that are enough after these delays for a link with this jitter at its first switch."""
    return max(0, -(-(first.link.jitter + delays.most - delays.least) // MICROSECOND))


def rows_refused(rule: str, rows: list[str]) -> Refused:
    """Returns a refusal with a line for each row that a rule of jitters refuses; of more than 100 for the first 100, and how many more
    there are."""
    lines = [f"afdx: network {rule}, {row}" for row in rows[:MOST_LINES]]
    if len(rows) > MOST_LINES:
        lines.append(f"afdx: network {rule}, and {len(rows) - MOST_LINES} more")
    return Refused("\n".join(lines), 4)


def jitters_are_enough(net: Network) -> None:
    short = []
    for row in net.rows:
        rows, _, sums = before(net, row)
        need, has = need_us(rows[0], sums[-1]), row.link.jitter // MICROSECOND
        if need > has:
            short.append(f"switch {row.switch}, link {row.link.id}, need {need}, has {has}")
    if short:
        raise rows_refused("J1 Jitter", short)


# --- The commands ---


def accept(net: Network) -> None:
    """Refuses what `check` refuses, in its order."""
    ports_are_there(net)
    latencies_are_least(net)
    loads_fit(net)
    texts_agree(net)
    jitters_are_enough(net)


def ends_of(net: Network) -> list[tuple[Row, int]]:
    """Returns each row with a port that leads out of the network: by link, then by switch and port."""
    places = [(row.link.id, net.names.index(row.switch), port, row) for row in net.rows for port in row.link.to
              if not wire_from(net, End(row.switch, port))]
    return [(row, port) for _, _, port, row in sorted(places, key=lambda place: place[:3])]


def way_line(net: Network, row: Row, port: int) -> tuple[str, int]:
    rows, wires, sums = before(net, row)
    whole = sums[-1] + through(net, row, port)
    last = End(row.switch, port)
    ports = " ".join(str(end) for end in [wire.start for wire in wires] + [last])
    needs = " ".join(str(need_us(rows[0], delays)) for delays in sums)
    source = End(rows[0].switch, rows[0].link.source)
    return f"link {row.link.id} from {source} to {last} ways {ports} least {whole.least} most {whole.most} jitter {needs}", whole.most


def is_lost(net: Network, row: Row) -> bool:
    """Returns whether something is down on the way to a row, or its own switch."""
    rows, wires = whole_way(net, row)
    return any(there.switch in net.down for there in rows) or not all(is_up(net, wire) for wire in wires)


def check(net: Network) -> str:
    """Returns the lines of an accepted network."""
    accept(net)
    lines = [f"switch {name} accepted" for name in net.names] + ["premise one_line"] * net.one_line
    ends = [(row, port, *way_line(net, row, port)) for row, port in ends_of(net) if not is_lost(net, row)]
    lines += [line for _, _, line, _ in ends]
    lines += [f"link {row.link.id} to {End(row.switch, port)} none" for row, port in ends_of(net) if is_lost(net, row)]
    if ends:
        row, port, _, most = max(ends, key=lambda end: end[3])  # the first of the greatest
        lines.append(f"greatest {most} link {row.link.id} to {End(row.switch, port)}")
    return "".join(line + "\n" for line in lines + ["accepted"])


def jitter_lines(net: Network) -> str:
    return "".join(f"switch {row.switch} link {row.link.id} jitter_us {row.link.jitter // MICROSECOND}\n" for row in net.rows)


def turn(net: Network) -> bool:
    """Sets the jitters that the rows need where all have those that they have now; says whether one of them changed."""
    needs = [(row, need_us(whole_way(net, row)[0][0], before(net, row)[2][-1]) * MICROSECOND) for row in net.rows]
    changed = any(row.link.jitter != need for row, need in needs)
    for row, need in needs:
        row.link.jitter = need
    return changed


def solve(net: Network) -> list[Row]:
    """Puts the least jitters into the rows, beginning with the sources' own at each; ends with the first turn in which rows come to
    be past the limit, and gives those."""
    firsts = [(row, whole_way(net, row)[0][0].link.jitter) for row in net.rows]
    for row, jitter in firsts:
        row.link.jitter = jitter
    while turn(net):
        past = [row for row in net.rows if row.link.jitter > MOST_JITTER_US * MICROSECOND]
        if past:
            return past
    return []


def jitter(net: Network) -> tuple[str, Refused | None]:
    """Returns the lines of all rows, and the refusal of those that are past the limit."""
    ports_are_there(net)
    latencies_are_least(net)
    loads_fit(net, ["L1 Rate"])
    texts_agree(net)
    past = solve(net)
    if not past:
        return jitter_lines(net), None
    rows = [f"switch {row.switch}, link {row.link.id}, need {row.link.jitter // MICROSECOND}" for row in past]
    return jitter_lines(net), rows_refused("J2 NoJitter", rows)


# --- A run ---


def order_of(net: Network) -> list[str]:
    """Returns all switches: next is one whose wires all come from those before, where there is one, else the first of the file that is
    left."""
    order: list[str] = []
    left = list(net.names)
    while left:
        ready = [name for name in left if not any(wire.end.switch == name and wire.start.switch in left for wire in net.wires)]
        order.append((ready or left)[0])
        left.remove(order[-1])
    return order


def of_switch(name: str, call: Callable[..., Answer], *arguments: Any) -> Answer:
    """Returns what the call answers; a refusal names the switch."""
    try:
        return call(*arguments)
    except Refused as refused:
        raise Refused(f"{refused.line}, switch {name}", refused.status)


def written(text: bytes) -> list[model.Record]:
    """Returns the records of a text that a switch wrote; the last ones may be too late to be read."""
    records, at = [], 24
    while at < len(text):
        seconds, nanos, captured, original = struct.unpack_from("<4I", text, at)
        records.append(model.Record(seconds * model.SECOND + nanos, original, text[at + 16:at + 16 + captured]))
        at += 16 + captured
    return records


def carried(net: Network, wire: Wire, outcome: model.Outcome) -> bytes:
    """Returns the text at the end of a wire."""
    if not is_up(net, wire):
        return model.capture_of([])
    return model.capture_of([model.Record(record.stamp + wire.delay, record.original, record.data)
                             for record in written(outcome.captures[wire.start.port])])


def texts_at(net: Network, name: str, given: dict[End, bytes], wired: dict[End, bytes]) -> dict[int, bytes]:
    """Returns the captures of a switch's ports: those that were given, and those that came on wires."""
    ends = [End(name, port.id) for port in net.tables[name].ports]
    return {end.port: wired[end] if end in wired else given[end] for end in ends}


def brought(net: Network, name: str, outcomes: dict[str, model.Outcome]) -> dict[End, bytes]:
    """Returns what the wires bring to a switch: nothing from one that has not run."""
    return {wire.end: carried(net, wire, outcomes[wire.start.switch]) if wire.start.switch in outcomes else model.capture_of([])
            for wire in net.wires if wire.end.switch == name}


def run_in_rounds(net: Network, given: dict[End, bytes], order: list[str]) -> dict[str, model.Outcome]:
    """Runs the switches in this order over what is there, and again where a wire brings another text, until each brings what came in.

    Another way than the program's, which takes all switches on by time. It ends too: each round settles what comes a line time later.
    """
    came: dict[str, dict[int, bytes]] = {}
    outcomes: dict[str, model.Outcome] = {}
    while True:
        for name in order:
            texts = texts_at(net, name, given, brought(net, name, outcomes))
            if texts != came.get(name):
                came[name], outcomes[name] = texts, of_switch(name, model.run, net.tables[name], texts)
        if all(texts_at(net, name, given, brought(net, name, outcomes)) == came[name] for name in order):
            return outcomes


def breach_of(port: model.Port, records: list[model.Record]) -> int | None:
    """Returns the number of the first record that did not come over this port's line one frame after the other, whatever of a microsecond
    the stamps lack: the line times of it and of some just before it are more than the time since the record before them and that."""
    for last, record in enumerate(records):
        taken = 0
        for first in range(last, 0, -1):
            taken += (records[first].size + model.LINE_OVERHEAD) * port.tick
            if records[first - 1].stamp + taken > record.stamp + ROUNDING:
                return last + 1
    return None


def lines_are_kept(net: Network, given: dict[End, bytes]) -> None:
    for end, text in given.items():
        record = breach_of(port_of(net, end), model.records_of(text, end.port))
        if record:
            refuse("R2 Line", f"switch {end.switch}", f"port {end.port}", f"record {record}")


def run(net: Network, given: dict[End, bytes]) -> dict[str, model.Outcome]:
    """Returns what comes out of each switch, where these captures come in at the ports without a wire."""
    accept(net)
    return run_unchecked(net, given)


def run_unchecked(net: Network, given: dict[End, bytes]) -> dict[str, model.Outcome]:
    """Returns what comes out of each switch, whether the network is accepted or not."""
    coming = coming_in(net, given)
    for end, text in coming.items():
        of_switch(end.switch, model.records_of, text, end.port)
    if net.one_line:
        lines_are_kept(net, coming)
    return run_in_rounds(net, coming, order_of(net))


def coming_in(net: Network, given: dict[End, bytes]) -> dict[End, bytes]:
    """Returns what comes in at the ports without a wire: nothing at a switch that is down."""
    return {end: model.capture_of([]) if end.switch in net.down else given[end] for end in open_ends(net)}


def open_ends(net: Network) -> list[End]:
    """Returns the ingress ports without a wire."""
    ends = [End(name, port.id) for name in net.names for port in net.tables[name].ports]
    return [end for end in ends if not wire_to(net, end)]


def report(net: Network, outcomes: dict[str, model.Outcome]) -> str:
    return "".join(f"{name} {line}\n" for name in net.names for line in outcomes[name].report.splitlines())


def captures_in(net: Network, folder: str | Path) -> dict[End, bytes]:
    return {end: Path(folder, end.switch, f"port-{end.port}.pcap").read_bytes() for end in open_ends(net)}


def put(net: Network, outcomes: dict[str, model.Outcome], folder: str | Path) -> None:
    for name in net.names:
        Path(folder, name).mkdir(parents=True, exist_ok=True)
        for port, capture in outcomes[name].captures.items():
            Path(folder, name, f"port-{port}.pcap").write_bytes(capture)


def run_files(path: str | Path, source: str | Path, target: str | Path) -> str:
    """Runs the network over the captures of a folder; writes those that go out, and answers the report."""
    net = read(path)
    accept(net)  # before a capture is got
    outcomes = run(net, captures_in(net, source))
    put(net, outcomes, target)
    return report(net, outcomes)


def main(given: argparse.Namespace) -> tuple[str, Refused | None]:
    """Returns what a command prints, and the refusal with which it ends then."""
    if given.command == "check":
        return check(read(given.network)), None
    if given.command == "jitter":
        return jitter(read(given.network))
    return run_files(given.network, given.source, given.target), None


def arguments() -> argparse.Namespace:
    parser = argparse.ArgumentParser(description=__doc__, formatter_class=argparse.RawDescriptionHelpFormatter)
    commands = parser.add_subparsers(dest="command", required=True)
    checks = commands.add_parser("check", help="the switches, the ways with their delays and jitters, then `accepted`")
    jitters = commands.add_parser("jitter", help="the jitter that each row needs, from the sources' own")
    runs = commands.add_parser("run", help="what goes out, and each switch's counts after its name")
    for command in (checks, jitters, runs):
        command.add_argument("network", help="the network file")
    runs.add_argument("source", metavar="IN", help="has IN/A/port-K.pcap for each port without a wire")
    runs.add_argument("target", metavar="OUT", help="gets OUT/A/port-K.pcap for each port")
    return parser.parse_args()


if __name__ == "__main__":
    try:
        said, refused = main(arguments())
        sys.stdout.write(said)
        if refused:
            raise refused
    except Refused as fault:
        sys.stdout.flush()
        print(fault.line, file=sys.stderr)
        sys.exit(fault.status)
