#!/usr/bin/env python3
"""A trial of networks: random ones of 2 to 5 switches, with senders that send whatever they like.

They are the same ones each time, run by network_model.py and, if it is named, by the program, whose bytes and lines are then those
of the model. Each third one is a ring in which frames come in, start and end on a grid of 5 us, so that many come in at one instant, at
several ports and at several switches; what comes in begins in 1970 or in 2026. The tables have the jitters that `jitter` finds. Of each
link the frames that its first account passes leave each of its end ports, in order, each between the least and the most that `check`
prints for its size; no later account polices a frame. With less jitter in some rows the program names the same rows as the model. In an
outage of a switch or of wires the ways that use nothing of these deliver as before, and nothing leaves at the ends of the others. Each
second network says that its end systems have one line each; what they send keeps to it, by stamps of ns or of whole us, and what keeps to
no line is refused by the same record as by the model.
"""
import argparse
import copy
import subprocess
import sys
from collections import Counter
from collections.abc import Iterator, Sequence
from dataclasses import dataclass
from pathlib import Path
from random import Random

import babblers
import csv_rows
import model
import network_answers
import network_model
from captures import frame
from network_model import End, Network, Row, Wire

MILLISECOND = 1_000_000
MBIT = {800: 10, 80: 100, 8: 1000}
GRID = 5_000  # ns
BEGINS = [20 * MILLISECOND, 1_790_000_000 * model.SECOND]  # in 1970 and in 2026


# --- A network ---


@dataclass(frozen=True)
class Range:
    """What the numbers of a network are drawn from."""

    trunks: Sequence[int]  # ns of a byte, of lines between switches
    lines: Sequence[int]  # those of end systems' lines
    delays: Sequence[int]  # ns, of wires
    latencies: Sequence[int]  # us
    sizes: Sequence[int]  # bytes, of links' largest frames
    links: Sequence[int]  # how many


FREE = Range([8, 80, 80, 80], [8, 80, 80, 800], [0, 25, 12_345], range(1, 101), [64, 64, 200, 1518], range(3, 11))
# At 100 Mbit/s a frame of 105 bytes occupies a line for 10 us and one of 230 bytes for 20 us.
TIED = Range([80], [80], [0, 0, GRID, 4 * GRID], [5, 10, 20], [105, 230], range(8, 17))


class Plan:
    """Switches that get their ports one by one."""

    def __init__(self, chance: Random, drawn: Range) -> None:
        self.chance, self.drawn = chance, drawn
        self.names = list("ABCDE")[:chance.randint(2, 5)]
        self.ticks: dict[str, list[int]] = {name: [] for name in self.names}
        self.open: list[End] = []  # end systems' ports
        self.wires: list[Wire] = []

    def port(self, name: str, tick: int) -> End:
        self.ticks[name].append(tick)
        return End(name, len(self.ticks[name]))

    def wire(self, start: End, end: End) -> None:
        place = f"wire {len(self.wires) + 1}"
        self.wires.append(Wire(place, start, end, self.chance.choice(self.drawn.delays)))

    def cable(self, name: str, other: str) -> None:
        """Lays a cable: both directions, at one speed."""
        tick = self.chance.choice(self.drawn.trunks)
        here, there = self.port(name, tick), self.port(other, tick)
        self.wire(here, there)
        self.wire(there, here)

    def one_way(self, name: str, other: str) -> None:
        tick = self.chance.choice(self.drawn.trunks)
        self.wire(self.port(name, tick), self.port(other, tick))

    def end_systems(self, least: int, most: int) -> None:
        """Adds so many more at each switch."""
        for name in self.names:
            self.open += [self.port(name, self.chance.choice(self.drawn.lines)) for _ in range(self.chance.randint(least, most))]


def draw_plan(chance: Random, drawn: Range) -> Plan:
    """Draws a tree of cables or a ring, if it is tied always that, in one direction or in both; each switch has a few end systems."""
    plan = Plan(chance, drawn)
    plan.end_systems(0, 1)  # whose ports come before those of wires, where frames come in at one instant
    if drawn is TIED or chance.random() < 0.4:
        join = plan.cable if len(plan.names) > 2 and chance.random() < 0.3 else plan.one_way
        for name, other in zip(plan.names, plan.names[1:] + plan.names[:1]):
            join(name, other)
    else:
        for number, name in enumerate(plan.names[1:], 1):
            plan.cable(chance.choice(plan.names[:number]), name)
    plan.end_systems(1, 2)
    return plan


def reach(plan: Plan, name: str) -> dict[str, Wire | None]:
    """Returns the wire on which each other switch is reached from this one, by fewest wires."""
    found: dict[str, Wire | None] = {name: None}
    near = [name]
    while near:
        wires = [wire for wire in plan.wires if wire.start.switch == near[0] and wire.end.switch not in found]
        found |= {wire.end.switch: wire for wire in wires}
        near = near[1:] + [wire.end.switch for wire in wires]
    return found


def rows_of(plan: Plan, source: End, ends: list[End]) -> dict[str, tuple[int, set[int]]]:
    """Returns, for each switch on the way, where the link comes in, and the ports at which it leaves."""
    by = reach(plan, source.switch)
    rows: dict[str, tuple[int, set[int]]] = {source.switch: (source.port, set())}
    for end in ends:
        at, port = end.switch, end.port
        while True:
            wire = by[at]
            rows.setdefault(at, (wire.end.port if wire else source.port, set()))[1].add(port)
            if wire is None:
                break
            at, port = wire.start.switch, wire.start.port
    return rows


def draw_links(chance: Random, plan: Plan, tables: dict[str, model.Table]) -> None:
    for number in chance.sample(range(65_536), chance.choice(plan.drawn.links)):
        source = chance.choice(plan.open)
        others = [end for end in plan.open if end != source]
        ends = chance.sample(others, min(len(others), chance.choice([1, 1, 2, 3])))
        bag, jitter = MILLISECOND << chance.randint(0, 3), 1000 * chance.choice([0, 0, chance.randint(1, 2_000)])
        size, police = chance.choice(plan.drawn.sizes), chance.choice(model.POLICINGS)
        for name, (port, to) in rows_of(plan, source, ends).items():
            tables[name].links.append(model.Link(number, port, sorted(to), bag, jitter, size, chance.choice(model.PRIORITIES), police))


def draw_least(chance: Random, latency: int) -> int:
    """Draws what a switch with this latency takes at least: often the same, or nothing is known."""
    return 1000 * chance.choice([latency // 1000, 0, chance.randint(0, latency // 1000)])


def draw_network(chance: Random, drawn: Range, one_line: bool) -> Network:
    plan = draw_plan(chance, drawn)
    tables: dict[str, model.Table] = {}
    for name in plan.names:
        latency = 1000 * chance.choice([0, chance.choice(drawn.latencies)])
        ports = [model.Port(number, tick, 16_777_216, 500_000_000, latency) for number, tick in enumerate(plan.ticks[name], 1)]
        tables[name] = model.Table(bytes.fromhex("03000000"), ports, [], latency)
    draw_links(chance, plan, tables)
    switches = [network_model.Switch(name, f"{name}.toml", draw_least(chance, tables[name].latency)) for name in plan.names]
    return network_model.network_of(network_model.Layout(one_line, switches, plan.wires), tables)


def accepted_network(chance: Random, drawn: Range, one_line: bool) -> Network:
    """Returns a network whose jitters a table can have."""
    while True:
        net = draw_network(chance, drawn, one_line)
        try:
            if network_model.jitter(net)[1] is None:
                network_model.accept(net)
                return net
        except model.Refused:
            pass


# --- What comes in ---


def bursts(chance: Random, links: list[model.Link], at: int) -> Iterator[babblers.Frame]:
    """Yields all that full accounts pay for at one instant and more, then a frame now and again."""
    for link in links:
        for _ in range(chance.randint(1, 6)):
            yield at, 0, frame(link.id, link.max_size if chance.random() < 0.7 else 64)
        for number in range(1, chance.randint(1, 4)):
            yield at + number * link.bag - chance.randint(0, link.jitter), 0, frame(link.id, 64)


def noise(chance: Random, net: Network, at: int) -> Iterator[babblers.Frame]:
    """Yields frames of any link, cut, foreign, short and long ones."""
    for _ in range(chance.randint(0, 6)):
        number, size = chance.choice(net.rows).link.id, chance.choice([18, 63, 64, 200, 1518, 1519])
        yield (at + chance.randint(0, MILLISECOND), chance.choice([0, 0, 0, 1]),
               frame(number, size, chance.choice(["03000000", "03000000", "07000000"])))


def on_the_grid(chance: Random, links: list[model.Link], at: int) -> Iterator[babblers.Frame]:
    """Yields a few frames of each link, now and again, each at one of nine instants."""
    for link in links:
        for number in range(chance.randint(4, 9)):
            for _ in range(chance.randint(1, 3)):
                size = chance.choice([size for size in TIED.sizes if size <= link.max_size])
                yield at + number * link.bag + GRID * chance.randint(0, 8), 0, frame(link.id, size)


def over_one_line(port: model.Port, frames: list[babblers.Frame], unit: int) -> Iterator[babblers.Frame]:
    """Yields the frames as soon as the line can bring each, one after the other; their stamps are rounded down to whole units of so many
    ns."""
    came: int | None = None
    for stamp, lacking, data in sorted(frames, key=lambda frame: frame[0]):
        time = (len(data) + model.CHECK_SEQUENCE + model.LINE_OVERHEAD) * port.tick
        came = stamp if came is None else max(stamp, came + time)
        yield came // unit * unit, lacking, data


def captures(chance: Random, net: Network, drawn: Range, one_line: bool) -> dict[End, bytes]:
    """Draws what comes in at each port; over one line each, if that is so."""
    at, unit = chance.choice(BEGINS), chance.choice([1, network_model.MICROSECOND])
    given: dict[End, bytes] = {}
    for end in network_model.open_ends(net):
        links = [row.link for row in net.rows if row.switch == end.switch and row.link.source == end.port]
        sent = [*(on_the_grid(chance, links, at) if drawn is TIED else bursts(chance, links, at)), *noise(chance, net, at)]
        frames = [(max(stamp, 0), lacking, data) for stamp, lacking, data in sent]
        given[end] = babblers.capture(over_one_line(network_model.port_of(net, end), frames, unit) if one_line else frames)
    return given


def drawn_network(number: int, chance: Random) -> tuple[Network, dict[End, bytes]]:
    """Draws a network, and what comes in; each third one is tied, and each second one says that end systems have one line each."""
    drawn, one_line = FREE if number % 3 else TIED, number % 2 == 0
    net = accepted_network(chance, drawn, one_line)
    return net, captures(chance, net, drawn, one_line)


# --- What must be so ---


def passed_at(net: Network, row: Row, text: bytes) -> list[model.Record]:
    """Returns the records of a source's capture that the row's account passes."""
    table, link = net.tables[row.switch], row.link
    passed: list[model.Arrival] = []
    for record in model.records_of(text, link.source):
        frame = model.Arrival(link.source, record, link=link)
        if model.verdict_of(table, link.source, record) == ("clean", link) and model.conforms(link, passed, frame):
            passed.append(frame)
    return [frame.record for frame in passed]


def least_of(net: Network, row: Row, port: int, size: int) -> int:
    """Returns what a frame of this size takes at least, to the end of the way, in ns."""
    rows, wires, _ = network_model.before(net, row)
    ports = [wire.start for wire in wires] + [End(row.switch, port)]
    lines = [(net.leasts[end.switch], network_model.port_of(net, end)) for end in ports]
    return sum(least + (size + model.LINE_OVERHEAD) * line.tick for least, line in lines) + sum(wire.delay for wire in wires)


def delivered(net: Network, given: dict[End, bytes], outcomes: dict[str, model.Outcome], row: Row, port: int) -> str | None:
    """Says what is wrong at the end of a link's way."""
    rows, _, sums = network_model.before(net, row)
    most = (sums[-1] + network_model.through(net, row, port)).most
    came = passed_at(net, rows[0], given[End(rows[0].switch, rows[0].link.source)])
    left = [record for record in network_model.written(outcomes[row.switch].captures[port])
            if int.from_bytes(record.data[4:6], "big") == row.link.id]
    if [record.data for record in came] != [record.data for record in left]:
        return "other frames"
    late = [(first, last) for first, last in zip(came, left)
            if not least_of(net, row, port, first.size) <= last.stamp - first.stamp <= most]
    return f"delay of {late[0][1].stamp - late[0][0].stamp}" if late else None


def wrong_of(net: Network, given: dict[End, bytes], outcomes: dict[str, model.Outcome]) -> Iterator[str]:
    for row, port in network_model.ends_of(net):
        wrong = delivered(net, given, outcomes, row, port)
        if wrong:
            yield f"link {row.link.id} to {row.switch}.{port}: {wrong}"
    for row in net.rows:
        if network_model.row_before(net, row):
            line = next(line for line in outcomes[row.switch].report.splitlines() if line.startswith(f"link {row.link.id} "))
            if not line.endswith(" policed 0"):
                yield f"switch {row.switch} {line}"


def ties_of(net: Network, given: dict[End, bytes], outcomes: dict[str, model.Outcome]) -> int:
    """Counts the frames that come over a wire at the instant at which others come in at another port of the switch."""
    found = 0
    for name in net.names:
        texts = network_model.texts_at(net, name, given, network_model.brought(net, name, outcomes))
        stamps = {port: Counter(record.stamp for record in network_model.written(text)) for port, text in texts.items()}
        wired = {wire.end.port for wire in net.wires if wire.end.switch == name}
        found += sum(count for port in wired for stamp, count in stamps[port].items()
                     if any(stamp in stamps[other] for other in stamps if other != port))
    return found


# --- The program ---


def table_text(table: model.Table) -> str:
    lines = ["version = 3", f"latency_us = {table.ports[0].latency // 1000}"]
    for port in table.ports:
        lines += ["[[port]]", f"id = {port.id}", f"mbit = {MBIT[port.tick]}", f"buffer = {port.buffer}",
                  f"max_delay_us = {port.max_delay // 1000}"]
    for link in table.links:
        lines += ["[[link]]", f"id = {link.id}", f"from = {link.source}", f"to = {link.to}", f"bag_ms = {link.bag // MILLISECOND}",
                  f"jitter_us = {link.jitter // 1000}", f"max_size = {link.max_size}", f'priority = "{link.priority}"',
                  f'police = "{link.police}"']
    return "\n".join(lines) + "\n"


def network_text(net: Network) -> str:
    lines = ["version = 1"] + ["one_line = true"] * net.one_line
    for name in net.names:
        lines += ["[[switch]]", f'name = "{name}"', f'table = "{name}.toml"']
        lines += [f"least_latency_us = {net.leasts[name] // 1000}"] if net.leasts[name] else []
        lines += ["down = true"] if name in net.down else []
    for wire in net.wires:
        lines += ["[[wire]]", f'from = "{wire.start}"', f'to = "{wire.end}"', f"delay_ns = {wire.delay}"]
        lines += ["down = true"] if wire.down else []
    return "\n".join(lines) + "\n"


def put(room: Path, name: str, data: bytes) -> None:
    (room / name).parent.mkdir(parents=True, exist_ok=True)
    (room / name).write_bytes(data)


def lay_out(room: Path, net: Network, given: dict[End, bytes]) -> None:
    put(room, "net.toml", network_text(net).encode())
    for name in net.names:
        put(room, f"{name}.toml", table_text(net.tables[name]).encode())
        (room / "out" / name).mkdir(parents=True, exist_ok=True)
    for end, text in given.items():
        put(room, f"in/{end.switch}/port-{end.port}.pcap", text)


def answer(afdx: str, room: Path, *arguments: str) -> tuple[int, str, str]:
    done = subprocess.run([afdx, "network", *arguments], cwd=room, capture_output=True, text=True, check=False)
    return done.returncode, done.stdout, done.stderr


def with_less_jitter(chance: Random, net: Network) -> Network:
    """Returns the network with less jitter in some rows, so that some may fall short."""
    less = copy.deepcopy(net)
    for row in less.rows:
        if chance.randrange(2):
            row.link.jitter = 1000 * chance.randint(0, row.link.jitter // 1000)
    return less


def in_an_outage(chance: Random, net: Network) -> Network:
    """Returns the network with a switch down, or a few wires, or both."""
    cut = copy.deepcopy(net)
    if chance.random() < 0.5:
        cut.down = {chance.choice(net.names)}
    for wire in chance.sample(cut.wires, min(len(cut.wires), chance.choice([0, 1, 2]))):
        wire.down = True
    return cut


def checked(net: Network) -> tuple[int, str, str]:
    """Returns what `check` is to answer."""
    try:
        return 0, network_model.check(net), ""
    except model.Refused as refused:
        return refused.status, "", refused.line + "\n"


def falls_short(afdx: str, chance: Random, room: Path, net: Network) -> Iterator[str]:
    """Says where the program names other rows than the model."""
    less = with_less_jitter(chance, net)
    lay_out(room, less, {})
    if answer(afdx, room, "check", "net.toml") != checked(less):
        yield "network check with less jitter"


def broken(chance: Random, afdx: str | None, room: Path | None, net: Network) -> Iterator[str]:
    """Says where the program says something else than the model of frames that keep to no line, or either takes them."""
    given = captures(chance, net, FREE, False)
    try:
        network_model.run(net, given)
        wanted = "taken"
    except model.Refused as refused:
        wanted = refused.line + "\n"
    if not wanted.startswith("afdx: network R2 Line, switch "):
        yield f"frames that keep to no line: {wanted}"
    if afdx and room:
        lay_out(room, net, given)
        if answer(afdx, room, "run", "net.toml", "in", "out") != (4, "", wanted) or any((room / "out").rglob("*.pcap")):
            yield "network run of frames that keep to no line"


def wrong_in(cut: Network, net: Network, given: dict[End, bytes], outcomes: dict[str, model.Outcome]) -> Iterator[str]:
    """Says what is wrong in an outage of a network: a way that is left is as it was and delivers, and nothing leaves at the end of
    another."""
    ends = network_model.ends_of(cut)
    lost = [(row, port) for row, port in ends if network_model.is_lost(cut, row)]
    lines = network_model.check(cut).splitlines()
    before = {line for line in network_model.check(net).splitlines() if " ways " in line}
    if not {line for line in lines if " ways " in line} <= before or sum(line.endswith(" none") for line in lines) != len(lost):
        yield "other ways in an outage"
    for row, port in ends:
        left = [record for record in network_model.written(outcomes[row.switch].captures[port])
                if int.from_bytes(record.data[4:6], "big") == row.link.id]
        wrong = ("frames of a lost link" if left else None) if (row, port) in lost else delivered(cut, given, outcomes, row, port)
        if wrong:
            yield f"link {row.link.id} to {row.switch}.{port} in an outage: {wrong}"


def measured(net: Network, sites: network_answers.Sites, unchecked: bool) -> Iterator[tuple[list[str], str]]:
    """Yields what the commands say that put nothing, as lines and as rows."""
    options = ["--unchecked"] if unchecked else []
    for command, said in network_answers.PRINTED.items():
        lines = said(net, sites, unchecked)
        yield [command, "net.toml", "in", *options], lines
        yield [command, "net.toml", "in", *options, "--csv"], csv_rows.csv_of(f"network {command}", lines)


def differs(afdx: str, room: Path, net: Network, given: dict[End, bytes], outcomes: dict[str, model.Outcome]) -> Iterator[str]:
    """Says where the program says something else than the model."""
    lay_out(room, net, given)
    sites = network_answers.sites_of(net, given, outcomes)
    wanted = [(["check", "net.toml"], network_model.check(net)), (["jitter", "net.toml"], network_model.jitter_lines(net)),
              (["run", "net.toml", "in", "out"], network_model.report(net, outcomes)),
              *measured(net, sites, False)]
    for arguments, said in wanted:
        if answer(afdx, room, *arguments) != (0, said, ""):
            yield f"network {' '.join(arguments)}"
    for name in net.names:
        for port, text in outcomes[name].captures.items():
            if (room / "out" / name / f"port-{port}.pcap").read_bytes() != text:
                yield f"{name}/port-{port}.pcap"


def strained(net: Network) -> Network:
    """Returns the network with no jitter past the sources, small buffers and little patience: frames are policed and lost at any switch."""
    tight = copy.deepcopy(net)
    for row in tight.rows:
        if network_model.row_before(tight, row):
            row.link.jitter = 0
    for table in tight.tables.values():
        for port in table.ports:
            port.buffer, port.max_delay = 2000, 200_000
    return tight


def strains(afdx: str, room: Path, net: Network, given: dict[End, bytes]) -> Iterator[str]:
    """Says where the program measures something else than the model, of frames that are lost on their way."""
    tight = strained(net)
    lay_out(room, tight, given)
    sites = network_answers.sites_of(tight, given, network_answers.outcomes_of(tight, given, True))
    for arguments, said in measured(tight, sites, True):
        if answer(afdx, room, *arguments) != (0, said, ""):
            yield f"network {' '.join(arguments)}"
    if answer(afdx, room, "trace", "net.toml", "in", "out", "--unchecked") != (0, "", ""):
        yield "network trace --unchecked"
    for name, text in network_answers.trace(tight, sites).items():
        if (room / "out" / name).read_text() != text:
            yield name


def within_of(net: Network, given: dict[End, bytes], outcomes: dict[str, model.Outcome]) -> Iterator[str]:
    """Says where a delay from end to end lies beside what is promised of its way."""
    for line in network_answers.measure(net, network_answers.sites_of(net, given, outcomes), False).splitlines():
        words = line.split()
        if words[0] == "link" and words[7] != "0" and not int(words[13]) <= int(words[9]) <= int(words[11]) <= int(words[15]):
            yield line


def main() -> None:
    parser = argparse.ArgumentParser(description=__doc__, formatter_class=argparse.RawDescriptionHelpFormatter)
    parser.add_argument("count", type=int, help="of networks")
    parser.add_argument("afdx", nargs="?", help="the program")
    parser.add_argument("room", nargs="?", type=Path, help="the folder of its files")
    given = parser.parse_args()
    if given.afdx and not given.room:
        parser.error("a folder is missing")
    faults, inner, ties = 0, 0, 0
    for number in range(1, given.count + 1):
        chance = Random(number)
        net, sent = drawn_network(number, chance)
        outcomes = network_model.run(net, sent)
        inner += sum(len(model.records_of(outcomes[wire.start.switch].captures[wire.start.port], 0)) for wire in net.wires)
        ties += ties_of(net, sent, outcomes)
        wrong = list(wrong_of(net, sent, outcomes)) + list(within_of(net, sent, outcomes))
        if given.afdx:
            wrong += differs(given.afdx, given.room / str(number), net, sent, outcomes)
            wrong += strains(given.afdx, given.room / f"{number}-strained", net, sent)
            wrong += falls_short(given.afdx, chance, given.room / f"{number}-short", net)
        cut = in_an_outage(chance, net)
        after = network_model.run(cut, sent)
        wrong += wrong_in(cut, net, sent, after)
        if given.afdx:
            wrong += differs(given.afdx, given.room / f"{number}-outage", cut, sent, after)
        if net.one_line:
            wrong += broken(chance, given.afdx, given.room and given.room / f"{number}-broken", net)
        for line in wrong:
            print(f"network {number}: {line}")
        faults += bool(wrong)
    print(f"{given.count} networks, {inner} frames over wires, {ties} of them with others at one instant, {faults} networks with faults")
    sys.exit(bool(faults))


if __name__ == "__main__":
    main()
