#!/usr/bin/env python3
"""Checks network_model.py against numbers that were worked out by hand; prints what differs, and fails then."""
import dataclasses
import sys
from collections.abc import Iterable

import model
import network_model
from captures import frame
from model_rows import differing, refuses, same
from network_model import End

PORT = "[[port]]\nid = {}\nmbit = {}\nbuffer = 100000\nmax_delay_us = 500000\n"
SILENCE = model.capture_of([])


# --- Networks ---


def link(number: int, source: int, to: list[int], jitter: int = 0, size: int = 64, bag: int = 1, priority: str = "low",
         police: str | None = None) -> str:
    text = (f"[[link]]\nid = {number}\nfrom = {source}\nto = {to}\nbag_ms = {bag}\njitter_us = {jitter}\n"
            f'max_size = {size}\npriority = "{priority}"\n')
    return text if police is None else text + f'police = "{police}"\n'


def table(*links: str, ports: int = 4, mbit: int | list[int] = 100, head: str = "") -> str:
    """Returns a table of ports 1, 2 and so on, of this speed or of these speeds."""
    speeds = mbit if isinstance(mbit, list) else [mbit] * ports
    return head + "".join(PORT.format(number, speed) for number, speed in enumerate(speeds, 1)) + "".join(links)


def layout(names: Iterable[str], *wires: str, leasts: dict[str, int] | None = None, down: Iterable[str] = (),
           one_line: bool = False) -> str:
    """Returns the network file: wires are words, `A.3 B.1` or `A.3 B.1 25`; the least latencies are in µs, by name; down are switches, by
    name, and wires, by their start."""
    text = "version = 1\n" + "one_line = true\n" * one_line
    for name in names:
        text += f'[[switch]]\nname = "{name}"\ntable = "{name}.toml"\n'
        text += f"least_latency_us = {leasts[name]}\n" if leasts and name in leasts else ""
        text += "down = true\n" if name in down else ""
    for wire in wires:
        start, end, *delay = wire.split()
        text += f'[[wire]]\nfrom = "{start}"\nto = "{end}"\n' + "".join(f"delay_ns = {ns}\n" for ns in delay)
        text += "down = true\n" if start in down else ""
    return text


def network(tables: dict[str, str], *wires: str, leasts: dict[str, int] | None = None, down: Iterable[str] = (),
            one_line: bool = False) -> network_model.Network:
    read = network_model.layout_of(layout(tables, *wires, leasts=leasts, down=down, one_line=one_line).encode())
    return network_model.network_of(read, {name: model.table_of(text) for name, text in tables.items()})


# --- Captures ---


def capture(*frames: tuple[int, ...]) -> bytes:
    """Returns a capture of (link, stamp) or of (link, stamp, size)."""
    return model.capture_of([model.Record(at, 0, frame(number, size[0] if size else 64)) for number, at, *size in frames])


def brought(net: network_model.Network, captures: dict[str, bytes]) -> dict[End, bytes]:
    """Returns what comes in: A1 is the capture of port 1 of A; at the other ports nothing does."""
    return {end: captures.get(f"{end.switch}{end.port}", SILENCE) for end in network_model.open_ends(net)}


def run(net: network_model.Network, **captures: bytes) -> dict[str, model.Outcome]:
    return network_model.run(net, brought(net, captures))


def left(outcomes: dict[str, model.Outcome], switch: str, port: int) -> list[tuple[int, int]]:
    """Returns link and stamp of each frame that left a port."""
    return [(int.from_bytes(record.data[4:6], "big"), record.stamp) for record in network_model.written(outcomes[switch].captures[port])]


def short_lines(switch: str, links: Iterable[int], need: int, has: int) -> str:
    """Returns the lines of links that need more jitter at the switch than they have."""
    return "\n".join(f"afdx: network J1 Jitter, switch {switch}, link {number}, need {need}, has {has}" for number in links)


def sees(name: str, outcomes: dict[str, model.Outcome], switch: str, *lines: str) -> None:
    for line in lines:
        same(name, line in outcomes[switch].report.splitlines(), True)


def says(name: str, net: network_model.Network, *lines: str) -> None:
    same(name, network_model.check(net).splitlines(), list(lines))


def needs(name: str, net: network_model.Network, *lines: str) -> None:
    """Checks the lines of `jitter`; the last one may be a refusal."""
    said, refused = network_model.jitter(net)
    same(name, said.splitlines() + ([refused.line] if refused else []), list(lines))


# --- Rows ---


def two_switches(jitter: int) -> dict[str, str]:
    first = table(link(1, 1, [4]), link(2, 2, [4]), link(3, 3, [4]))
    second = table(*(link(number, 1, [2], jitter) for number in (1, 2, 3)), ports=2)
    return {"A": first, "B": second}


def jitter_enough() -> None:
    """Checks jitter that is just enough. The port of A sends three frames of 6,720 ns, so that 13,440 ns of jitter arise there; over the
    wire they come to B one after the other, so that each goes on at once."""
    name, net = "jitter enough", network(two_switches(14), "A.4 B.1")
    same(name, model.check(net.tables["A"]), "port 4 rate 41287680 buffer 336 high - low 20160\naccepted\n")
    says(name, net, "switch A accepted", "switch B accepted",
         "link 1 from A.1 to B.2 ways A.4 B.2 least 13440 most 26880 jitter 0 14",
         "link 2 from A.2 to B.2 ways A.4 B.2 least 13440 most 26880 jitter 0 14",
         "link 3 from A.3 to B.2 ways A.4 B.2 least 13440 most 26880 jitter 0 14",
         "greatest 26880 link 1 to B.2", "accepted")
    outcomes = run(net, A1=capture((1, 0)), A2=capture((2, 0)), A3=capture((3, 0), (3, 1_000_000)))
    same(name, left(outcomes, "A", 4), [(1, 6_720), (2, 13_440), (3, 20_160), (3, 1_006_720)])
    same(name, left(outcomes, "B", 2), [(1, 13_440), (2, 20_160), (3, 26_880), (3, 1_013_440)])
    sees(name, outcomes, "B", "link 3 passed 2 policed 0")
    short = network(two_switches(13), "A.4 B.1")
    refuses(name, short_lines("B", (1, 2, 3), 14, 13), 4, network_model.check, short)
    policed = model.run(short.tables["B"], {1: outcomes["A"].captures[4], 2: SILENCE})
    same(name, "link 3 passed 1 policed 1" in policed.report, True)
    needs(name, network(two_switches(0), "A.4 B.1"), *(f"switch A link {number} jitter_us 0" for number in (1, 2, 3)),
          *(f"switch B link {number} jitter_us 14" for number in (1, 2, 3)))


def row_of_three() -> dict[str, str]:
    return {"A": table(link(1, 1, [3]), link(11, 2, [3])),
            "B": table(link(1, 1, [3], 7), link(11, 1, [4], 7), link(12, 2, [3])),
            "C": table(link(1, 1, [3], 14), link(12, 1, [4], 7), link(13, 2, [3]))}


def three_in_a_row() -> None:
    """Checks a link over three switches, at each of which a babbler comes in at port 2: each time a frame waits for one of the
    babbler's."""
    name = "three in a row"
    net = network(row_of_three(), "A.3 B.1", "B.3 C.1")
    says(name, net, "switch A accepted", "switch B accepted", "switch C accepted",
         "link 1 from A.1 to C.3 ways A.3 B.3 C.3 least 20160 most 40320 jitter 0 7 14",
         "link 11 from A.2 to B.4 ways A.3 B.4 least 13440 most 20160 jitter 0 7",
         "link 12 from B.2 to C.4 ways B.3 C.4 least 13440 most 20160 jitter 0 7",
         "link 13 from C.2 to C.3 ways C.3 least 6720 most 13440 jitter 0",
         "greatest 40320 link 1 to C.3", "accepted")
    outcomes = run(net, A1=capture((1, 1)), A2=capture(*[(11, 0)] * 3), B2=capture(*[(12, 13_439)] * 3),
                   C2=capture(*[(13, 26_878)] * 3))
    same(name, left(outcomes, "B", 3), [(12, 20_159), (1, 26_879)])
    same(name, left(outcomes, "C", 3), [(13, 33_598), (1, 40_318)])
    same(name, (left(outcomes, "B", 4), left(outcomes, "C", 4)), ([(11, 13_440)], [(12, 26_879)]))
    for switch, babbler in (("A", 11), ("B", 12), ("C", 13)):
        sees(name, outcomes, switch, "link 1 passed 1 policed 0", f"link {babbler} passed 1 policed 2")
    given = {end: SILENCE for end in network_model.open_ends(net)} | {End("A", 1): capture((1, 1))}
    same("along the wires", network_model.order_of(net), ["A", "B", "C"])
    backwards = network_model.run_in_rounds(net, given, ["C", "B", "A"])
    same("whatever the order", backwards, network_model.run(net, given))


def ring_of_three(jitters: tuple[int, int]) -> dict[str, str]:
    """Returns a ring: each link comes in at port 2, goes on at port 3 of two switches and leaves at port 4 of the next."""
    return {name: table(link(own, 2, [3]), link(passing, 1, [3], jitters[0]), link(last, 1, [4], jitters[1]))
            for name, own, passing, last in (("A", 1, 3, 2), ("B", 2, 1, 3), ("C", 3, 2, 1))}


def ring() -> None:
    name, wires = "ring", ("A.3 B.1", "B.3 C.1", "C.3 A.1")
    net = network(ring_of_three((7, 14)), *wires)
    says(name, net, "switch A accepted", "switch B accepted", "switch C accepted",
         "link 1 from A.2 to C.4 ways A.3 B.3 C.4 least 20160 most 33600 jitter 0 7 14",
         "link 2 from B.2 to A.4 ways B.3 C.3 A.4 least 20160 most 33600 jitter 0 7 14",
         "link 3 from C.2 to B.4 ways C.3 A.3 B.4 least 20160 most 33600 jitter 0 7 14",
         "greatest 33600 link 1 to C.4", "accepted")
    same(name, network_model.order_of(net), ["A", "B", "C"])
    given = {"A2": capture((1, 0)), "B2": capture((2, 0)), "C2": capture((3, 0))}
    outcomes = run(net, **given)
    same(name, left(outcomes, "A", 3), [(1, 6_720), (3, 13_440)])
    same(name, [left(outcomes, switch, 4) for switch in "ABC"], [[(2, 20_160)], [(3, 20_160)], [(1, 20_160)]])
    needs(name, network(ring_of_three((0, 0)), *wires),
          *(f"switch {switch} link {number} jitter_us {us}" for switch, numbers in (("A", (1, 3, 2)), ("B", (2, 1, 3)), ("C", (3, 2, 1)))
            for number, us in zip(numbers, (0, 7, 14))))


def multicast() -> None:
    """Checks one frame over two cables to three ports; cables add to both ends of the delay and ask for no jitter."""
    name = "multicast"
    tables = {"A": table(link(5, 1, [2, 3]), ports=3), "B": table(link(5, 1, [2]), ports=2), "C": table(link(5, 2, [1, 3]), ports=3)}
    net = network(tables, "A.2 B.1 25", "A.3 C.2")
    says(name, net, "switch A accepted", "switch B accepted", "switch C accepted",
         "link 5 from A.1 to B.2 ways A.2 B.2 least 13465 most 13465 jitter 0 0",
         "link 5 from A.1 to C.1 ways A.3 C.1 least 13440 most 13440 jitter 0 0",
         "link 5 from A.1 to C.3 ways A.3 C.3 least 13440 most 13440 jitter 0 0",
         "greatest 13465 link 5 to B.2", "accepted")
    outcomes = run(net, A1=capture((5, 0), (5, 1_000_000)))
    same(name, left(outcomes, "B", 2), [(5, 13_465), (5, 1_013_465)])
    same(name, (left(outcomes, "C", 1), left(outcomes, "C", 3)), ([(5, 13_440), (5, 1_013_440)],) * 2)


def both_kinds_of_policing() -> None:
    """Checks a port with a link of 1518 bytes by frames, 123,040 ns, and one by bytes, 159,390 ns. At B there is a frame of 123,040 ns at a
    time."""
    name = "both kinds of policing"
    tables = {"A": table(link(1, 1, [3], 0, 1518, police="frame"), link(2, 2, [3], 0, 1518), head="version = 2\n"),
              "B": table(link(1, 1, [2], 276, 1518, police="frame"), link(2, 1, [3], 276, 1518), head="version = 2\n")}
    says(name, network(tables, "A.3 B.1"), "switch A accepted", "switch B accepted",
         "link 1 from A.1 to B.2 ways A.3 B.2 least 13440 most 405470 jitter 0 276",
         "link 2 from A.2 to B.3 ways A.3 B.3 least 13440 most 405470 jitter 0 276",
         "greatest 405470 link 1 to B.2", "accepted")
    loads = {port.id: load.low for port, load in model.loads_of(model.table_of(tables["B"]))}
    same(name, [loads[2], loads[3]], [156_999, 203_381])
    short = tables | {"B": tables["B"].replace("jitter_us = 276", "jitter_us = 275")}
    refuses(name, short_lines("B", (1, 2), 276, 275), 4, network_model.check, network(short, "A.3 B.1"))


def gigabit_with_latency() -> None:
    """Checks that latencies that do not vary are in both ends of the delay, so the jitter is that of 1,344 - 672 ns. At B there is a frame
    of 672 ns at a time."""
    name = "gigabit with latency"
    tables = {"A": table(link(1, 1, [3]), link(2, 2, [3]), ports=3, mbit=1000, head="version = 3\nlatency_us = 10\n"),
              "B": table(link(1, 1, [2], 1), link(2, 1, [2], 1), ports=2, mbit=1000, head="version = 3\nlatency_us = 20\n")}
    net = network(tables, "A.3 B.1 500", leasts={"A": 10, "B": 20})
    says(name, net, "switch A accepted", "switch B accepted",
         "link 1 from A.1 to B.2 ways A.3 B.2 least 31844 most 32516 jitter 0 1",
         "link 2 from A.2 to B.2 ways A.3 B.2 least 31844 most 32516 jitter 0 1",
         "greatest 32516 link 1 to B.2", "accepted")
    outcomes = run(net, A1=capture((1, 0)), A2=capture((2, 0)))
    same(name, left(outcomes, "A", 3), [(1, 10_672), (2, 11_344)])
    same(name, left(outcomes, "B", 2), [(1, 31_844), (2, 32_516)])


def slow(*links: str, latency: int = 10, ports: int = 4) -> str:
    """Returns a table of a switch with this latency, in µs."""
    return table(*links, head=f"version = 3\nlatency_us = {latency}\n", ports=ports)


def latency_that_varies() -> None:
    """Checks one link of 64 bytes over two switches of 10 µs. Where these are taken for each frame, a frame takes 16,720 ns through each.
    Where nothing is known of the least, frames that come 1 ms apart may be queued 990,000 ns apart: the link asks for 6,720 * 1.01 ns, a
    frame takes from 6,720 to 16,787 ns, and needs 11 µs at the second switch; with these it asks for 6,720 * 1.021 there."""
    name = "latency that varies"
    tables = {"A": slow(link(1, 1, [2]), ports=2), "B": slow(link(1, 1, [2]), ports=2)}
    says(name, network(tables, "A.2 B.1", leasts={"A": 10, "B": 10}), "switch A accepted", "switch B accepted",
         "link 1 from A.1 to B.2 ways A.2 B.2 least 33440 most 33440 jitter 0 0", "greatest 33440 link 1 to B.2", "accepted")
    refuses(name, "afdx: network J1 Jitter, switch B, link 1, need 11, has 0", 4, network_model.check, network(tables, "A.2 B.1"))
    needs(name, network(tables, "A.2 B.1"), "switch A link 1 jitter_us 0", "switch B link 1 jitter_us 11")
    allowing = tables | {"B": slow(link(1, 1, [2], 11), ports=2)}
    says(name, network(allowing, "A.2 B.1"), "switch A accepted", "switch B accepted",
         "link 1 from A.1 to B.2 ways A.2 B.2 least 13440 most 33648 jitter 0 11", "greatest 33648 link 1 to B.2", "accepted")
    says(name, network(allowing, "A.2 B.1", leasts={"A": 4, "B": 10}), "switch A accepted", "switch B accepted",
         "link 1 from A.1 to B.2 ways A.2 B.2 least 27440 most 33480 jitter 0 7", "greatest 33480 link 1 to B.2", "accepted")
    outcomes = run(network(allowing, "A.2 B.1"), A1=capture((1, 0)))
    same(name, left(outcomes, "B", 2), [(1, 33_440)])


def overtaken() -> None:
    """Checks six links of 1518 bytes, of which each asks for 159,390.06 ns at once, at a switch of 100 µs: 956,340 ns wait where it takes
    them for each frame, a tenth more where latencies may be of any length up to it."""
    name = "overtaken"
    links = [link(number, 1 + number % 2, [3], size=1518) for number in range(1, 7)]
    tables = {"A": slow(*links, latency=100, ports=3)}
    lines = {0: 1_151_974, 60: 1_094_593, 100: 1_056_340}
    for least, most in lines.items():
        said = network_model.check(network(tables, leasts={"A": least})).splitlines()
        same(name, said[1], f"link 1 from A.2 to A.3 ways A.3 least {least * 1000 + 6_720} most {most} jitter 0")
    low = tables | {"A": tables["A"].replace("max_delay_us = 500000", "max_delay_us = 1100")}
    for least in (60, 100):
        same(name, network_model.check(network(low, leasts={"A": least})).splitlines()[-1], "accepted")
    refuses(name, "afdx: load L4 LowDelay, port 3, need 1151974, limit 1100000, switch A", 4, network_model.check, network(low))
    refuses(name, "afdx: load L3 HighDelay, port 3, need 1151974, limit 1100000, switch A", 4, network_model.check,
            network({"A": low["A"].replace('"low"', '"high"')}))
    small = {"A": tables["A"].replace("buffer = 100000", "buffer = 13493")}
    same(name, network_model.check(network(small, leasts={"A": 100})).splitlines()[-1], "accepted")
    refuses(name, "afdx: load L2 Buffer, port 3, need 2406428672000000, limit 2210693120000000, switch A", 4,
            network_model.check, network(small))
    mixed = slow(*links[:5], link(6, 1, [3]), latency=100, ports=3).replace('"low"', '"high"', 5)
    for least, bound in ((100, 4_057_990), (0, 4_453_789)):
        said = network_model.check(network({"A": mixed}, leasts={"A": least})).splitlines()
        same(name, said[6].split()[8:12], ["least", str(least * 1000 + 6_720), "most", str(bound)])


def overtaken_by_all() -> None:
    """Checks a schedule that breaks the bound for one latency. At that switch each link sends 23 frames of 64 bytes at once, and the others
    three more as their accounts allow, the last at 96,180 ns. The frames of link 1 take 100,000 ns, and all others are queued just before
    them: the last one of it has gone when 153 frames of 6,720 ns have. So the bound for one latency does not hold, and the one for any up
    to it does."""
    name = "overtaken by all"
    links = [link(number, 1 + number % 2, [3], size=1518) for number in range(1, 7)]
    switch = model.table_of(slow(*links, latency=100, ports=3))
    later = [11_858, 54_019, 96_180]
    sent = {port: [(number, 0) for number in range(1, 7) if number % 2 + 1 == port for _ in range(23)]
            + [(number, at) for at in later for number in range(2, 7) if number % 2 + 1 == port] for port in (1, 2)}
    arrivals = model.arrivals_of(switch, {1: capture(*sent[1]), 2: capture(*sent[2]), 3: SILENCE})
    same(name, [len(arrivals), all(arrival.passed for arrival in arrivals)], [153, True])
    order = sorted(arrivals, key=lambda arrival: arrival.link.id == 1)
    queued = [dataclasses.replace(arrival, record=dataclasses.replace(arrival.record, stamp=100_000)) for arrival in order]
    last = model.service(dataclasses.replace(switch.ports[2], latency=0), queued)[-1]
    same(name, (last.frame.link.id, last.end), (1, 1_128_160))


def wire_that_varies() -> None:
    """Checks two links of 1518 bytes on one wire: it brings 123,040 ns at once, and at the queues 50,000 ns more, where the latency of B
    may be of any length up to 50 µs."""
    name = "wire that varies"
    tables = {"A": table(link(1, 1, [3], size=1518), link(2, 2, [3], size=1518)),
              "B": slow(link(1, 1, [2], 312, size=1518), link(2, 1, [2], 312, size=1518), latency=50)}
    for least, most in ((50, 123_040 + 50_000), (0, 123_040 + 50_000 + 50_000)):
        net = network(tables, "A.3 B.1", leasts={"A": 0, "B": least})
        row = network_model.row_of(net, "B", 1)
        same(name, row and network_model.bound_of(net, row, 2), most)


def least_latencies() -> None:
    """Checks what a network file may say of least latencies."""
    name = "least latencies"
    tables = {"A": slow(link(1, 1, [2]), ports=2), "B": slow(link(1, 1, [2]), ports=2, latency=9)}
    refuses(name, "afdx: network G3 Latency, switch B", 3, network_model.check, network(tables, "A.2 B.1", leasts={"A": 10, "B": 10}))
    refuses(name, "afdx: network G3 Latency, switch B", 3, network_model.jitter, network(tables, "A.2 B.1", leasts={"A": 0, "B": 10}))
    refuses(name, "afdx: network G3 NoSuchPort, wire 1", 3, network_model.check, network(tables, "A.2 B.3", leasts={"A": 11}))
    for value, fault in (("-1", "Range"), ("101", "Range"), ('"1"', "Kind"), ("1.0", "Kind")):
        refuses(name, f"afdx: network G2 {fault}, switch 1, least_latency_us", 3, network_model.layout_of,
                layout(["A"], leasts={"A": 7}).replace("_us = 7", f"_us = {value}").encode())
    refuses(name, "afdx: network G2 Range, switch 1, table", 3, network_model.layout_of,
            layout(["A"], leasts={"A": 101}).replace('"A.toml"', '""').encode())


def rounded_once() -> None:
    """Checks five switches, at each of which another link comes in: the sums are 672, 1,344, 2,016 and 2,688 ns, of which only the whole
    way is rounded."""
    name, jitters = "rounded once", (0, 1, 2, 3, 3)
    tables = {switch: table(link(1, 1, [2], jitter), link(11 + place, 4, [2]), *([link(10 + place, 1, [3], 1)] if place else []), mbit=1000,
                            head="version = 3\n") for place, (switch, jitter) in enumerate(zip("ABCDE", jitters))}
    wires = [f"{start}.2 {end}.1" for start, end in zip("ABCD", "BCDE")]
    says(name, network(tables, *wires), *(f"switch {switch} accepted" for switch in "ABCDE"),
         "link 1 from A.1 to E.2 ways A.2 B.2 C.2 D.2 E.2 least 3360 most 6720 jitter 0 1 2 3 3",
         *(f"link {10 + place} from {here}.4 to {there}.3 ways {here}.2 {there}.3 least 1344 most 2016 jitter 0 1"
           for place, (here, there) in enumerate(zip("ABCD", "BCDE"), 1)),
         "link 15 from E.4 to E.2 ways E.2 least 672 most 1344 jitter 0",
         "greatest 6720 link 1 to E.2", "accepted")


def bound_of_its_priority() -> None:
    """Checks a high link of 64 bytes behind a low frame of 1518, 6,720 + 123,040 ns, and the low link behind the high one, 167,233 ns; at B
    there is a frame at a time."""
    name = "bound of its priority"
    tables = {"A": table(link(1, 1, [3], priority="high"), link(2, 2, [3], size=1518), ports=3),
              "B": table(link(1, 1, [2], 124), link(2, 1, [3], 161, 1518), ports=3)}
    says(name, network(tables, "A.3 B.1"), "switch A accepted", "switch B accepted",
         "link 1 from A.1 to B.2 ways A.3 B.2 least 13440 most 136480 jitter 0 124",
         "link 2 from A.2 to B.3 ways A.3 B.3 least 13440 most 290273 jitter 0 161",
         "greatest 290273 link 2 to B.3", "accepted")


def speed_of_the_port_before() -> None:
    """Checks that the least delay is that of A's port, 67,200 ns, though B sends ten times as fast."""
    name = "speed of the port before"
    tables = {"A": table(link(1, 1, [3]), link(2, 2, [3]), mbit=[10, 10, 10, 100]),
              "B": table(link(1, 1, [2], 68), link(2, 1, [3], 68), mbit=[10, 100, 1000])}
    says(name, network(tables, "A.3 B.1"), "switch A accepted", "switch B accepted",
         "link 1 from A.1 to B.2 ways A.3 B.2 least 73920 most 141120 jitter 0 68",
         "link 2 from A.2 to B.3 ways A.3 B.3 least 67872 most 135072 jitter 0 68",
         "greatest 141120 link 1 to B.2", "accepted")
    tables["B"] = tables["B"].replace("jitter_us = 68", "jitter_us = 67", 1)
    refuses(name, "afdx: network J1 Jitter, switch B, link 1, need 68, has 67", 4, network_model.check, network(tables, "A.3 B.1"))


def turns() -> None:
    """Checks two links over a line of 1000 Mbit/s from A to B: 31,878 ns at A, 31,206 more than the least. At port 3 of B the line gains on
    the port ten to one until both accounts give less, 318,780 * 1.032 ns and 0.31878 in each; from then on the port gains. So it is late by
    314,489 ns, and C needs 31,206 and 307,769 ns more than the least; without the jitter at B it would be 9,483 ns less."""
    speeds = {"A": [100, 100, 1000], "B": [1000, 100, 100], "C": [100, 100, 100]}
    tables = {switch: table(link(1, 1, [3], size=1518), link(2, 2 if switch == "A" else 1, [3], size=1518), mbit=mbit,
                            head="version = 3\n") for switch, mbit in speeds.items()}
    needs("turns", network(tables, "A.3 B.1", "B.3 C.1"), *(f"switch {switch} link {number} jitter_us {us}"
          for switch, us in (("A", 0), ("B", 32), ("C", 339)) for number in (1, 2)))


# --- Refusals ---


def reads(name: str, text: str | bytes) -> None:
    network_model.layout_of(text if isinstance(text, bytes) else text.encode())


WHOLE = layout("AB", "A.3 B.1 25", "B.3 A.1")
FILE_REFUSALS: list[tuple[str, str | bytes, str]] = [
    ("no UTF-8", b"\xff", "G1 Toml"),
    ("no TOML", "version = \n", "G1 Toml"),
    ("a key twice", "version = 1\nversion = 1\n", "G1 Toml"),
    ("key of the top", "links = 1\n" + WHOLE, "G2 UnknownKey, top"),
    ("key of a switch", WHOLE.replace('table = "B.toml"', 'table = "B.toml"\nport = 1'), "G2 UnknownKey, switch 2"),
    ("key of a wire", WHOLE.replace("delay_ns", "delay_us"), "G2 UnknownKey, wire 1"),
    ("no name", WHOLE.replace('name = "A"\n', ""), "G2 MissingKey, switch 1, name"),
    ("no table", WHOLE.replace('table = "B.toml"\n', ""), "G2 MissingKey, switch 2, table"),
    ("no end", WHOLE.replace('to = "A.1"\n', ""), "G2 MissingKey, wire 2, to"),
    ("version as a text", WHOLE.replace("version = 1", 'version = "1"'), "G2 Kind, top, version"),
    ("one line as a number", "one_line = 1\nswitch = 3\n", "G2 Kind, top, one_line"),
    ("version before one line", "one_line = 1\nversion = 2\n", "G2 Range, top, version"),
    ("one line of a switch", WHOLE.replace('table = "B.toml"', 'table = "B.toml"\none_line = true'), "G2 UnknownKey, switch 2"),
    ("one switch", "switch = 3\n", "G2 Kind, top, switch"),
    ("delay as a text", WHOLE.replace("= 25", '= "25"'), "G2 Kind, wire 1, delay_ns"),
    ("a later version", WHOLE.replace("version = 1", "version = 2"), "G2 Range, top, version"),
    ("name of two words", WHOLE.replace('"A"', '"A B"'), "G2 Range, switch 1, name"),
    ("name of 17", WHOLE.replace('"A"', f'"{"A" * 17}"'), "G2 Range, switch 1, name"),
    ("no path", WHOLE.replace('"A.toml"', '""'), "G2 Range, switch 1, table"),
    ("port 25", WHOLE.replace("A.3", "A.25"), "G2 Range, wire 1, from"),
    ("port 0", WHOLE.replace("A.3", "A.0"), "G2 Range, wire 1, from"),
    ("port 03", WHOLE.replace("A.3", "A.03"), "G2 Range, wire 1, from"),
    ("no port", WHOLE.replace("B.1", "B"), "G2 Range, wire 1, to"),
    ("delay past 1 ms", WHOLE.replace("= 25", "= 1000001"), "G2 Range, wire 1, delay_ns"),
    ("delay below 0", WHOLE.replace("= 25", "= -1"), "G2 Range, wire 1, delay_ns"),
    ("65 switches", layout([f"S{number}" for number in range(65)]), "G2 Range, top, switch"),
    ("two of a name", layout("ABA"), "G3 TwiceSwitch, switch 3"),
    ("no such switch", layout("AB", "A.3 B.1", "A.4 C.1"), "G3 NoSuchSwitch, wire 2"),
    ("two from a port", layout("ABC", "A.3 B.1", "A.3 C.1"), "G3 TwiceFrom, wire 2"),
    ("two to a port", layout("ABC", "A.3 C.1", "B.3 C.1"), "G3 TwiceTo, wire 2"),
    ("own port", layout("A", "A.3 A.3"), "G3 OwnPort, wire 1"),
    ("a switch before a wire", layout("AA", "A.25 B.1"), "G3 TwiceSwitch, switch 2"),
    ("a wire before the next", layout("AB", "A.3 C.1", "A.25 B.1"), "G3 NoSuchSwitch, wire 1"),
]


def file_refusals() -> None:
    for name, text, fault in FILE_REFUSALS:
        refuses(name, f"afdx: network {fault}", 3, reads, name, text)
    names = ["A" * 16, "a-b_9"]
    greatest = layout(names, f"{names[0]}.24 {names[1]}.1 1000000", f"{names[1]}.9 {names[0]}.10 0")
    same("greatest values", network_model.layout_of(greatest.encode()).wires[0].delay, 1_000_000)
    same("no switch", network_model.check(network({})), "accepted\n")


def texts_refused() -> None:
    """Checks what the tables do not agree on, rule by rule."""
    first, second = table(link(1, 1, [3]), link(2, 2, [3])), table(link(1, 1, [2]), link(2, 1, [2]))
    jitters = table(link(1, 1, [2], 7), link(2, 1, [2], 7))
    says("agree", network({"A": first, "B": jitters}, "A.3 B.1"), "switch A accepted", "switch B accepted",
         "link 1 from A.1 to B.2 ways A.3 B.2 least 13440 most 20160 jitter 0 7",
         "link 2 from A.2 to B.2 ways A.3 B.2 least 13440 most 20160 jitter 0 7", "greatest 20160 link 1 to B.2", "accepted")
    heavy = table(*(link(number, 1, [2], size=1518) for number in range(1, 8)))
    rows: list[tuple[str, dict[str, str], list[str], str, int]] = [
        ("no port at the start", {"A": first, "B": second}, ["A.5 B.1"], "network G3 NoSuchPort, wire 1", 3),
        ("no port at the end", {"A": first, "B": second}, ["A.4 B.4", "A.3 B.5"], "network G3 NoSuchPort, wire 2", 3),
        ("a load", {"A": first, "B": heavy}, ["A.3 B.1"], "load L1 Rate, port 2, need 2285015040, limit 2048000000, switch B", 4),
        ("constants", {"A": first, "B": 'constant = "07000000"\n' + second}, ["A.4 A.1", "A.3 B.1"], "network G4 Constant, wire 2", 3),
        ("speeds", {"A": first, "B": second.replace("mbit = 100", "mbit = 10", 1)}, ["A.3 B.1"], "network G4 Speed, wire 1", 3),
        ("no row", {"A": first, "B": table(link(1, 1, [2]))}, ["A.3 B.1"], "network G5 NoRow, wire 1, link 2", 3),
        ("another port", {"A": first, "B": table(link(1, 1, [2]), link(2, 3, [2]))}, ["A.3 B.1"], "network G6 From, wire 1, link 2", 3),
        ("another size", {"A": first, "B": second.replace("= 64", "= 65", 1)}, ["A.3 B.1"], "network G7 Size, wire 1, link 1", 3),
        ("another gap", {"A": first, "B": second.replace("bag_ms = 1", "bag_ms = 2", 1)}, ["A.3 B.1"], "network G7 Bag, wire 1, link 1", 3),
        ("another policing", {"A": first, "B": "version = 2\n" + second + 'police = "frame"\n'}, ["A.3 B.1"],
         "network G7 Police, wire 1, link 2", 3),
        ("no such link on the wire", {"A": table(link(1, 1, [3])), "B": second}, ["A.3 B.1"], "network G8 NoSource, switch B, link 2", 3),
        ("a loop", {"A": table(link(1, 1, [3])), "B": table(link(1, 1, [3]))}, ["A.3 B.1", "B.3 A.1"],
         "network G8 NoSource, switch A, link 1", 3),
        ("two sources", {"A": first, "B": table(link(2, 1, [2]))}, [], "network G9 TwiceSource, link 2", 3),
        ("rule by rule", {"A": table(link(1, 1, [3, 4])), "B": table(link(1, 2, [3])), "C": table()}, ["A.3 B.1", "A.4 C.1"],
         "network G5 NoRow, wire 2, link 1", 3),
        ("loads before wires", {"A": 'constant = "07000000"\n' + first, "B": heavy}, ["A.3 B.1"],
         "load L1 Rate, port 2, need 2285015040, limit 2048000000, switch B", 4),
        ("jitters last", {"A": first, "B": second, "C": table(link(1, 1, [2]))}, ["A.3 B.1"], "network G9 TwiceSource, link 1", 3),
    ]
    for name, tables, wires, fault, status in rows:
        refuses(name, f"afdx: {fault}", status, network_model.check, network(tables, *wires))


def past_the_limit() -> None:
    """Checks nine links of 1518 bytes at 10 Mbit/s: 9 * 1,593,900 - 67,200 ns."""
    tables = {"A": table(*(link(number, 1, [2], size=1518, bag=128) for number in range(1, 10)), ports=2, mbit=10),
              "B": table(*(link(number, 1, [2], size=1518, bag=128) for number in range(1, 10)), ports=2, mbit=10)}
    needs("past the limit", network(tables, "A.2 B.1"), *(f"switch A link {number} jitter_us 0" for number in range(1, 10)),
          *(f"switch B link {number} jitter_us 14278" for number in range(1, 10)),
          "\n".join(f"afdx: network J2 NoJitter, switch B, link {number}, need 14278" for number in range(1, 10)))


def short_at_two_switches() -> None:
    """Checks two frames of 6,720 ns that share a port to B and one to C, so that 6,720 ns of jitter arise at each; a row that has 7 µs is
    none of those that are refused."""
    first = table(link(1, 1, [3, 4]), link(2, 2, [3, 4]))
    tables = {"A": first, "B": table(link(1, 1, [2], 7), link(2, 1, [2], 6)), "C": table(link(1, 1, [2], 0), link(2, 1, [2], 7))}
    refuses("short at two switches", "afdx: network J1 Jitter, switch B, link 2, need 7, has 6\n"
            "afdx: network J1 Jitter, switch C, link 1, need 7, has 0", 4, network_model.check, network(tables, "A.3 B.1", "A.4 C.1"))


def many_rows(count: int, size: int, mbit: int) -> network_model.Network:
    """Returns a network of so many links from one port of A over a wire to B, where they have no jitter."""
    links = [link(number, 1, [2], size=size, bag=128) for number in range(1, count + 1)]
    return network({"A": table(*links, ports=2, mbit=mbit), "B": table(*links, ports=2, mbit=mbit)}, "A.2 B.1")


def a_hundred_lines() -> None:
    """Checks that the line after the hundredth says how many more rows there are. n - 1 of n frames of 6,720 ns go before the last one. 102
    * 200 bytes at 10 Mbit/s, in frames of 64 bytes, take 1,050 ns each, and one such frame 67,200 ns."""
    for count, need, rest in ((100, 666, ""), (101, 672, "\nafdx: network J1 Jitter, and 1 more"),
                              (102, 679, "\nafdx: network J1 Jitter, and 2 more")):
        refuses("a hundred lines", short_lines("B", range(1, 101), need, 0) + rest, 4, network_model.check, many_rows(count, 64, 100))
    refused = network_model.jitter(many_rows(102, 200, 10))[1]
    lines = [f"afdx: network J2 NoJitter, switch B, link {number}, need 21353" for number in range(1, 101)]
    same("a hundred lines", refused and refused.line.splitlines(), lines + ["afdx: network J2 NoJitter, and 2 more"])


def outages() -> None:
    """Checks the three switches in a row: what is left of their ways is as it is with nothing down, and the others bring nothing. A frame
    of each link comes in at once, so that one of the two of a wire waits for the other, 6,720 ns; with the wire from A down none waits at
    B."""
    name = "outages"
    tables, wires = row_of_three(), ["A.3 B.1", "B.3 C.1"]
    accepted = [f"switch {switch} accepted" for switch in "ABC"]
    last = ["link 1 from A.1 to C.3 ways A.3 B.3 C.3 least 20160 most 40320 jitter 0 7 14",
            "link 11 from A.2 to B.4 ways A.3 B.4 least 13440 most 20160 jitter 0 7",
            "link 12 from B.2 to C.4 ways B.3 C.4 least 13440 most 20160 jitter 0 7",
            "link 13 from C.2 to C.3 ways C.3 least 6720 most 13440 jitter 0"]
    none = ["link 1 to C.3 none", "link 11 to B.4 none", "link 12 to C.4 none", "link 13 to C.3 none"]
    greatest = ["greatest 40320 link 1 to C.3", "greatest 20160 link 11 to B.4", "greatest 20160 link 12 to C.4",
                "greatest 13440 link 13 to C.3"]
    cuts = ((["A.3"], [0, 1]), (["B.3"], [0, 2]), (["A"], [0, 1]), (["B"], [0, 1, 2]), (["C"], [0, 2, 3]), (["A.3", "C"], [0, 1, 2, 3]))
    for down, lost in cuts:
        up = [place for place in range(4) if place not in lost]
        says(name, network(tables, *wires, down=down), *accepted, *(last[place] for place in up), *(none[place] for place in lost),
             *(greatest[place] for place in up[:1]), "accepted")
    sent = {"A1": capture((1, 0)), "A2": capture((11, 0)), "B2": capture((12, 0)), "C2": capture((13, 0))}
    cut = run(network(tables, *wires, down=["A.3"]), **sent)
    same(name, left(cut, "A", 3), [(1, 6_720), (11, 13_440)])
    same(name, left(cut, "B", 3) + left(cut, "B", 4), [(12, 6_720)])
    same(name, left(cut, "C", 3) + left(cut, "C", 4), [(13, 6_720), (12, 13_440)])
    sees(name, cut, "B", "link 1 passed 0 policed 0", "link 12 passed 1 policed 0")
    dark = run(network(tables, *wires, down=["B"]), **{**sent, "B2": b"no capture"})
    same(name, [dark["B"].captures[port] for port in (1, 2, 3, 4)], [SILENCE] * 4)
    same(name, left(dark, "A", 3) + left(dark, "C", 3) + left(dark, "C", 4), [(1, 6_720), (11, 13_440), (13, 6_720)])
    sees(name, dark, "B", "link 12 passed 0 policed 0")
    refuses(name, "afdx: network J1 Jitter, switch B, link 1, need 7, has 6", 4, network_model.check,
            network({**tables, "B": tables["B"].replace("id = 1\nfrom = 1\nto = [3]\nbag_ms = 1\njitter_us = 7",
                                                        "id = 1\nfrom = 1\nto = [3]\nbag_ms = 1\njitter_us = 6")}, *wires, down=["A.3"]))
    for value in ("1", '"true"', "[]"):
        refuses(name, "afdx: network G2 Kind, switch 1, down", 3, network_model.layout_of,
                layout("AB", "A.1 B.1", down=["A"]).replace("= true", f"= {value}").encode())
        refuses(name, "afdx: network G2 Kind, wire 1, down", 3, network_model.layout_of,
                layout("AB", "A.1 B.1", down=["A.1"]).replace("= true", f"= {value}").encode())


def one_line_each() -> None:
    """Checks two links of 1518 bytes and three of 64 bytes at one end system. Over its line a frame comes at a time, and 999 ns of the next
    one: without it 318,780 and 20,160 ns come at once. A frame whose stamp lacks 999 ns takes just that. What comes over the wire to B has
    exact stamps."""
    name, large = "one line each", {"A": table(link(1, 1, [2], size=1518), link(2, 1, [2], size=1518), ports=2)}
    for one_line, most in ((False, 318_780), (True, 124_039)):
        says(name, network(large, one_line=one_line), "switch A accepted", *["premise one_line"] * one_line,
             *(f"link {number} from A.1 to A.2 ways A.2 least 6720 most {most} jitter 0" for number in (1, 2)),
             f"greatest {most} link 1 to A.2", "accepted")
    outcomes = run(network(large, one_line=True), A1=capture((1, 0, 1518), (2, 122_041, 1518)))
    same(name, left(outcomes, "A", 2), [(1, 123_040), (2, 122_041 + 124_039)])
    small = {"A": table(*(link(number, 1, [4]) for number in (1, 2, 3))),
             "B": table(*(link(number, 1, [2], 1) for number in (1, 2, 3)), ports=2)}
    says(name, network(small, "A.4 B.1", one_line=True), "switch A accepted", "switch B accepted", "premise one_line",
         *(f"link {number} from A.1 to B.2 ways A.4 B.2 least 13440 most 14439 jitter 0 1" for number in (1, 2, 3)),
         "greatest 14439 link 1 to B.2", "accepted")
    refuses(name, short_lines("B", (1, 2, 3), 14, 1), 4, network_model.check, network(small, "A.4 B.1"))
    needs(name, network(small, "A.4 B.1", one_line=True), *(f"switch {switch} link {number} jitter_us {us}"
                                                            for switch, us in (("A", 0), ("B", 1)) for number in (1, 2, 3)))


def lines_broken() -> None:
    """Checks that frames that come too soon over a line are refused. A frame of 64 bytes takes 6,720 ns, one of 1518 bytes 123,040. Stamps
    may lack 999 of them, but not once more for each frame; frames of no link count too. Faults of captures go first, and what comes to a
    switch that is down is not looked at."""
    name, tables = "lines broken", {"A": table(link(1, 1, [4]), link(2, 2, [4]), link(3, 1, [4]))}
    net = network(tables, one_line=True)
    same(name, left(run(net, A1=capture((1, 0), (3, 5_721))), "A", 4), [(1, 6_720), (3, 13_440)])
    run(net, A1=capture((1, 0), (9, 122_041, 1518), (1, 128_761)))
    rows: list[tuple[int, list[tuple[int, ...]]]] = [
        (2, [(1, 0), (3, 5_720)]), (3, [(1, 0), (3, 6_720), (9, 12_440)]), (3, [(1, 0), (3, 6_000), (9, 12_000)]), (2, [(9, 7), (9, 7)]),
        (2, [(1, 0), (9, 122_040, 1518)]), (3, [(1, 0), (9, 122_041, 1518), (1, 128_760)])]
    for number, sent in rows:
        broken = capture(*sent)
        refuses(name, f"afdx: network R2 Line, switch A, port 1, record {number}", 4, lambda: run(net, A1=broken))
        run(network(tables), A1=broken)
    twice = capture((1, 0), (1, 0))
    refuses(name, "afdx: network R2 Line, switch A, port 1, record 2", 4, lambda: run(net, A1=twice, A2=twice))
    refuses(name, "afdx: capture P2 NoHeader, port 2, switch A", 3, lambda: run(net, A1=twice, A2=b""))
    run(network(tables, down=["A"], one_line=True), A1=twice)


def captures_refused() -> None:
    name, net = "captures of a network", network(two_switches(14), "A.4 B.1")
    late = 4_294_967_295 * 10**9
    refuses(name, "afdx: capture P2 NoHeader, port 2, switch A", 3, lambda: run(net, A2=b""))
    refuses(name, "afdx: capture P9 Late, port 1, record 1, switch A", 3, lambda: run(net, A1=capture((1, late))))
    refuses(name, "afdx: capture P9 Late, port 1, record 1, switch B", 3, lambda: run(net, A1=capture((1, late - 1))))
    same(name, left(run(net, A1=capture((1, late - 10**9))), "B", 2), [(1, late - 10**9 + 13_440)])


for part in (jitter_enough, three_in_a_row, ring, multicast, both_kinds_of_policing, gigabit_with_latency, latency_that_varies, overtaken,
             overtaken_by_all, wire_that_varies, least_latencies, rounded_once, bound_of_its_priority, speed_of_the_port_before, turns,
             file_refusals, texts_refused, past_the_limit, short_at_two_switches, a_hundred_lines, outages, one_line_each, lines_broken,
             captures_refused):
    part()
print("\n".join(differing) or "the model of networks gives every worked number")
sys.exit(bool(differing))
