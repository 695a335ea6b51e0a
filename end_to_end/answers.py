#!/usr/bin/env python3
"""What `afdx size`, `afdx measure`, `afdx survey` and `afdx trace` answer, by the plain model of the switch in model.py: slowly.

The arguments are those of afdx, so this program can stand in its place; what it refuses are loads and captures.
"""
import argparse
import sys
from collections.abc import Callable
from dataclasses import dataclass
from pathlib import Path

import model

ARRIVALS = "frame,port,record,stamp,link,size,fate,early,full"
DEPARTURES = "port,record,frame,link,priority,size,came,start,left,delay,outcome"


@dataclass
class OutputPort:
    """What became of the copies of an output port."""
    port: model.Port
    admitted: list[model.Arrival]
    refused: list[model.Arrival]
    events: list[model.Event]  # in the order of service


def output_ports_of(table: model.Table, arrivals: list[model.Arrival]) -> list[OutputPort]:
    output_ports = []
    for port in table.ports:
        offered = [frame for frame in arrivals if frame.passed and port.id in frame.link.to]
        admitted = model.admission(port, offered)
        refused = [frame for frame in offered if frame not in admitted]
        output_ports.append(OutputPort(port, admitted, refused, model.service(port, admitted)))
    return output_ports


# --- measure ---


def peak(output_port: OutputPort) -> tuple[int, int | str]:
    """Returns the most bytes that the buffer held when a frame had been admitted, and the stamp of the first frame that did it."""
    most = 0
    at: int | str = "-"
    for place, frame in enumerate(output_port.admitted):
        held = model.occupied(output_port.port, output_port.admitted[:place], frame.stamp + output_port.port.latency) + frame.size
        if held > most:
            most, at = held, frame.stamp
    return most, at


def measure(table: model.Table, captures: dict[int, bytes], unchecked: bool) -> str:
    output_ports = {output_port.port.id: output_port for output_port in output_ports_of(table, model.arrivals_of(table, captures))}
    lines = []
    for link in table.links:
        for port in link.to:
            delays = [event.end - event.frame.stamp for event in output_ports[port].events if event.sent and event.frame.link is link]
            least, greatest = (str(min(delays)), str(max(delays))) if delays else ("-", "-")
            bound = "-" if unchecked else getattr(model.load_of(table, output_ports[port].port), link.priority)
            lines.append(f"link {link.id} out {port} sent {len(delays)} least {least} greatest {greatest} bound {bound}")
    for port, output_port in output_ports.items():
        most, at = peak(output_port)
        lines.append(f"out {port} occupied {most} of {output_port.port.buffer} at {at}")
    return "".join(line + "\n" for line in lines)


# --- trace ---


@dataclass(frozen=True)
class Selection:
    """Which lines of a trace are written, and whether its stamps count from that of the first frame."""
    links: frozenset[int] = frozenset()  # those of all frames, if it is empty
    relative: bool = False

    def shows(self, link: str) -> bool:
        """Returns whether the lines of a frame with this in the field of its link are written."""
        return not self.links or (link != "" and int(link) in self.links)

    def origin(self, arrivals: list[model.Arrival]) -> int:
        """Returns the stamp that counts as 0."""
        return arrivals[0].stamp if self.relative and arrivals else 0


EVERYTHING = Selection()


def early(passed: list[model.Arrival], frame: model.Arrival) -> int:
    """Returns the least number of ns by which the frame, had it come later, would have kept to its link's allowance: each window that ends
    with it and begins with a frame passed before it has to be long enough for what it holds."""
    link, least = frame.link, 0
    cost: Callable[[model.Arrival], int] = (lambda sent: sent.size) if link.police == "byte" else (lambda sent: 1)
    each_gap = link.max_size if link.police == "byte" else 1
    sent = cost(frame)
    for first in passed[::-1]:
        sent += cost(first)
        long_enough = -(-sent * link.bag // each_gap) - link.bag - link.jitter
        least = max(least, first.stamp + long_enough - frame.stamp)
    return least


def claimed(table: model.Table, frame: model.Arrival) -> str:
    """Returns the number of the link that a clean, a wrong-port or a too-big frame names; nothing of another one."""
    if frame.verdict in ("clean", "wrong-port", "too-big"):
        return str(int.from_bytes(frame.record.data[4:6], "big"))
    return ""


def arrivals_text(table: model.Table, arrivals: list[model.Arrival], output_ports: list[OutputPort], selection: Selection) -> str:
    origin = selection.origin(arrivals)
    lines, records = [ARRIVALS], {port.id: 0 for port in table.ports}
    passed: dict[int, list[model.Arrival]] = {link.id: [] for link in table.links}
    for number, frame in enumerate(arrivals):
        records[frame.port] += 1
        fate, soon = frame.verdict, ""
        full: list[int] = []
        if frame.passed:
            fate = "passed"
            passed[frame.link.id].append(frame)
            refusing = [output_port.port.id for output_port in output_ports if frame in output_port.refused]
            full = [port for port in frame.link.to if port in refusing]
        elif frame.link:
            fate, soon = "policed", str(early(passed[frame.link.id], frame))
        link = claimed(table, frame)
        if selection.shows(link):
            lines.append(f"{number},{frame.port},{records[frame.port]},{frame.stamp - origin},{link},{frame.size},{fate},{soon},"
                         + ";".join(map(str, full)))
    return "".join(line + "\n" for line in lines)


def departures_text(arrivals: list[model.Arrival], output_ports: list[OutputPort], selection: Selection) -> str:
    origin = selection.origin(arrivals)
    lines, numbers = [DEPARTURES], {id(frame): number for number, frame in enumerate(arrivals)}
    for output_port in output_ports:
        record = 0
        for event in output_port.events:
            frame, place, left, delay = event.frame, "", "", ""
            if event.sent:
                record += 1
                place, left, delay = str(record), str(event.end - origin), str(event.end - frame.stamp)
            if selection.shows(str(frame.link.id)):
                came = frame.stamp + output_port.port.latency - origin
                lines.append(f"{output_port.port.id},{place},{numbers[id(frame)]},{frame.link.id},{frame.link.priority},{frame.size},"
                             f"{came},{event.begin - origin},{left},{delay},{'sent' if event.sent else 'aged'}")
    return "".join(line + "\n" for line in lines)


# --- survey ---


def policed(arrivals: list[model.Arrival], link: model.Link) -> list[tuple[model.Arrival, int]]:
    """Returns the frames of a link that its policing did not pass, each with the ns by which it came too early."""
    passed: list[model.Arrival] = []
    others: list[tuple[model.Arrival, int]] = []
    for frame in arrivals:
        if frame.link is link:
            if frame.passed:
                passed.append(frame)
            else:
                others.append((frame, early(passed, frame)))
    return others


def spells(link: model.Link, frames: list[tuple[model.Arrival, int]]) -> list[list[tuple[model.Arrival, int]]]:
    """Returns these policed frames, parted wherever two of them lie further apart than the link's gap."""
    parts: list[list[tuple[model.Arrival, int]]] = []
    for frame, soon in frames:
        if not parts or frame.stamp - parts[-1][-1][0].stamp > link.bag:
            parts.append([])
        parts[-1].append((frame, soon))
    return parts


def spell_line(link: model.Link, part: list[tuple[model.Arrival, int]]) -> str:
    soon = [early for _, early in part]
    return f"link {link.id} policed {len(part)} from {part[0][0].stamp} to {part[-1][0].stamp} early {min(soon)} to {max(soon)}"


def spell_lines(table: model.Table, arrivals: list[model.Arrival]) -> list[str]:
    return [spell_line(link, part) for link in table.links for part in spells(link, policed(arrivals, link))]


def survey(table: model.Table, captures: dict[int, bytes], unchecked: bool) -> str:
    arrivals = model.arrivals_of(table, captures)
    first, last = (str(arrivals[0].stamp), str(arrivals[-1].stamp)) if arrivals else ("-", "-")
    lines = spell_lines(table, arrivals) + [f"span from {first} to {last} frames {len(arrivals)}"]
    return model.run(table, captures).report + measure(table, captures, unchecked) + "".join(line + "\n" for line in lines)


def trace(table: model.Table, captures: dict[int, bytes], selection: Selection = EVERYTHING) -> tuple[str, str]:
    """Returns the texts of arrivals.csv and departures.csv."""
    arrivals = model.arrivals_of(table, captures)
    output_ports = output_ports_of(table, arrivals)
    return arrivals_text(table, arrivals, output_ports, selection), departures_text(arrivals, output_ports, selection)


PRINTED = {"measure": measure, "survey": survey}  # what is on standard output, of a table, captures and whether it is unchecked


def main(given: argparse.Namespace) -> str:
    table = model.read(given.table)
    if given.command == "size":
        return model.size(table)
    if not given.unchecked:
        model.check(table)
    captures = model.captures_in(given.source, table)
    if given.command in PRINTED:
        return PRINTED[given.command](table, captures, given.unchecked)
    selection = Selection(frozenset(given.link), given.relative)
    for name, text in zip(("arrivals", "departures"), trace(table, captures, selection)):
        Path(given.target, f"{name}.csv").write_text(text, encoding="ascii", newline="")
    return ""


def arguments() -> argparse.Namespace:
    parser = argparse.ArgumentParser(description=__doc__, formatter_class=argparse.RawDescriptionHelpFormatter)
    commands = parser.add_subparsers(dest="command", required=True)
    commands_of: dict[str, list[str]] = {"size": [], "measure": ["source"], "survey": ["source"], "trace": ["source", "target"]}
    for name, folders in commands_of.items():
        command = commands.add_parser(name)
        command.add_argument("table")
        for folder in folders:
            command.add_argument(folder)
        if folders:
            command.add_argument("--unchecked", action="store_true")
        if name == "trace":
            command.add_argument("--link", type=int, action="append", default=[])
            command.add_argument("--relative", action="store_true")
    return parser.parse_args()


if __name__ == "__main__":
    try:
        sys.stdout.write(main(arguments()))
    except model.Refused as refused:
        print(refused.line, file=sys.stderr)
        sys.exit(refused.status)
