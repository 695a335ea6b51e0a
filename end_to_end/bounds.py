#!/usr/bin/env python3
"""Checks what left the switch under an accepted table: of each link exactly the frames that its account passes out of
its own capture, in order, each within the port's bound.

Prints the longest delay of each port and priority beside its bound in ns; fails at the first frame that is amiss.
"""
import argparse
import sys
from pathlib import Path

import model


def records_of(folder: str, port: int) -> list[model.Record]:
    return model.records_of(Path(folder, f"port-{port}.pcap").read_bytes(), port)


def passed_of(table: model.Table, link: model.Link, source: str) -> list[model.Arrival]:
    """Returns the frames of this link that its account passes, from its own capture alone."""
    passed: list[model.Arrival] = []
    for record in records_of(source, link.source):
        frame = model.Arrival(link.source, record, link=link)
        if model.verdict_of(table, link.source, record)[1] is link and model.conforms(link, passed, frame):
            passed.append(frame)
    return passed


def bounds_of(table: model.Table) -> dict[tuple[int, str], str]:
    """Returns the bounds that are printed of each port: by port and priority."""
    lines = [line.split() for line in model.check(table).splitlines()[:-1]]
    return {(int(words[1]), words[at]): words[at + 1] for words in lines for at in (6, 8)}


def longest_delay(port: model.Port, link: model.Link, passed: list[model.Arrival], left: list[model.Record], bound: str) -> int:
    if [frame.record.data for frame in passed] != [record.data for record in left]:
        sys.exit(f"link {link.id} at port {port.id}: {len(passed)} frames passed, {len(left)} left, or others")
    delays = [record.stamp - frame.stamp for frame, record in zip(passed, left)]
    for frame, delay in zip(passed, delays):
        if not port.latency + (frame.size + model.LINE_OVERHEAD) * port.tick <= delay <= int(bound):
            sys.exit(f"link {link.id} at port {port.id}: a delay of {delay} ns, bound {bound}")
    return max(delays, default=0)


def compare(table: model.Table, source: str, target: str) -> dict[tuple[int, str], tuple[int, str]]:
    """Returns the longest delay of each port and priority that has a bound, beside it, in ns."""
    bounds = bounds_of(table)
    longest: dict[tuple[int, str], int] = {}
    passed = {link.id: passed_of(table, link, source) for link in table.links}
    for port in table.ports:
        out = records_of(target, port.id)
        for link in table.links:
            left = [record for record in out if record.data[4:6] == link.id.to_bytes(2, "big")]
            place = (port.id, link.priority)
            delay = longest_delay(port, link, passed[link.id] if port.id in link.to else [], left, bounds.get(place, "0"))
            longest[place] = max(longest.get(place, 0), delay)
    return {place: (longest.get(place, 0), bound) for place, bound in bounds.items()}


def main() -> None:
    parser = argparse.ArgumentParser(description=__doc__, formatter_class=argparse.RawDescriptionHelpFormatter)
    parser.add_argument("table")
    parser.add_argument("source", help="the folder of the captures that came in")
    parser.add_argument("target", help="the folder of those that went out")
    given = parser.parse_args()
    for (port, priority), (delay, bound) in compare(model.read(given.table), given.source, given.target).items():
        print(f"port {port} {priority}: longest delay {delay}, bound {bound}")


if __name__ == "__main__":
    main()
