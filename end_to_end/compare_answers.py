#!/usr/bin/env python3
"""What `afdx compare` answers, by the plain model in compare_model.py: slowly. It can stand in the program's place.

Of a refused load or capture it prints a line on standard error, with status 3 or 4, and with status 2 of a span in which nothing is judged;
the table is taken to be in order, and the options to fit it.
"""
import argparse
import dataclasses
import sys
from pathlib import Path
from typing import Any

import compare_model
import model

HEADING = "port,link,kind,record_in,stamp_in,record_out,stamp_out,delay,bound"
GAPS = {"end": 12, "free": 0}
LAST_STAMP = (model.LAST_SECOND + 1) * model.SECOND - 1


@dataclasses.dataclass(frozen=True)
class Row:
    """A difference at a port: the instant by which it is in order, the place of its link in the table, the record with which it is
    found and whether it is of that record, and its columns."""
    at: int
    link: int
    found: tuple[int, int]
    columns: str


@dataclasses.dataclass
class At:
    """What was found of a link at a port."""
    link: model.Link
    port: model.Port
    own: list[tuple[int, model.Record]]  # frames in the span with their numbers
    out: list[tuple[int, model.Record]]  # records in the span
    line: compare_model.Line
    found: dict[str, list[Any]]
    unsure: int


def arguments() -> argparse.Namespace:
    parser = argparse.ArgumentParser(description="The plain model of afdx compare")
    parser.add_argument("table", type=Path)
    parser.add_argument("input", type=Path)
    parser.add_argument("output", type=Path)
    parser.add_argument("--least-latency", type=int, default=0)
    parser.add_argument("--tolerance", type=int, default=0)
    parser.add_argument("--stamps", choices=sorted(GAPS), default="end")
    parser.add_argument("--offset", default="")
    parser.add_argument("--rest", action="store_true")
    parser.add_argument("--from", dest="start", type=int)
    parser.add_argument("--until", type=int)
    parser.add_argument("--ports")
    parser.add_argument("--rows", type=Path)
    return parser.parse_args()


def captures_in(folder: Path, ports: list[model.Port], name: str) -> dict[int, list[model.Record]]:
    """Returns the records of each port's capture, whose faults name the port so."""
    captures = {}
    for port in ports:
        try:
            captures[port.id] = model.records_of((folder / f"port-{port.id}.pcap").read_bytes(), port.id)
        except model.Refused as refused:
            raise model.Refused(refused.line.replace(f"port {port.id}", f"{name} {port.id}"), refused.status) from refused
    return captures


def stamp_at(ns: int) -> int:
    """Returns the stamp at an instant: the first or the last one, where it would lie outside of these."""
    return min(max(ns, 0), LAST_STAMP)


def moved(records: list[model.Record], offset: int) -> list[model.Record]:
    return [dataclasses.replace(record, stamp=stamp_at(record.stamp + offset)) for record in records]


def offsets_of(text: str) -> dict[int, int]:
    parts = (part.split("=") for part in text.split(",") if part)
    return {int(port): int(offset) for port, offset in parts}


def numbered(records: list[model.Record]) -> list[tuple[int, model.Record]]:
    return list(enumerate(records, 1))


def number_of(constant: bytes, record: model.Record) -> int:
    """Returns the link that a record names; -1 for a record without an address, or with another constant field."""
    return record.data[4] * 256 + record.data[5] if len(record.data) >= 6 and record.data[:4] == constant else -1


class Comparison:
    """All that is compared of two folders."""

    def __init__(self, table: model.Table, came: dict[int, list[model.Record]], left: dict[int, list[model.Record]],
                 options: argparse.Namespace) -> None:
        self.table, self.options = table, options
        self.offsets = offsets_of(options.offset)
        latency = table.ports[0].latency if table.ports else 0
        least = options.least_latency * 1000
        scatter = max(latency - least, 0)
        self.loose = model.Table(table.constant, table.ports,
                                 [dataclasses.replace(link, jitter=link.jitter + scatter) for link in table.links])
        model.check(self.loose)
        self.came = came
        self.left = {port: moved(records, self.offsets.get(port, 0)) for port, records in left.items()}
        stamps = [record.stamp for records in [*self.came.values(), *self.left.values()] for record in records]
        self.start = options.start if options.start is not None else min(stamps, default=0)
        self.until = options.until if options.until is not None else max(stamps, default=0)
        apart = stamps and (max(stamps) < self.start or self.until < min(stamps))
        if self.until < self.start or apart:
            raise model.Refused(f"afdx: argument A4 Span, --from {self.start}, --until {self.until}", 2)
        self.watch = compare_model.Watch(least, scatter, options.tolerance, GAPS[options.stamps],
                                         None if options.rest else self.start, self.until)

    def within(self, port: int) -> list[tuple[int, model.Record]]:
        return [pair for pair in numbered(self.left[port]) if self.watch.has_record(pair[1].stamp)]

    def leads(self, link: model.Link, port: int, record: model.Record) -> bool:
        return port in link.to and number_of(self.table.constant, record) == link.id

    def line_of(self, link: model.Link, port: model.Port) -> compare_model.Line:
        loose = next(other for other in self.loose.ports if other.id == port.id)
        return compare_model.Line(port.tick, getattr(model.load_of(self.loose, loose), link.priority))

    def of_link(self, link: model.Link) -> list[At]:
        own = [pair for pair in numbered(self.came[link.source])
               if model.verdict_of(self.table, link.source, pair[1])[1] is link and self.watch.has_frame(pair[1].stamp)]
        ports = [next(port for port in self.table.ports if port.id == number) for number in link.to if number in self.left]
        outs = [[pair for pair in self.within(port.id) if self.leads(link, port.id, pair[1])] for port in ports]
        lines = [self.line_of(link, port) for port in ports]
        found, unsure = compare_model.answers_of(link, self.watch, [record for _, record in own],
                                                 [(line, [record for _, record in out]) for line, out in zip(lines, outs)])
        return [At(link, port, own, out, line, what, unsure) for port, out, line, what in zip(ports, outs, lines, found)]

    def delay(self, at: At, pair: tuple[int, int]) -> int:
        came, left = at.own[pair[0] - 1][1], at.out[pair[1] - 1][1]
        return max(compare_model.left_at(self.watch, at.line, left) - came.stamp, 0)

    def foreign(self, port: int) -> list[tuple[int, model.Record]]:
        return [pair for pair in self.within(port) if not any(self.leads(link, port, pair[1]) for link in self.table.links)]

    def link_line(self, at: At) -> str:
        found = at.found
        pairs = found["kept"] + found["early"] + found["late"]
        delays = [self.delay(at, pair) for pair in pairs]
        least, greatest = (min(delays), max(delays)) if delays else ("-", "-")
        passed = len(pairs) + len(found["missing"]) + len(found["after"])
        seen = len(pairs) + len(found["extra"]) + len(found["before"])
        counts = " ".join(f"{kind} {len(found[kind])}" for kind in ("missing", "extra", "early", "late", "before", "after"))
        return (f"link {at.link.id} out {at.port.id} passed {passed} seen {seen} {counts} unsure {at.unsure} "
                f"least {least} greatest {greatest} bound {at.line.bound}")

    def mark(self, pair: tuple[int, model.Record], offset: int = 0) -> str:
        return f"{pair[0]},{stamp_at(pair[1].stamp - offset)}"

    def rows_of(self, at: At) -> list[Row]:
        offset, place = self.offsets.get(at.port.id, 0), self.table.links.index(at.link)
        pairs = at.found["kept"] + at.found["early"] + at.found["late"]
        rows = []
        for kind in ("early", "late"):
            for pair in at.found[kind]:
                came, left = at.own[pair[0] - 1], at.out[pair[1] - 1]
                rows.append((left[1].stamp, (pair[1], 1), f"{kind},{self.mark(came)},{self.mark(left, offset)},{self.delay(at, pair)}"))
        for number in sorted(at.found["missing"]):
            came = at.own[number - 1]
            passed_over = min((left for frame, left in pairs if frame > number), default=len(at.out) + 1)
            rows.append((came[1].stamp, (passed_over, 0), f"missing,{self.mark(came)},,,"))
        for number, policed in at.found["extra"]:
            left = at.out[number - 1]
            named = self.mark(at.own[policed - 1]) if policed else ","
            rows.append((left[1].stamp, (number, 1), f"extra,{named},{self.mark(left, offset)},"))
        return [Row(instant, place, found, f"{at.link.id},{columns},{at.line.bound}") for instant, found, columns in rows]

    def answer(self) -> tuple[str, list[str], bool]:
        """Returns the lines, the rows of differences.csv, and whether it conforms."""
        links = [self.of_link(link) for link in self.table.links]
        lines = [f"span {self.start} to {self.until}"] + [self.link_line(at) for link in links for at in link]
        rows, conforms = [HEADING], all(compare_model.conforms(at.found) for link in links for at in link)
        for port in (port for port in self.table.ports if port.id in self.left):
            foreign = self.foreign(port.id)
            lines.append(f"out {port.id} seen {len(self.within(port.id))} foreign {len(foreign)}")
            conforms = conforms and not foreign
            offset = self.offsets.get(port.id, 0)
            here = [row for link in links for at in link if at.port is port for row in self.rows_of(at)]
            here += [Row(pair[1].stamp, len(links), (pair[0], 1), f",foreign,,,{self.mark(pair, offset)},,") for pair in foreign]
            rows += [f"{port.id},{row.columns}" for row in sorted(here, key=lambda row: (row.at, row.link, row.found))]
        return "\n".join(lines + ["conforms" if conforms else "differs"]) + "\n", rows, conforms


def main() -> int:
    options = arguments()
    table = model.table_of(options.table.read_text(encoding="utf-8"))
    try:
        outputs = [port for port in table.ports if options.ports is None or str(port.id) in options.ports.split(",")]
        came, left = captures_in(options.input, table.ports, "port"), captures_in(options.output, outputs, "output")
        text, rows, conforms = Comparison(table, came, left, options).answer()
    except model.Refused as refused:
        print(refused.line, file=sys.stderr)
        return refused.status
    if options.rows:
        (options.rows / "differences.csv").write_text("".join(row + "\n" for row in rows), encoding="utf-8")
    sys.stdout.write(text)
    return 0 if conforms else 1


if __name__ == "__main__":
    sys.exit(main())
