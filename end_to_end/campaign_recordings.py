#!/usr/bin/python3
"""Writes two tables of a switch of 8 ports and 200 links, and recordings of their traffic; the same for the same arguments.

They are ROOM/before.toml and ROOM/after.toml, and the folders ROOM/recordings/rNNNN.

What is to be found in them: every 25th recording has a link that babbles; of each 250 one has a cut capture, of each 500 one has
a file that is no capture and one lacks a capture; and after three fifths the ends at port 3 send larger frames.
"""
import argparse
from pathlib import Path
from typing import Any

import numpy

from captures import HEADER

PORTS, LINKS = 8, 200
BAGS = [2, 4, 8, 8, 16, 16, 32, 32, 64, 128]  # ms
BEGIN = 1_768_471_200 * 10**9  # of the first recording; each other begins an hour later
MILLISECOND = 10**6

Row = dict[str, Any]
Frames = tuple[Any, Any, Any]  # columns: stamps, numbers of links, sizes


def links() -> list[Row]:
    """Draws the links, as dictionaries of their keys in a table."""
    chance = numpy.random.default_rng(7)
    rows: list[Row] = []
    for number in range(LINKS):
        bag = BAGS[number // PORTS % len(BAGS)]
        size = int(chance.integers(64, 240)) if bag <= 4 else int(chance.integers(100, 900))
        others = [port for port in range(1, PORTS + 1) if port != number % PORTS + 1]
        to = sorted(int(port) for port in chance.choice(others, size=int(chance.integers(1, 4)), replace=False))
        rows.append({"id": 100 + number, "from": number % PORTS + 1, "to": to, "bag_ms": bag, "jitter_us": 1500, "max_size": size,
                     "priority": "high" if bag <= 8 and number % 3 else "low"})
    return rows


def changed(row: Row) -> Row:
    """Gives a link under the other table: some have a smaller greatest size, those from port 1 low priority."""
    size = min(row["max_size"], 400) if row["id"] % 10 == 3 else row["max_size"]
    return row | {"max_size": size, "priority": "low" if row["from"] == 1 else row["priority"]}


def section(row: Row) -> str:
    """Writes a [[link]] of a table."""
    lines = (f'{key} = "{value}"\n' if isinstance(value, str) else f"{key} = {value}\n" for key, value in row.items())
    return "[[link]]\n" + "".join(lines) + "\n"


def table(rows: list[Row]) -> str:
    """Writes the text of a table."""
    ports = "".join(f"[[port]]\nid = {port}\nmbit = 100\nbuffer = 262144\nmax_delay_us = 20000\n\n" for port in range(1, PORTS + 1))
    return ports + "".join(map(section, rows))


def traffic(chance: Any, row: Row, length: int, babbles: bool, larger: bool) -> tuple[Any, Any]:
    """Draws stamps and sizes of a link's frames."""
    bag = row["bag_ms"] * MILLISECOND
    stamps = numpy.arange(int(chance.integers(bag)), length, bag, dtype=numpy.int64)
    stamps = stamps + chance.integers(0, 100_000, len(stamps))
    stamps = stamps[chance.random(len(stamps)) > 0.02]
    if babbles:
        begin, end = length // 4, length * 3 // 4
        rest = stamps[(stamps < begin) | (stamps >= end)]
        stamps = numpy.sort(numpy.concatenate([rest, numpy.arange(begin, end, 400_000)]))
    top = row["max_size"]
    least = top if larger else max(64, top // 2)
    return stamps, chance.integers(least, top + 1, len(stamps))


def capture(stamps: Any, numbers: Any, sizes: Any) -> bytes:
    """Makes a capture of frames of these links, which are bytes of 0 after their headers."""
    lengths = sizes - 4
    places = 24 + numpy.concatenate([[0], numpy.cumsum(lengths + 16)])
    out = numpy.zeros(int(places[-1]), dtype=numpy.uint8)
    out[:24] = numpy.frombuffer(HEADER, numpy.uint8)
    head = numpy.zeros((len(stamps), 30), dtype=numpy.uint8)
    words = numpy.stack([stamps // 10**9, stamps % 10**9, lengths, lengths], 1).astype("<u4")
    head[:, :16] = words.view(numpy.uint8).reshape(len(stamps), 16)
    head[:, 16], head[:, 22], head[:, 28] = 3, 2, 8
    head[:, 20], head[:, 21] = numbers >> 8, numbers & 255
    out[places[:-1, None] + numpy.arange(30)] = head
    return out.tobytes()


def on_a_line(begin: int, frames: list[Frames]) -> Frames:
    """Puts the frames of a port in their order, each stamped at its end on a line of 100 Mbit/s on which none overlaps another."""
    stamps, numbers, sizes = (numpy.concatenate(column) for column in zip(*frames))
    order = numpy.argsort(stamps, kind="stable")
    stamps, numbers, sizes = stamps[order], numbers[order], sizes[order]
    took = (sizes + 20) * 80
    ends = numpy.cumsum(took)
    return begin + numpy.maximum.accumulate(stamps - (ends - took)) + ends, numbers, sizes


def spoilt(number: int, port: int, text: bytes) -> bytes | None:
    """Gives what is written of a capture; nothing if it is missing."""
    if number % 250 == 17 and port == 2:
        return text[:-7]
    if number % 500 == 33 and port == 2:
        return bytes(4) + text[4:]
    return None if number % 500 == 44 and port == 5 else text


def write_recording(folder: Path, number: int, count: int, length: int) -> None:
    """Writes the captures of a recording."""
    folder.mkdir(parents=True)
    chance = numpy.random.default_rng(1000 + number)
    rows = links()
    babbler = rows[int(chance.integers(LINKS))]["id"] if number % 25 == 11 else None
    frames: dict[int, list[Frames]] = {port: [] for port in range(1, PORTS + 1)}
    for row in rows:
        larger = row["from"] == 3 and number >= 3 * count // 5
        stamps, sizes = traffic(chance, row, length, row["id"] == babbler, larger)
        frames[row["from"]].append((stamps, numpy.full(len(stamps), row["id"]), sizes))
    for port, own in frames.items():
        text = spoilt(number, port, capture(*on_a_line(BEGIN + number * 3600 * 10**9, own)))
        if text is not None:
            (folder / f"port-{port}.pcap").write_bytes(text)


def main() -> None:
    parser = argparse.ArgumentParser(description=__doc__, formatter_class=argparse.RawDescriptionHelpFormatter)
    parser.add_argument("room", type=Path)
    parser.add_argument("count", type=int, help="of recordings")
    parser.add_argument("milliseconds", type=int, nargs="?", default=200, help="of each; 200 if none are named")
    given = parser.parse_args()
    given.room.mkdir(parents=True, exist_ok=True)
    (given.room / "before.toml").write_text(table(links()))
    (given.room / "after.toml").write_text(table([changed(row) for row in links()]))
    for number in range(given.count):
        write_recording(given.room / "recordings" / f"r{number:04}", number, given.count, given.milliseconds * MILLISECOND)


if __name__ == "__main__":
    main()
