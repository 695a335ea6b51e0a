#!/usr/bin/env python3
"""Writes captures in which much happens at one instant: ends, arrivals, starts and ages all lie on a grid of 5 us.

It writes ROOM/table.toml and ROOM/in/port-K.pcap, the same for the same seed. At 100 Mbit/s a frame of 105 bytes occupies a line
for 10 us and one of 230 bytes for 20 us.
"""
import argparse
from pathlib import Path
from random import Random

import model

GRID = 5_000
FRAMES = 150
# from, to, priority
LINKS = [(1, [3, 4], "low"), (1, [4], "high"), (2, [4, 3], "high"), (2, [4], "low"), (3, [4], "low"), (3, [1, 4], "high")]


def table(chance: Random) -> str:
    text = ""
    for port, (mbit, buffer, delay) in enumerate([(10, 500, 100), (100, 0, 5), (100, 335, 15), (100, 550, 30)], 1):
        buffer += 105 * int(chance.random() * 3)
        text += f"[[port]]\nid = {port}\nmbit = {mbit}\nbuffer = {buffer}\nmax_delay_us = {delay}\n"
    for link, (source, to, priority) in enumerate(LINKS, 1):
        text += (f"[[link]]\nid = {link}\nfrom = {source}\nto = {to}\nbag_ms = 1\njitter_us = 10000\nmax_size = 230\n"
                 f"priority = \"{priority}\"\n")
    return text


def capture(chance: Random, port: int, count: int = FRAMES) -> bytes:
    own = [link for link, (source, _, _) in enumerate(LINKS, 1) if source == port]
    records: list[model.Record] = []
    at = 0
    for _ in range(count if own else 0):
        at += GRID * int(chance.random() ** 2 * 16)
        link = own[int(chance.random() * len(own))] if chance.random() < 0.95 else 1
        size = 105 if chance.random() < 0.7 else 230
        data = bytes([3, 0, 0, 0, 0, link, 2, 0, 0, 0, 0, 1, 8, 0, len(records)])
        records.append(model.Record(at, 0, data.ljust(size - 4, b"\0")))
    return model.capture_of(records)


def main() -> None:
    parser = argparse.ArgumentParser(description=__doc__, formatter_class=argparse.RawDescriptionHelpFormatter)
    parser.add_argument("room", type=Path)
    parser.add_argument("seed", type=int)
    given = parser.parse_args()
    chance = Random(given.seed)
    (given.room / "in").mkdir(parents=True, exist_ok=True)
    (given.room / "table.toml").write_text(table(chance), encoding="utf-8")
    for port in (1, 2, 3, 4):
        (given.room / "in" / f"port-{port}.pcap").write_bytes(capture(chance, port))


if __name__ == "__main__":
    main()
