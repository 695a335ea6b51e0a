#!/usr/bin/env python3
"""Writes a ring of three switches and what comes in, so that each frame delays the next one at the next switch.

It writes ROOM/network.toml with its tables, and ROOM/A/port-2.pcap and so on with COUNT frames in all.

Each link comes in at port 2, goes on at port 3 of two switches and leaves at port 4 of the third. The first frame delays the one
that comes in at A by 6,000 ns. Over the cable that one comes to B; the next frame comes in there when it would have left, were
it not delayed, and so waits 6,000 ns too. So each frame's way rests on that of the frame before it, round and round the ring.
"""
import argparse
from pathlib import Path

import model
from captures import frame

LINE = 6_720  # a frame of 64 bytes at 100 Mbit/s
CABLE = 1_000_000
PORT = "[[port]]\nid = {}\nmbit = 100\nbuffer = 100000\nmax_delay_us = 500000\n"
LINKS = {"A": (1, 3, 2), "B": (2, 1, 3), "C": (3, 2, 1)}  # the one that comes in, the one that goes on, the one that leaves


def row(number: int, source: int, to: int, jitter: int) -> str:
    return (f"[[link]]\nid = {number}\nfrom = {source}\nto = [{to}]\nbag_ms = 1\njitter_us = {jitter}\nmax_size = 64\n"
            'priority = "low"\n')


def table(name: str) -> str:
    own, passing, last = LINKS[name]
    return "".join(PORT.format(number) for number in range(1, 5)) + row(own, 2, 3, 0) + row(passing, 1, 3, 7) + row(last, 1, 4, 14)


def network() -> str:
    text = "version = 1\n" + "".join(f'[[switch]]\nname = "{name}"\ntable = "{name}.toml"\n' for name in LINKS)
    for name, other in (("A", "B"), ("B", "C"), ("C", "A")):
        text += f'[[wire]]\nfrom = "{name}.3"\nto = "{other}.1"\ndelay_ns = {CABLE}\n'
    return text


def frames(count: int) -> dict[str, list[int]]:
    """Returns, of each switch, what comes in at port 2: the first frame at C, then one at A, B, C and so on."""
    came: dict[str, list[int]] = {name: [] for name in LINKS}
    came["C"].append(0)
    for step in range(count - 1):
        came["ABC"[step % 3]].append(LINE + CABLE + 720 + step * (2 * LINE + CABLE))
    return came


def main() -> None:
    parser = argparse.ArgumentParser(description=__doc__, formatter_class=argparse.RawDescriptionHelpFormatter)
    parser.add_argument("room", type=Path)
    parser.add_argument("count", type=int, help="of frames")
    given = parser.parse_args()
    (given.room / "network.toml").write_text(network(), encoding="utf-8")
    for name, stamps in frames(given.count).items():
        (given.room / f"{name}.toml").write_text(table(name), encoding="utf-8")
        (given.room / name).mkdir(exist_ok=True)
        for port in (2, 3, 4):
            records = [model.Record(stamp, 60, frame(LINKS[name][0], 64)) for stamp in stamps if port == 2]
            (given.room / name / f"port-{port}.pcap").write_bytes(model.capture_of(records))


if __name__ == "__main__":
    main()
