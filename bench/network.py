#!/usr/bin/env python3
"""Makes a network of 24 ports and 4096 links, and captures of as many frames as are asked for; always the same.

Each link sends one frame of its greatest size in each gap, so all frames are passed, to one, two or three ports. The
table is one that the load rules accept.
"""
import argparse
import os
import sys
from pathlib import Path

sys.path.append(str(Path(__file__).resolve().parents[1] / "end_to_end"))

from captures import HEADER, frame, record  # noqa: E402

PORTS = 24
LINKS = 4096
ROUND = 128  # ms in which each link has sent once at least


def gap(link: int) -> int:
    return (32, 64, 128)[link // PORTS % 3]


def size(link: int) -> int:
    return 64 + link * 7 % 192


def source(link: int) -> int:
    return link % PORTS + 1


def targets(link: int) -> list[int]:
    """Returns one to three ports, none of them the link's own."""
    return [(link + step) % PORTS + 1 for step in (1, 5, 11)[:link // 7 % 3 + 1]]


def write_table(path: str) -> None:
    with open(path, "w", encoding="utf-8") as file:
        for port in range(1, PORTS + 1):
            file.write(f"[[port]]\nid = {port}\nmbit = 100\nbuffer = 1000000\nmax_delay_us = 100000\n\n")
        for link in range(LINKS):
            file.write(f"[[link]]\nid = {link}\nfrom = {source(link)}\nto = {targets(link)}\nbag_ms = {gap(link)}\n"
                       f"jitter_us = 0\nmax_size = {size(link)}\npriority = \"{'low' if link // PORTS % 4 else 'high'}\"\n\n")


def captures_of(count: int) -> list[bytearray]:
    """Returns the captures of so many frames, by port from 1. Link L sends in each of its gaps at the same microsecond."""
    captures = [bytearray(HEADER) for _ in range(PORTS + 1)]
    slots: list[list[tuple[bytearray, int, bytes]]] = [[] for _ in range(ROUND)]
    for link in range(LINKS):
        sent = captures[source(link)], link // PORTS * 5000, frame(link, size(link))
        for slot in range(link * 37 % gap(link), ROUND, gap(link)):
            slots[slot].append(sent)
    milli = 0
    while count:
        sending = slots[milli % ROUND][:count]
        for capture, inside, data in sending:
            capture += record(milli * 1_000_000 + inside, data)
        count -= len(sending)
        milli += 1
    return captures[1:]


def write_network(room: str, count: int) -> None:
    os.makedirs(f"{room}/in", exist_ok=True)
    write_table(f"{room}/table.toml")
    for port, capture in enumerate(captures_of(count), 1):
        with open(f"{room}/in/port-{port}.pcap", "wb") as file:
            file.write(capture)


def main() -> None:
    parser = argparse.ArgumentParser(description=__doc__, formatter_class=argparse.RawDescriptionHelpFormatter)
    parser.add_argument("room", help="the folder in which table.toml and in/port-K.pcap are written")
    parser.add_argument("frames", type=int, help="how many, of all ports")
    given = parser.parse_args()
    write_network(given.room, given.frames)


if __name__ == "__main__":
    main()
