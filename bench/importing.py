#!/usr/bin/env python3
"""Times `afdx-import` beside `tcpdump -r -w` of the same recordings, in turn, and prints the megabytes of recording that each
takes for a second of the processor, the system's time included: the medians and the greatest, with the most memory.

Needs three times the room under /tmp, and tcpdump. Mixed sizes are 60 to 1514 bytes as captured, 430 on average. Of a mirror the
frames come to ten ports, each to that of its sender.
"""
import argparse
import os
import random
import statistics
import tempfile
from collections.abc import Sequence

from measure import TCPDUMP, TOP, measured

from captures import HEADER, frame, record

IMPORT = f"{TOP}/python/bin/afdx-import"
SIZES = [60, 60, 80, 100, 150, 200, 256, 300, 500, 800, 1200, 1514]
ONE_PORT = 'to = "port-1"'
MIRROR = "end_systems = { " + ", ".join(f'{number} = "port-{number}"' for number in range(1, 11)) + " }"


def write_recording(path: str, megabytes: int, sizes: Sequence[int]) -> None:
    """Writes frames of ten end systems, about 100 Mbit/s of them."""
    chance, stamp, written = random.Random(1), 1_790_000_000 * 10**9, 0
    with open(path, "wb") as file:
        file.write(HEADER)
        while written < megabytes * 1_000_000:
            parts = []
            for _ in range(10_000):
                size, sender = chance.choice(sizes), chance.randrange(1, 11)
                stamp += (size + 24) * 80 + chance.randrange(1000)
                parts.append(record(stamp, frame(1, size + 4, end_system=sender, network=0x20, fill=b"\x55")))
            written += file.write(b"".join(parts))


def row(room: str, name: str, keys: str, path: str, runs: int) -> None:
    """Prints what both commands make of a recording."""
    with open(f"{room}/rules.toml", "w", encoding="utf-8") as file:
        file.write(f'[[source]]\nfile = "{os.path.basename(path)}"\n{keys}\n')
    megabytes = os.path.getsize(path) / 1e6
    ours: list[float] = []
    theirs: list[float] = []
    memory = 0.0
    for _ in range(runs):
        _, used, peak = measured([IMPORT, f"{room}/rules.toml", room, f"{room}/in"], "/dev/null", "/dev/null")
        ours.append(megabytes / used)
        memory = max(memory, peak)
        theirs.append(megabytes / measured([*TCPDUMP, "-r", path, "-w", f"{room}/copy"], "/dev/null", "/dev/null")[1])
    print(f"{name}: {megabytes:.0f} MB, afdx-import {statistics.median(ours):.0f} MB/s (at most {max(ours):.0f}), "
          f"tcpdump {statistics.median(theirs):.0f} MB/s (at most {max(theirs):.0f}), {memory:.0f} MB of memory", flush=True)


def main() -> None:
    parser = argparse.ArgumentParser(description=__doc__, formatter_class=argparse.RawDescriptionHelpFormatter)
    parser.add_argument("megabytes", type=int, nargs="?", default=1000, help="of each recording; 1000 if none are named")
    parser.add_argument("runs", type=int, nargs="?", default=5, help="of each; 5 if none are named")
    given = parser.parse_args()
    with tempfile.TemporaryDirectory() as room:
        for sizes, kind in ((SIZES, "mixed sizes"), ([60], "64 bytes"), (range(60, 101), "64 to 104 bytes")):
            path = f"{room}/raw.pcap"
            write_recording(path, given.megabytes, sizes)
            for keys, name in ((ONE_PORT, "one port"), (MIRROR, "a mirror of ten ports")):
                row(room, f"{kind}, {name}", keys, path, given.runs)


if __name__ == "__main__":
    main()
