#!/usr/bin/env python3
"""Writes recordings that are as slow to compare as can be: frames of one link, and at its output as many strangers of the same length,
which differ from them in the last bytes alone.

usage: strangers.py FOLDER COUNT [--at-once]    afterwards: afdx compare FOLDER/table.toml FOLDER/in FOLDER/out
"""
import argparse
import sys
from pathlib import Path

sys.path.insert(0, str(Path(__file__).resolve().parent.parent / "end_to_end"))
from captures import HEADER, SECOND, record  # noqa: E402

TABLE = """version = 3
latency_us = 16
[[port]]
id = 1
mbit = 100
buffer = 65536
max_delay_us = 10000
[[port]]
id = 2
mbit = 100
buffer = 65536
max_delay_us = 10000
[[link]]
id = 7
from = 1
to = [2]
bag_ms = 1
jitter_us = 500
max_size = 1518
priority = "low"
"""
HEAD = bytes.fromhex("03000000000702000000000108004500")
BEGIN = SECOND


def arguments() -> argparse.Namespace:
    parser = argparse.ArgumentParser(description="Recordings that are slow to compare")
    parser.add_argument("folder", type=Path)
    parser.add_argument("count", type=int, help="of the frames, and of the strangers")
    parser.add_argument("--at-once", action="store_true", help="all at one instant; else one after the other on a line")
    return parser.parse_args()


def write(path: Path, first: int, count: int, step: int, begin: int = BEGIN) -> None:
    """Writes a capture of so many frames of 64 bytes that end with their numbers, from a number and an instant on."""
    with path.open("wb") as file:
        file.write(HEADER)
        for number in range(first, first + count):
            file.write(record(begin + (number - first) * step, HEAD.ljust(52, b"\0") + number.to_bytes(8, "big")))


def main() -> None:
    options = arguments()
    step = 0 if options.at_once else 6720
    for name in ("in", "out"):
        (options.folder / name).mkdir(parents=True, exist_ok=True)
    (options.folder / "table.toml").write_text(TABLE, encoding="utf-8")
    write(options.folder / "in" / "port-1.pcap", 0, options.count, step)
    write(options.folder / "in" / "port-2.pcap", 0, 0, step)
    write(options.folder / "out" / "port-1.pcap", 0, 0, step)
    write(options.folder / "out" / "port-2.pcap", options.count, options.count, step, BEGIN + 30_000)


if __name__ == "__main__":
    main()
