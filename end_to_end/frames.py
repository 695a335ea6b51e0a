#!/usr/bin/env python3
"""Writes frames as text2pcap reads them: a stamp, then the bytes in hexadecimal.

They are those that are asked for, or those of a capture, as far as they were captured. SIZE counts the frame check sequence,
which is left out, as a capture leaves it out.
"""
import argparse
import sys
from collections.abc import Iterator
from pathlib import Path

from captures import SECOND, frame, read


def frames_of(capture: Path) -> Iterator[tuple[str, bytes]]:
    """Yields the stamps and frames of a capture."""
    records, broken = read(capture.read_bytes())
    if broken:
        sys.exit(f"{capture} breaks off")
    for record in records:
        seconds, nanos = divmod(record.stamp, SECOND)
        yield f"{seconds}.{nanos:09}", record.frame


def made_of(arguments: list[str]) -> Iterator[tuple[str, bytes]]:
    """Yields the stamps and frames that are asked for."""
    for stamp, link, size in (argument.split(":") for argument in arguments):
        yield stamp, frame(int(link), int(size))


def main() -> None:
    parser = argparse.ArgumentParser(description=__doc__, formatter_class=argparse.RawDescriptionHelpFormatter)
    parser.add_argument("frames", nargs="+", metavar="SECONDS.FRACTION:LINK:SIZE", help="frames of virtual links; or one CAPTURE")
    frames = parser.parse_args().frames
    capture = Path(frames[0])
    for stamp, data in frames_of(capture) if capture.exists() else made_of(frames):
        print(f"{stamp}\n000000 {data.hex(' ')}")


if __name__ == "__main__":
    main()
