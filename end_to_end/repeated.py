#!/usr/bin/env python3
"""Repeats captures, each time so many seconds later, as they are written into pipes or compared, and what is told of them.

The stamps of the capture's records lie within SECONDS.
"""
import argparse
import sys
from collections.abc import Iterator
from pathlib import Path
from typing import Any

import numpy

from captures import HEADER, SECOND, form_of, rows_of

AT_ONCE = 64  # times in one part


def second_places(text: bytes, order: str) -> Any:
    """Returns the places of the records' seconds, which are at their starts, counted from the end of the capture's header."""
    places: list[int] = []
    at = 0
    for _, _, captured, _, _ in rows_of(text, order):
        places.append(at)
        at += 16 + captured
    return numpy.array(places, dtype=numpy.int64)


def parts(capture: Path, times: int, period: int) -> Iterator[bytes]:
    """Yields the text of the repeated capture, in parts."""
    text = capture.read_bytes()
    yield text[:len(HEADER)]
    order, _ = form_of(text)
    records = numpy.frombuffer(text[len(HEADER):], dtype=numpy.uint8)
    places = second_places(text, order)[:, None] + numpy.arange(4)
    seconds = records[places].view(f"{order}u4")[:, 0].astype(f"{order}u4")
    for start in range(0, times, AT_ONCE):
        turns = range(start, min(start + AT_ONCE, times))
        texts = numpy.tile(records, (len(turns), 1))
        for row, turn in zip(texts, turns):
            row[places] = (seconds + turn * period).astype(f"{order}u4").view(numpy.uint8).reshape(-1, 4)
        yield texts.tobytes()


def write(capture: Path, times: int, period: int, pipe: Path) -> None:
    with open(pipe, "wb") as file:
        for part in parts(capture, times, period):
            file.write(part)


def check(capture: Path, times: int, period: int, name: Path) -> None:
    place = 0
    with open(name, "rb") as file:
        for part in parts(capture, times, period):
            if file.read(len(part)) != part:
                sys.exit(f"{name} differs after byte {place}")
            place += len(part)
        if file.read(1):
            sys.exit(f"{name} is longer than {place} bytes")


def told(line: str, times: int, period: int) -> list[str]:
    """Returns what a line of `afdx survey` that is told of one time is of all of them: counts add up, and spells come again."""
    words = line.split(" ")
    if "early" in words:  # link V policed N from T to T early E to E
        begin, end = int(words[5]), int(words[7])
        later = [turn * period * SECOND for turn in range(times)]
        return [" ".join([*words[:5], str(begin + more), "to", str(end + more), *words[8:]]) for more in later]
    if words[0] == "span":  # span from T to T frames N
        return [" ".join([*words[:4], str(int(words[4]) + (times - 1) * period * SECOND), "frames", str(int(words[6]) * times)])]
    if "occupied" in words:
        return [line]
    counts = slice(4 if words[2] == "out" else 3, words.index("least") if "least" in words else len(words))
    words[counts] = [str(int(word) * times) if word.isdigit() else word for word in words[counts]]
    return [" ".join(words)]


def tell(lines: Path, times: int, period: int, name: Path) -> None:
    with open(name, "w", encoding="ascii") as file:
        for line in lines.read_text(encoding="ascii").splitlines():
            file.writelines(f"{one}\n" for one in told(line, times, period))


def main() -> None:
    parser = argparse.ArgumentParser(description=__doc__, formatter_class=argparse.RawDescriptionHelpFormatter)
    commands = {"write": write, "check": check, "tell": tell}
    parser.add_argument("command", choices=commands, help="into the file, or whether the file is that, to the byte, or what is told of it")
    parser.add_argument("times", type=int)
    parser.add_argument("seconds", type=int, help="by which each time is later than the one before it")
    parser.add_argument("capture", type=Path, help="or the lines of a survey that are told of it")
    parser.add_argument("file", type=Path)
    given = parser.parse_args()
    commands[given.command](given.capture, given.times, given.seconds, given.file)


if __name__ == "__main__":
    main()
