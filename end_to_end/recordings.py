#!/usr/bin/env python3
"""Makes what the recipes of docs/use/CAPTURES.md start from.

Without arguments it prints the names of all; of a NAME it makes FOLDER/table.toml, and recordings under FOLDER/raw. A name is a
heading of the page, small, with _ for all but letters and digits.
"""
import argparse
import random
import shutil
from collections.abc import Callable
from pathlib import Path

import captures
import model

NETWORK = Path(__file__).resolve().parents[1] / "examples" / "network"
PORTS = [1, 2, 3, 4]
BEGIN = 1_768_471_200 * model.SECOND
TICK = 80  # ns of a byte at 100 Mbit/s


def network_records(port: int) -> list[model.Record]:
    return model.records_of((NETWORK / "in" / f"port-{port}.pcap").read_bytes(), port)


def record(stamp: int, data: bytes) -> model.Record:
    """Returns a record of a whole frame."""
    return model.Record(stamp, len(data), data)


def frame(link: int, size: int) -> bytes:
    return captures.frame(link, size, end_system=1, network=0x20)


def numbered(number: int) -> bytes:
    """Makes a frame of link 10 that has a number at its end."""
    return frame(10, 1000)[:-4] + number.to_bytes(4, "big")


def write(path: Path, records: list[model.Record]) -> None:
    """Writes a little-endian nanosecond capture that keeps the original lengths, as editcap writes it."""
    text = captures.HEADER + b"".join(captures.record(one.stamp, one.data, one.original) for one in records)
    path.parent.mkdir(parents=True, exist_ok=True)
    path.write_bytes(text)


def write_table(path: Path, ports: list[int], links: list[tuple[int, int, int, int, int]]) -> None:
    """Writes a table of ports at 100 Mbit/s and of links as (number, from, to, jitter in us, largest size), of BAG 1 ms."""
    rows = [f"[[port]]\nid = {port}\nmbit = 100\nbuffer = 100000\nmax_delay_us = 500000\n\n" for port in ports]
    rows += [f"[[link]]\nid = {link}\nfrom = {source}\nto = [{to}]\nbag_ms = 1\njitter_us = {jitter}\n"
             f"max_size = {size}\npriority = \"low\"\n\n" for link, source, to, jitter, size in links]
    path.parent.mkdir(parents=True, exist_ok=True)
    path.write_text("".join(rows), encoding="utf-8")


def network_with_clocks_apart(folder: Path) -> None:
    """Writes the example network; port 2 has a recorder of its own, whose clock is ahead."""
    shutil.copy(NETWORK / "table.toml", folder)
    for port in PORTS:
        ahead = 1_500_000 if port == 2 else 0
        write(folder / "raw" / f"port-{port}.pcap",
              [model.Record(one.stamp + ahead, one.original, one.data) for one in network_records(port)])
    mark = frame(100, 200)
    write(folder / "raw" / "mark-1.pcap", [record(BEGIN - 60 * model.SECOND, mark)])
    write(folder / "raw" / "mark-2.pcap", [record(BEGIN - 60 * model.SECOND + 1_500_000, mark)])


def one_link(jitter: int, stamps: list[int]) -> Callable[[Path], None]:
    """Returns a function that writes link 10 alone, of 1000 bytes and BAG 1 ms, at these instants."""

    def make(folder: Path) -> None:
        write_table(folder / "table.toml", [1, 2], [(10, 1, 2, jitter, 1000)])
        write(folder / "raw" / "port-1.pcap", [record(BEGIN + stamp, numbered(number)) for number, stamp in enumerate(stamps)])
        write(folder / "raw" / "port-2.pcap", [])

    return make


def noisy_stamps() -> list[int]:
    chance = random.Random(1)
    return [number * 1_000_000 + int(chance.random() * 17) for number in range(1000)]


def stamps_of_starts(folder: Path) -> None:
    write_table(folder / "table.toml", [1, 2], [(10, 1, 2, 0, 64), (11, 1, 2, 0, 1518)])
    records: list[model.Record] = []
    at = BEGIN
    for link, size in [(10, 64), (11, 1518), (10, 64), (11, 1518)]:
        records.append(record(at, frame(link, size)))
        at += (size + model.LINE_OVERHEAD) * TICK
    write(folder / "raw" / "port-1.pcap", records)
    write(folder / "raw" / "port-2.pcap", [])


def what_left(folder: Path) -> None:
    """Writes link 10 through a switch that takes 8 to 12 us for a frame. The recorder at the output is ahead, and was ended 0.1 s sooner;
    0.5 s after the first frame it lost one."""
    write_table(folder / "table.toml", [1, 2], [(10, 1, 2, 20, 1000)])
    table = (folder / "table.toml").read_text(encoding="utf-8")
    (folder / "table.toml").write_text("version = 3\nlatency_us = 16\n\n" + table, encoding="utf-8")
    chance = random.Random(1)
    line_time = (1000 + model.LINE_OVERHEAD - 12) * TICK  # up to the end of the last bit
    came = [record(BEGIN + number * 1_000_000, numbered(number)) for number in range(1000)]
    left = [record(one.stamp + chance.randrange(8_000, 12_000) + line_time + 1_500_000, one.data) for one in came[:900]]
    seen: dict[str, list[model.Record]] = {"in/port-1": came, "in/port-2": [], "left/port-1": [], "left/port-2": left[:500] + left[501:]}
    for name, records in seen.items():
        write(folder / f"{name}.pcap", records)
    mark = frame(10, 200)
    write(folder / "raw" / "mark-in.pcap", [record(BEGIN - 60 * model.SECOND, mark)])
    write(folder / "raw" / "mark-left.pcap", [record(BEGIN - 60 * model.SECOND + 1_500_000, mark)])


RECORDINGS: dict[str, Callable[[Path], None]] = {
    "clocks_that_are_apart": network_with_clocks_apart,
    "a_clock_that_drifts": one_link(20, [number * 999_950 for number in range(1000)]),
    "noise_on_the_stamps": one_link(0, noisy_stamps()),
    "stamps_of_the_frame_s_start": stamps_of_starts,
    "what_left_a_switch": what_left,
}


def main() -> None:
    parser = argparse.ArgumentParser(description=__doc__, formatter_class=argparse.RawDescriptionHelpFormatter)
    parser.add_argument("name", nargs="?", choices=RECORDINGS)
    parser.add_argument("folder", nargs="?", type=Path, help="the folder in which it is made, which is there")
    given = parser.parse_args()
    if given.name is None:
        print("\n".join(RECORDINGS))
    elif given.folder is None:
        parser.error("a folder is missing")
    else:
        (given.folder / "raw").mkdir(exist_ok=True)
        RECORDINGS[given.name](given.folder)


if __name__ == "__main__":
    main()
