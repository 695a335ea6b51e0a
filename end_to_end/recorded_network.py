#!/usr/bin/env python3
"""Makes recordings of examples/aircraft as taps and mirrors make them, and keeps what is hidden in them.

FOLDER/raw        the recordings of one run of 600 ms, of networks A and B
FOLDER/truth/A    the captures of what the end systems sent on network A, FOLDER/truth/B on network B
FOLDER/sent/A     what the switches sent then, by the model of networks, and in FOLDER/sent/A.txt its report; so of network B

Link 401 babbles for 100 ms. Three frames in a row of link 100 get lost before network B, one frame of link 403 before network A.
"""
import argparse
import gzip
import lzma
import random
import subprocess
import tomllib
from dataclasses import replace
from pathlib import Path
from random import Random
from typing import Any

import captures
import model
import network_model
from model import Record

AIRCRAFT = Path(__file__).resolve().parents[1] / "examples" / "aircraft"
SWITCHES = ["cabin", "bay", "cockpit"]
NETWORKS = {"A": 0x20, "B": 0x40}
END_SYSTEMS = {("cabin", 1): 1, ("cabin", 2): 2, ("bay", 2): 12, ("bay", 3): 13, ("cockpit", 2): 22, ("cockpit", 3): 23}
BEGIN = 1_790_000_000 * model.SECOND
LENGTH = 600_000_000
BABBLE = range(200_000_000, 300_000_000, 560_000)
LOST = {"A": {(403, 7)}, "B": {(100, 41), (100, 42), (100, 43)}}
Send = tuple[int, int, int, bytes]  # instant, link, number, frame
GAP = 12  # bytes between frames, with which the stamps of what a switch sends end
OFFSET, DRIFT = 37_200_000, -20_000  # of the third recorder: ns, and what its time has to be changed by in parts of 10^9


def frame(link: int, end_system: int, size: int, number: int) -> bytes:
    return captures.frame(link, size - 1, end_system=end_system, network=0, fill=b"\x55") + bytes([number % 255 + 1])


def wanted(switch: str, port: int, table: dict[str, Any], chance: Random) -> list[Send]:
    """Draws what an end system would send, most times one frame in each gap."""
    sends: list[Send] = []
    for link in (link for link in table["link"] if link["from"] == port):
        gap, number = link["bag_ms"] * 1_000_000, 0
        for at in sorted({*range(chance.randrange(gap), LENGTH, gap), *(BABBLE if link["id"] == 401 else ())}):
            if chance.random() < 0.9:
                size = chance.randrange(64, link["max_size"] + 1)
                sends.append((at + chance.randrange(5000), link["id"], number, frame(link["id"], END_SYSTEMS[switch, port], size, number)))
                number += 1
    return sorted(sends)


def sent(sends: list[Send], network: str, tick: int, chance: Random) -> list[Record]:
    """Returns what comes of it on a network, one frame after the other on the line; stamped when it has wholly come."""
    records: list[Record] = []
    free, late = 0, 0 if network == "A" else 20_000 + chance.randrange(10_000)
    for at, link, number, data in sends:
        end = max(free, at + late) + (len(data) + model.CHECK_SEQUENCE + 8) * tick
        free = end + GAP * tick
        if (link, number) not in LOST[network]:
            records.append(Record(BEGIN + end, len(data), data[:11] + bytes([NETWORKS[network]]) + data[12:]))
    return records


def write(path: Path, text: bytes) -> None:
    path.parent.mkdir(parents=True, exist_ok=True)
    path.write_bytes(text)


def later(records: list[Record], by: int) -> list[Record]:
    return [replace(one, stamp=one.stamp + by) for one in records]


def in_order(*records: list[Record]) -> list[Record]:
    return sorted((one for some in records for one in some), key=lambda one: one.stamp)


def with_check_sequence(records: list[Record]) -> list[Record]:
    return [Record(one.stamp, one.original + 4, captures.checked(one.data)) for one in records]


def starts(records: list[Record], tick: int) -> list[Record]:
    """Returns the records, stamped when a frame begins."""
    return [replace(one, stamp=one.stamp - one.size * tick) for one in records]


def by_third_clock(records: list[Record]) -> list[Record]:
    """Returns the records as the third recorder stamps them: with a stamp from which the rules of the test lead back to the true one."""
    changed: list[Record] = []
    for one in records:
        first = records[0].stamp + OFFSET
        stamp = first + (one.stamp - records[0].stamp) * model.SECOND // (model.SECOND + DRIFT)
        while stamp - OFFSET + (stamp - first) * DRIFT // model.SECOND < one.stamp:
            stamp += 1
        changed.append(replace(one, stamp=stamp))
    return changed


def reordered(records: list[Record], chance: Random) -> list[Record]:
    """Moves a record here and there, but not the first one, so that it is written 40 records later than it came."""
    for index in range(1, len(records) - 40):
        if chance.random() < 0.03:
            records.insert(index + 40, records.pop(index))
    return records


def pcapng(interfaces: dict[str, list[Record]]) -> bytes:
    """Returns one recording of several lines, by their names."""
    rows = sorted((one.stamp, number, one.data) for number, records in enumerate(interfaces.values()) for one in records)
    records = [captures.Record(stamp, data, interface=number) for stamp, number, data in rows]
    return captures.pcapng(records, list(interfaces), options=captures.option("<", 1, b"run 1") + bytes(4))


def zstd(data: bytes) -> bytes:
    return subprocess.run(["zstd", "-qc"], input=data, stdout=subprocess.PIPE, check=True).stdout


def make_truth(folder: Path) -> None:
    """Writes the end systems' captures of both networks, and what the switches make of them."""
    chance = random.Random(1)
    for switch in SWITCHES:
        table = tomllib.loads((AIRCRAFT / f"{switch}.toml").read_text(encoding="utf-8"))
        for port in (port for port in table["port"] if (switch, port["id"]) in END_SYSTEMS):
            sends = wanted(switch, port["id"], table, chance)
            for network in NETWORKS:
                records = sent(sends, network, 8000 // port["mbit"], chance)
                write(folder / "truth" / network / switch / f"port-{port['id']}.pcap", model.capture_of(records))
    for network in NETWORKS:
        report = network_model.run_files(AIRCRAFT / "network.toml", folder / "truth" / network, folder / "sent" / network)
        write(folder / "sent" / f"{network}.txt", report.encode())


def make_recordings(folder: Path) -> None:
    chance = random.Random(2)

    def read(kind: str, network: str, switch: str, port: int) -> list[Record]:
        return model.records_of((folder / kind / network / switch / f"port-{port}.pcap").read_bytes(), port)

    came = {(network, switch, port): read("truth", network, switch, port)
            for network in NETWORKS for switch, port in END_SYSTEMS}

    def left(network: str, switch: str, port: int) -> list[Record]:
        return later(read("sent", network, switch, port), -GAP * 80)

    write(folder / "raw" / "tap.pcapng.gz", gzip.compress(pcapng({
        "cabin 1 in": came["A", "cabin", 1], "cabin 2 in": came["A", "cabin", 2], "cabin 3 out": left("A", "cabin", 3)}), mtime=0))
    cabin = in_order(starts(came["B", "cabin", 1], 800), starts(came["B", "cabin", 2], 80))
    half = len(cabin) // 2
    write(folder / "raw" / "cabin-b-1.pcap.xz", lzma.compress(model.capture_of(cabin[:half])))
    write(folder / "raw" / "cabin-b-2.pcap.xz", lzma.compress(model.capture_of(cabin[half:])))
    bay = in_order(*(records for network in NETWORKS for records in (
        came[network, "bay", 2], came[network, "bay", 3], later(left(network, "cabin", 3), 100), later(left(network, "cockpit", 1), 40))))
    write(folder / "raw" / "bay.pcap", model.capture_of(with_check_sequence(bay)))
    cockpit = in_order(*(records for network in NETWORKS for records in (
        came[network, "cockpit", 2], came[network, "cockpit", 3], left(network, "cockpit", 2))))
    write(folder / "raw" / "cockpit.pcap.zst", zstd(model.capture_of(reordered(by_third_clock(cockpit), chance))))


def main() -> None:
    parser = argparse.ArgumentParser(description=__doc__, formatter_class=argparse.RawDescriptionHelpFormatter)
    parser.add_argument("folder", type=Path, help="gets what is said above")
    folder = parser.parse_args().folder
    make_truth(folder)
    make_recordings(folder)


if __name__ == "__main__":
    main()
