#!/usr/bin/env python3
"""Plants a fault in what left a switch, as a faulty switch would have made it: in a folder of captures, at the record of a number.

lost: it is not there. doubled: it is there twice. swapped: its bytes and those of the next record of its link. late: it left
later by some ns. turned: its last byte is another one. through: a frame of the input, by its port and number, is there, 50 us
after it came.
"""
import argparse
import dataclasses
from pathlib import Path

import model


def arguments() -> argparse.Namespace:
    parser = argparse.ArgumentParser(description="Plants a fault in what left a switch")
    parser.add_argument("kind", choices=["lost", "doubled", "swapped", "late", "turned", "through"])
    parser.add_argument("folder", type=Path, help="the captures that left")
    parser.add_argument("port", type=int)
    parser.add_argument("number", type=int, help="of the record, from 1 on; of that of the input for through")
    parser.add_argument("--by", type=int, default=1_000_000, help="ns by which it is late")
    parser.add_argument("--input", type=Path, help="the capture from which a frame is let through")
    return parser.parse_args()


def later(record: model.Record, by: int) -> model.Record:
    return dataclasses.replace(record, stamp=record.stamp + by)


def swapped(records: list[model.Record], place: int) -> list[model.Record]:
    """Returns the records with two of a link in each other's places, at the instants of these."""
    first = records[place]
    other = next(after for after in range(place + 1, len(records)) if records[after].data[:6] == first.data[:6])
    changed = list(records)
    changed[place] = dataclasses.replace(records[other], stamp=first.stamp)
    changed[other] = dataclasses.replace(first, stamp=records[other].stamp)
    return changed


def planted(kind: str, records: list[model.Record], place: int, by: int, came: list[model.Record]) -> list[model.Record]:
    """Returns the records with the fault, by rising stamp."""
    if kind == "lost":
        return records[:place] + records[place + 1:]
    if kind == "doubled":
        return sorted(records + [later(records[place], 1)], key=lambda record: record.stamp)
    if kind == "swapped":
        return swapped(records, place)
    if kind == "late":
        others = records[:place] + records[place + 1:]
        return sorted(others + [later(records[place], by)], key=lambda record: record.stamp)
    if kind == "turned":
        data = records[place].data
        turned = dataclasses.replace(records[place], data=data[:-1] + bytes([data[-1] ^ 1]))
        return records[:place] + [turned] + records[place + 1:]
    return sorted(records + [later(came[place], 50_000)], key=lambda record: record.stamp)


def main() -> None:
    options = arguments()
    path = options.folder / f"port-{options.port}.pcap"
    records = model.records_of(path.read_bytes(), options.port)
    came = model.records_of(options.input.read_bytes(), options.port) if options.input else []
    path.write_bytes(model.capture_of(planted(options.kind, records, options.number - 1, options.by, came)))


if __name__ == "__main__":
    main()
