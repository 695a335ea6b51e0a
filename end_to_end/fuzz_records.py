"""Writes captures in each of the four forms of pcap, and mutates their records.

A record is kept as the four words of its header and its bytes, so that a mutation can let them disagree.
"""
from collections.abc import Callable, Sequence
from dataclasses import dataclass, replace
from random import Random
from typing import Any

import fuzz_bytes
import model
from captures import MAGICS, header, words

WORD = 2**32 - 1
SECONDS = [0, 1, 2**31 - 1, 2**31, WORD - 2, WORD - 1, WORD]
FRACTIONS = [0, 1, 999_999, 1_000_000, 1_000_001, 999_999_999, 1_000_000_000, WORD]
CAPTURED = [0, 1, 59, 60, 1514, 1515, 262_143, 262_144, 262_145, 2**31, WORD]
LENGTHS = [0, 3, 4, 5, 6, 13, 14, *range(55, 62), *range(1513, 1520), 2000]  # without the check sequence
LINK_TYPES = [0, 1, 2, 101, 113, 147, 2**24 + 1, 2**28 + 1, WORD]
CONSTANTS = [bytes.fromhex(text) for text in ("03000000", "03000001", "ffffffff", "00000003", "07000000")]


@dataclass
class Row:
    """A record."""
    seconds: int
    fraction: int
    captured: int
    original: int
    data: bytes


@dataclass
class Capture:
    order: str
    unit: int  # ns of a fraction
    rows: list[Row]
    version: tuple[int, int] = (2, 4)
    others: tuple[int, int, int] = (0, 0, 262_144)  # zone, accuracy, snaplen
    link_type: int = 1

    def text(self) -> bytes:
        head = header(self.order, self.unit, self.link_type, self.version, self.others)
        return head + b"".join(words(row.seconds, row.fraction, row.captured, row.original, self.order) + row.data
                               for row in self.rows)


def capture_of(chance: Random, records: list[Any]) -> Capture:
    """Puts records into one of the four forms: as microseconds, their stamps are rounded down."""
    order, unit = chance.choice(list(MAGICS))
    rows = [Row(record.stamp // model.SECOND, record.stamp % model.SECOND // unit, len(record.data), record.original,
                record.data) for record in records]
    capture = Capture(order, unit, rows)
    if chance.random() < 0.2:
        snaplen = chance.choice([0, 60, 65_535, 262_144, WORD])
        capture.others = (chance.randint(0, WORD), chance.randint(0, WORD), snaplen)
    return capture


# --- Mutations. Each has a capture with a record, and the table under which it is run. ---


def stamp_beside(chance: Random, capture: Capture, table: Any) -> None:
    """Puts a record a little before the one before it, at the same instant, or a little behind."""
    if len(capture.rows) > 1:
        at = chance.randrange(1, len(capture.rows))
        before, row = capture.rows[at - 1:at + 1]
        each = model.SECOND // capture.unit
        ticks = before.seconds * each + before.fraction + chance.choice([-1, -1, 0, 0, 1])
        row.seconds, row.fraction = ticks // each & WORD, ticks % each


def stamp_at_an_edge(chance: Random, capture: Capture, table: Any) -> None:
    row = chance.choice(capture.rows[-1:] * 3 + capture.rows)
    if chance.random() < 0.6:
        row.seconds = chance.choice(SECONDS)
    if chance.random() < 0.6:
        row.fraction = chance.choice(FRACTIONS)


def captured_at_an_edge(chance: Random, capture: Capture, table: Any) -> None:
    row = chance.choice(capture.rows)
    row.captured = chance.choice([*CAPTURED, row.captured - 1, row.captured + 1]) & WORD


def longest_record(chance: Random, capture: Capture, table: Any) -> None:
    """Makes a record as long as one may be, or a byte longer; not often, since it takes time."""
    if chance.random() < 0.2:
        row = chance.choice(capture.rows)
        row.captured = row.original = chance.choice([262_143, 262_144, 262_145])
        row.data = row.data[:14].ljust(row.captured, b"x")


def original_at_an_edge(chance: Random, capture: Capture, table: Any) -> None:
    row = chance.choice(capture.rows)
    row.original = chance.choice([0, row.captured - 1, row.captured, row.captured + 1, row.captured + 4, WORD]) & WORD


def other_length(chance: Random, capture: Capture, table: Any) -> None:
    """Makes a frame about as long as the least, the greatest or the greatest of a link."""
    row = chance.choice(capture.rows)
    of_links = [link.max_size - model.CHECK_SEQUENCE + more for link in table.links[:3] for more in (-1, 0, 1)]
    length = chance.choice(LENGTHS + of_links)
    row.data = row.data[:length].ljust(length, b"\0")
    row.captured, row.original = length, min(max(row.original - row.captured, 0) + length, WORD)


def other_address(chance: Random, capture: Capture, table: Any) -> None:
    """Gives a frame another link's number or that of no link, and perhaps another constant."""
    row = chance.choice(capture.rows)
    numbers = [*(link.id for link in table.links), 0, 65_535, chance.randint(0, 65_535)]
    constant = chance.choice([row.data[:4], row.data[:4], *CONSTANTS])
    row.data = (constant + chance.choice(numbers).to_bytes(2, "big") + row.data[6:])[:len(row.data)]


def again(chance: Random, capture: Capture, table: Any) -> None:
    """Writes a record again, once or often, behind itself or elsewhere."""
    at = chance.randrange(len(capture.rows))
    copies = [replace(capture.rows[at]) for _ in range(chance.choice([1, 1, 2, 20]))]
    place = at if chance.random() < 0.7 else chance.randint(0, len(capture.rows))
    capture.rows[place:place] = copies


def gone(chance: Random, capture: Capture, table: Any) -> None:
    capture.rows.pop(chance.randrange(len(capture.rows)))


def exchanged(chance: Random, capture: Capture, table: Any) -> None:
    """Exchanges two records; each keeps its stamp, or has that of the other."""
    at, place = (chance.randrange(len(capture.rows)) for _ in range(2))
    one, other = capture.rows[at], capture.rows[place]
    if chance.random() < 0.5:
        one.seconds, other.seconds = other.seconds, one.seconds
        one.fraction, other.fraction = other.fraction, one.fraction
    capture.rows[at], capture.rows[place] = other, one


def other_header(chance: Random, capture: Capture, table: Any) -> None:
    if chance.random() < 0.5:
        capture.link_type = chance.choice(LINK_TYPES)
    else:
        capture.version = (chance.choice([0, 1, 2, 3, 2**16 - 1]), chance.choice([0, 2, 3, 4, 5, 1024]))


def other_form(chance: Random, capture: Capture, table: Any) -> None:
    """Writes the same words under another magic: micro- for nanoseconds, or the other order."""
    capture.order, capture.unit = chance.choice(list(MAGICS))


Mutation = Callable[[Random, Capture, Any], None]
OF_RECORDS: Sequence[Mutation] = (
    stamp_beside, stamp_beside, stamp_at_an_edge, stamp_at_an_edge, captured_at_an_edge, longest_record,
    original_at_an_edge, other_length, other_length, other_address, other_address, again, again, gone, exchanged)
OF_THE_HEADER: Sequence[Mutation] = (other_header, other_form)


def mutate(chance: Random, capture: Capture, table: Any) -> None:
    """Mutates a capture up to three times, mostly in its records."""
    for _ in range(chance.choice([1, 1, 2, 3])):
        if chance.random() < 0.08:
            chance.choice(OF_THE_HEADER)(chance, capture, table)
        elif capture.rows:
            chance.choice(OF_RECORDS)(chance, capture, table)


def text_of(chance: Random, capture: Capture) -> bytes:
    """Writes a capture, and perhaps mutates its bytes."""
    data = capture.text()
    return fuzz_bytes.mutated(chance, data) if chance.random() < 0.06 else data
