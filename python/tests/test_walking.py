"""Finding records in lanes answers what going from one to the next does."""
import random

import pytest

from afdx.recordings.walking import LEAST_LANES, RECORD, guesses, in_lanes, of_one_length, one_by_one, records_of
from captures import words


def piece(order: str, seed: int, misleading: bool) -> bytes:
    """Returns a megabyte of records over some seconds; misleading frames hold what looks like headers of records."""
    chance, text, stamp = random.Random(seed), bytearray(), 1_768_471_200 * 10**9
    while len(text) < 2**20:
        stamp += chance.randrange(10**6)
        size = chance.choice([0, 60, 61, 300, 1514])
        header = words(stamp // 10**9, stamp % 10**9, size, size, order)
        frame = header * 100 if misleading and chance.random() < 0.5 else chance.randbytes(size)
        text += header + frame[:size].ljust(size)
    return bytes(text[:-7])


@pytest.mark.parametrize("order", "<>")
@pytest.mark.parametrize("misleading", [False, True])
def test_lanes(order: str, misleading: bool) -> None:
    for seed in range(5):
        data = piece(order, seed, misleading)
        places, after = records_of(data, order)
        assert (places.tolist(), after) == one_by_one(data, order, 0)
        in_a_lane, end = in_lanes(data, order)
        assert in_a_lane.tolist() == places.tolist()[:len(in_a_lane)]
        assert misleading or end > len(data) * 7 // 8


@pytest.mark.parametrize("order", "<>")
@pytest.mark.parametrize("count, other, cut, found", [
    (100, None, 0, 100), (100, None, 59, 100), (100, None, 61, 99), (100, None, 76 * 37, 0), (10, None, 0, 0),
    (100, 3, 0, 0), (100, 80, 0, 0), (100, 99, 0, 0)])
def test_records_of_one_length(order: str, count: int, other: int | None, cut: int, found: int) -> None:
    """Checks that such records are answered if they are many, and that one of another length is not among them; the
    last one may be cut."""
    sizes = [61 if number == other else 60 for number in range(count)]
    text = b"".join([words(7, 0, size, size, order).ljust(RECORD + size, b"\x07") for size in sizes])
    data = text[:len(text) - cut]
    places, after = of_one_length(data, order)
    assert (places.tolist(), after) == (one_by_one(data, order, 0) if found else ([], 0))
    assert len(places) == found
    assert (records_of(data, order)[0].tolist(), records_of(data, order)[1]) == one_by_one(data, order, 0)


@pytest.mark.parametrize("size", [0, 1, 15, 16, 17, 75, 76, 77])
def test_few_bytes(size: int) -> None:
    data = (words(7, 0, 60, 60) + bytes(61))[:size]
    assert (records_of(data, "<")[0].tolist(), records_of(data, "<")[1]) == one_by_one(data, "<", 0)


@pytest.mark.parametrize("order", "<>")
def test_lanes_of_very_many_records(order: str) -> None:
    """Takes long records, and then empty ones: so many in a lane that lanes are given up, and all are answered one by
    one."""
    second = 1_790_000_000
    long = words(second, 0, 1514, 1514, order).ljust(RECORD + 1514, b"\x07")
    other, empty = words(second // 2, 0, 0, 0, order), words(second, 0, 0, 0, order)
    data = long * 600 + other * 30_000 + (long + empty) * 600
    assert len(guesses(data, order)) >= LEAST_LANES and len(in_lanes(data, order)[0]) == 0
    places, after = records_of(data, order)
    assert (places.tolist(), after) == one_by_one(data, order, 0)
