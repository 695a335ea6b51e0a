"""Pieces of bytes come to their places as a plain loop puts them, whatever way is taken for them."""
import random

import numpy as np
import pytest

from afdx.importing.chunks import arranged
from afdx.importing.copying import copied, permuted, places_of, ranges_of

DATA = random.Random(7).randbytes(100_000)
SIZES = [[76], [76, 80], [60, 61, 300, 1514], list(range(16, 400)), [16, 31, 32, 33, 4000], list(range(1, 40))]


@pytest.mark.parametrize("count", [1, 2, 63, 64, 65, 3000])
@pytest.mark.parametrize("sizes", SIZES)
@pytest.mark.parametrize("neighbours", [0.0, 0.5, 0.9, 1.0])
@pytest.mark.parametrize("shuffled", [False, True])
@pytest.mark.parametrize("of_a_view", [False, True])
def test_copied(count: int, sizes: list[int], neighbours: float, shuffled: bool, of_a_view: bool) -> None:
    chance = random.Random(count)
    begin, length, after = [], [], 0
    for _ in range(count):
        size = chance.choice(sizes)
        is_next = chance.random() < neighbours and after + size <= len(DATA)
        begin.append(after if is_next else chance.randrange(len(DATA) - size + 1))
        length.append(size)
        after = begin[-1] + size
    order = chance.sample(range(count), count) if shuffled else list(range(count))
    sizes_there = np.array(length)
    to = permuted(places_of(sizes_there[order])[:-1], np.array(order))
    found = copied(memoryview(DATA) if of_a_view else DATA, np.array(begin), sizes_there, to)
    assert found == b"".join([DATA[begin[one]:begin[one] + length[one]] for one in order])
    assert not found.readonly


def test_arranged() -> None:
    """Compares with what was arranged by hand: three records, the last one first."""
    text, at = arranged(b"aabbbc", np.array([2, 3, 1]), np.array([2, 0, 1]))
    assert (bytes(text), at.tolist()) == (b"caabbb", [0, 1, 3, 6])


@pytest.mark.parametrize("lengths, ranges", [
    ([76, 76, 60], [(60, 60), (76, 76)]), (list(range(16, 31)) * 2, [(size, size) for size in range(16, 31)]),
    (range(16, 100), [(16, 32), (33, 66), (67, 99)]), ([*range(20, 40), 100], [(20, 39), (100, 100)])])
def test_ranges(lengths: list[int], ranges: list[tuple[int, int]]) -> None:
    """Checks that few lengths are taken one by one, and that of many none in a range is more than twice another."""
    assert ranges_of(np.array(lengths)) == ranges
