"""Copies pieces of bytes, each to its place, by few calls for many of them."""
import numpy as np

from afdx.recordings.columns import Column, at_any

RUN = 4  # pieces in a row, on average, from which on runs of neighbours are copied one by one
FEW = 16  # lengths of which each is copied by itself
BLOCK = 128 * 1024  # bytes that are copied at once: they stay in the processor's second cache


def places_of(length: Column) -> Column:
    """Returns where pieces of these lengths begin that follow one another, and where the last one ends."""
    at = np.zeros(len(length) + 1, np.int64)
    np.cumsum(length, out=at[1:])
    return at


def permuted(column: Column, to: Column) -> Column:
    """Returns a column whose values have come to these places, each of which is one's."""
    found = np.empty_like(column)
    found[to] = column
    return found


def copied(data: bytes | memoryview, begin: Column, length: Column, to: Column) -> memoryview:
    """Returns pieces of data, none of them empty, in memory of their own, each at its place there; they leave no gaps.

    They are copied in the order in which they are named: at best that in which they lie in data, since the processor
    fetches ahead what lies next, and waits for what does not.
    """
    text = np.empty(int(length.sum()), np.uint8).data
    apart = to[1:] - to[:-1] != length[:-1]
    if np.count_nonzero(apart) * RUN < len(to):
        apart |= begin[1:] - begin[:-1] != length[:-1]
    runs = np.flatnonzero(apart) + 1
    if len(runs) * RUN < len(to):
        copy_runs(data, text, begin, length, to, runs)
    else:
        copy_all(data, text, begin, length, to)
    return text


def copy_runs(data: bytes | memoryview, text: memoryview, begin: Column, length: Column, to: Column,
              runs: Column) -> None:
    """Copies pieces of which many are neighbours in both places; runs of them begin at the first one and at these."""
    first, last = np.append(0, runs), np.append(runs, len(to)) - 1
    end = begin[last] + length[last]
    source = memoryview(data)
    for begins, ends, at in zip(begin[first].tolist(), end.tolist(), to[first].tolist()):
        text[at:at + ends - begins] = source[begins:ends]


def copy_all(data: bytes | memoryview, text: memoryview, begin: Column, length: Column, to: Column) -> None:
    """Copies pieces that are apart, those of about one length by the same calls."""
    ranges = ranges_of(length)
    for shortest, longest in ranges:
        size = longest if shortest == longest else (longest + 1) // 2
        if len(ranges) == 1:
            copy_alike(data, text, begin, length, to, size)
        else:
            some = np.flatnonzero((length >= shortest) & (length <= longest))
            copy_alike(data, text, begin.take(some), length.take(some), to.take(some), size)


def ranges_of(length: Column) -> list[tuple[int, int]]:
    """Returns ranges that hold all of these lengths: of single ones if they are few, otherwise none to more than twice
    the length at which it begins."""
    lengths = np.flatnonzero(np.bincount(length))
    ranges, is_few = [], len(lengths) <= FEW
    while len(lengths):
        count = 1 if is_few else int(np.searchsorted(lengths, 2 * lengths[0], "right"))
        ranges.append((int(lengths[0]), int(lengths[count - 1])))
        lengths = lengths[count:]
    return ranges


def copy_alike(data: bytes | memoryview, text: memoryview, begin: Column, length: Column, to: Column,
               size: int) -> None:
    """Copies pieces of this size, or up to twice as long: then so many of their first bytes, and as many of their last
    ones. What is among both is copied twice."""
    source, target = at_any(data, f"V{size}"), at_any(text, f"V{size}")
    is_longer = bool((length != size).any())
    step = BLOCK // size + 1
    for first in range(0, len(begin), step):
        some = slice(first, first + step)
        target[to[some]] = source[begin[some]]
        if is_longer:
            rest = length[some] - size
            target[to[some] + rest] = source[begin[some] + rest]
