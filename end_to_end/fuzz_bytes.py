"""Mutates bytes, as a damaged disk, a broken transfer or a careless hand does."""
from collections.abc import Callable, Sequence
from random import Random

Mutation = Callable[[Random, bytes], bytes]


def place(chance: Random, data: bytes) -> int:
    """Draws a place: also the end, and often one near the start, where headers are."""
    return chance.randint(0, len(data) if chance.random() < 0.7 else min(len(data), 64))


def flip(chance: Random, data: bytes) -> bytes:
    """Turns a bit."""
    if not data:
        return data
    at = chance.randrange(len(data))
    return data[:at] + bytes([data[at] ^ 1 << chance.randrange(8)]) + data[at + 1:]


def overwrite(chance: Random, data: bytes) -> bytes:
    """Puts other bytes in the place of a few."""
    at, length = place(chance, data), chance.randint(1, 8)
    new = chance.choice([bytes(length), b"\xff" * length, chance.randbytes(length)])
    return (data[:at] + new + data[at + length:])[:len(data)]


def insert(chance: Random, data: bytes) -> bytes:
    at = place(chance, data)
    return data[:at] + chance.randbytes(chance.randint(1, 20)) + data[at:]


def remove(chance: Random, data: bytes) -> bytes:
    at = place(chance, data)
    return data[:at] + data[at + chance.randint(1, 20):]


def cut(chance: Random, data: bytes) -> bytes:
    """Ends the file at any byte."""
    return data[:place(chance, data)]


def repeat(chance: Random, data: bytes) -> bytes:
    """Writes a part twice."""
    at, end = sorted((place(chance, data), place(chance, data)))
    return data[:end] + data[at:]


def exchange(chance: Random, data: bytes) -> bytes:
    """Puts a part behind the one that follows it."""
    at, middle, end = sorted(place(chance, data) for _ in range(3))
    return data[:at] + data[middle:end] + data[at:middle] + data[end:]


MUTATIONS: Sequence[Mutation] = (flip, flip, overwrite, insert, remove, cut, cut, repeat, exchange)


def mutated(chance: Random, data: bytes, mutations: Sequence[Mutation] = MUTATIONS) -> bytes:
    """Mutates bytes once, twice or three times."""
    for _ in range(chance.choice([1, 1, 1, 2, 3])):
        data = chance.choice(mutations)(chance, data)
    return data
