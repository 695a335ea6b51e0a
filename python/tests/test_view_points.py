"""What is kept of many points, against plain models over random ones."""
import numpy
from hypothesis import given
from hypothesis import strategies as some

from afdx.view.greatest import Cover, Greatest
from afdx.view.spells import SHOWN, Babbling, Spell, Spells
from afdx.view.strips import strip

Points = list[tuple[int, int, int]]  # group, instant and value
SPAN = 1000


def add(greatest: Greatest, points: Points) -> None:
    columns = numpy.array(points, numpy.int64)
    greatest.add(columns[:, 0], columns[:, 1], columns[:, 2].astype(numpy.float64))


@given(some.lists(some.tuples(some.integers(0, 2), some.integers(0, SPAN), some.integers(0, 5))),
       some.integers(1, 9), some.integers(1, 40))
def test_the_greatest_of_each_part_is_kept(points: Points, parts: int, piece: int) -> None:
    """Checks that the greatest is kept however the points are cut into pieces, and of equal values the first."""
    greatest = Greatest(3, parts, SPAN)
    for begin in range(0, len(points), piece):
        add(greatest, points[begin:begin + piece])
    for group in range(3):
        best: dict[int, tuple[int, int]] = {}
        for own, instant, value in points:
            part = instant * parts // (SPAN + 1)
            if own == group and value > best.get(part, (0, -1))[1]:
                best[part] = (instant, value)
        instants, values = greatest.points(group)
        assert list(zip(instants.tolist(), values.tolist())) == [best[part] for part in sorted(best)]


def test_the_last_instant_of_the_longest_time() -> None:
    """Checks that the instant is in the last part, though the time in ns is more than a float can count."""
    longest = 4_294_967_294_999_999_999
    greatest, cover = Greatest(1, 240, longest), Cover(240, longest)
    last = numpy.array([longest], numpy.int64)
    greatest.add(numpy.array([0]), last, numpy.array([1.0]))
    cover.add(last, last)
    assert greatest.points(0)[0].tolist() == [longest]
    assert cover.ranges() == [(longest * 239 / 240, float(longest))]


@given(some.lists(some.tuples(some.integers(0, 99), some.integers(0, 99))))
def test_what_stretches_cover(pairs: list[tuple[int, int]]) -> None:
    stretches = [(min(pair), max(pair)) for pair in pairs]
    cover = Cover(10, 99)
    for begin, end in stretches:
        cover.add(numpy.array([begin]), numpy.array([end]))
    touched = {part for begin, end in stretches for part in range(begin // 10, end // 10 + 1)}
    runs = [(round(begin * 10 / 99), round(end * 10 / 99)) for begin, end in cover.ranges()]
    assert {part for begin, end in runs for part in range(begin, end)} == touched
    assert all(end < begin for (_, end), (begin, _) in zip(runs, runs[1:]))


def spells_by_hand(instants: list[int], gap: int) -> list[Spell]:
    """Begins a spell at each frame after which none was policed for more than a gap."""
    spells: list[Spell] = []
    for instant in instants:
        if spells and instant - spells[-1].end <= gap:
            spells[-1].end = instant
            spells[-1].frames += 1
        else:
            spells.append(Spell(instant, instant, 1))
    return spells


@given(some.lists(some.integers(0, 30)), some.integers(1, 20), some.integers(1, 12))
def test_spells_of_a_link(steps: list[int], gap: int, piece: int) -> None:
    instants = numpy.cumsum(numpy.array(steps, numpy.int64)).tolist()
    babbling = Babbling(gap)
    for begin in range(0, len(instants), piece):
        own = numpy.array(instants[begin:begin + piece], numpy.int64)
        babbling.add(own, own.astype(numpy.float64))
    spells = spells_by_hand(instants, gap)
    assert babbling.spells == spells[:SHOWN]
    assert babbling.count == len(spells)
    assert babbling.frames == len(instants)
    if instants:
        assert (babbling.begin, babbling.end) == (instants[0], instants[-1])
        assert (babbling.least, babbling.greatest) == (instants[0], instants[-1])


def test_a_spell_ends_after_one_gap_of_its_own_link() -> None:
    """Checks two links that are policed at the same instants, 8 ms apart and then 9: the one with a gap of 8 ms in two
    spells, the one with 16 ms in one."""
    millis = numpy.array([0, 0, 8, 8, 17, 17], numpy.int64) * 1_000_000
    spells = Spells({10: 8_000_000, 11: 16_000_000}, [], Cover(10, 17_000_000))
    spells.add(numpy.array([10, 11] * 3), millis, numpy.ones(6))
    assert spells.by_link[10].spells == [Spell(0, 8_000_000, 2), Spell(17_000_000, 17_000_000, 1)]
    assert spells.by_link[11].spells == [Spell(0, 17_000_000, 3)]


def test_the_cover_is_of_spells_and_not_of_the_time_between_them() -> None:
    cover = Cover(10, 99)
    spells = Spells({1: 10}, [1], cover)
    for instants in ([0, 9, 15], [22, 70]):
        own = numpy.array(instants, numpy.int64)
        spells.add(numpy.ones(len(own), numpy.int64), own, numpy.ones(len(own)))
    assert [(round(begin), round(end)) for begin, end in cover.ranges()] == [(0, 30), (69, 79)]


def test_a_strip_by_hand() -> None:
    """Compares with a strip by hand: a value of a quarter of the scale is at 75 of 100 from the top; ticks at one
    column are one."""
    drawn = strip(numpy.array([0, 500]), numpy.array([25.0, 100.0]), 100, 1000, numpy.array([250, 250, 1000]))
    assert drawn.points == "M0 75h0M500 0h0"
    assert drawn.ticks == "M250 104v10M1000 104v10"
    assert strip(numpy.array([0]), numpy.array([0.0]), 1, 1).ticks == ""
