"""Steps and recordings that differ, against pandas and numbers worked out by hand."""
import numpy
import pandas
from hypothesis import given
from hypothesis import strategies as st

from afdx.campaign.changes import far_out, ranks, step_of


@given(st.lists(st.integers(0, 20), min_size=1))
def test_ranks(values: list[int]) -> None:
    assert ranks(numpy.array(values, dtype=float)).tolist() == pandas.Series(values).rank().tolist()


@given(st.lists(st.integers(0, 20), min_size=2, max_size=40))
def test_the_step_has_the_greatest_sum_of_signs(values: list[int]) -> None:
    """Compares with Pettitt's statistic by its definition: of all pairs across a place, how many rise less how many
    fall."""
    def signs(place: int) -> int:
        return abs(sum((left < right) - (left > right) for left in values[:place] for right in values[place:]))

    place, chance = step_of(numpy.array(values, dtype=float))
    assert signs(place) == max(signs(other) for other in range(1, len(values)))
    assert 0 <= chance <= 1


def test_a_step_worked_out_by_hand() -> None:
    # 10 of 1 and then 10 of 2: all 100 pairs rise; 2 exp(-6 100^2 / (20^3 + 20^2)) = 2 exp(-7.142857)
    place, chance = step_of(numpy.array([1.0] * 10 + [2.0] * 10))
    assert place == 10
    assert abs(chance - 2 * 0.000790) < 1e-5


def test_far_out_is_beyond_three_spans_of_the_middle_half() -> None:
    values = [10.0, 11, 12, 13, 14, 15, 16, 17, 18, 31, 32]  # quartiles 12.5 and 17.5, edges -2.5 and 32.5
    names = tuple(f"r{number}" for number in range(len(values)))
    assert far_out("t", "w", names, numpy.array(values)) == []
    assert far_out("t", "w", names, numpy.array([*values[:-1], 33.0])) == [("t", "r10", "w", 33.0, -2.5, 32.5)]
