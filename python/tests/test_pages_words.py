"""Numbers and instants as the page writes them."""
import pytest

from afdx.pages import words


@pytest.mark.parametrize("ns, text", [
    (0, "1970-01-01 00:00:00.000000000"),
    (1_768_471_200_159_369_600, "2026-01-15 10:00:00.159369600"),
    (4_294_967_295_999_999_999, "2106-02-07 06:28:15.999999999"),  # the last stamp of a capture
])
def test_utc_keeps_each_nanosecond(ns: int, text: str) -> None:
    assert words.utc(ns) == text


def test_times() -> None:
    assert words.since(80_611_057) == "80.611 ms"
    assert words.since(500_000_000_000) == "500,000.000 ms"
    assert words.lasting(9_999_400) == "9.999 ms"
    assert words.lasting(99_162_400) == "99 ms"


def test_parts() -> None:
    assert [words.percent(part, 100_000) for part in (0, 49, 50, 9_949, 10_000, 100_000, 250_000)] == [
        "0 %", "below 0.1 %", "0.1 %", "9.9 %", "10 %", "100 %", "250 %"]


@pytest.mark.parametrize("part, whole, text", [
    (994, 1000, "99 %"), (995, 1000, "99.5 %"), (996, 1000, "99.6 %"), (9994, 10_000, "99.9 %"),
    (9995, 10_000, "below 100 %"), (2_047_999_999, 2_048_000_000, "below 100 %"), (0.996, 1, "99.6 %"),
    (1000, 1000, "100 %"), (1.0, 1, "100 %"), (2_048_000_001, 2_048_000_000, "above 100 %"),
    (10_005, 10_000, "above 100 %"), (10_006, 10_000, "100.1 %"), (1005, 1000, "100.5 %"), (1006, 1000, "101 %"),
])
def test_no_other_part_than_the_whole_is_100_percent(part: float, whole: float, text: str) -> None:
    assert words.percent(part, whole) == text


def test_no_other_share_than_the_whole_is_100_in_tenths() -> None:
    shares = (0, 0.0004, 0.99944, 0.9996, 1.0, 1.0004, 1.0006, 2.5)
    assert [words.tenths(share) for share in shares] == [
        "0.0", "0.0", "99.9", "99.9", "100.0", "100.1", "100.1", "250.0"]


def test_counts() -> None:
    assert words.count(1, "copy", "copies") == "1 copy"
    assert words.count(958, "copy", "copies") == "958 copies"
    assert words.count(1_000_000, "frame") == "1,000,000 frames"
    assert [words.number(value) for value in (None, 0, 2_907_417.0)] == ["-", "0", "2,907,417"]
