"""Says how far a campaign is."""
import pytest

from afdx.campaign.progress import lasting, speed


@pytest.mark.parametrize("done, left, seconds, said", [
    (3_000_000, 6_000_000, 1.5, "2.0 MB/s, 3 s to go"), (0, 5, 1.0, "0.0 MB/s, - to go"),
    (1_000_000, 0, 0.0, "1000.0 MB/s, 0 s to go"), (1_000_000, 0, -0.5, "1000.0 MB/s, 0 s to go")])
def test_speed(done: int, left: int, seconds: float, said: str) -> None:
    """Checks that the speed is said though no time has passed, as by the clock of another machine."""
    assert speed(done, left, seconds) == said


def test_times_in_their_two_greatest_units() -> None:
    assert [lasting(seconds) for seconds in (59.4, 61, 3599, 3661, 90_000)] == [
        "59 s", "1 min 1 s", "59 min 59 s", "1 h 1 min", "25 h 0 min"]
