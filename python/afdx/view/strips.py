"""Draws the strips, a small picture of each link, as paths of SVG."""
from dataclasses import dataclass

import numpy

from afdx.view.greatest import Floats, Ints

WIDTH, HEIGHT = 1000, 100
FOOT = 104  # where ticks begin


@dataclass(frozen=True)
class Strip:
    height: int
    points: str
    ticks: str
    band: str = ""  # between two values, all the time


def columns(instants: Ints, span: int) -> Ints:
    return (instants / span * WIDTH).astype(numpy.int64)


def band(least: int, greatest: int, scale: float) -> str:
    """Draws all between two values; what is above `scale` is at the top."""
    low, high = (max(0, round(HEIGHT - value * HEIGHT / scale)) for value in (least, greatest))
    return f"M0 {low}V{high}H{WIDTH}V{low}Z"


def strip(instants: Ints, values: Floats, scale: float, span: int, foot: Ints | None = None,
          between: tuple[int, int] | None = None) -> Strip:
    """Draws points over the run's time, from 0 at the bottom to `scale` at the top, ticks below at `foot`, and a band
    if there are values for it."""
    heights = (HEIGHT - values * HEIGHT / scale).round().astype(numpy.int64)
    points = "".join(f"M{x} {y}h0" for x, y in zip(columns(instants, span), heights))
    below = [] if foot is None else sorted(set(columns(foot, span).tolist()))
    return Strip(116 if below else FOOT, points, "".join(f"M{x} {FOOT}v10" for x in below),
                 band(*between, scale) if between else "")
