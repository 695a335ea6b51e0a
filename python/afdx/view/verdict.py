"""Finds what the page says first of a run."""
from dataclasses import dataclass

from afdx import printed
from afdx.pages import words
from afdx.view.pairs import Pair
from afdx.view.run import Run
from afdx.view.spells import Babbling

NEAR = 0.8  # the part of its bound from which a link is said to have come near it
NAMED = 3  # babbling links, and ports that break rules, that are named


@dataclass(frozen=True)
class Babbler:
    link: int
    babbling: Babbling
    passed: int


@dataclass(frozen=True)
class Verdict:
    kind: str  # good; policed, if a link was; bad, if the table is not accepted or a copy was lost
    broken: list[str]  # ports that break rules; nothing if the table is accepted
    frames: int
    sent: int
    lost: int
    policed: int
    babblers: list[Babbler]  # those with most policed frames
    others: int  # further links that were policed
    close: int  # links that came near their bounds
    nearest: Pair | None  # None if nothing was sent or no bound is promised
    nearest_is_policed: bool


def broken_of(run: Run) -> list[str]:
    """Names the ports that break rules; of many the first ones."""
    broken = [f"port {need['port']} breaks {printed.listed(need['breaks'])}" for need in run.needs if need["breaks"]]
    more = len(broken) - NAMED
    return broken if more <= 0 else [*broken[:NAMED], words.count(more, "more port")]


def nearest_of(pairs: list[Pair]) -> Pair | None:
    """Returns the link that came nearest to its bound, at the port where it did."""
    shares = [(pair.share, -place) for place, pair in enumerate(pairs) if pair.share is not None]
    return pairs[-max(shares)[1]] if shares else None


def verdict_of(run: Run) -> Verdict:
    policed = run.fates.by_link["policed"]
    links = sorted(run.policed.links, key=lambda link: (-policed[link], link))
    babblers = [Babbler(link, run.policed.spells[link], int(run.fates.by_link["passed"][link]))
                for link in links[:NAMED]]
    broken, nearest = broken_of(run), nearest_of(run.pairs)
    lost = sum(pair.lost for pair in run.pairs)
    kind = "bad" if broken or lost else "policed" if links else "good"
    close = {pair.link for pair in run.pairs if (pair.share or 0) >= NEAR}
    return Verdict(kind, broken, sum(run.fates.many.values()), sum(pair.sent for pair in run.pairs), lost,
                   int(policed.sum()), babblers, len(links) - len(babblers), len(close), nearest,
                   nearest is not None and nearest.link in run.policed.links)
