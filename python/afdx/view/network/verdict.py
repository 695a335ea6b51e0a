"""Finds what the page says first of a run of a network."""
from dataclasses import dataclass

from afdx.pages import words
from afdx.view.network.run import NetworkRun
from afdx.view.network.ways import Way
from afdx.view.verdict import NAMED, NEAR, Babbler


@dataclass(frozen=True)
class NetworkBabbler:
    switch: str
    babbler: Babbler


@dataclass(frozen=True)
class NetworkVerdict:
    kind: str  # good; policed, if a link was; bad, if the network is not accepted or a copy was lost
    refused: list[str]  # the first lines of a refusal
    babblers: list[NetworkBabbler]  # those with most policed frames, and where these were policed
    others: int  # further links that were policed at a switch
    close: int  # ways that came near their bounds
    nearest: Way | None  # None if nothing was sent or no bound is promised
    nearest_is_policed: bool


def babblers_of(run: NetworkRun) -> list[NetworkBabbler]:
    """Returns the links that were policed, those with most policed frames first."""
    found = [NetworkBabbler(switch, Babbler(link, own.policed.spells[link], int(own.fates.by_link["passed"][link])))
             for switch, own in run.runs.items() for link in own.policed.links]
    return sorted(found, key=lambda one: -one.babbler.babbling.frames)


def refused_of(run: NetworkRun) -> list[str]:
    """Returns the lines of a refusal; of many the first ones."""
    refused = run.asked.refused
    more = len(refused) - NAMED
    return refused if more <= 0 else [*refused[:NAMED], words.count(more, "more line")]


def verdict_of(run: NetworkRun) -> NetworkVerdict:
    babblers, refused = babblers_of(run), refused_of(run)
    nearest = max((way for way in run.ways if way.share is not None), key=lambda way: way.share or 0, default=None)
    kind = "bad" if refused or run.totals.lost else "policed" if babblers else "good"
    close = sum((way.share or 0) >= NEAR for way in run.ways)
    policed = {one.babbler.link for one in babblers}
    return NetworkVerdict(kind, refused, babblers[:NAMED], len(babblers[NAMED:]), close, nearest,
                          nearest is not None and nearest.link in policed)
