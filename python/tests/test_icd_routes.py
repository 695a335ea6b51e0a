"""Ways by fewest hops, beside a search of the test's own."""
import random
from collections.abc import Iterable

import pytest
from hypothesis import given, strategies

from afdx.icd import routes
from afdx.icd.network import Cable, Network, Port
from afdx.icd.routes import NoWay

NAMES = "ABCDEFGH"


def network_of(pairs: Iterable[tuple[str, str]]) -> Network:
    """Returns switches with cables between these, each at the next free ports."""
    network, used = Network(switches=set(NAMES)), dict.fromkeys(NAMES, 0)
    for ends in pairs:
        for name in ends:
            used[name] += 1
        a, b = (Port(name, used[name], 100, 0, 1) for name in ends)
        network.cables.append(Cable(a, b, 0))
    return network


def ways(pairs: Iterable[tuple[str, str]], source: str, targets: str, via: str = "") -> dict[str, str]:
    graph = routes.graph_of(network_of(pairs))
    return {target: "".join(way) for target, way in routes.ways_of(graph, source, set(targets), list(via)).items()}


RING = ["AB", "BC", "CD", "DA"]


@pytest.mark.parametrize("source, targets, via, wanted", [
    ("A", "B", "", {"B": "AB"}),
    ("A", "C", "", {"C": "ABC"}),  # ADC is as short: the name B comes first
    ("C", "A", "", {"A": "CBA"}),
    ("A", "ACD", "", {"A": "A", "C": "ABC", "D": "AD"}),
    ("A", "C", "D", {"C": "ADC"}),
    ("A", "B", "D", {"B": "ADCB"}),
    ("A", "BD", "C", {"B": "AB", "D": "ABCD"}),  # B lies on the way to C, and D beyond it
    ("A", "B", "DC", {"B": "ADCB"}),
    ("A", "B", "AD", {"B": "ADCB"}),
    ("A", "D", "D", {"D": "AD"})])
def test_ways_round_a_ring(source: str, targets: str, via: str, wanted: dict[str, str]) -> None:
    assert ways([(pair[0], pair[1]) for pair in RING], source, targets, via) == wanted


def test_a_forced_way_keeps_later_switches_for_later() -> None:
    cables = ["AC", "CB", "AD", "DE", "EB"]  # by C there would be fewer hops to B
    assert ways([(pair[0], pair[1]) for pair in cables], "A", "C", "BC") == {"C": "ADEBC"}


@pytest.mark.parametrize("targets, via, what", [
    ("E", "", "no cables lead from A to E"),
    ("B", "E", "no cables lead from A to E round the other switches of the way"),
    ("B", "CD", "no destination lies at or beyond D"),
    ("BE", "D", "no cables lead from D to E round the switches before it"),
    ("C", "DA", "the way would come to A twice")])
def test_no_way(targets: str, via: str, what: str) -> None:
    with pytest.raises(NoWay, match=what):
        ways([(pair[0], pair[1]) for pair in RING], "A", targets, via)


def hops(pairs: Iterable[tuple[str, str]], source: str) -> dict[str, int]:
    """Returns how many cables each switch is away, by rounds of relaxation."""
    away = {source: 0}
    for _ in NAMES:
        for a, b in [*pairs, *((b, a) for a, b in pairs)]:
            if a in away:
                away[b] = min(away.get(b, len(NAMES)), away[a] + 1)
    return away


PAIRS = strategies.lists(strategies.permutations(NAMES).map(lambda names: (names[0], names[1])), max_size=14)


@given(pairs=PAIRS, seed=strategies.integers(0, 5))
def test_fewest_hops_in_a_tree_whatever_the_order(pairs: list[tuple[str, str]], seed: int) -> None:
    away = hops(pairs, "A")
    found = ways(pairs, "A", "".join(away))
    assert {target: len(way) - 1 for target, way in found.items()} == away
    before = {way[at]: way[at - 1] for way in found.values() for at in range(1, len(way))}
    assert all(before[there] == here for way in found.values() for here, there in zip(way, way[1:]))
    assert ways(random.Random(seed).sample(pairs, len(pairs)), "A", "".join(away)) == found


@given(pairs=PAIRS, via=strategies.permutations(NAMES[1:]).map(lambda names: "".join(names[:2])))
def test_a_forced_way_goes_over_each_switch_once_and_in_order(pairs: list[tuple[str, str]], via: str) -> None:
    try:
        way = ways(pairs, "A", via[-1], via)[via[-1]]
    except NoWay:
        return
    assert way[0] == "A" and way[-1] == via[-1] and way.index(via[0]) < len(way) - 1
    assert len(set(way)) == len(way) and {*zip(way, way[1:])} <= {*pairs, *((b, a) for a, b in pairs)}
