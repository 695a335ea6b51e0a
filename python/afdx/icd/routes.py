"""Finds the ways of links by fewest hops: the same for the same cables, in whatever order they are listed."""
from collections import defaultdict
from collections.abc import Iterable
from dataclasses import dataclass

import networkx

from afdx.icd.network import Link, Network


class NoWay(Exception):
    """Says why there is no way."""


@dataclass(frozen=True)
class Hop:
    """A switch on the ways of a link: the port at which it comes in, and those at which it leaves."""
    switch: str
    source: int
    targets: list[int]


def graph_of(network: Network) -> networkx.DiGraph:
    """Returns the switches, with an edge for each wire that knows its ports. Of several wires from a switch to another
    it is that at the lowest port. Nodes and edges are added by name, since searches meet them in that order."""
    graph = networkx.DiGraph()
    graph.add_nodes_from(sorted(network.switches))
    wires = [wire for cable in network.cables for wire in ((cable.a, cable.b), (cable.b, cable.a))]
    for start, end in sorted(wires, key=lambda wire: (wire[0].switch, wire[1].switch, wire[0].number)):
        if not graph.has_edge(start.switch, end.switch):
            graph.add_edge(start.switch, end.switch, start=start.number, end=end.number)
    return graph


def ways_from(graph: networkx.DiGraph, start: str, closed: Iterable[str]) -> dict[str, list[str]]:
    """Returns a way by fewest hops to each switch that is reached without the closed ones; together they are a tree. Of
    several ways it is that whose names come first."""
    view = networkx.restricted_view(graph, closed, [])
    ways: dict[str, list[str]] = networkx.single_source_shortest_path(view, start)
    return ways


def stem_of(graph: networkx.DiGraph, source: str, via: list[str]) -> list[str]:
    """Returns the way from a switch over those of `via` in their order, each part by fewest hops."""
    stem = [source]
    for place, switch in enumerate(via):
        if switch not in stem:
            ways = ways_from(graph, stem[-1], {*stem[:-1], *via[place + 1:]} - {stem[-1]})
            if switch not in ways:
                raise NoWay(f"no cables lead from {stem[-1]} to {switch} round the other switches of the way")
            stem += ways[switch][1:]
        elif place:
            raise NoWay(f"the way would come to {switch} twice")
    return stem


def ways_of(graph: networkx.DiGraph, source: str, targets: set[str], via: list[str]) -> dict[str, list[str]]:
    """Returns the way from a switch to each of these; together they are a tree. All go over the switches of `via`, but
    to a switch that lies before the last of these."""
    stem = stem_of(graph, source, via)
    ways = {switch: stem[:place] for place, switch in enumerate(stem, 1)}
    ways |= {switch: stem[:-1] + way for switch, way in ways_from(graph, stem[-1], stem[:-1]).items()}
    missing = sorted(targets - ways.keys())
    if missing:
        raise NoWay(f"no cables lead from {stem[-1]} to {missing[0]}{' round the switches before it' if via else ''}")
    if not any(stem[-1] in ways[target] for target in targets):
        raise NoWay(f"no destination lies at or beyond {stem[-1]}")
    return {target: ways[target] for target in sorted(targets)}


def hops_of(graph: networkx.DiGraph, network: Network, link: Link) -> list[Hop]:
    """Returns the switches on a link's ways, by name."""
    source = network.ends[link.source]
    ends = [network.ends[target] for target in link.targets]
    ways = ways_of(graph, source.switch, {end.switch for end in ends}, link.via)
    sources, targets = {source.switch: source.number}, defaultdict(set)
    for end in ends:
        targets[end.switch].add(end.number)
    for here, there in sorted({wire for way in ways.values() for wire in zip(way, way[1:])}):
        sources[there] = graph.edges[here, there]["end"]
        targets[here].add(graph.edges[here, there]["start"])
    return [Hop(switch, sources[switch], sorted(targets[switch])) for switch in sorted(targets)]
