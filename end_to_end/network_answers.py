#!/usr/bin/env python3
"""What `afdx network measure`, `survey` and `trace` answer, by the plain models of a network and of a switch: slowly.

Where a frame came from is found by its place: the record of so many at the end of a wire is the frame of so many that left its start.
"""
import argparse
import sys
from dataclasses import dataclass
from pathlib import Path

import answers
import model
import network_model
from model import Refused
from network_model import End, Network


@dataclass
class Site:
    """A switch and its run."""
    table: model.Table
    texts: dict[int, bytes]  # what came in, by port
    arrivals: list[model.Arrival]
    ports: dict[int, answers.OutputPort]


Sites = dict[str, Site]


def sent(site: Site, port: int) -> list[model.Event]:
    return [event for event in site.ports[port].events if event.sent]


def site_of(table: model.Table, texts: dict[int, bytes]) -> Site:
    arrivals = model.arrivals_of(table, texts)
    ports = {output.port.id: output for output in answers.output_ports_of(table, arrivals)}
    return Site(table, texts, arrivals, ports)


def outcomes_of(net: Network, given: dict[End, bytes], unchecked: bool) -> dict[str, model.Outcome]:
    """Returns what comes out of each switch, where the network is accepted or whatever it is."""
    return network_model.run_unchecked(net, given) if unchecked else network_model.run(net, given)


def sites_of(net: Network, given: dict[End, bytes], outcomes: dict[str, model.Outcome]) -> Sites:
    """Returns the runs of all switches, each over what came in at its ports."""
    coming = network_model.coming_in(net, given)
    return {name: site_of(net.tables[name], network_model.texts_at(net, name, coming, network_model.brought(net, name, outcomes)))
            for name in net.names}


def first(net: Network, sites: Sites, name: str, frame: model.Arrival) -> tuple[str, model.Arrival]:
    """Returns a frame's first switch, and its arrival there."""
    wire = network_model.wire_to(net, End(name, frame.port))
    if not wire:
        return name, frame
    place = [other for other in sites[name].arrivals if other.port == frame.port].index(frame)
    before = sent(sites[wire.start.switch], wire.start.port)[place]
    assert before.end + wire.delay == frame.stamp
    return first(net, sites, wire.start.switch, before.frame)


def numbers(delays: list[int]) -> tuple[str, str]:
    return (str(min(delays)), str(max(delays))) if delays else ("-", "-")


def end_line(net: Network, sites: Sites, row: network_model.Row, port: int, unchecked: bool) -> str:
    site, way = sites[row.switch], network_model.way_to(net, row)
    delays = [event.end - first(net, sites, row.switch, event.frame)[1].stamp for event in sent(site, port) if event.frame.link is row.link]
    least, greatest = numbers(delays)
    source = str(End(way[0][0].switch, way[0][0].link.source)) if way else "-"
    bound = "- to -"
    if not unchecked:
        whole = network_model.before(net, row)[2][-1] + network_model.through(net, row, port)
        bound = f"{whole.least} to {whole.most}"
    return f"link {row.link.id} from {source} to {End(row.switch, port)} sent {len(delays)} least {least} greatest {greatest} bound {bound}"


def named(name: str, lines: list[str]) -> list[str]:
    return [f"{name} {line}" for line in lines]


def peak_lines(site: Site) -> list[str]:
    peaks = [(port, *answers.peak(output), output.port.buffer) for port, output in site.ports.items()]
    return [f"out {port} occupied {most} of {buffer} at {at}" for port, most, at, buffer in peaks]


def policing_lines(site: Site) -> list[str]:
    stamps = [str(frame.stamp) for frame in site.arrivals] or ["-"]
    return answers.spell_lines(site.table, site.arrivals) + [f"span from {stamps[0]} to {stamps[-1]} frames {len(site.arrivals)}"]


def measure_lines(net: Network, sites: Sites, unchecked: bool) -> list[str]:
    lines = [end_line(net, sites, row, port, unchecked) for row, port in network_model.ends_of(net)]
    return lines + [line for name in net.names for line in named(name, peak_lines(sites[name]))]


def measure(net: Network, sites: Sites, unchecked: bool) -> str:
    return "".join(line + "\n" for line in measure_lines(net, sites, unchecked))


def survey(net: Network, sites: Sites, unchecked: bool) -> str:
    reports = [line for name in net.names for line in named(name, model.run(sites[name].table, sites[name].texts).report.splitlines())]
    policing = [line for name in net.names for line in named(name, policing_lines(sites[name]))]
    return "".join(line + "\n" for line in reports + measure_lines(net, sites, unchecked) + policing)


def origin(net: Network, sites: Sites, name: str, frame: model.Arrival) -> str:
    """Returns the number of a frame among the arrivals at its first switch; nothing where this is that one."""
    switch, arrival = first(net, sites, name, frame)
    return "" if arrival is frame else str(sites[switch].arrivals.index(arrival))


def trace(net: Network, sites: Sites) -> dict[str, str]:
    """Returns the texts of all files, by their names."""
    texts: dict[str, str] = {}
    for name, site in sites.items():
        lines, departures = answers.trace(site.table, site.texts)
        fields = ["origin"] + [origin(net, sites, name, frame) for frame in site.arrivals]
        texts[f"{name}/arrivals.csv"] = "".join(f"{line},{field}\n" for line, field in zip(lines.splitlines(), fields, strict=True))
        texts[f"{name}/departures.csv"] = departures
    return texts


PRINTED = {"measure": measure, "survey": survey}


def main(given: argparse.Namespace) -> str:
    net = network_model.read(given.network)
    if not given.unchecked:
        network_model.accept(net)  # before a capture is got
    captures = network_model.captures_in(net, given.source)
    sites = sites_of(net, captures, outcomes_of(net, captures, given.unchecked))
    if given.command != "trace":
        return PRINTED[given.command](net, sites, given.unchecked)
    for name, text in trace(net, sites).items():
        Path(given.target, name).parent.mkdir(parents=True, exist_ok=True)
        Path(given.target, name).write_text(text)
    return ""


def arguments() -> argparse.Namespace:
    parser = argparse.ArgumentParser(description=__doc__, formatter_class=argparse.RawDescriptionHelpFormatter)
    commands = parser.add_subparsers(dest="command", required=True)
    for name in [*PRINTED, "trace"]:
        command = commands.add_parser(name)
        command.add_argument("network", help="the network file")
        command.add_argument("source", metavar="IN", help=str(Path("IN", "A", "port-K.pcap")) + " for each port without a wire")
        command.add_argument("--unchecked", action="store_true", help="whatever the network is")
        if name == "trace":
            command.add_argument("target", metavar="OUT", help="gets OUT/A/arrivals.csv and OUT/A/departures.csv")
    return parser.parse_args()


if __name__ == "__main__":
    try:
        sys.stdout.write(main(arguments()))
    except Refused as fault:
        sys.stdout.flush()
        print(fault.line, file=sys.stderr)
        sys.exit(fault.status)
