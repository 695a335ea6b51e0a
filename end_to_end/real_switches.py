#!/usr/bin/env python3
"""A trial of switches whose latencies vary: random networks, at whose switches each copy of a frame takes any time from the least latency
to the table's, so that frames of different links overtake each other.

    real_switches.py COUNT          networks 1 to COUNT, the same ones each time

The jitters are those that `jitter` finds. Of each link the frames that its first account passes leave each of its end ports, in order,
each between the least and the most that `check` prints for its size; no later account polices a frame, and no copy waits for longer
than its port's bound.
"""
import argparse
import dataclasses
import random
import sys
from collections.abc import Callable, Iterable, Iterator

import model
import network_model
import networks
from network_model import End, Network

MOST_ROUNDS = 64  # copies take another time each time, so that a ring need not come to rest


def queued(net: Network, number: int, end: End, frames: Iterable[model.Arrival]) -> Iterator[tuple[int, int, model.Arrival]]:
    """Yields the frames of a port, each as it comes to the queue: those of a link in their order, those of different links in any."""
    least, scatter = net.leasts[end.switch], network_model.scatter_of(net, end.switch)
    last: dict[int, int] = {}
    for place, frame in enumerate(frames):
        assert frame.link
        chance = random.Random(f"{number} {end} {frame.link.id} {place}")
        taken = least + chance.choice([0, scatter, scatter, chance.randint(0, scatter)])
        last[frame.link.id] = max(frame.stamp + taken, last.get(frame.link.id, 0))
        record = dataclasses.replace(frame.record, stamp=last[frame.link.id])
        yield last[frame.link.id], place, dataclasses.replace(frame, record=record)


def left_of(net: Network, number: int, end: End, arrivals: list[model.Arrival]) -> bytes:
    """Returns the capture of a port."""
    port = dataclasses.replace(network_model.port_of(net, end), latency=0)
    frames = [arrival for arrival in arrivals if arrival.passed and arrival.link and end.port in arrival.link.to]
    events = model.service(port, [frame for _, _, frame in sorted(queued(net, number, end, frames), key=lambda entry: entry[:2])])
    return model.capture_of([model.Record(event.end, event.frame.size, event.frame.record.data) for event in events])


def run_switch(net: Network, number: int, name: str) -> Callable[[model.Table, dict[int, bytes]], model.Outcome]:
    """Returns a function like model.run, of this switch."""
    def run(table: model.Table, texts: dict[int, bytes]) -> model.Outcome:
        arrivals = model.arrivals_of(table, texts)
        outcome = model.Outcome({port.id: left_of(net, number, End(name, port.id), arrivals) for port in table.ports})
        for link in table.links:
            passed = [arrival.passed for arrival in arrivals if arrival.link is link]
            outcome.report += f"link {link.id} passed {passed.count(True)} policed {passed.count(False)}\n"
        return outcome

    return run


def run_network(net: Network, number: int, given: dict[End, bytes]) -> dict[str, model.Outcome] | None:
    """Returns what comes out of each switch; None where that does not come to rest."""
    came: dict[str, dict[int, bytes]] = {}
    outcomes: dict[str, model.Outcome] = {}
    for _ in range(MOST_ROUNDS):
        for name in network_model.order_of(net):
            texts = network_model.texts_at(net, name, given, network_model.brought(net, name, outcomes))
            if texts != came.get(name):
                came[name], outcomes[name] = texts, run_switch(net, number, name)(net.tables[name], texts)
        if all(network_model.texts_at(net, name, given, network_model.brought(net, name, outcomes)) == came[name] for name in net.names):
            return outcomes
    return None


def main() -> None:
    parser = argparse.ArgumentParser(description=__doc__, formatter_class=argparse.RawDescriptionHelpFormatter)
    parser.add_argument("count", type=int)
    count, faults, inner = parser.parse_args().count, 0, 0
    for number in range(1, count + 1):
        chance = random.Random(number)
        net, given = networks.drawn_network(number, chance)
        outcomes = run_network(net, number, given)
        if outcomes is None:
            continue
        inner += sum(len(model.records_of(outcomes[wire.start.switch].captures[wire.start.port], 0)) for wire in net.wires)
        wrong = list(networks.wrong_of(net, given, outcomes))
        for line in wrong:
            print(f"network {number}: {line}")
        faults += bool(wrong)
    print(f"{count} networks of switches whose latencies vary, {inner} frames over wires, {faults} networks with faults")
    sys.exit(bool(faults))


if __name__ == "__main__":
    main()
