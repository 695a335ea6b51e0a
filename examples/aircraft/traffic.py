#!/usr/bin/env python3
"""Writes in/SWITCH/port-K.pcap beside this script for each port that has no wire: 100 ms of traffic of network.toml.

It is the same at each run. The cabin camera, link 401, babbles for 40 ms.
"""
import os
import random
import struct
import sys

HERE = os.path.dirname(os.path.abspath(__file__))
sys.path.insert(0, os.path.dirname(HERE))
from network.traffic import BEGIN, Frame, frame  # noqa: E402

Link = tuple[int, int, int, int, int, int]  # link, first ns, period ns, delay up to ns, least size, greatest size
LENGTH = 100_000_000
BABBLE = range(30_000_000, 70_000_000, 560_000)

# switch and port: ns of a byte, and its links
PORTS: dict[tuple[str, int], tuple[int, list[Link]]] = {
    ("cabin", 1): (800, [(401, 2_000_000, 8_000_000, 300_000, 400, 600)]),
    ("cabin", 2): (80, [(400, 4_000_000, 32_000_000, 300_000, 200, 200), (403, 15_000_000, 64_000_000, 300_000, 128, 128)]),
    ("bay", 2): (80, [(100, 310_000, 2_000_000, 10_000, 200, 200), (101, 700_000, 4_000_000, 30_000, 120, 300)]),
    ("bay", 3): (80, []),
    ("cockpit", 2): (80, []),
    ("cockpit", 3): (80, [(300, 1_200_000, 8_000_000, 40_000, 70, 128), (303, 2_200_000, 16_000_000, 80_000, 100, 256)]),
}


def instants_of(link: int, first: int, period: int) -> list[int]:
    """Returns the instants at which a link's frames are sent; the camera's account cannot pay for most of what it babbles."""
    regular = list(range(first, LENGTH, period))
    if link != 401:
        return regular
    return sorted([at for at in regular if not BABBLE.start <= at < BABBLE.stop] + list(BABBLE))


def wanted_frames(port: int, links: list[Link]) -> list[Frame]:
    chance = random.Random(port)
    frames: list[Frame] = []
    for link, first, period, delay, least, greatest in links:
        for number, at in enumerate(instants_of(link, first, period)):
            size = least + int(chance.random() * (greatest - least + 1))
            frames.append(Frame(at + int(chance.random() * delay), frame(link, port, size, number)))
    return sorted(frames, key=lambda one: one.wanted)


def capture(port: int, tick: int, links: list[Link]) -> bytes:
    """Returns a capture of a port's frames, one after the other on one line."""
    text = struct.pack("<IHHiIII", 0xA1B23C4D, 2, 4, 0, 0, 262_144, 1)
    free = 0
    for sent in wanted_frames(port, links):
        free = max(free, sent.wanted) + (sent.size + 20) * tick
        text += struct.pack("<4I", *divmod(BEGIN + free, 10**9), len(sent.data), len(sent.data)) + sent.data
    return text


for (switch, port), (tick, links) in PORTS.items():
    os.makedirs(f"{HERE}/in/{switch}", exist_ok=True)
    with open(f"{HERE}/in/{switch}/port-{port}.pcap", "wb") as file:
        file.write(capture(port, tick, links))
