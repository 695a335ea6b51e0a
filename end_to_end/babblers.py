#!/usr/bin/env python3
"""A trial of afdx on random networks, each with one port that sends whatever it likes.

Networks 1 to COUNT are the same ones each time. Buffers and greatest delays are the least with which `check` accepts the network,
so each is at its edge. Of the links of all other ports the same frames leave each port, in the same order, as where the babbling
port is silent, and every frame that leaves in either run has left within the bound that `check` prints.
"""
import argparse
import random
import subprocess
import sys
from collections.abc import Iterable
from pathlib import Path
from random import Random

import bounds
import model
from captures import HEADER, frame, record

MILLISECOND = 1_000_000
Frame = tuple[int, int, bytes]  # stamp, how many of its bytes were not captured, the others


def capture(frames: Iterable[Frame]) -> bytes:
    """Returns the capture of (stamp, lacking, data): so many bytes of the frame were not captured."""
    text = HEADER
    for number, (stamp, lacking, data) in enumerate(sorted(frames, key=lambda frame: frame[0])):
        if len(data) >= 18:  # so that no two frames are the same
            data = data[:14] + number.to_bytes(4, "big") + data[18:]
        text += record(stamp, data, len(data) + lacking)
    return text


# --- The network ---


def draw_network(chance: Random) -> model.Table:
    latency = 1000 * chance.choice([0, chance.randint(1, 100)])
    ports = [model.Port(number, chance.choice([8, 80, 80, 80, 800]), 16_777_216, 500_000_000, latency)
             for number in range(1, chance.randint(3, 8) + 1)]
    links = []
    for number in chance.sample(range(65_536), chance.randint(len(ports), 4 * len(ports))):
        source = chance.choice(ports).id
        others = [port.id for port in ports if port.id != source]
        to = chance.sample(others, chance.randint(1, len(others)))
        links.append(model.Link(number, source, to, MILLISECOND << chance.randint(0, 7), 1000 * chance.randint(0, 10_000),
                                chance.randint(64, 1518), chance.choice(model.PRIORITIES), chance.choice(model.POLICINGS)))
    return model.Table(bytes.fromhex("03000000"), ports, links)


def accepted_network(chance: Random) -> model.Table:
    """Returns a network whose lines are not asked for too much, with the least buffers and delays."""
    while True:
        table = draw_network(chance)
        try:
            lines = [line.split() for line in model.check(table).splitlines()[:-1]]
        except model.Refused:
            continue
        for words in lines:
            port = next(port for port in table.ports if port.id == int(words[1]))
            port.buffer = int(words[5])
            longest = max(int(bound) for bound in (words[7], words[9]) if bound != "-")
            port.max_delay = -(-longest // 1000) * 1000
        return table


def text_of(table: model.Table) -> str:
    text = f"version = 3\nlatency_us = {table.ports[0].latency // 1000}\n"
    for port in table.ports:
        text += (f"[[port]]\nid = {port.id}\nmbit = {8000 // port.tick}\nbuffer = {port.buffer}\n"
                 f"max_delay_us = {port.max_delay // 1000}\n")
    for link in table.links:
        text += (f"[[link]]\nid = {link.id}\nfrom = {link.source}\nto = {link.to}\nbag_ms = {link.bag // MILLISECOND}\n"
                 f"jitter_us = {link.jitter // 1000}\nmax_size = {link.max_size}\npriority = \"{link.priority}\"\n"
                 f"police = \"{link.police}\"\n")
    return text


# --- What is sent ---


def traffic(chance: Random, table: model.Table, port: int) -> list[Frame]:
    """Returns frames of a port's links: mostly in time, some too soon, many at round instants."""
    frames = []
    for link in table.links:
        at = chance.choice([0, chance.randint(0, link.bag)])
        for _ in range(chance.randint(0, 8) if link.source == port else 0):
            frames.append((at, 0, frame(link.id, chance.choice([64, link.max_size, chance.randint(64, link.max_size)]))))
            at += chance.choice([0, link.bag, link.bag, max(link.bag - link.jitter, 0), chance.randint(0, 2 * link.bag)])
    return frames


def babble(chance: Random, table: model.Table, port: int, least: int = 200) -> list[Frame]:
    """Returns what a babbler likes to send, so many frames at least: bursts of its own, foreign ones, other ports' links, oversized and cut
    ones."""
    numbers = [link.id for link in table.links]
    own = [link for link in table.links if link.source == port]
    frames: list[Frame] = []
    at = 0
    while len(frames) < least:
        at += chance.choice([0, 0, 1, chance.randint(0, 20_000), chance.randint(0, 2 * MILLISECOND)])
        kind = chance.randint(0, 5)
        if kind <= 1 and own:
            link = chance.choice(own)
            burst = [(at, 0, frame(link.id, chance.choice([64, link.max_size])))] * chance.randint(1, 40)
        elif kind == 2:
            burst = [(at, 0, frame(chance.choice(numbers), chance.randint(64, 1518)))] * chance.randint(1, 10)
        elif kind == 3:
            burst = [(at, 0, frame(chance.choice(numbers), chance.randint(1519, 9000)))]
        elif kind == 4:
            burst = [(at, chance.randint(1, 1400), frame(chance.choice(numbers), chance.randint(4, 200)))]
        else:
            foreign = frame(chance.randint(0, 65_535), chance.randint(4, 1600), chance.choice(["02000000", "ffffffff", "03000000"]))
            burst = [(at, 0, foreign)]
        frames += burst
    return frames


# --- The trial ---


def afdx(program: str, *arguments: str) -> str:
    answer = subprocess.run([program, *arguments], capture_output=True, text=True, check=False)
    if answer.returncode != 0 or answer.stderr:
        sys.exit(f"afdx {' '.join(arguments)}: status {answer.returncode}, {answer.stderr}")
    return answer.stdout


def write(path: str, data: bytes) -> None:
    Path(path).parent.mkdir(parents=True, exist_ok=True)
    Path(path).write_bytes(data)


def left_of(world: str, table: model.Table) -> dict[tuple[int, int], list[bytes]]:
    """Returns the frames that left each port for each link, in order."""
    left: dict[tuple[int, int], list[bytes]] = {}
    for port in table.ports:
        records = bounds.records_of(f"{world}/out", port.id)
        for link in table.links:
            left[port.id, link.id] = [record.data for record in records if record.data[4:6] == link.id.to_bytes(2, "big")]
    return left


def trial(program: str, room: str, number: int) -> tuple[int, int]:
    chance = random.Random(number)
    table = accepted_network(chance)
    path = f"{room}/{number}/table.toml"
    write(path, text_of(table).encode())
    if afdx(program, "check", path) != model.check(table):
        sys.exit(f"network {number}: other lines than the model's")
    babbler = chance.choice(table.ports).id
    captures = {port.id: capture(traffic(chance, table, port.id)) for port in table.ports}
    left = {}
    for world, sent in [("silent", HEADER), ("babbling", capture(babble(chance, table, babbler)))]:
        folder = f"{room}/{number}/{world}"
        for port, data in (captures | {babbler: sent}).items():
            write(f"{folder}/in/port-{port}.pcap", data)
        Path(folder, "out").mkdir()
        afdx(program, "run", path, f"{folder}/in", f"{folder}/out")
        bounds.compare(table, f"{folder}/in", f"{folder}/out")
        left[world] = left_of(folder, table)
    others = [(port.id, link.id) for port in table.ports for link in table.links if link.source != babbler]
    for place in others:
        if left["silent"][place] != left["babbling"][place]:
            sys.exit(f"network {number}: link {place[1]} at port {place[0]} is disturbed by port {babbler}")
    return sum(len(left["babbling"][place]) for place in others), sum(map(len, left["babbling"].values()))


def main() -> None:
    parser = argparse.ArgumentParser(description=__doc__, formatter_class=argparse.RawDescriptionHelpFormatter)
    parser.add_argument("afdx", help="the program")
    parser.add_argument("room", help="the folder in which the networks are run")
    parser.add_argument("count", type=int, help="of networks")
    given = parser.parse_args()
    frames = [trial(given.afdx, given.room, number) for number in range(1, given.count + 1)]
    others, all_frames = map(sum, zip(*frames))
    print(f"{given.count} networks: {others} frames of other ports left undisturbed, {all_frames - others} of the babbling ones")


if __name__ == "__main__":
    main()
