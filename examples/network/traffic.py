#!/usr/bin/env python3
"""Writes in/port-1.pcap to in/port-4.pcap beside this script: 256 ms of traffic of table.toml's network.

It is the same at each run. Each end system sends its links' frames in turn on one line, so none overlaps another.
Link 401 babbles for 100 ms, and a few frames are there that the switch has to filter. The captures have the four byte
orders and units of the format.
"""
import os
import random
import struct
from dataclasses import dataclass

HERE = os.path.dirname(os.path.abspath(__file__))
BEGIN = 1_768_471_200 * 10**9  # 2026-01-15 10:00:00 UTC
LENGTH = 256_000_000
TICK = {1: 80, 2: 80, 3: 80, 4: 800}  # ns of a byte
MICROSECONDS, NANOSECONDS = 0xA1B2C3D4, 0xA1B23C4D
FORMATS = {1: ("<", NANOSECONDS), 2: ("<", MICROSECONDS), 3: (">", MICROSECONDS), 4: (">", NANOSECONDS)}

# port: (link, first ns, period ns, delay up to ns, least size, greatest size)
LINKS = {
    1: [(100, 310_000, 2_000_000, 10_000, 200, 200), (101, 700_000, 4_000_000, 30_000, 120, 300),
        (102, 1_500_000, 8_000_000, 50_000, 90, 150), (103, 9_100_000, 64_000_000, 100_000, 512, 512),
        (104, 3_300_000, 16_000_000, 100_000, 300, 600)],
    2: [(200, 420_000, 4_000_000, 30_000, 128, 128), (201, 310_000, 2_000_000, 15_000, 160, 160),
        (202, 5_200_000, 16_000_000, 200_000, 256, 256), (203, 2_700_000, 8_000_000, 40_000, 64, 96),
        (204, 11_000_000, 128_000_000, 400_000, 512, 512)],
    3: [(300, 1_200_000, 8_000_000, 40_000, 70, 128), (301, 6_000_000, 32_000_000, 400_000, 700, 1200),
        (302, 10_400_000, 64_000_000, 400_000, 800, 800), (303, 2_200_000, 16_000_000, 80_000, 100, 256),
        (304, 7_700_000, 16_000_000, 200_000, 64, 128)],
    4: [(400, 4_000_000, 32_000_000, 300_000, 200, 200), (401, 2_000_000, 8_000_000, 300_000, 400, 600),
        (402, 30_000_000, 128_000_000, 300_000, 900, 1518), (403, 15_000_000, 64_000_000, 300_000, 128, 128),
        (404, 500_000, 128_000_000, 0, 64, 64)],
}
BABBLE = range(80_000_000, 180_000_000, 560_000)


@dataclass
class Frame:
    wanted: int  # ns from the beginning
    data: bytes  # without the check sequence
    left_out: int = 0  # bytes at its end that the capture lacks

    @property
    def size(self) -> int:
        return len(self.data) + 4


def frame(link: int, port: int, size: int, number: int) -> bytes:
    """Returns an AFDX frame of at least 64 bytes: addresses, IPv4 to the link's group, UDP, and the sequence number."""
    datagram = struct.pack(">4H", 1000 + link, 1000 + link, size - 39, 0)
    datagram += bytes((number + at) & 255 for at in range(size - 47))
    head = struct.pack(">BBHHHBBH4B4B", 0x45, 0, 20 + len(datagram), number, 0, 1, 17, 0,
                       10, 0, port, 1, 224, 224, link >> 8, link & 255)
    check = sum(struct.unpack(">10H", head))
    check = ~(check % 0xFFFF) & 0xFFFF
    head = head[:10] + struct.pack(">H", check) + head[12:]
    addresses = bytes([3, 0, 0, 0, link >> 8, link & 255, 2, 0, 0, 0, port, 0x20])
    sequence = 0 if number == 0 else (number - 1) % 255 + 1
    return addresses + b"\x08\x00" + head + datagram + bytes([sequence])


def wanted_frames(port: int, chance: random.Random) -> list[Frame]:
    """Returns what the end system at this port wants to send."""
    frames: list[Frame] = []
    for link, first, period, delay, least, greatest in LINKS[port]:
        instants = [first + int(chance.random() * delay) + at for at in range(0, LENGTH - first, period)]
        if link == 401:
            instants = [at for at in instants if at not in range(BABBLE.start, BABBLE.stop)] + list(BABBLE)
        for number, at in enumerate(sorted(instants)):
            size = least + int(chance.random() * (greatest - least + 1))
            frames.append(Frame(at, frame(link, port, size, number)))
    return frames


def strangers(port: int) -> list[Frame]:
    """Returns frames that the switch has to filter."""
    if port == 1:  # address resolution: another constant field
        request = bytes.fromhex("ffffffffffff 020000000120 0806 0001 0800 06 04 0001").ljust(60, b"\0")
        return [Frame(50_100_000, request), Frame(150_100_000, request)]
    if port == 3:  # attitude comes in at the displays' port, as if two plugs had been swapped
        instants = range(20_500_000, 240_000_000, 40_000_000)
        return [Frame(at, frame(201, 3, 160, number)) for number, at in enumerate(instants)]
    if port == 4:
        return [Frame(33_000_000, frame(999, 4, 100, 0)),  # no such link
                Frame(61_000_000, frame(403, 4, 300, 7)),  # too large for its link
                Frame(65_500_000, frame(403, 4, 128, 8)[:50]),  # too short
                Frame(200_700_000, frame(400, 4, 200, 9), left_out=40)]  # not wholly captured
    return []


def capture(port: int) -> bytes:
    chance = random.Random(port)
    order, magic = FORMATS[port]
    text = struct.pack(order + "IHHiIII", magic, 2, 4, 0, 0, 262_144, 1)
    free = 0
    for sent in sorted(wanted_frames(port, chance) + strangers(port), key=lambda one: one.wanted):
        free = max(free, sent.wanted) + (sent.size + 20) * TICK[port]
        seconds, nanos = divmod(BEGIN + free, 10**9)
        kept = sent.data[:len(sent.data) - sent.left_out]
        fraction = nanos // 1000 if magic == MICROSECONDS else nanos
        text += struct.pack(order + "4I", seconds, fraction, len(kept), len(sent.data)) + kept
    return text


if __name__ == "__main__":
    os.makedirs(f"{HERE}/in", exist_ok=True)
    for place in LINKS:
        with open(f"{HERE}/in/port-{place}.pcap", "wb") as file:
            file.write(capture(place))
