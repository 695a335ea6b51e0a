#!/usr/bin/env python3
"""Sends frames of virtual links through a Linux bridge, and has tcpdump record what comes in and what leaves at each of its ports.

Within a network and a mount namespace of its own. The bridge floods each frame to all other ports. A frame has its number in it, so that
no two are the same. While frames of the second half are sent, the bridge does not flood to port 3 if that is asked for.
"""
import argparse
import subprocess
import time
from pathlib import Path

from model import SECOND, Record
from record import await_frames, await_listening, end_recording, frames_of, is_recorded, lay_line, send

PORTS = [1, 2, 3]
LINKS = {10: 1, 20: 2}  # the port at which each comes in
COUNT = 20
MILLISECOND = 1_000_000
PERIOD = 20 * MILLISECOND


def arguments() -> argparse.Namespace:
    parser = argparse.ArgumentParser(description="Records a Linux bridge")
    parser.add_argument("target", type=Path, help="the folder that gets in/port-K.pcap and out/port-K.pcap")
    parser.add_argument("--deaf", action="store_true", help="port 3 gets nothing in the second half")
    return parser.parse_args()


def lay_bridge() -> None:
    """Lays a bridge of these ports, in a namespace that sends nothing of its own."""
    subprocess.run(["mount", "-t", "proc", "proc", "/proc"], check=True)  # that of a chroot may be one that can't be written
    Path("/proc/sys/net/ipv6/conf/default/disable_ipv6").write_text("1", encoding="ascii")
    subprocess.run(["ip", "link", "add", "bridge", "type", "bridge", "mcast_snooping", "0"], check=True)
    for port in PORTS:
        lay_line(port)
        subprocess.run(["ip", "link", "set", f"switch-{port}", "master", "bridge"], check=True)
    subprocess.run(["ip", "link", "set", "bridge", "up"], check=True)
    time.sleep(1)  # until the ports forward


def begin_recording(port: int, direction: str, target: Path) -> subprocess.Popen[bytes]:
    command = ["tcpdump", "-i", f"switch-{port}", "-Q", direction, "-Z", "root", "--immediate-mode", "-U",
               "--time-stamp-precision=nano", "-w", str(target / direction / f"port-{port}.pcap")]
    return subprocess.Popen(command, stderr=subprocess.PIPE)


def frame(link: int, number: int) -> bytes:
    head = bytes.fromhex("03000000") + link.to_bytes(2, "big") + bytes.fromhex("02000000000188b5")
    return (head + number.to_bytes(4, "big")).ljust(60, b"\0")


def arrivals_of(first: int, count: int) -> list[tuple[int, Record]]:
    """Returns frames of each link, the links' half a period apart, from a number on."""
    arrivals = []
    for number in range(first, first + count):
        for place, (link, port) in enumerate(LINKS.items()):
            data = frame(link, number)
            arrivals.append((port, Record(SECOND + number * PERIOD + place * PERIOD // 2, len(data), data)))
    return arrivals


def is_done(target: Path, sent: list[tuple[int, Record]], deaf: bool) -> bool:
    """Returns whether all that was sent has left at the ports that hear it."""
    hearing = [port for port in PORTS if not (deaf and port == 3)]
    return all(is_recorded([record for port, record in sent if port != other], target / "out" / f"port-{other}.pcap") for other in hearing)


def main() -> None:
    options = arguments()
    for direction in ("in", "out"):
        (options.target / direction).mkdir(parents=True)
    lay_bridge()
    recorders = [begin_recording(port, direction, options.target) for port in PORTS for direction in ("in", "out")]
    try:
        for recorder in recorders:
            await_listening(recorder)
        first, second = arrivals_of(0, COUNT), arrivals_of(COUNT, COUNT)
        send(first)
        if options.deaf:
            subprocess.run(["bridge", "link", "set", "dev", "switch-3", "mcast_flood", "off"], check=True)
        send(second)
        await_frames(lambda: is_done(options.target, first + second, options.deaf))
    finally:
        end_recording(recorders)
    for port in PORTS:
        print(f"port {port} in {len(frames_of(options.target / 'in' / f'port-{port}.pcap', port))}")


if __name__ == "__main__":
    main()
