#!/usr/bin/env python3
"""Sends the frames of captures with their timing over one pair of virtual Ethernet lines per port, and has tcpdump
record each port.

It runs within a network namespace of its own. It reads IN/port-K.pcap; tcpdump writes port-K.pcap into the folders OUT/nanos and
OUT/micros. It fails if a frame got lost.
"""
import argparse
import select
import signal
import socket
import subprocess
import sys
import time
from collections.abc import Callable
from pathlib import Path

import model

PATIENCE = 20  # seconds for tcpdump to begin, and for the last frame to be recorded


def frames_of(path: Path, port: int) -> list[model.Record]:
    return model.records_of(path.read_bytes(), port)


def lay_line(port: int) -> None:
    """Lays a line whose ends are `end-K` and `switch-K`; what is sent at the one comes in at the other."""
    pair = [f"end-{port}", f"switch-{port}"]
    subprocess.run(["ip", "link", "add", pair[0], "type", "veth", "peer", "name", pair[1]], check=True)
    for name in pair:
        subprocess.run(["ip", "link", "set", name, "up"], check=True)


def begin_recording(port: int, kind: str, path: Path) -> subprocess.Popen[bytes]:
    arguments = ["tcpdump", "-i", f"switch-{port}", "-Z", "root", "--immediate-mode", "-U",
                 f"--time-stamp-precision={kind}", "-w", str(path)]
    return subprocess.Popen(arguments, stderr=subprocess.PIPE)


def await_listening(recorder: subprocess.Popen[bytes]) -> None:
    said = recorder.stderr
    if said is None or not select.select([said], [], [], PATIENCE)[0] or b"listening" not in said.readline():
        sys.exit("tcpdump does not listen")


def send(arrivals: list[tuple[int, model.Record]]) -> None:
    """Sends each frame when its instant has come, counted from the first; sleeps where the next is far."""
    ends: dict[int, socket.socket] = {}
    for port, _ in arrivals:
        if port not in ends:
            ends[port] = socket.socket(socket.AF_PACKET, socket.SOCK_RAW)
            ends[port].bind((f"end-{port}", 0))
    begin = time.monotonic_ns() - arrivals[0][1].stamp
    for port, record in arrivals:
        while (left := begin + record.stamp - time.monotonic_ns()) > 0:
            if left > 200_000:
                time.sleep((left - 100_000) / 1e9)
        ends[port].send(record.data)


def is_recorded(sent: list[model.Record], path: Path) -> bool:
    """Returns whether these frames are in the capture, in order; the system's own frames may lie between them."""
    try:
        recorded = iter([record.data for record in frames_of(path, 0)])
    except model.Refused:  # it is being written
        return False
    return all(record.data in recorded for record in sent)


def await_frames(are_recorded: Callable[[], bool]) -> None:
    """Waits until all frames are recorded."""
    deadline = time.monotonic() + PATIENCE
    while not are_recorded():
        if time.monotonic() > deadline:
            sys.exit("not every frame was recorded in order")
        time.sleep(0.2)


def end_recording(recorders: list[subprocess.Popen[bytes]]) -> None:
    for recorder in recorders:
        recorder.send_signal(signal.SIGINT)
        recorder.wait()


def record(sent: dict[int, list[model.Record]], target: Path) -> None:
    """Sends the frames and has them recorded."""
    recorders: list[subprocess.Popen[bytes]] = []
    paths: list[tuple[int, Path]] = []
    try:
        for port in sent:
            lay_line(port)
            for kind in ("nano", "micro"):
                paths.append((port, target / f"{kind}s" / f"port-{port}.pcap"))
                recorders.append(begin_recording(port, kind, paths[-1][1]))
        for recorder in recorders:
            await_listening(recorder)
        arrivals = [(port, record) for port in sent for record in sent[port]]
        send(sorted(arrivals, key=lambda arrival: arrival[1].stamp))
        await_frames(lambda: all(is_recorded(sent[port], path) for port, path in paths))
    finally:
        end_recording(recorders)


def main() -> None:
    parser = argparse.ArgumentParser(description=__doc__, formatter_class=argparse.RawDescriptionHelpFormatter)
    parser.add_argument("source", type=Path, help="the folder of the captures whose frames are sent")
    parser.add_argument("target", type=Path, help="has the folders nanos and micros, which get what is recorded")
    parser.add_argument("ports", type=int, nargs="+")
    given = parser.parse_args()
    record({port: frames_of(given.source / f"port-{port}.pcap", port) for port in given.ports}, given.target)


if __name__ == "__main__":
    main()
