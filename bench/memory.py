#!/usr/bin/env python3
"""Fails if the memory of `afdx run`, `measure`, `survey`, `trace`, `compare` or `network run` grows with the frames of its captures.

One link sends a frame each millisecond, so at most one frame is in flight, and whatever is kept of the frames before it shows. `compare`
reads them beside what the run made of them, and then beside outputs at which nothing was recorded: all its bounds close soon after each
frame, whether it left or is missing.
The peak is the greater of the program's and this script's own, about 15 MB, and each count of frames is so large that 4 bytes kept
for each of them would pass the limit. Then links send bursts of large frames to 23 ports, ten seconds apart: what waits at the ports
leaves in the silence after each. Last `network run` has the link cross two switches. Needs 1.2 GB under /tmp.
"""
import argparse
import os
import sys
import tempfile
from collections.abc import Sequence
from pathlib import Path

from measure import AFDX, measured, write_capture

from captures import HEADER, SECOND, frame, record

MILLISECOND = 1_000_000
# by what their lines are called, the words and the status of commands, in an order in which what `run` writes is there for `compare`
COMMANDS: dict[str, tuple[list[str], int]] = {
    "run": (["run", "{0}/table.toml", "{0}/in", "{0}/out"], 0),
    "measure": (["measure", "{0}/table.toml", "{0}/in"], 0),
    "survey": (["survey", "{0}/table.toml", "{0}/in"], 0),
    "trace": (["trace", "{0}/table.toml", "{0}/in", "{0}/traced"], 0),
    "compare": (["compare", "{0}/table.toml", "{0}/in", "{0}/out", "--stamps", "free"], 0),
    "compare where all is missing": (["compare", "{0}/table.toml", "{0}/in", "{0}/silent"], 1),
}
COUNTS = {64: (2_000_000, 4_000_000), 1518: (100_000, 200_000)}  # frames, by their size: 152 and 304 MB
MOST = 20.0  # megabytes at the peak
GROWTH = 1.0  # megabytes between a count and its double
BURSTS = (1, 4)
IN_A_BURST = 3_250  # frames of 1518 bytes that come at 1000 Mbit/s, each to 23 ports
MOST_OF_BURSTS = 30.0  # megabytes: the frames that wait are 5 MB, and the ports' outputs were some 100 MB more if made at once
COUNTS_OF_NETWORKS = {64: (200_000, 400_000), 1518: (20_000, 40_000)}  # frames, by their size: 15 and 30 MB
NETWORK = """[[switch]]
name = "A"
table = "table.toml"

[[switch]]
name = "B"
table = "later.toml"

[[wire]]
from = "A.2"
to = "B.1"
"""
TABLE = """[[port]]
id = 1
mbit = 100
buffer = 100000
max_delay_us = 500000

[[port]]
id = 2
mbit = 100
buffer = 100000
max_delay_us = 500000

[[link]]
id = 10
from = 1
to = [2]
bag_ms = 1
jitter_us = 0
max_size = 1518
priority = "low"
"""


def wide_table() -> str:
    """Returns the table of a switch with one port in, of 1000 Mbit/s, whose 128 links all lead to its 23 other ports."""
    ports = [
        f"[[port]]\nid = {port}\nmbit = {1000 if port == 1 else 100}\nbuffer = 16777216\nmax_delay_us = 500000\n"
        for port in range(1, 25)
    ]
    rest = f'from = 1\nto = {list(range(2, 25))}\nbag_ms = 1\njitter_us = 10000\nmax_size = 1518\npriority = "low"\n'
    return "version = 3\n\n" + "\n".join(ports + [f"[[link]]\nid = {link}\n{rest}" for link in range(128)])


def write_bursts(path: str, bursts: int) -> None:
    """Writes bursts of large frames, of 128 links in turn, ten seconds apart."""
    with open(path, "wb") as file:
        file.write(HEADER)
        for place in range(bursts * IN_A_BURST):
            burst, number = divmod(place, IN_A_BURST)
            file.write(record(10 * SECOND * burst + 12_304 * number, frame(number % 128, 1518)))


def peak_of_bursts(afdx: str, room: str, bursts: int) -> float:
    """Returns the megabytes that a run of so many bursts to 23 ports takes at its peak."""
    with open(f"{room}/wide.toml", "w", encoding="utf-8") as file:
        file.write(wide_table())
    write_bursts(f"{room}/in/port-1.pcap", bursts)
    for port in range(2, 25):
        with open(f"{room}/in/port-{port}.pcap", "wb") as file:
            file.write(HEADER)
    arguments = [afdx, "run", f"{room}/wide.toml", f"{room}/in", f"{room}/out", "--unchecked"]
    _, _, megabytes = measured(arguments, f"{room}/wide.toml", f"{room}/report")
    return megabytes


def peaks_of(afdx: str, room: str, count: int, size: int) -> dict[str, float]:
    """Returns the megabytes that each command takes at its peak for so many frames."""
    write_capture(f"{room}/in/port-1.pcap", count, size, MILLISECOND)
    peaks: dict[str, float] = {}
    for command, (words, status) in COMMANDS.items():
        arguments = [afdx, *(word.format(room) for word in words)]
        _, _, peaks[command] = measured(arguments, f"{room}/table.toml", f"{room}/report", status)
    return peaks


def make_network(room: str) -> None:
    """Writes a network of two switches with the table, whose link crosses both, and the captures of the ports that nothing comes in at."""
    for name, text in (("network.toml", NETWORK), ("later.toml", TABLE.replace("jitter_us = 0", "jitter_us = 200"))):
        with open(f"{room}/{name}", "w", encoding="utf-8") as file:
            file.write(text)
    for switch in "AB":
        for side in ("in", "out"):
            os.mkdir(f"{room}/{side}/{switch}")
        with open(f"{room}/in/{switch}/port-2.pcap", "wb") as file:
            file.write(HEADER)


def peak_of_network(afdx: str, room: str, count: int, size: int) -> float:
    """Returns the megabytes that a run of the network over so many frames takes at its peak."""
    write_capture(f"{room}/in/A/port-1.pcap", count, size, MILLISECOND)
    arguments = [afdx, "network", "run", f"{room}/network.toml", f"{room}/in", f"{room}/out"]
    _, _, megabytes = measured(arguments, f"{room}/network.toml", f"{room}/report")
    return megabytes


def judge(what: str, counts: Sequence[int], peaks: Sequence[float], most: float) -> None:
    """Prints the megabytes that each count of frames takes at its peak, and ends with a line if these grow with it."""
    print(f"{what}: " + ", ".join(f"{count} take {peak:.1f} MB" for count, peak in zip(counts, peaks)))
    if max(peaks) > most or peaks[1] - peaks[0] > GROWTH:
        sys.exit(f"memory grows with the count: {what}")


def try_commands(afdx: str, room: str) -> None:
    """Ends with a line if the memory of a command grows."""
    for size, counts in COUNTS.items():
        found = [peaks_of(afdx, room, count, size) for count in counts]
        for command in COMMANDS:
            judge(f"{command}, frames of {size} bytes", counts, [peaks[command] for peaks in found], MOST)


def try_networks(afdx: str, room: str) -> None:
    """Ends with a line if the memory of a network's run grows."""
    make_network(room)
    for size, counts in COUNTS_OF_NETWORKS.items():
        peaks = [peak_of_network(afdx, room, count, size) for count in counts]
        judge(f"network run over two switches, frames of {size} bytes", counts, peaks, MOST)


def make_room(room: str) -> None:
    """Makes the folders, the table, and the captures of ports at which nothing comes in or was recorded."""
    for side in ("in", "out", "silent", "traced"):
        os.mkdir(f"{room}/{side}")
    texts = dict.fromkeys(("in/port-2.pcap", "silent/port-1.pcap", "silent/port-2.pcap"), HEADER)
    for name, text in {"table.toml": TABLE.encode(), **texts}.items():
        Path(room, name).write_bytes(text)


def main() -> None:
    parser = argparse.ArgumentParser(description=__doc__, formatter_class=argparse.RawDescriptionHelpFormatter)
    parser.add_argument("afdx", nargs="?", default=AFDX, help="the program; the one that ./test builds if none is named")
    afdx = os.path.abspath(parser.parse_args().afdx)
    with tempfile.TemporaryDirectory() as room:
        make_room(room)
        try_commands(afdx, room)
        judge("bursts to 23 ports", BURSTS, [peak_of_bursts(afdx, room, bursts) for bursts in BURSTS], MOST_OF_BURSTS)
        try_networks(afdx, room)


if __name__ == "__main__":
    main()
