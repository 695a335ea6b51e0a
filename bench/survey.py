#!/usr/bin/python3
"""Times `afdx survey` beside `afdx run` of the same recordings, in turn, and prints the megabytes of recording that each takes for a
second of the processor, the system's time included: the medians and the greatest, with the most memory.

The recordings are those of campaigns (campaign_recordings.py): 8 ports, 200 links, frames of about 240 bytes, each copied to two ports on
average; in the second one a link babbles. This script takes some 40 MB itself, below which it sees no peak. Needs four times the room
under /tmp, and numpy.
"""
import argparse
import os
import statistics
import sys
import tempfile
from multiprocessing import Process
from pathlib import Path

sys.path.append(str(Path(__file__).resolve().parents[1] / "end_to_end"))

from campaign_recordings import MILLISECOND, links, table, write_recording  # noqa: E402
from measure import AFDX, measured  # noqa: E402

RECORDINGS = {"nothing policed": 0, "a link policed": 11}  # by their numbers
MEGABYTES_A_MS = 0.0063


def row(afdx: str, room: Path, name: str, runs: int) -> None:
    """Prints what both commands make of a recording."""
    folder = room / "in"
    megabytes = sum(path.stat().st_size for path in folder.iterdir()) / 1e6
    speeds: dict[str, list[float]] = {"survey": [], "run": []}
    peaks = dict.fromkeys(speeds, 0.0)
    asked = [str(room / "table.toml"), str(folder)]
    commands = {"survey": [afdx, "survey", *asked], "run": [afdx, "run", *asked, str(room / "out")]}
    for _ in range(runs):
        for command, arguments in commands.items():
            _, used, peak = measured(arguments, "/dev/null", "/dev/null")
            speeds[command].append(megabytes / used)
            peaks[command] = max(peaks[command], peak)
    print(f"{name}: {megabytes:.0f} MB, " + ", ".join(
        f"{command} {statistics.median(found):.0f} MB/s (at most {max(found):.0f}) in {peaks[command]:.0f} MB"
        for command, found in speeds.items()), flush=True)


def make_recording(folder: Path, number: int, length: int) -> None:
    """Makes a recording by a process of its own, since the memory of this one would count as that of the commands it starts."""
    process = Process(target=write_recording, args=(folder, number, len(RECORDINGS) + number, length))
    process.start()
    process.join()


def main() -> None:
    parser = argparse.ArgumentParser(description=__doc__, formatter_class=argparse.RawDescriptionHelpFormatter)
    parser.add_argument("afdx", nargs="?", default=AFDX, help="the program; the one that ./test builds if none is named")
    parser.add_argument("megabytes", type=int, nargs="?", default=500, help="of each recording, about; 500 if none are named")
    parser.add_argument("runs", type=int, nargs="?", default=5, help="of each; 5 if none are named")
    given = parser.parse_args()
    length = round(given.megabytes / MEGABYTES_A_MS) * MILLISECOND
    for name, number in RECORDINGS.items():
        with tempfile.TemporaryDirectory() as place:
            room = Path(place)
            (room / "out").mkdir()
            (room / "table.toml").write_text(table(links()), encoding="utf-8")
            make_recording(room / "in", number, length)
            row(os.path.abspath(given.afdx), room, name, given.runs)


if __name__ == "__main__":
    main()
