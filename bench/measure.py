#!/usr/bin/env python3
"""Times the built programs beside `cat`, `mergecap` and `tcpdump -r -w` of the same files in the same run, and prints the ratios
of the median times, by the clock and of the processor, the system's included.

The programs are built by `./test`, or by `rt run` in crates/recapture and crates/afdx. Needs 3 GB under /tmp, and
mergecap and tcpdump (Debian's wireshark-common and tcpdump). With TMPDIR=/dev/shm no disk is waited for.
"""
import argparse
import glob
import os
import statistics
import subprocess
import sys
import tempfile
import time
from pathlib import Path

sys.path.append(str(Path(__file__).resolve().parents[1] / "end_to_end"))

from captures import HEADER, frame, record  # noqa: E402

Commands = dict[str, tuple[list[str], int]]  # with the status with which each ends
TOP = os.path.dirname(os.path.dirname(os.path.abspath(__file__)))
RECAPTURE = f"{TOP}/crates/recapture/out/recapture"
AFDX = f"{TOP}/crates/afdx/out/afdx"

# Started by root, tcpdump would write as a user that may not write here.
TCPDUMP = ["tcpdump", "--relinquish-privileges=root"] if os.geteuid() == 0 else ["tcpdump"]


def write_capture(path: str, count: int, size: int, gap: int) -> None:
    """Writes `count` frames of link 10 of this size in bytes, so many nanoseconds apart."""
    data = frame(10, size)
    with open(path, "wb") as file:
        file.write(HEADER)
        for number in range(count):
            file.write(record(number * gap, data))


def measured(arguments: list[str], source: str, target: str, status: int = 0) -> tuple[float, float, float]:
    """Runs a command and returns the seconds that it takes, those of the processor, and the megabytes of memory at its peak. Ends the
    program if the command ends with another status."""
    with open(source, "rb") as read, open(target, "wb") as written:
        start = time.perf_counter()
        process = subprocess.Popen(arguments, stdin=read, stdout=written, stderr=subprocess.DEVNULL)
        _, ended, used = os.wait4(process.pid, 0)
        took = time.perf_counter() - start
    process.returncode = os.waitstatus_to_exitcode(ended)
    if process.returncode != status:
        sys.exit(f"{arguments} ended with {process.returncode}")
    return took, used.ru_utime + used.ru_stime, used.ru_maxrss / 1000


class Seconds:
    """What a command took, by the clock and of the processor: the medians of its runs."""

    def __init__(self) -> None:
        self.clocks: list[float] = []
        self.processors: list[float] = []

    def note(self, clock: float, processor: float) -> None:
        self.clocks.append(clock)
        self.processors.append(processor)

    @property
    def clock(self) -> float:
        return statistics.median(self.clocks)

    @property
    def processor(self) -> float:
        return statistics.median(self.processors)

    def __str__(self) -> str:
        return f"{self.clock:.4f} s ({self.processor:.4f} s of the processor)"

    def to(self, other: "Seconds") -> str:
        """Returns the ratio of this to another."""
        return f"{self.clock / other.clock:.2f} ({self.processor / other.processor:.2f})"


def medians(commands: Commands, source: str, target: str, runs: int) -> tuple[dict[str, Seconds], float]:
    """Returns what each command took, turn by turn, and the megabytes of the last one."""
    took = {name: Seconds() for name in commands}
    for _ in range(runs):
        for name, (arguments, status) in commands.items():
            clock, processor, memory = measured(arguments, source, target, status)
            took[name].note(clock, processor)
    return took, memory


def compare(what: str, arguments: list[str], room: str, runs: int, count: int, size: int, gap: int) -> None:
    source, target = f"{room}/source", f"{room}/target"
    write_capture(source, count, size, gap)
    took, memory = medians({
        "cat": (["cat"], 0),
        "tcpdump": ([*TCPDUMP, "-r", source, "-w", f"{room}/dumped"], 0),
        "program": (arguments, 0),
    }, source, target, runs)
    megabytes = os.path.getsize(source) / 1e6
    print(f"{what}: {count} frames of {size} bytes, {megabytes:.0f} MB: cat {took['cat']}, "
          f"tcpdump {took['tcpdump']}, program {took['program']} in {memory:.0f} MB, "
          f"ratio to cat {took['program'].to(took['cat'])}, to tcpdump {took['program'].to(took['tcpdump'])}", flush=True)


def make_network(room: str, count: int) -> None:
    """Makes the network by a process of its own, since the memory of this one would count as that of the commands it starts."""
    subprocess.run([sys.executable, f"{TOP}/bench/network.py", room, str(count)], check=True)


def compare_run(room: str, runs: int, count: int) -> None:
    """Prints what `afdx run` on the network takes beside `cat` and `mergecap` of its captures."""
    make_network(room, count)
    os.makedirs(f"{room}/out", exist_ok=True)
    table, captures = f"{room}/table.toml", sorted(glob.glob(f"{room}/in/*"))
    took, memory = medians({
        "cat": (["cat", *captures], 0),
        "mergecap": (["mergecap", "-F", "nsecpcap", "-w", f"{room}/merged", *captures], 0),
        "program": ([AFDX, "run", table, f"{room}/in", f"{room}/out", "--unchecked"], 0),
    }, table, f"{room}/target", runs)
    came, went = (sum(map(os.path.getsize, glob.glob(f"{room}/{side}/*"))) / 1e6 for side in ("in", "out"))
    print(f"run: {count} frames on 24 ports, {came:.0f} MB in, {went:.0f} MB out: "
          f"cat {took['cat']}, mergecap {took['mergecap']}, program {took['program']} "
          f"in {memory:.0f} MB, ratio to cat {took['program'].to(took['cat'])}, "
          f"to mergecap {took['program'].to(took['mergecap'])}", flush=True)


def compare_check(room: str, runs: int) -> None:
    """Prints what `afdx check` of the network's table takes beside a run that reads the table and ends at the first missing capture."""
    table, nowhere = f"{room}/table.toml", f"{room}/nowhere"
    make_network(room, 0)
    took, memory = medians({
        "cat": (["cat"], 0),
        "reading": ([AFDX, "run", table, nowhere, nowhere, "--unchecked"], 5),
        "check": ([AFDX, "check", table], 0),
    }, table, f"{room}/target", runs)
    print(f"check: a table of 24 ports and 4096 links, {os.path.getsize(table)} bytes: cat {took['cat']}, "
          f"reading alone {took['reading']}, check {took['check']} in {memory:.0f} MB, "
          f"ratio to reading {took['check'].to(took['reading'])}", flush=True)


def main() -> None:
    parser = argparse.ArgumentParser(description=__doc__, formatter_class=argparse.RawDescriptionHelpFormatter)
    parser.add_argument("runs", type=int, nargs="?", default=5, help="of each program; 5 if none are named")
    runs = parser.parse_args().runs
    alone = [AFDX, "alone", "--id", "10", "--bag", "1", "--jitter", "0", "--size", "1518"]
    with tempfile.TemporaryDirectory() as room:
        compare("read and write", [RECAPTURE], room, runs, 1_315_789, 64, 1000)
        compare("read and write", [RECAPTURE], room, runs, 65_359, 1518, 1000)
        compare("alone, all passed", alone, room, runs, 1_000_000, 100, 1_000_000)
        compare("alone, one in ten passed", alone, room, runs, 1_000_000, 1000, 65_876)
    with tempfile.TemporaryDirectory() as room:
        for count in (10_000, 100_000, 1_000_000):
            compare_run(room, runs, count)
        compare_check(room, runs)


if __name__ == "__main__":
    main()
