#!/usr/bin/python3
"""Measures all that docs/use/CAMPAIGNS.md says of capacity, in one run, and prints it as that page has it.

It takes about twenty minutes of a machine on which nothing else runs, and needs 4 GB under /tmp: a recording of half a gigabyte with
nothing policed and one with a link policed, a thousand small ones by each engine (Slurm if it is installed), and the store and the page
of made-up answers. It refuses a program that was not built with its proofs, and a machine that does other work: what is measured there
says little, and --anyway has it measured all the same.
"""
import argparse
import os
import statistics
import subprocess
import sys
import tempfile
import time
from collections.abc import Callable
from dataclasses import dataclass
from pathlib import Path
from shutil import which

sys.dont_write_bytecode = True
TOP = Path(__file__).resolve().parents[1]
sys.path += [str(TOP / "end_to_end"), str(TOP / "bench")]

from campaign_engines import CAMPAIGN, Cluster, Room, Slurm  # noqa: E402
from campaign_recordings import links, table, write_recording  # noqa: E402
from measure import AFDX, measured  # noqa: E402
from survey import MEGABYTES_A_MS, RECORDINGS, make_recording  # noqa: E402

MILLISECOND = 10**6
BUSY = 0.5  # of the machine's load over the last minute, from which on it is said to do other work
AT_ONCE = 4
FILE = """program = "{program}"
recordings = ["{room}/recordings/*"]
root = "{room}/{name}"
scratch = "{room}/scratch"
[[table]]
name = "before"
file = "{room}/before.toml"
"""
MACHINES = (1, 4, 16, 256)  # workers
SOURCES = {"a disk of 0.5 GB/s": 0.5e9, "a disk of 3 GB/s": 3e9, "10 Gbit/s": 1.2e9, "100 Gbit/s": 12e9}  # bytes in a second
RECORDING = 1e9  # bytes
MANY = 10_000


@dataclass(frozen=True)
class Row:
    """What a command made of a recording: bytes of it in a second of the processor, and megabytes at its peak."""
    rate: float
    peak: float

    def said(self, name: str) -> str:
        return f"| {name} | {1e9 / self.rate:.1f} s/GB | {self.rate / 1e6:.0f} MB/s | {self.peak:.0f} MB |"


@dataclass(frozen=True)
class Driven:
    """A campaign by an engine: its tasks, and the seconds by the clock and of its driver's processor."""
    tasks: int
    clock: float
    processor: float


def is_idle() -> bool:
    return os.getloadavg()[0] < BUSY


def refuse(afdx: str) -> None:
    """Ends if what would be measured says little."""
    said = subprocess.run([afdx, "--version"], capture_output=True, text=True, check=True).stdout.splitlines()
    if not said[-1].startswith("proved"):
        sys.exit(f"capacity.py: this program says '{said[-1]}': its figures are not those of the one that people run")
    if not is_idle():
        sys.exit(f"capacity.py: the load of this machine is {os.getloadavg()[0]}")


def bytes_of(folder: Path) -> int:
    return sum(path.stat().st_size for path in folder.rglob("*.pcap"))


def surveyed(afdx: str, room: Path, runs: int) -> dict[str, Row]:
    """Times what is asked of a recording, in turn; of `run` the outputs stay in the room."""
    asked = [str(room / "table.toml"), str(room / "in")]
    commands = {"survey": [afdx, "survey", *asked], "run": [afdx, "run", *asked, str(room / "out")],
                "measure": [afdx, "measure", *asked], "trace": [afdx, "trace", *asked, str(room / "traced")]}
    size, seconds, peaks = bytes_of(room / "in"), {name: list[float]() for name in commands}, dict.fromkeys(commands, 0.0)
    for _ in range(runs):
        for name, command in commands.items():
            _, used, peak = measured(command, "/dev/null", "/dev/null")
            seconds[name].append(used)
            peaks[name] = max(peaks[name], peak)
    return {name: Row(size / statistics.median(seconds[name]), peaks[name]) for name in commands}


def survey_rows(afdx: str, megabytes: int, runs: int) -> float:
    """Prints the table of a recording's commands; returns the lesser rate of `survey`."""
    print("| | Processor | In a second of the processor | Memory at most |\n|---|---|---|---|", flush=True)
    rates, grown = [], []
    for what, number in RECORDINGS.items():
        with tempfile.TemporaryDirectory() as name:
            room = Path(name)
            for folder in ("out", "traced"):
                (room / folder).mkdir()
            (room / "table.toml").write_text(table(links()), encoding="utf-8")
            make_recording(room / "in", number, round(megabytes / MEGABYTES_A_MS) * MILLISECOND)
            rows = surveyed(afdx, room, runs)
            size = bytes_of(room / "in")
            grown.append(bytes_of(room / "out") / size)
        for command, row in rows.items():
            print(row.said(f"{command}, {what}, {size / 1e9:.2f} GB"), flush=True)
        rates.append(rows["survey"].rate)
    print(f"\nWhat leaves in `run` takes {statistics.mean(grown):.2f} times the recording's bytes of `scratch`.\n", flush=True)
    return min(rates)


def drive(room: Room, name: str, *options: object) -> Driven:
    """Runs a campaign over the recordings of the room, and waits for its end."""
    file = room.folder / f"{name}.toml"
    file.write_text(FILE.format(program=os.environ["AFDX"], room=room.folder, name=name))
    began = time.monotonic()
    process = subprocess.Popen(["/usr/bin/python3", CAMPAIGN, "run", file, *map(str, options)], env=room.environment,
                               stdout=subprocess.DEVNULL, stderr=subprocess.DEVNULL)
    _, ended, used = os.wait4(process.pid, 0)
    process.returncode = os.waitstatus_to_exitcode(ended)
    if process.returncode not in (0, 1):
        sys.exit(f"capacity.py: the campaign {name} ended with {process.returncode}")
    tasks = len(list((room.folder / "recordings").iterdir()))
    return Driven(tasks, time.monotonic() - began, used.ru_utime + used.ru_stime)


def by_local(room: Room) -> Driven:
    return drive(room, "local", "-j", AT_ONCE)


def by_dask(room: Room) -> Driven:
    return drive(room, "dask", "--engine", Cluster(room).address)


def by_slurm(room: Room) -> Driven:
    Slurm(room)
    return drive(room, "slurm", "--engine", "slurm", "-j", AT_ONCE)


def campaign_rows(recordings: int) -> float:
    """Prints the table of the engines; returns the tasks that Dask's driver can give out in a second."""
    engines: dict[str, Callable[[Room], Driven]] = {"local threads": by_local, "Dask, 4 workers over loopback": by_dask}
    if which("slurmctld"):
        engines["Slurm, 4 jobs at once"] = by_slurm
    given_out = 0.0
    with tempfile.TemporaryDirectory() as name:
        made = Room(Path(name), Path(name))
        (made.folder / "before.toml").write_text(table(links()))
        for number in range(recordings):
            write_recording(made.folder / "recordings" / f"r{number:04}", number, recordings, 200 * MILLISECOND)
        each = bytes_of(made.folder / "recordings") / recordings
        print(f"| {recordings} recordings, {each / 1e6:.1f} MB each, {AT_ONCE} at once | Clock | Driver's processor |\n|---|---|---|")
        for engine, run in engines.items():
            room = Room(made.folder, made.folder)
            try:
                driven = run(room)
            finally:
                room.end()
            print(f"| {engine} | {driven.clock:.0f} s | {driven.processor:.1f} s |", flush=True)
            if run is by_dask:
                given_out = driven.tasks / driven.processor
    print()
    return given_out


def store_rows(share: float) -> None:
    """Prints what the store, the questions and the page of many answers take."""
    for recordings, own in ((1000, 1000), (10_000, 100)):
        with tempfile.TemporaryDirectory() as name:
            many = max(1, round(recordings * share))
            print(f"`bench/campaign.py`, {many} recordings, {own} links:", flush=True)
            subprocess.run(["/usr/bin/python3", TOP / "bench/campaign.py", f"{name}/answers", str(many), str(own)], check=True)
    print()


def hours(seconds: float) -> str:
    return f"{seconds / 3600:.1f} h" if seconds >= 3600 else f"{seconds / 60:.1f} min"


def reckon(rate: float, given_out: float) -> None:
    """Prints what follows by arithmetic of a worker's rate, in bytes a second, and of what Dask's driver gives out."""
    for workers in MACHINES:
        print(f"- {MANY} recordings of 1 GB on {workers}: {hours(MANY * RECORDING / rate / workers)} by processor alone, "
              f"at {workers * rate / 1e9:.1f} GB/s, {workers * rate / RECORDING:.1f} tasks a second")
    for source, width in SOURCES.items():
        print(f"- {source} feeds {width / rate:.1f} workers, and gives {MANY} recordings in {hours(MANY * RECORDING / width)}")
    print(f"- Dask's driver gives out {given_out:.0f} tasks a second")


def main() -> None:
    parser = argparse.ArgumentParser(description=__doc__, formatter_class=argparse.RawDescriptionHelpFormatter)
    parser.add_argument("afdx", nargs="?", default=AFDX, help="the program; the one that ./test builds if none is named")
    parser.add_argument("--megabytes", type=int, default=500, help="of the two recordings, about; 500 if none are named")
    parser.add_argument("--runs", type=int, default=5, help="of each command; 5 if none are named")
    parser.add_argument("--recordings", type=int, default=1000, help="of the campaign; 1000 if none are named")
    parser.add_argument("--anyway", action="store_true", help="measure a program without proofs, and on a machine with other work")
    given = parser.parse_args()
    os.environ["AFDX"] = os.path.abspath(given.afdx)
    if not given.anyway:
        refuse(os.environ["AFDX"])
    print(f"{time.strftime('%d %B %Y')}, {os.cpu_count()} processors, load {os.getloadavg()[0]:.1f}")
    print(subprocess.run([os.environ["AFDX"], "--version"], capture_output=True, text=True, check=True).stdout)
    rate = survey_rows(os.environ["AFDX"], given.megabytes, given.runs)
    given_out = campaign_rows(given.recordings)
    store_rows(given.recordings / 1000)
    reckon(rate, given_out)
    print(f"load at the end {os.getloadavg()[0]:.1f}")


if __name__ == "__main__":
    main()
