#!/usr/bin/python3
"""Runs one campaign by each engine, kills by their process ids what takes part in it, and compares the answers.

Each campaign has to end with one answer for each task, of the digest that is in ROOT/digest, if it is there, and else is put there.
All processes have ended when this ends, and all traffic stays on this machine.
"""
import argparse
import contextlib
import os
import signal
import socket
import subprocess
import sys
import time
from collections.abc import Callable
from pathlib import Path
from typing import Any

import psutil  # type: ignore[import]

CAMPAIGN = Path(__file__).resolve().parents[1] / "python" / "bin" / "afdx-campaign"
PATIENCE = 600  # seconds for what has to come, on a busy machine too
PAUSE = 0.1  # seconds between looks
UNLIMITED = 1_000_000  # answers; more than any campaign has here
WORKERS = 4
LAST_LINES = 40  # of what was said, shown if what is expected is not so
FAULTS, GONE = 1, 6  # statuses of afdx-campaign
TEXT = """program = "{program}"
recordings = ["{recordings}/recordings/*"]
root = "{root}"
scratch = "{room}/scratch"
[[table]]
name = "before"
file = "{recordings}/before.toml"
[limits]
patience_s = {patience}
"""
PROGRAM = """#!/bin/sh
# Waits while the campaign that is named in the file has as many answers as it may have by now, and then a little, so that there is
# something to kill and something to tell of on the way.
here=$(dirname "$0")
while read -r name limit <"$here/limit" && [ "$(find "$here/$name/answers" -name '*.json.gz' 2>/dev/null | wc -l)" -ge "$limit" ]; do
    sleep 0.1
done
sleep 0.1
exec "{afdx}" "$@"
"""


class Room:
    """A folder in which campaigns are run, and the processes that were started there."""

    def __init__(self, recordings: Path, room: Path) -> None:
        self.recordings, self.folder = recordings.resolve(), room.resolve()
        self.folder.mkdir(parents=True, exist_ok=True)
        self.environment = dict(os.environ)
        self.started: list[psutil.Process] = []

    def campaign(self, name: str, patience: int = PATIENCE) -> "Campaign":
        """Writes a campaign over all recordings, by a program that waits where the campaign has as many answers as `limit` says."""
        program = self.folder / "afdx"
        if not program.exists():
            program.write_text(PROGRAM.format(afdx=os.environ["AFDX"]))
            program.chmod(0o755)
        self.limit(name, 0)
        file = self.folder / f"{name}.toml"
        file.write_text(TEXT.format(program=program, recordings=self.recordings, root=self.folder / name, room=self.folder,
                                    patience=patience))
        return Campaign(self, file, self.folder / name)

    def limit(self, name: str, answers: int) -> None:
        """Lets a campaign go on to so many answers; what runs at that time still ends."""
        written = self.folder / "limit.new"
        written.write_text(f"{name} {answers}\n")
        written.replace(self.folder / "limit")

    def start(self, *command: object) -> subprocess.Popen[bytes]:
        """Starts a process; what it says goes to a log file."""
        with open(self.folder / "log", "a", encoding="utf-8") as log:
            process = subprocess.Popen([str(word) for word in command], stdin=subprocess.DEVNULL, stdout=log, stderr=log,
                                       env=self.environment, start_new_session=True)
        self.started.append(psutil.Process(process.pid))
        return process

    def said(self) -> str:
        """Returns the last lines of what was said by all that was started here."""
        lines = (self.folder / "log").read_text(encoding="utf-8", errors="replace").splitlines(keepends=True)
        return "".join(lines[-LAST_LINES:])

    def processes(self) -> list[psutil.Process]:
        """Finds all that runs here, whoever started it: each process has a file of the folder open, if only for what it says."""
        found = []
        for process in psutil.process_iter():
            with contextlib.suppress(psutil.Error):
                if any(Path(file.path).is_relative_to(self.folder) for file in process.open_files()):
                    found.append(process)
        return found

    def end(self) -> list[psutil.Process]:
        """Ends all that was started here, with its children, and answers what had outlived a process that was killed."""
        for process in self.started:
            kill(process)
        left = self.processes()
        for process in left:
            kill(process)
        return left


class Campaign:
    """A campaign file and its root."""

    def __init__(self, room: Room, file: Path, root: Path) -> None:
        self.room, self.file, self.root = room, file, root

    def answers(self) -> list[Path]:
        """Lists the files of the answers."""
        return list(self.root.glob("answers/*/*.json.gz"))

    def run(self, *options: object) -> subprocess.Popen[bytes]:
        """Starts a driver."""
        return self.room.start("/usr/bin/python3", CAMPAIGN, "run", self.file, *options)

    def await_answers(self, more: int, driver: subprocess.Popen[bytes]) -> None:
        """Waits for some answers more, while the driver goes on; after these the programs wait."""
        wanted = len(self.answers()) + more
        self.room.limit(self.root.name, wanted)
        await_that(lambda: len(self.answers()) >= wanted or driver.poll() is not None, f"{wanted} answers")
        expect(f"the driver goes on, with {len(self.answers())} answers", driver.poll() is None)

    def ends(self, driver: subprocess.Popen[bytes], status: int, what: str) -> None:
        """Waits for the driver's end, which has this status; where it is to have all answers, no program waits any more."""
        if status == FAULTS:
            self.room.limit(self.root.name, UNLIMITED)
        await_that(lambda: driver.poll() is not None, f"the end of the driver, {what}")
        expect(f"{what}: status {driver.returncode}, {len(self.answers())} answers", driver.returncode == status)

    def is_whole(self, what: str) -> None:
        """Expects that each task has its answer once, and that the answers are those of all other engines."""
        said = subprocess.run([CAMPAIGN, "status", self.file, "--digest"], capture_output=True, text=True, check=True).stdout
        tasks = len(list((self.room.recordings / "recordings").iterdir()))
        expect(f"{what}: {said.splitlines()[0]}", said.startswith(f"{tasks} tasks, {tasks} answered, ") and len(self.answers()) == tasks)
        digest = self.room.folder.parent / "digest"
        if not digest.exists():
            digest.write_text(said.splitlines()[1])
        expect(f"{what}: {said.splitlines()[1]}", digest.read_text() == said.splitlines()[1])


def expect(what: str, holds: object) -> None:
    """Says what is so, and ends if it is not."""
    print(f"{time.monotonic() - BEGAN:6.1f} s  {'' if holds else 'NOT '}{what}", flush=True)
    if not holds:
        sys.exit(1)


def await_that(holds: Callable[[], object], what: str) -> None:
    """Waits until it is so."""
    deadline = time.monotonic() + PATIENCE
    while not holds():
        if time.monotonic() > deadline:
            expect(what, False)
        time.sleep(PAUSE)


def has_ended(process: psutil.Process) -> bool:
    """Says whether a process is over; one whose parent was killed may stay as a zombie, as the first process of a chroot reaps none."""
    try:
        return bool(process.status() == psutil.STATUS_ZOMBIE)
    except psutil.NoSuchProcess:
        return True


def kill(process: psutil.Process, number: int = signal.SIGKILL) -> None:
    """Ends a process and its children, and waits for their end."""
    with contextlib.suppress(psutil.NoSuchProcess):
        ended = [process, *process.children(recursive=True)]
        for one in ended:
            with contextlib.suppress(psutil.NoSuchProcess):
                one.send_signal(number)
        await_that(lambda: all(map(has_ended, ended)), f"the end of {len(ended)} processes")


def kill_alone(process: Any) -> None:
    """Kills a process and leaves its children."""
    one = psutil.Process(process.pid)
    one.kill()
    with contextlib.suppress(psutil.NoSuchProcess):
        one.wait(PATIENCE)


def some_child(process: subprocess.Popen[bytes], name: str) -> psutil.Process:
    """Waits for a child of a child with this name, and answers it."""
    found: list[psutil.Process] = []

    def there() -> list[psutil.Process]:
        with contextlib.suppress(psutil.NoSuchProcess):
            found[:] = [child for child in psutil.Process(process.pid).children(recursive=True) if name in " ".join(child.cmdline())]
        return found

    await_that(there, f"a process {name}")
    return found[0]


def free_port() -> int:
    """Finds a port of loopback on which nobody listens."""
    with socket.socket() as listening:
        listening.bind(("127.0.0.1", 0))
        return int(listening.getsockname()[1])


# --- Local threads ---


def local(room: Room) -> None:
    plain = room.campaign("plain")
    plain.ends(plain.run("-j", 4), FAULTS, "local threads")
    plain.is_whole("local threads")
    expect("where nothing is killed, no part of an answer is left", not list(plain.root.glob("answers/*/.*")))
    killed = room.campaign("killed")
    driver = killed.run("-j", 4)
    killed.await_answers(5, driver)
    some_child(driver, "before.toml").kill()
    killed.await_answers(5, driver)
    children = psutil.Process(driver.pid).children(recursive=True)
    kill_alone(driver)
    await_that(lambda: all(map(has_ended, children)), "the end of what the driver had started")
    driver = killed.run("-j", 4)
    killed.await_answers(5, driver)
    driver.send_signal(signal.SIGTERM)
    killed.ends(driver, GONE, "an interrupt")
    drivers = [killed.run("-j", 2), killed.run("-j", 2)]
    for one in drivers:
        killed.ends(one, FAULTS, "two drivers at once")
    killed.is_whole("after a child, the driver and an interrupt")


# --- Dask ---


class Cluster:
    """A scheduler and workers over loopback, each a process of its own; a worker has a nanny, which starts it again."""

    def __init__(self, room: Room) -> None:
        self.room, self.port = room, free_port()
        self.address = f"tcp://127.0.0.1:{self.port}"
        self.scheduler, self.nannies = self.start()

    def start(self) -> tuple[subprocess.Popen[bytes], list[subprocess.Popen[bytes]]]:
        """Starts the scheduler, and workers."""
        scheduler = self.room.start("dask-scheduler", "--host", "127.0.0.1", "--port", self.port, "--dashboard-address", "127.0.0.1:0")
        await_that(self.listens, "the scheduler")
        return scheduler, [
            self.room.start("dask-worker", self.address, "--host", "127.0.0.1", "--nthreads", 1, "--no-dashboard", "--resources", "MEM=2e9",
                            "--local-directory", self.room.folder / "workers") for _ in range(WORKERS)]

    def listens(self) -> bool:
        """Says whether the scheduler takes connections."""
        with socket.socket() as client:
            return client.connect_ex(("127.0.0.1", self.port)) == 0


def share_of(process: subprocess.Popen[bytes], seconds: int) -> float:
    """Returns how much of a processor a process takes for some seconds, its system calls included."""
    one = psutil.Process(process.pid)
    before = one.cpu_times()
    time.sleep(seconds)
    after = one.cpu_times()
    return float(after.user + after.system - before.user - before.system) / seconds


def dask(room: Room) -> None:
    cluster = Cluster(room)
    killed = room.campaign("killed")
    driver = killed.run("--engine", cluster.address)
    killed.await_answers(5, driver)
    share = share_of(driver, 5)
    expect(f"a driver that waits takes {share:.0%} of a processor", share < 0.2)
    kill_alone(some_child(cluster.nannies[0], "spawn_main"))
    killed.await_answers(5, driver)
    kill(psutil.Process(cluster.nannies[1].pid))
    killed.await_answers(5, driver)
    kill_alone(driver)
    driver = killed.run("--engine", cluster.address)
    killed.await_answers(5, driver)
    kill_alone(cluster.scheduler)
    expect("a worker, a nanny with its worker, the driver and the scheduler are killed", True)
    cluster.scheduler, cluster.nannies = cluster.start()
    killed.ends(driver, FAULTS, "Dask")
    killed.is_whole("Dask, after a worker, a nanny, the driver and the scheduler")
    gone = room.campaign("gone", patience=20)
    driver = gone.run("--engine", cluster.address)
    gone.await_answers(5, driver)
    kill_alone(cluster.scheduler)
    gone.ends(driver, GONE, "a scheduler that is gone")
    gone.ends(gone.run("-j", 4), FAULTS, "what is left by local threads")
    gone.is_whole("Dask, then local threads")


# --- Slurm ---


CONFIGURATION = """ClusterName=test
SlurmctldHost={host}({address})
SlurmUser=root
SlurmdUser=root
AuthInfo=socket={folder}/munge/socket
StateSaveLocation={folder}/state
SlurmdSpoolDir={folder}/spool
SlurmctldPidFile={folder}/slurmctld.pid
SlurmdPidFile={folder}/slurmd.pid
SlurmctldPort={controller}
SlurmdPort={node}
CommunicationParameters=NoCtldInAddrAny,NoInAddrAny
ProctrackType=proctrack/linuxproc
TaskPlugin=task/none
SelectType=select/cons_tres
SelectTypeParameters=CR_Core_Memory
SchedulerParameters=sched_min_interval=100000,batch_sched_delay=1
MpiDefault=none
KillWait=5
NodeName={host} NodeAddr={address} CPUs=4 RealMemory=4000 State=UNKNOWN
PartitionName=test Nodes={host} Default=YES MaxTime=INFINITE State=UP
"""


class Slurm:
    """munged, slurmctld and slurmd, with a configuration of their own, at the address that this machine's name stands for.

    After Debian's installer that is 127.0.1.1, or the fixed address if the machine has one.
    """

    def __init__(self, room: Room) -> None:
        self.room, self.folder = room, room.folder / "slurm"
        for name in ("state", "spool", "munge"):
            (self.folder / name).mkdir(parents=True)
        configuration = self.folder / "slurm.conf"
        host = socket.gethostname().partition(".")[0]
        configuration.write_text(CONFIGURATION.format(
            host=host, address=socket.gethostbyname(host), folder=self.folder, controller=free_port(), node=free_port()))
        # A chroot may have no cgroups, and slurmd ends if it looks for them and finds none. This plugin does not look: nothing asks it.
        (self.folder / "cgroup.conf").write_text("CgroupPlugin=cgroup/v1\n")
        room.environment["SLURM_CONF"] = str(configuration)
        key = self.folder / "munge" / "key"
        key.write_bytes(os.urandom(1024))
        key.chmod(0o400)
        options = [f"--{name}={self.folder}/munge/{name.partition('-')[0]}" for name in ("socket", "pid-file", "log-file", "seed-file")]
        self.room.start("munged", "--foreground", "--force", f"--key-file={key}", *options)
        await_that((self.folder / "munge" / "socket").exists, "munged")
        self.controller = room.start("slurmctld", "-D", "-c")
        self.node = room.start("slurmd", "-D", "-c")
        await_that(self.is_idle, "an idle node")

    def is_idle(self) -> bool:
        """Says whether the node is ready for jobs."""
        command = ["sinfo", "--noheader", "--format=%T"]
        said = subprocess.run(command, capture_output=True, text=True, env=self.room.environment, check=False)
        return said.stdout.strip() == "idle"


def kills_job(room: Room) -> bool:
    """Kills a job, if one is there."""
    for process in psutil.process_iter():
        with contextlib.suppress(psutil.Error):
            words = process.cmdline()
            if "afdx.campaign.worker" in words and any(word.startswith(f"{room.folder}/") for word in words):
                process.kill()
                return True
    return False


def slurm(room: Room) -> None:
    manager = Slurm(room)
    killed = room.campaign("killed")
    driver = killed.run("--engine", "slurm", "-j", 4)
    killed.await_answers(3, driver)
    await_that(lambda: kills_job(room), "a job")
    killed.await_answers(5, driver)
    kill_alone(driver)
    driver = killed.run("--engine", "slurm:test", "-j", 4)
    killed.ends(driver, FAULTS, "Slurm")
    killed.is_whole("Slurm, after a job and the driver")
    gone = room.campaign("gone", patience=10)
    driver = gone.run("--engine", "slurm", "-j", 4)
    gone.await_answers(5, driver)
    kill_alone(manager.controller)
    gone.ends(driver, GONE, "a slurmctld that is gone")
    for process in room.processes():  # a slurmstepd waits for its slurmctld
        kill(process)
    gone.ends(gone.run("-j", 4), FAULTS, "what is left by local threads")
    gone.is_whole("Slurm, then local threads")


def main() -> None:
    parser = argparse.ArgumentParser(description=__doc__, formatter_class=argparse.RawDescriptionHelpFormatter)
    parser.add_argument("engine", choices=ENGINES)
    parser.add_argument("recordings", type=Path, help="what campaign_recordings.py wrote")
    parser.add_argument("room", type=Path, help="the folder of the campaigns, and of what runs them")
    given = parser.parse_args()
    there = Room(given.recordings, given.room)
    try:
        ENGINES[given.engine](there)
    except SystemExit:
        print(there.said(), end="")
        raise
    finally:
        left = there.end()
    expect(f"no process is left, not {[process.pid for process in left]}", not left)


ENGINES: dict[str, Callable[[Room], None]] = {"local": local, "dask": dask, "slurm": slurm}
BEGAN = time.monotonic()

if __name__ == "__main__":
    main()
