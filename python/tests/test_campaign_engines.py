"""How engines hand tasks on."""
import os
import shlex
import subprocess
import sys
import threading
import time
from concurrent.futures import CancelledError
from dataclasses import asdict, replace
from pathlib import Path
from unittest.mock import Mock

import cloudpickle
import pytest

import campaign_recordings
from afdx import files
from afdx.campaign import worker
from afdx.campaign.engines import Options, dask, local, slurm
from afdx.campaign.failures import INTERRUPTED
from afdx.campaign.worker.program import Program, Said
from afdx.campaign.worker.questions import ask
from afdx.campaign.worker.task import Task
from afdx.campaign.worker.work import Outcome, answer_at, work_hard
from afdx.failure import DEVICE, Failure
from tests.campaign_samples import GOOD, PATIENCE, QUIET, await_number, campaign, ends, task

COMMAND = str(Path(__file__).parents[1] / "bin" / "afdx-campaign")


def test_the_code_of_a_worker_goes_along_by_value(tmp_path: Path) -> None:
    """Checks that a Python that knows nothing of this package answers as this one does."""
    for module in (worker, files, dask):
        cloudpickle.register_pickle_by_value(module)
    here = task(tmp_path, root=str(tmp_path / "here"))
    away = replace(here, root=str(tmp_path / "away"))
    work_hard(here)
    (tmp_path / "code").write_bytes(cloudpickle.dumps((dask.tried, asdict(away), 1)))
    code = "import pickle, sys; do, *words = pickle.load(open(sys.argv[1], 'rb')); print(do(*words))"
    said = subprocess.run([sys.executable, "-c", code, str(tmp_path / "code")], cwd="/", capture_output=True, text=True,
                          check=True)
    assert said.stdout == "(0, True)\n"
    ours, theirs = answer_at(here.answer), answer_at(away.answer)
    assert ours["how"].keys() == theirs["how"].keys()
    assert dict(ours, how={}) == dict(theirs, how={})


def test_jobs_have_all_tasks_once_and_no_more_bytes_than_a_job_may(tmp_path: Path) -> None:
    made = task(tmp_path)
    sizes = [1, slurm.JOB_BYTES, 5, 5, slurm.JOB_BYTES - 5, slurm.JOB_BYTES + 1, 3] + [1] * 200
    tasks = [replace(made, recording=replace(made.recording, size=size)) for size in sizes]
    jobs = slurm.chunks(tasks, range(len(tasks)), 2)
    assert [number for job in jobs for number in job] == list(range(len(tasks)))
    assert all(len(job) == 1 or sum(sizes[number] for number in job) <= slurm.JOB_BYTES for job in jobs)
    assert max(map(len, jobs)) == slurm.JOB_TASKS


def test_slurm_gets_paths_as_they_are(tmp_path: Path, monkeypatch: pytest.MonkeyPatch) -> None:
    """Checks that a percent sign is doubled in `--output`, where it begins a pattern."""
    root = tmp_path / os.fsdecode(b"100%j \xff")
    (tmp_path / "sbatch").write_text(f'#!/bin/sh\nprintf "%s\\n" "$@" >{tmp_path}/words\ncat >{tmp_path}/job\necho 7\n')
    (tmp_path / "sbatch").chmod(0o755)
    monkeypatch.setenv("PATH", str(tmp_path), prepend=":")
    queued = slurm.Round([task(tmp_path)], [[0]], Options(root, "slurm", 1, 1.0, lambda *_: None))
    assert queued.submit() == "7"
    assert f"--output={tmp_path}/100%%j ".encode() + b"\xff/slurm.log\n" in (tmp_path / "words").read_bytes()
    assert os.fsencode(shlex.quote(str(queued.file))) in (tmp_path / "job").read_bytes()


def test_an_array_that_is_queued_as_a_signal_comes_is_cancelled(tmp_path: Path) -> None:
    """Checks it of a Ctrl-C, which goes to the driver and to all that is of its group."""
    made = {"sbatch": "kill -INT -$PPID; sleep 0.1; echo 7", "squeue": "echo RUNNING",
            "scancel": f"echo $1 >{tmp_path}/cancelled"}
    for name, what in made.items():
        (tmp_path / name).write_text(f"#!/bin/sh\n{what}\n")
        (tmp_path / name).chmod(0o755)
    driver = subprocess.run([COMMAND, "run", str(campaign(tmp_path)), "--engine", "slurm"], capture_output=True,
                            text=True, env={**os.environ, "PATH": f"{tmp_path}:{os.environ['PATH']}"}, process_group=0)
    assert (driver.returncode, (tmp_path / "cancelled").read_text()) == (INTERRUPTED, "7\n"), driver.stderr
    assert not list(tmp_path.glob("campaign/rounds/*"))


@pytest.mark.parametrize("future", [
    Mock(status="finished", result=Mock(side_effect=CancelledError)),
    Mock(status="finished", result=Mock(side_effect=OSError)),
    Mock(status="error", exception=Mock(return_value=None)),
    Mock(status="cancelled"),
])
def test_a_try_that_went_with_the_scheduler_is_none(tmp_path: Path, future: Mock) -> None:
    """Checks that such a try is not counted, also where the scheduler goes after the look at its status."""
    window = dask.Window(Mock(), [task(tmp_path)], [], Options(tmp_path, "tcp://127.0.0.1:1", 1, 1.0, lambda *_: None))
    window.tries[0] = 1
    window.settle(0, future)
    assert (window.queue, window.tries[0]) == ([0], 0)


@pytest.mark.parametrize("need, most", [(33, 3), (34, 2), (50, 2), (51, 1), (1000, 1)])
def test_tasks_share_the_memory_there_is(tmp_path: Path, monkeypatch: pytest.MonkeyPatch, need: int, most: int) -> None:
    """Checks how many tasks run at once with three threads and 100 bytes; a task that needs more runs alone."""
    running: set[str] = set()
    seen: list[int] = []
    full = threading.Event()

    def work(asked: Task) -> Outcome:
        running.add(asked.recording.name)
        seen.append(len(running))
        if len(running) >= most:
            full.set()
        full.wait(PATIENCE)
        time.sleep(0.05)  # so that one too many would begin
        running.remove(asked.recording.name)
        return Outcome(0, True)

    tasks = [replace(task(tmp_path, name=f"r{number}"), memory=need) for number in range(6)]
    monkeypatch.setattr(local, "work_hard", work)
    monkeypatch.setattr("os.sysconf", {"SC_PAGE_SIZE": 1, "SC_PHYS_PAGES": 125}.get)
    local.run(tasks, range(6), Options(tmp_path, "local", 3, 1.0, lambda *_: None))
    assert len(seen) == 6
    assert max(seen) == most


def test_no_more_threads_than_tasks(tmp_path: Path, monkeypatch: pytest.MonkeyPatch) -> None:
    """Checks that no more threads are begun than there are tasks, though there may be a million jobs at once."""
    before, most = threading.active_count(), 0

    def work(_: Task) -> Outcome:
        nonlocal most
        most = max(most, threading.active_count())
        return Outcome(0, True)

    monkeypatch.setattr(local, "work_hard", work)
    local.run([task(tmp_path)], [0], Options(tmp_path, "local", 10**6, 1.0, lambda *_: None))
    assert most <= before + 1


def test_what_nobody_foresaw_ends_no_others(tmp_path: Path, monkeypatch: pytest.MonkeyPatch,
                                            capsys: pytest.CaptureFixture[str]) -> None:
    """Checks that such a task is lost, with a traceback, and that the other one has its answer."""
    def asked(own: Task, program: Program, scratch: Path) -> Said:
        if own.recording.name == "r0":
            raise KeyError("unforeseen")
        return ask(own, program, scratch)

    monkeypatch.setattr("afdx.campaign.worker.work.ask", asked)
    tasks = [task(tmp_path, name=f"r{number}") for number in range(2)]
    noted: list[tuple[Task | None, Outcome | None]] = []
    local.run(tasks, range(2), Options(tmp_path, "local", 1, 1.0, lambda own, outcome: noted.append((own, outcome))))
    assert [words for words in noted if words[0]] == [(tasks[0], Outcome(137, True)), (tasks[1], Outcome(0, True))]
    lost = answer_at(tasks[0].answer)
    assert (lost["fault"], lost["status"], lost["line"]) == ("lost", 137, "KeyError: 'unforeseen'")
    assert capsys.readouterr().err.endswith("KeyError: 'unforeseen'\n")


def test_more_threads_than_the_system_gives(tmp_path: Path, monkeypatch: pytest.MonkeyPatch) -> None:
    """Checks that they are a failure of the system's, and no defect."""
    monkeypatch.setattr(threading.Thread, "start", Mock(side_effect=RuntimeError("can't start new thread")))
    with pytest.raises(Failure) as failed:
        local.run([task(tmp_path)], [0], Options(tmp_path, "local", 1, 1.0, lambda *_: None))
    assert (failed.value.status, failed.value.lines) == (
        DEVICE, ("afdx-campaign: cannot begin 1 threads: can't start new thread",))


def test_two_drivers_of_one_campaign_keep_all(tmp_path: Path) -> None:
    """Checks that both end well, and that each recording's captures are those of a driver alone."""
    for number in range(12):
        campaign_recordings.write_recording(tmp_path / f"recordings/r{number:02}", number, 12, 40)
    (tmp_path / "table.toml").write_text(campaign_recordings.table(campaign_recordings.links()))
    for root in ("alone", "both"):
        (tmp_path / f"{root}.toml").write_text(
            f'recordings = ["recordings/*"]\nroot = "{root}"\nask = "run"\nkeep = "all"\n'
            f'scratch = "{tmp_path}/scratch"\n[[table]]\nname = "one"\nfile = "table.toml"\n')
    for drivers in (["alone"], ["both", "both"]):
        started = [subprocess.Popen([COMMAND, "run", str(tmp_path / f"{root}.toml"), "-j", "2"]) for root in drivers]
        assert [driver.wait(PATIENCE) for driver in started] == [0] * len(drivers)
    alone, both = ({path.relative_to(tmp_path / root): path.read_bytes()
                    for path in (tmp_path / root / "kept").rglob("*") if path.is_file()} for root in ("alone", "both"))
    assert len(alone) == 12 * campaign_recordings.PORTS
    assert alone == both


def test_answers_that_are_forgotten_meanwhile_are_told(tmp_path: Path) -> None:
    """Checks that a run of which others have removed an answer is not done, and that the next one is."""
    file = campaign(tmp_path)
    for name in ("monday", "tuesday"):
        (tmp_path / f"flights/{name}/run1/act").write_text(f'rm -rf "{tmp_path}"/campaign/answers/*/*.gz; {QUIET}')
    words = [sys.executable, COMMAND, "run", str(file), "-j", "1"]
    ran = subprocess.run(words, capture_output=True, text=True, timeout=PATIENCE)
    assert ran.stderr.splitlines()[-1:] == ["afdx-campaign: 1 of 2 tasks have no answer any more; what is answered is "
                                            "kept, the same command goes on"]
    assert ran.returncode == 6
    for name in ("monday", "tuesday"):
        (tmp_path / f"flights/{name}/run1/act").write_text(QUIET)
    assert subprocess.run(words, capture_output=True, timeout=PATIENCE).returncode == 0


def test_an_interrupt_ends_the_driver_and_its_children_at_once(tmp_path: Path) -> None:
    """Checks that also what a child has begun ends, and that this is no answer."""
    file = campaign(tmp_path, f"{GOOD}[limits]\ntries = 1\n")
    for name, act in (("monday", "echo $$ >{}; exec sleep 1000"), ("tuesday", "sleep 1000 & echo $! >{}; wait")):
        (tmp_path / f"flights/{name}/run1/act").write_text(act.format(f'"{tmp_path}/{name}"'))
    driver = subprocess.Popen([sys.executable, COMMAND, "run", str(file)], stderr=subprocess.PIPE, text=True)
    pids = [await_number(tmp_path / name) for name in ("monday", "tuesday")]
    driver.terminate()
    assert driver.communicate(timeout=PATIENCE)[1].endswith(
        "afdx-campaign: interrupted; what is answered is kept, the same command goes on\n")
    assert driver.returncode == 6
    assert all(map(ends, pids))
    assert not list(tmp_path.glob("campaign/answers/*/*"))
