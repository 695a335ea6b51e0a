"""What a worker answers, over a stand-in for afdx."""
import fcntl
import os
import shutil
import signal
import subprocess
import sys
import threading
import time
from collections.abc import Callable
from dataclasses import replace
from pathlib import Path
from typing import BinaryIO

import pytest

from afdx.campaign.answers import forget_outdated, left_of
from afdx.campaign.worker.files import scratch_folder
from afdx.campaign.worker.program import TIMED_OUT, Program, Said, no_room_in
from afdx.campaign.worker.questions import ask, remove_parts
from afdx.campaign.worker.stamps import first_stamp
from afdx.campaign.worker.task import Task, identity_of, table_identity
from afdx.campaign.worker.work import Outcome, answer_at, note_change, program_identity, work, work_hard
from captures import header, words
from tests.campaign_samples import (
    DELAYS, HEADING, LEFT, PASSED, PATIENCE, QUIET, SEEN, SPAN, await_number, ends, row, task)

BABBLED = row("link", link=10, passed=3, policed=2)
SPELL = row("spell", link=10, policed=2, to=2500, least_early=500, greatest_early=700, **{"from": 2000})
POLICED = QUIET.replace(PASSED, BABBLED).replace(SPAN, f"{SPELL}\n{SPAN}")
GARBLED = "the program printed what no afdx prints, "
FAULTS = [
    (r"printf 'caf\303\251\n'; " + QUIET, "garbled", 76, f"{GARBLED}line 1: caf\ufffd\ufffd", 1),
    (rf"{QUIET}printf '\377\n'", "garbled", 76, f"{GARBLED}line 8: \ufffd", 1),
    ("echo hello; echo x,y", "garbled", 76, f"{GARBLED}line 1: hello", 1),
    (f"{QUIET}echo link,10", "garbled", 76, f"{GARBLED}line 8: link,10", 1),
    (f'{QUIET}echo "{PASSED}"', "garbled", 76, f"{GARBLED}two rows of one link", 1),
    (f'{QUIET}echo "{SEEN}"', "garbled", 76, f"{GARBLED}line 8: {SEEN}", 1),
    (QUIET.replace("200", str(2**63)), "garbled", 76, f"{GARBLED}a number from {2**63} on", 1),
    *((QUIET.replace("200", word), "garbled", 76, f"{GARBLED}line 6: {DELAYS.replace('200', word)}", 1)
      for word in ("-200", "2_00", " 200")),
    (f'echo "{HEADING}"', "garbled", 76, f"{GARBLED}a part of its rows alone", 1),
    *((f"({QUIET}) | head -n {lines}", "garbled", 76, f"{GARBLED}a part of its rows alone", 1) for lines in (3, 4, 6)),
    (f"({QUIET}) | head -c -5", "garbled", 76, f"{GARBLED}line 7: {SPAN[:-4]}", 1),
    (QUIET.replace(",1000,", ",0,"), "garbled", 76, f"{GARBLED}line 6: {DELAYS.replace(',1000,', ',0,')}", 1),
    (QUIET.replace(",1000,", ",,"), "garbled", 76, f"{GARBLED}a delay without its bound", 1),
    ("exit 0", "garbled", 76, f"{GARBLED}nothing", 1),
    (r"printf 'one\ntwo\t\033[31mred\177\n' >&2; exit 7", "refused", 7, r"one two \x1b[31mred\x7f", 1),
    ("head -c 5000 /dev/zero | tr '\\000' e >&2; exit 7", "refused", 7, "e" * 1000 + " ..", 1),
    ("head -c 1000 /dev/zero | tr '\\000' e >&2; exit 7", "refused", 7, "e" * 1000, 1),
    ("exit 192", "signal", 192, "", 2),
    ("exit 193", "refused", 193, "", 1),
    ("exit 255", "refused", 255, "", 1),
    ("echo afdx: capture P3 Magic, port 1 >&2; exit 3", "capture", 3, "afdx: capture P3 Magic, port 1", 1),
    ("echo afdx: device get x >&2; exit 5", "device", 5, "afdx: device get x", 2),
    ("echo afdx: memory >&2; exit 5", "memory", 5, "afdx: memory", 2),
    ("kill -KILL $$", "signal", 137, "", 2),
    ("exec sleep 1000", "timeout", 124, "", 2),
    (r"printf '\303\244\n'; exit 4", "refused", 4, "", 1),  # letters that no afdx prints
    ("exit 4", "refused", 4, "", 1)]


@pytest.mark.parametrize("act, fault, status, line, tries", FAULTS)
def test_faults_are_answers(tmp_path: Path, act: str, fault: str, status: int, line: str, tries: int) -> None:
    asked = task(tmp_path, act, timeout=0.5 if fault == "timeout" else PATIENCE)
    assert work_hard(asked).status == status
    answer = answer_at(asked.answer)
    assert (answer["fault"], answer["status"], answer["line"], answer["how"]["tries"]) == (fault, status, line, tries)
    assert list((tmp_path / "scratch").iterdir()) == []


def test_a_child_may_end_as_its_time_does(tmp_path: Path, monkeypatch: pytest.MonkeyPatch) -> None:
    """Checks that a child's time is over when it has ended and was not reaped yet."""
    waitid = os.waitid

    def wait_longer(*arguments: int) -> os.waitid_result | None:
        found = waitid(*arguments)
        for timer in filter(lambda thread: isinstance(thread, threading.Timer), threading.enumerate()):
            timer.join(PATIENCE)
        return found

    monkeypatch.setattr(os, "waitid", wait_longer)
    assert Program("/bin/true", 0.2, 1 << 30, tmp_path)().status == TIMED_OUT


@pytest.mark.parametrize("after, status", [("wait", 124), (QUIET, 0)])
def test_what_a_child_has_begun_ends_with_it(tmp_path: Path, after: str, status: int) -> None:
    asked = task(tmp_path, f'sleep 1000 & echo $! >"$folder/begun"; {after}', timeout=5, tries=1)
    assert work_hard(asked).status == status
    assert ends(await_number(Path(asked.recording.folder, "begun")))


def test_why_a_child_could_not_say_what_failed(tmp_path: Path) -> None:
    with open("/dev/full", "wb", buffering=0) as full, open(tmp_path / "new", "wb") as new:
        assert no_room_in(full, tmp_path) == f"cannot write in {tmp_path}: No space left on device"
        assert no_room_in(new, tmp_path) == ""


def test_what_a_child_prints_is_in_scratch(tmp_path: Path) -> None:
    asked = task(tmp_path, f'readlink /proc/self/fd/2 >"$folder/printed"; {QUIET}')
    assert work_hard(asked).status == 0
    assert Path(asked.recording.folder, "printed").read_text().startswith(f"{asked.scratch}/.afdx-campaign-scratch-")


def test_thousands_of_tries(tmp_path: Path, monkeypatch: pytest.MonkeyPatch) -> None:
    pauses: list[float] = []
    monkeypatch.setattr("afdx.campaign.worker.work.time.sleep", pauses.append)
    monkeypatch.setattr("afdx.campaign.worker.work.work", lambda asked, attempt: Outcome(5, attempt == 2000))
    assert work_hard(task(tmp_path, tries=3000)) == Outcome(5, True)
    assert (len(pauses), pauses[0], max(pauses)) == (1999, 0.2, 30)


def test_a_fault_that_passes_is_none(tmp_path: Path) -> None:
    asked = task(tmp_path, f'[ -e "$folder/tried" ] || {{ : >"$folder/tried"; kill -KILL $$; }}\n{QUIET}')
    assert not work(asked, 1).answered
    assert not asked.answer.exists()
    assert work(asked, 2).status == 0


def test_a_survey_is_asked_in_one(tmp_path: Path) -> None:
    asked = task(tmp_path, POLICED)
    assert work_hard(asked).status == 0
    assert answer_at(asked.answer)["text"].splitlines() == [
        HEADING, SEEN, BABBLED, *LEFT.splitlines(), DELAYS, SPELL, SPAN]


def test_an_answer_is_given_once(tmp_path: Path) -> None:
    asked = task(tmp_path, f'echo >>"$folder/calls"\n{QUIET}')
    work_hard(asked)
    put = asked.answer.stat()
    work_hard(asked)
    assert Path(asked.recording.folder, "calls").read_text().count("\n") == 1
    kept = asked.answer.stat()  # it was read, and the time of that may be another one
    assert (kept.st_ino, kept.st_mtime_ns) == (put.st_ino, put.st_mtime_ns)


@pytest.mark.parametrize("act, fault", [
    (f'touch -d 2001-01-01 "$folder/port-2.pcap"\n{QUIET}', "changed"),
    (f'echo >>"$0"\n{QUIET}', "changed"),
    (f'echo >>"$2"\n{QUIET}', "changed"),
    *((f"""sleep 0.05; cp -p {file} "$folder/old"; echo >>{file}; sleep 0.05; cp -p "$folder/old" {file}\n{QUIET}""",
       "changed") for file in ('"$0"', '"$2"'))])
def test_what_changes_while_it_is_read_is_a_fault(tmp_path: Path, act: str, fault: str) -> None:
    asked = task(tmp_path, act)
    assert work_hard(asked).status == 75
    assert answer_at(asked.answer)["fault"] == fault


def test_a_program_that_is_replaced_by_one_of_the_same_size_and_time(tmp_path: Path) -> None:
    program = tmp_path / "afdx"
    program.write_text("one")
    identity, times = program_identity(str(program)), program.stat()
    time.sleep(0.05)  # the clock of a file's status goes by some milliseconds
    program.write_text("two")
    os.utime(program, ns=(times.st_atime_ns, times.st_mtime_ns))
    assert program_identity(str(program)) != identity


def listed(asked: Task, by_content: bool = False) -> Task:
    """Returns the task with its recording as it is now."""
    own = asked.recording
    return replace(asked, recording=replace(own, by_content=by_content, identity=identity_of(
        own.name, own.folder, own.files, by_content)))


def fault_at(asked: Task) -> tuple[str, int, str]:
    """Returns how a task ends."""
    assert work_hard(asked).answered
    answer = answer_at(asked.answer)
    return answer["fault"], answer["status"], answer["line"]


@pytest.mark.parametrize("by_content", [False, True])
def test_a_missing_capture_is_a_fault(tmp_path: Path, by_content: bool) -> None:
    asked = task(tmp_path)
    Path(asked.recording.folder, "port-2.pcap").unlink()
    line = f"no port-2.pcap in {asked.recording.folder}"
    assert fault_at(listed(asked, by_content)) == ("missing", 5, line)


@pytest.mark.parametrize("by_content", [False, True])
@pytest.mark.parametrize("make", [os.mkfifo, os.mkdir])
def test_what_is_no_regular_file_is_a_fault_at_once(tmp_path: Path, make: Callable[[Path], None],
                                                    by_content: bool) -> None:
    """Checks that a pipe is not opened, which would wait for its writer: neither when it is listed nor afterwards."""
    asked = task(tmp_path)
    capture = Path(asked.recording.folder, "port-2.pcap")
    capture.unlink()
    make(capture)
    line = f"no regular file: port-2.pcap in {asked.recording.folder}"
    assert fault_at(listed(asked, by_content)) == ("capture", 3, line)


@pytest.mark.parametrize("by_content", [False, True])
def test_a_capture_out_of_reach_is_tried_again(tmp_path: Path, by_content: bool) -> None:
    asked = listed(task(tmp_path), by_content)
    capture = Path(asked.recording.folder, "port-2.pcap")
    capture.unlink()
    capture.symlink_to(capture.name)  # a loop
    line = f"cannot read {capture}: Too many levels of symbolic links"
    assert not work(asked, 1).answered
    assert fault_at(asked) == ("device", 5, line)
    again = listed(asked, by_content)
    assert again.key != asked.key and fault_at(again) == ("device", 5, line)


@pytest.mark.parametrize("by_content", [False, True])
@pytest.mark.parametrize("away", ["folder", "capture", "while it is read", "out of reach while it is read"])
def test_a_recording_that_was_away_is_asked_again(tmp_path: Path, by_content: bool, away: str) -> None:
    """Checks that it changed, that what was kept of it stays, and that the next run asks, once, as it is again."""
    act = f"""[ ! -e "{tmp_path}/stays" ] && [ -e "{tmp_path}/reads" ] && mv "$folder/port-2.pcap" "{tmp_path}/away"
    [ ! -e "{tmp_path}/loop" ] || ln -s port-2.pcap "$folder/port-2.pcap"
    echo text >"$out/port-1.pcap"
    {QUIET}"""
    asked = listed(task(tmp_path, act, ask="run", keep="all", tries=1), by_content)
    root, folder, kept = Path(asked.root), Path(asked.recording.folder), tmp_path / "campaign/kept/t/r1/old.pcap"
    kept.parent.mkdir(parents=True)
    kept.write_text("text")
    for file, when in (("reads", "while"), ("loop", "out of reach")):
        if when in away:
            (tmp_path / file).touch()
    moved = folder if away == "folder" else folder / "port-2.pcap"
    if "read" not in away:
        moved.rename(tmp_path / "away")
    fault, status, line = fault_at(asked)
    if "reach" in away:
        assert (fault, status) == ("device", 5)
        return
    assert (fault, status, line) == ("changed", 75, f"the recording {folder} changed since it was listed")
    assert kept.exists()
    assert left_of(root, [replace(asked, keep="policed")]) == [0]
    (tmp_path / "away").rename(moved)
    (tmp_path / "stays").touch()
    assert listed(asked, by_content).key == asked.key and left_of(root, [asked]) == [0]
    forget_outdated(root, [asked])
    assert not asked.answer.exists()
    assert fault_at(asked) == ("", 0, "")
    assert not kept.exists()
    forget_outdated(root, [asked])
    assert left_of(root, [asked]) == []
    note, = (root / "changed").iterdir()
    os.utime(note, (0, 0))
    forget_outdated(root, [asked])
    assert not note.exists() and left_of(root, [asked]) == []


def test_a_note_of_a_change_without_an_answer(tmp_path: Path) -> None:
    """Checks that what a worker leaves which is killed before it puts that answer is in nobody's way."""
    asked = task(tmp_path)
    note_change(asked)
    root = Path(asked.root)
    assert left_of(root, [asked]) == [0]
    forget_outdated(root, [asked])
    assert fault_at(asked) == ("", 0, "")
    assert left_of(root, [asked]) == []


def test_children_have_the_limits_of_the_task(tmp_path: Path) -> None:
    asked = task(tmp_path, "echo $(ulimit -v) $(ulimit -c) >&2; exit 3", memory=100 << 20)
    work_hard(asked)
    assert answer_at(asked.answer)["line"] == f"{(2 * 100 + 256) << 10} 0"


@pytest.mark.parametrize("keep, policed, kept", [
    ("none", 2, False), ("policed", 0, False), ("policed", 2, True), ("all", 0, True)])
def test_outputs_are_kept(tmp_path: Path, keep: str, policed: int, kept: bool) -> None:
    passed = row("link", link=10, passed=3, policed=policed)
    act = f'{QUIET.replace(PASSED, passed)}echo text >"$out/port-1.pcap"'
    asked = task(tmp_path, act, ask="run", keep=keep)
    work_hard(asked)
    assert (tmp_path / "campaign/kept/t/r1/port-1.pcap").exists() == kept


@pytest.mark.parametrize("keep, kept", [
    ("none", ["inner", "old.pcap"]), ("policed", ["inner"]), ("all", ["inner", "port-1.pcap"])])
def test_what_is_kept_is_of_the_newest_answer(tmp_path: Path, keep: str, kept: list[str]) -> None:
    folder = tmp_path / "campaign/kept/t/r1"
    (folder / "inner").mkdir(parents=True)
    (folder / "old.pcap").write_text("text")
    work_hard(task(tmp_path, f'echo >"$out/port-1.pcap"\n{QUIET}', ask="run", keep=keep))
    assert sorted(path.name for path in folder.glob("*")) == kept


@pytest.mark.parametrize("act, asks", [
    (":", True), ("exit 3", True), ("kill -KILL $$", False)])
def test_what_is_kept_of_a_table_that_changed_back(tmp_path: Path, act: str, asks: bool) -> None:
    """Checks that a task is asked anew, once, if the outputs of another answer are in the place of its own."""
    first = task(tmp_path, f"""echo >>"$folder/calls"
    [ "$(wc -l <"$2")" -eq 3 ] || {act}
    cp "$2" "$out/port-1.pcap"
    {QUIET}""", ask="run", keep="all")
    root, table, kept = Path(first.root), Path(first.table.files[0]), tmp_path / "campaign/kept/t/r1/port-1.pcap"
    assert work_hard(first).status == 0
    old = table.read_text()
    table.write_text(f"{old}# changed\n")
    second = replace(first, table=replace(first.table, identity=table_identity(first.table.files)))
    work_hard(second)
    table.write_text(old)
    assert left_of(root, [first]) == [0][:asks] and left_of(root, [second]) == []
    forget_outdated(root, [first])
    assert work_hard(first).status == 0 and kept.read_text() == old
    assert left_of(root, [first]) == [] and left_of(root, [second]) == [0][:asks]
    assert Path(first.recording.folder, "calls").read_text().count("\n") == 3


@pytest.mark.parametrize("act, kept", [
    ("exit 3", []), ("kill -KILL $$", ["old.pcap"]), ('echo >"$out/port-1.pcap"; echo garbled', []),
    (f'touch -d 2001-01-01 "$folder/port-2.pcap"\n{QUIET}', ["old.pcap"]),
    (f'echo >"$out/port-1.pcap"\n{QUIET}', ["port-1.pcap"])])
def test_faults_that_may_pass_leave_what_is_kept(tmp_path: Path, act: str, kept: list[str]) -> None:
    folder = tmp_path / "campaign/kept/t/r1"
    folder.mkdir(parents=True)
    (folder / "old.pcap").write_text("text")
    work_hard(task(tmp_path, act, ask="run", keep="all"))
    assert [path.name for path in folder.glob("*")] == kept


@pytest.mark.parametrize("act", ["", "kill -KILL $$", "exit 3"])
def test_what_another_worker_kept_stays(tmp_path: Path, monkeypatch: pytest.MonkeyPatch, act: str) -> None:
    """Checks that a worker which began before another one had answered takes nothing of that one's, however it ends."""
    asked = task(tmp_path, f"""[ ! -e "$folder/again" ] || {{ {act or ":"}; }}
    : >"$folder/again"; echo text >"$out/port-1.pcap"; echo text >"$out/port-2.pcap"
    {QUIET}""", ask="run", keep="all")
    first = asked_after(monkeypatch, lambda: work(asked, 1))
    assert work_hard(asked).status == 0
    assert first.done
    kept = sorted((tmp_path / "campaign/kept/t/r1").glob("*"))
    assert [(path.name, path.read_text()) for path in kept] == [("port-1.pcap", "text\n"), ("port-2.pcap", "text\n")]
    assert answer_at(asked.answer)["status"] == 0


class Once:
    """Does something once, when it is called first."""

    def __init__(self, do: Callable[[], object]) -> None:
        self.do, self.done = do, False

    def __call__(self) -> None:
        if not self.done:
            self.done = True
            self.do()


def asked_after(monkeypatch: pytest.MonkeyPatch, do: Callable[[], object]) -> Once:
    """Has this done when a task's question is about to be asked, that is when its worker has seen no answer."""
    once = Once(do)

    def hooked(asked: Task, program: Program, scratch: Path) -> Said:
        once()
        return ask(asked, program, scratch)

    monkeypatch.setattr("afdx.campaign.worker.work.ask", hooked)
    return once


def test_two_workers_put_the_same_files_at_once(tmp_path: Path, monkeypatch: pytest.MonkeyPatch) -> None:
    """Checks that what a worker is putting is no file of an earlier answer to another one, which goes on meanwhile."""
    asked = task(tmp_path, f'echo text >"$out/port-1.pcap"\n{QUIET}', ask="run", keep="all")
    folder, copy = tmp_path / "campaign/kept/t/r1", shutil.copyfileobj
    other = Once(lambda: work(asked, 1))

    def hooked(source: BinaryIO, file: BinaryIO, length: int) -> None:
        copy(source, file, length)
        file.flush()
        other()

    monkeypatch.setattr(shutil, "copyfileobj", hooked)
    assert work(asked, 1).status == 0
    assert other.done
    assert [(path.name, path.read_text()) for path in folder.glob("*")] == [("port-1.pcap", "text\n")]


def test_parts_that_a_killed_worker_left_do_not_stay(tmp_path: Path) -> None:
    folder = tmp_path / "campaign/kept/t/r1"
    folder.mkdir(parents=True)
    left, held, begun = (folder / f".port-1.pcap.0000000{number}" for number in range(3))
    left.write_text("text")
    begun.write_text("")
    with open(held, "w") as file:
        file.write("text")
        fcntl.flock(file, fcntl.LOCK_EX)
        work_hard(task(tmp_path, f'echo >"$out/port-1.pcap"\n{QUIET}', ask="run", keep="all"))
        assert sorted(folder.glob("*")) == sorted((held, begun, folder / "port-1.pcap"))
        left.write_text("text")
        remove_parts(tmp_path / "campaign")
        assert sorted(folder.glob("*")) == sorted((held, begun, folder / "port-1.pcap"))
    remove_parts(tmp_path / "campaign")
    assert sorted(folder.glob("*")) == sorted((begun, folder / "port-1.pcap"))
    os.utime(begun, (0, 0))
    remove_parts(tmp_path / "campaign")
    assert list(folder.glob("*")) == [folder / "port-1.pcap"]


def test_old_parts_of_answers_do_not_stay(tmp_path: Path) -> None:
    """Checks that those which another driver may be putting stay."""
    asked = task(tmp_path)
    work_hard(asked)
    old, new = (asked.answer.with_name(f".{asked.answer.name}.0000000{number}") for number in range(2))
    for part in (old, new):
        part.write_text("text")
    for path in (old, asked.answer):
        os.utime(path, (0, 0))
    remove_parts(Path(asked.root))
    assert sorted(asked.answer.parent.glob("*")) == [new, asked.answer]


@pytest.mark.parametrize("ask, kept", [
    ("survey", []), ("run", ["A/port-1.pcap"]), ("trace", ["A/arrivals.csv", "B/arrivals.csv"])])
def test_of_a_network_the_same_is_asked(tmp_path: Path, ask: str, kept: list[str]) -> None:
    act = f"""[ "$of" = network ] || exit 9
    case $command in
    run) echo >"$out/A/port-1.pcap" ;;
    trace) echo >"$out/A/arrivals.csv"; echo >"$out/B/arrivals.csv" ;;
    esac
    ({QUIET}) | sed '1s/^/switch,/; 2,$s/^/A,/'
    [ -e "$folder/cut" ] || ({QUIET}) | sed '1d; s/^/B,/'"""
    asked = task(tmp_path, act, ask=ask, keep="none" if ask == "survey" else "all")
    for switch in ("A", "B"):
        Path(asked.recording.folder, switch).mkdir()
        Path(asked.recording.folder, switch, "port-1.pcap").touch()
    asked = listed(replace(asked, table=replace(asked.table, switches=("A", "B")), recording=replace(
        asked.recording, files=("A/port-1.pcap", "B/port-1.pcap"))))
    assert work_hard(asked).status == 0
    rows = [SEEN, PASSED, *LEFT.splitlines(), *([] if ask == "run" else [DELAYS, SPAN])]
    assert answer_at(asked.answer)["text"].splitlines() == [
        f"switch,{HEADING}", *(f"{switch},{line}" for switch in ("A", "B") for line in rows)]
    folder = tmp_path / "campaign/kept/t/r1"
    assert sorted(str(path.relative_to(folder)) for path in folder.glob("*/*")) == kept
    asked.answer.unlink()
    Path(asked.recording.folder, "cut").touch()
    assert fault_at(asked) == ("garbled", 76, f"{GARBLED}a part of its rows alone")
    assert not list(folder.glob("*/*"))


def test_first_stamps_in_either_order_and_both_parts(tmp_path: Path) -> None:
    paths: list[Path] = []
    for order, unit, seconds, fraction in (("<", 1, 5, 7), (">", 1, 5, 6), ("<", 1000, 6, 1), (">", 1000, 7, 1)):
        paths.append(tmp_path / f"{len(paths)}")
        paths[-1].write_bytes(header(order, unit) + words(seconds, fraction, 0, 0, order))
    (tmp_path / "empty").write_bytes(header(unit=1000))
    (tmp_path / "zero").write_bytes(header(unit=1000) + words(0, 0, 0, 0))
    assert [first_stamp([str(path)]) for path in paths] == [5_000_000_007, 5_000_000_006, 6_000_001_000, 7_000_001_000]
    assert first_stamp([str(path) for path in (*paths, tmp_path / "empty", tmp_path / "none")]) == 5_000_000_006
    assert first_stamp([str(path) for path in (*paths, tmp_path / "zero")]) == 0
    assert first_stamp([str(tmp_path / "empty"), str(tmp_path / "none")]) is None


def started(code: str, *arguments: str) -> subprocess.Popen[str]:
    """Starts a process that runs this code."""
    path = {"PYTHONPATH": str(Path(__file__).parents[1]), "PATH": os.environ["PATH"]}
    return subprocess.Popen([sys.executable, "-c", code, *arguments], stdout=subprocess.PIPE, text=True, env=path)


def test_a_killed_maker_leaves_no_scratch_folder_for_long(tmp_path: Path) -> None:
    maker = started("import sys, time; from afdx.campaign.worker.files import scratch_folder\n"
                    "with scratch_folder(sys.argv[1]) as made: print(made, flush=True); time.sleep(999)", str(tmp_path))
    assert maker.stdout is not None
    left = Path(maker.stdout.readline().strip())
    with scratch_folder(str(tmp_path)):
        assert left.exists()
    maker.kill()
    maker.wait()
    with scratch_folder(str(tmp_path)):
        assert not left.exists()
    maker.stdout.close()


def test_folders_of_others_beside_scratch_folders_stay(tmp_path: Path) -> None:
    """Checks that such folders stay, though their names begin with the command's."""
    others = [tmp_path / name for name in ("afdx-campaign-results", "afdx-campaign-x1y2z3_4", "afdx-campaign")]
    for other in others:
        other.mkdir()
        (other / "answers").write_text("text")
    with scratch_folder(str(tmp_path)):
        assert all((other / "answers").read_text() == "text" for other in others)


def test_a_child_dies_with_its_worker(tmp_path: Path) -> None:
    script = tmp_path / "afdx"
    script.write_text("#!/bin/sh\necho $$ >\"$1\"\nexec sleep 1000\n")
    script.chmod(0o755)
    worker = started("import sys; from afdx.campaign.worker.program import Program\n"
                     "Program(sys.argv[1], 1000.0, 1 << 30, '/tmp')(sys.argv[2])", str(script), str(tmp_path / "pid"))
    child = await_number(tmp_path / "pid")
    worker.send_signal(signal.SIGKILL)
    worker.wait()
    assert worker.stdout is not None
    worker.stdout.close()
    assert ends(child)


def test_a_child_whose_worker_is_gone_before_it_begins(tmp_path: Path, monkeypatch: pytest.MonkeyPatch) -> None:
    program = Program("/bin/echo", PATIENCE, 1 << 30, tmp_path)
    assert program("text").text == "text\n"
    monkeypatch.setattr(os, "getpid", lambda: 1)
    assert program("text").text == ""


def test_a_child_of_a_missing_program(tmp_path: Path) -> None:
    said = Program(str(tmp_path / "none"), PATIENCE, 1 << 30, tmp_path)("run")
    assert said.status == 127
    assert "No such file" in said.line
