"""The campaign file, and the tasks that it makes."""
import os
from pathlib import Path

import pytest

from afdx.campaign.command import main
from afdx.campaign.plan import put_plan, tasks_of
from afdx.campaign.settings import read_campaign
from afdx.failure import Failure
from tests.campaign_samples import GOOD, PORTS, campaign

REFUSED = [
    (GOOD + "x = 1\n", "unknown key x, [[table]] 1"),
    ("x = 1\n" + GOOD, "unknown key x, top"),
    (GOOD.replace('root = "campaign"\n', ""), "no key root, top"),
    (GOOD.replace('"campaign"', "3"), "root is no text, top"),
    (GOOD.replace("[[table]]", "[table]"), "table is no list, top"),
    (GOOD.partition("[[table]]")[0], "no [[table]] and no [[network]], top"),
    (GOOD + '[[table]]\nname = "one"\nfile = "two.toml"\n', "name one is taken, [[table]] 2"),
    (GOOD.replace('"one"', '"../one"'), "name has other signs than letters, digits, - _ and ., [[table]] 1"),
    ('ask = "all"\n' + GOOD, "ask is none of survey, run, trace, top"),
    ('keep = "all"\n' + GOOD, 'keep needs ask = "run" or "trace": a survey puts nothing, top'),
    (GOOD.replace("[[table]]", "[[network]]") + "unchecked = 1\n", "unchecked is no truth value, [[network]] 1"),
    (GOOD + "[limits]\ntries = 0\n", "tries is no number above 0 and at most 1000000000, [limits]"),
    (GOOD + "[limits]\ntimeout_s = inf\n", "timeout_s is no number above 0 and at most 1000000000, [limits]"),
    (GOOD + f"[limits]\ntimeout_s = 1{'0' * 400}\n", "timeout_s is no number, [limits]"),
    (GOOD + "[limits]\nmemory = -1.5\n", "memory is no number above 0 and at most 1000000000, [limits]"),
    (GOOD.replace('["flights/*/run*"]', "[]"), "recordings is no list of patterns, top"),
    (GOOD.replace('["flights/*/run*"]', '[""]'), "a pattern in recordings is empty, top"),
    (GOOD.replace("flights/*", "a\\u0000b*"), "a NUL in a pattern in recordings, top"),
    (GOOD.replace("./afdx", ""), "program is empty, top"),
    (GOOD.replace("./afdx", "a\\u0000b"), "a NUL in program, top"),
    (GOOD.replace('"campaign"', '""'), "root is empty, top"),
    (GOOD.replace('"campaign"', '"a\\u0000b"'), "a NUL in root, top"),
    ('scratch = "a\\u0000b"\n' + GOOD, "a NUL in scratch, top"),
    (GOOD.replace("one.toml", "a\\u0000b"), "a NUL in file, [[table]] 1")]


@pytest.mark.parametrize("text, line", REFUSED)
def test_refused_files(tmp_path: Path, text: str, line: str) -> None:
    file = campaign(tmp_path, text)
    with pytest.raises(Failure) as failure:
        read_campaign(file)
    assert failure.value.lines == (f"afdx-campaign: {file}: {line}",)
    assert failure.value.status == 3


def test_recordings_are_named_below_the_first_wildcard(tmp_path: Path) -> None:
    tasks = tasks_of(read_campaign(campaign(tmp_path)))
    assert [task.recording.name for task in tasks] == ["monday/run1", "tuesday/run1"]
    assert tasks[0].recording.files == ("port-1.pcap", "port-7.pcap")
    assert tasks[0].memory == 4 * 48 + (64 << 20)


@pytest.mark.parametrize("pattern, names", [
    ("flights/..odd", ["..odd"]), ("flights/..o*", ["..odd"]), ("flights/*", ["monday", "tuesday"]), (".", ["room"])])
def test_names_of_folders(tmp_path: Path, pattern: str, names: list[str]) -> None:
    room = tmp_path / "room"
    room.mkdir()
    file = campaign(room, GOOD.replace("flights/*/run*", pattern))
    (room / "flights/..odd").mkdir()
    assert [task.recording.name for task in tasks_of(read_campaign(file))] == names


@pytest.mark.parametrize("target", ["away", "run2"])  # the latter is a loop
def test_a_link_that_leads_nowhere_is_a_recording(tmp_path: Path, target: str) -> None:
    """Checks that no recording of a disk that is away is left out; a file is none."""
    file = campaign(tmp_path)
    (tmp_path / "flights/monday/run2").symlink_to(target)
    (tmp_path / "flights/monday/run3").touch()
    names = [task.recording.name for task in tasks_of(read_campaign(file))]
    assert names == ["monday/run1", "monday/run2", "tuesday/run1"]


@pytest.mark.parametrize("pattern", ["flights/*/run*", "flights/*/run1"])
@pytest.mark.parametrize("target, line", [
    ("away", "No such file or directory"), ("wednesday", "Too many levels of symbolic links")])
def test_a_folder_that_cannot_be_looked_into(tmp_path: Path, pattern: str, target: str, line: str) -> None:
    """Checks that recordings in it are not left out; another file there has none."""
    file = campaign(tmp_path, GOOD.replace("flights/*/run*", pattern))
    (tmp_path / "flights/README").touch()
    assert len(tasks_of(read_campaign(file))) == 2
    (tmp_path / "flights/wednesday").symlink_to(target)
    with pytest.raises(Failure) as failure:
        tasks_of(read_campaign(file))
    assert (failure.value.status, failure.value.lines) == (
        5, (f"afdx-campaign: cannot read {tmp_path}/flights/wednesday: {line}",))


@pytest.mark.parametrize("root, own", [("campaign", "campaign"), (".", "kept"), (".", "csv")])
def test_what_a_campaign_keeps_is_no_recording(tmp_path: Path, root: str, own: str) -> None:
    file = campaign(tmp_path, GOOD.replace("flights/*/run*", "*").replace('"campaign"', f'"{root}"'))
    (tmp_path / own).mkdir()
    assert [task.recording.name for task in tasks_of(read_campaign(file))] == ["flights"]


def test_a_table_without_ports(tmp_path: Path) -> None:
    """Checks that the tasks of such a table are of no files: afdx accepts it, and reads no capture."""
    file = campaign(tmp_path)
    (tmp_path / "one.toml").write_text("version = 3\n")
    assert [task.recording.files for task in tasks_of(read_campaign(file))] == [(), ()]


@pytest.mark.parametrize("text", ["{", "[]", '{"root": 1}', '{"recording": [], "table": {}}'])
def test_a_damaged_list_of_tasks(tmp_path: Path, text: str) -> None:
    file = campaign(tmp_path)
    (tmp_path / "campaign").mkdir()
    (tmp_path / "campaign/tasks.jsonl").write_text(f"{text}\n")
    with pytest.raises(Failure) as failure:
        main(["status", str(file)])
    assert (failure.value.status, failure.value.lines) == (5, (
        f"afdx-campaign: no list of tasks, or one of another version: {tmp_path}/campaign/tasks.jsonl: "
        "`afdx-campaign run` lists them",))


def test_a_list_of_tasks_that_is_cut(tmp_path: Path) -> None:
    """Checks one that is cut at the end of a line: fewer tasks would be all of them."""
    file = campaign(tmp_path)
    put_plan(read_campaign(file), tasks_of(read_campaign(file)))
    listed = tmp_path / "campaign/tasks.jsonl"
    for words in (["status"], ["page"], ["again", "--status", "5"]):
        listed.write_text("".join(listed.read_text().splitlines(keepends=True)[:-1]))
        with pytest.raises(Failure) as failure:
            main([words[0], str(file), *words[1:]])
        assert (failure.value.status, failure.value.lines) == (5, (
            f"afdx-campaign: no list of tasks, or one of another version: {listed}: `afdx-campaign run` lists them",))


def test_a_list_of_tasks_is_of_one_campaign_file(tmp_path: Path, capsys: pytest.CaptureFixture[str]) -> None:
    """Checks that another file is refused by all that read the list, and that one that changed is told."""
    file = campaign(tmp_path)
    put_plan(read_campaign(file), tasks_of(read_campaign(file)))
    other = tmp_path / "other.toml"
    other.write_text(file.read_text())
    for words in (["status"], ["page"], ["again", "--status", "5"]):
        with pytest.raises(Failure) as failure:
            main([words[0], str(other), *words[1:]])
        assert (failure.value.status, failure.value.lines) == (5, (
            f"afdx-campaign: the tasks in {tmp_path}/campaign are of {file}: "
            f"`afdx-campaign run` lists those of {other}",))
    assert main(["status", str(file)]) == 0
    file.write_text(file.read_text() + "# a remark\n")
    assert main(["status", str(file)]) == 0
    assert capsys.readouterr().err == (
        f"afdx-campaign: {file} changed since its tasks were listed: `afdx-campaign run` lists them anew\n")


def test_a_campaign_lies_in_any_folder(tmp_path: Path) -> None:
    room = tmp_path / "[2026] a*"
    room.mkdir()
    text = GOOD.replace('["flights/*/run*"]', '["flights/*/run*", "./flights/*/run1/"]')
    tasks = tasks_of(read_campaign(campaign(room, text)))
    assert [(task.recording.name, task.recording.folder) for task in tasks] == [
        (name, str(room / "flights" / name)) for name in ("monday/run1", "tuesday/run1")]


def test_a_found_program_is_of_the_folder_of_the_command(tmp_path: Path, monkeypatch: pytest.MonkeyPatch) -> None:
    file = campaign(tmp_path, GOOD.partition("\n")[2])
    (tmp_path / "elsewhere").mkdir()
    monkeypatch.chdir(tmp_path / "elsewhere")
    monkeypatch.setenv("AFDX", "../afdx")
    assert tasks_of(read_campaign(file))[0].program == str(tmp_path / "afdx")


@pytest.mark.parametrize("identity", ["stat", "content"])
def test_a_recording_that_cannot_be_read_is_in_no_others_way(tmp_path: Path, identity: str) -> None:
    file = campaign(tmp_path, f'identity = "{identity}"\n' + GOOD)
    first = [task.key for task in tasks_of(read_campaign(file))]
    capture = tmp_path / "flights/monday/run1/port-7.pcap"
    capture.unlink()
    capture.symlink_to(capture.name)  # a loop
    second = [task.key for task in tasks_of(read_campaign(file))]
    capture.unlink()
    capture.mkdir()
    third = [task.key for task in tasks_of(read_campaign(file))]
    assert len({first[0], second[0], third[0]}) == 3 and first[1] == second[1] == third[1]


def test_the_key_is_of_what_the_answer_is_a_function_of(tmp_path: Path) -> None:
    file = campaign(tmp_path)

    def keys() -> list[str]:
        return [task.key for task in tasks_of(read_campaign(file))]

    first = keys()
    assert len(set(first)) == 2 and keys() == first
    file.write_text(GOOD + '[limits]\ntries = 9\ntimeout_s = 1\nmemory = 9\n')
    assert keys() == first
    os.utime(tmp_path / "flights/monday/run1/port-7.pcap", ns=(1, 1))
    second = keys()
    assert second[0] != first[0] and second[1] == first[1]
    (tmp_path / "one.toml").write_text(PORTS + "# changed\n")
    assert not set(keys()) & set(second)
    file.write_text('identity = "content"\n' + GOOD)
    third = keys()
    os.utime(tmp_path / "flights/monday/run1/port-7.pcap", ns=(2, 2))
    assert keys() == third
    (tmp_path / "afdx").write_text("#!/bin/sh\n# another program\n")
    assert not set(keys()) & set(third)
    for keep, same in (("none", True), ("all", False)):  # what is kept lies by the table's name
        text = f'ask = "run"\nkeep = "{keep}"\n' + GOOD
        file.write_text(text)
        fourth = keys()
        file.write_text(text.replace('name = "one"', 'name = "two"'))
        assert (keys() == fourth) == same and (same or not set(keys()) & set(fourth))


@pytest.mark.parametrize("line, ask, key, judge", [
    ("", "survey", "", "check"), ('ask = "trace"\n', "trace", "", "check"),
    ('ask = "run"\n', "run", "unchecked = true\n", "size")])
def test_of_a_network_the_captures_of_end_systems_are_read(
        tmp_path: Path, line: str, ask: str, key: str, judge: str) -> None:
    file = campaign(tmp_path, line + GOOD.replace("[[table]]", "[[network]]").replace("one.toml", "net.toml") + key)
    (tmp_path / "net.toml").write_text('[[switch]]\nname = "A"\ntable = "one.toml"\n[[switch]]\nname = "B"\n'
                                       'table = "one.toml"\n[[wire]]\nfrom = "A.7"\nto = "B.1"\n')
    (tmp_path / "afdx").write_text(f"#!/bin/sh\n[ \"$1 $2\" = 'network {judge}' ]\n")
    task = tasks_of(read_campaign(file))[0]
    assert task.recording.files == ("A/port-1.pcap", "A/port-7.pcap", "B/port-7.pcap")
    assert (task.table.switches, task.ask, task.table.unchecked) == (("A", "B"), ask, bool(key))


@pytest.mark.parametrize("pattern, status, line", [
    ("nowhere/*", 3, "no folder is {room}/nowhere/*"),
    ('flights/*/run1", "other/*/run1', 3,
     "two recordings are called monday/run1: {room}/flights/monday/run1 and {room}/other/monday/run1"),
    ("flights/..", 3, "a recording's name leads out of the folder that has its outputs: .."),
    ("odd/*", 3, "a recording's name cannot be printed: 'a\\udcff'")])
def test_patterns_that_name_nothing_or_twice(tmp_path: Path, pattern: str, status: int, line: str) -> None:
    file = campaign(tmp_path, GOOD.replace("flights/*/run*", pattern))
    (tmp_path / "other/monday/run1").mkdir(parents=True)
    os.makedirs(os.fsencode(tmp_path) + b"/odd/a\xff")
    with pytest.raises(Failure) as failure:
        tasks_of(read_campaign(file))
    assert (failure.value.status, failure.value.lines) == (status, (f"afdx-campaign: {line.format(room=tmp_path)}",))


@pytest.mark.parametrize("line, ends, status", [
    ("afdx: load L1 Rate, port 1, need 2, limit 1", "exit 4", 4), ("afdx: table C2 Toml", "exit 3", 4),
    ("afdx: device get one.toml", "exit 5", 5), ("afdx: memory", "exit 5", 5), ("", "kill -KILL $$", 5)])
def test_a_refused_table_ends_it_before_a_recording_is_looked_at(tmp_path: Path, line: str, ends: str,
                                                                 status: int) -> None:
    file = campaign(tmp_path, GOOD.replace("flights/*/run*", "nowhere/*"))
    (tmp_path / "afdx").write_text(f"#!/bin/sh\necho '{line}' >&2; {ends}\n")
    with pytest.raises(Failure) as failure:
        main(["run", str(file)])
    assert failure.value.status == status
    said = line or f"{tmp_path}/afdx ended with 137"
    assert failure.value.lines == (f"afdx-campaign: table one: {said}",)


@pytest.mark.parametrize("engine", ["dask", "local:4", "tcp://127.0.0.1", "udp://127.0.0.1:1"])
def test_unknown_engines(tmp_path: Path, engine: str) -> None:
    with pytest.raises(Failure) as failure:
        main(["run", str(campaign(tmp_path)), "--engine", engine])
    assert failure.value.status == 2
