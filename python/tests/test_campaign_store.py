"""The store and its questions, against pandas over stores that are drawn by chance."""
import gzip
import json
import random
import sqlite3
from collections.abc import Callable
from dataclasses import replace
from pathlib import Path
from typing import Any

import pandas
import pytest

from afdx.campaign.answers import digest, forget
from afdx.campaign.findings import LOST_NAMES, QUESTIONS
from afdx.campaign.worker.rows import rows_of
from afdx.campaign.store import collected, store_file
from afdx.campaign.worker.task import Table, Task
from afdx.campaign.worker.work import answer_at, work_hard
from afdx.failure import Failure
from tests.campaign_samples import HEADING, PASSED, row, task

Rows = list[dict[str, Any]]

HOW = {"seconds": 1.0, "processor": 0.5, "memory": 10, "tries": 1, "host": "h", "at": 0.0}


def put(asked: Task, status: int, text: str, begin: int) -> None:
    """Puts an answer by hand."""
    answer = {"key": asked.key, "status": status, "fault": "capture" if status else "",
              "line": "line" if status else "", "text": text, "begin": begin, "how": HOW}
    asked.answer.parent.mkdir(parents=True, exist_ok=True)
    asked.answer.write_bytes(gzip.compress(json.dumps(answer).encode()))


def drawn(chance: random.Random, about: dict[str, Any], begin: int, found: dict[str, Rows]) -> str:
    """Draws the rows of a run, and adds what is in them by kind."""
    rows = [HEADING]
    for port in (1, 2):
        words = [chance.choice((0, 0, 0, chance.randrange(50))) for _ in range(9)]
        names = ("seen", "cut", "short", "long", "foreign", "no-link", "wrong-port", "too-big", "clean")
        rows.append(row("in", port=port, **dict(zip(names, words))))
        arrived = about | {name.replace("-", "_"): word for name, word in zip(names, words)}
        lost = [chance.choice((0, 0, chance.randrange(9))) for _ in range(4)]
        for priority, (full, aged) in (("high", lost[:2]), ("low", lost[2:])):
            rows.append(row("out", port=port, priority=priority, offered=99, full=full, aged=aged,
                            sent=99 - full - aged))
        rows.append(row("buffer", port=port, occupied=7, buffer=9, at=begin))
        found["ports"].append(arrived | {"full": lost[0] + lost[2], "aged": lost[1] + lost[3]})
    for link in range(10, 14):
        policed = chance.choice((0, 0, chance.randrange(1, 30)))
        rows.append(row("link", link=link, passed=link, policed=policed))
        spells = sorted(chance.sample(range(begin, begin + 1000), chance.randrange(3))) if policed else []
        rows += [row("spell", link=link, policed=2, to=at + 5, least_early=1, greatest_early=3, **{"from": at})
                 for at in spells]
        if policed:
            babbled = about | {"link": link, "policed": policed}
            found["babblers"] += [babbled | {"begin": at} for at in spells] or [babbled | {"begin": None}]
        for port in (1, 2):
            sent = chance.randrange(3)
            greatest = chance.randrange(100, 1000)
            rows.append(row("delays", link=link, port=port, sent=sent, least=100 if sent else "",
                            greatest=greatest if sent else "", bound=1000 + port))
            if sent:
                found["delays"].append(about | {"link": link, "port": port, "sent": sent, "greatest": greatest,
                                                "bound": 1000 + port})
    return "\n".join(rows)


@pytest.fixture(params=range(4))
def campaign(request: pytest.FixtureRequest, tmp_path: Path) -> tuple[Path, list[Task], dict[str, pandas.DataFrame]]:
    """Makes a campaign of two tables, with missing answers and faults; returns it with what is in the others."""
    chance = random.Random(request.param)
    found: dict[str, Rows] = {"ports": [], "babblers": [], "delays": [], "faults": []}
    tasks = []
    for place, name in enumerate(("before", "after")):
        for number in range(12):
            recording = f"r{number}"
            asked = task(tmp_path / name, name=recording, root=str(tmp_path / "root"),
                         table=Table(name, (), (), False, name))
            tasks.append(asked)
            about = {"table": name, "recording": recording}
            kind = chance.choice(("answer", "answer", "answer", "fault", "missing"))
            if kind == "answer":
                put(asked, 0, drawn(chance, about, 1000 * number, found), 1000 * number)
            elif kind == "fault":
                put(asked, 3, "", 1000 * number)
                found["faults"].append(about)
    return tmp_path / "root", tasks, {name: pandas.DataFrame(rows) for name, rows in found.items()}


def asked_of(base: sqlite3.Connection, name: str) -> pandas.DataFrame:
    """Asks a question."""
    question = next(question for question in QUESTIONS if question.name == name)
    return pandas.DataFrame(question.ask(base), columns=list(question.heads))


Campaign = tuple[Path, list[Task], dict[str, pandas.DataFrame]]


def test_questions_against_pandas(campaign: Campaign) -> None:
    root, tasks, found = campaign
    with collected(root, tasks) as base:
        check_worst(asked_of(base, "worst"), found["delays"])
        check_slack(asked_of(base, "slack"), found["delays"])
        check_compare(asked_of(base, "compare"), found["delays"])
        check_lost(asked_of(base, "lost"), found["ports"])
        columns = ["table", "link", "recording", "policed", "begin"]
        assert rows(asked_of(base, "babblers")[columns]) == rows(found["babblers"][columns])
        faults = asked_of(base, "faults")
        assert rows(faults[["table", "recording"]]) == rows(found["faults"])
        assert set(faults["status"]) <= {3} and set(faults["line"]) <= {"line"}


def rows(frame: pandas.DataFrame) -> list[tuple[Any, ...]]:
    """Returns the rows in an order of their own; a gap is none."""
    return sorted(map(tuple, frame.astype(object).where(frame.notna(), None).values.tolist()), key=repr)


def check_worst(said: pandas.DataFrame, delays: pandas.DataFrame) -> None:
    """Compares the greatest delay of each link and port, and a recording that has it."""
    key = ["table", "link", "port"]
    wanted = delays.groupby(key).agg({"sent": "sum", "greatest": "max", "bound": "max"}).reset_index()
    assert rows(said[[*key, "sent", "greatest", "bound"]]) == rows(wanted)
    has = said.merge(delays, on=[*key, "recording", "greatest"])
    assert len(has) == len(said)
    assert (said["share"] == said["greatest"] / said["bound"]).all()


def check_slack(said: pandas.DataFrame, delays: pandas.DataFrame) -> None:
    """Compares how many greatest delays took which part of their bounds."""
    percent = 100 * delays["greatest"] / delays["bound"]
    wanted = delays.assign(from_percent=(percent // 2 * 2).astype(int)).groupby(["table", "from_percent"]).size()
    assert rows(said[["table", "from_percent", "links_and_ports"]]) == rows(wanted.reset_index())


def check_compare(said: pandas.DataFrame, delays: pandas.DataFrame) -> None:
    """Compares one table against the other, over the recordings that both have."""
    key = ["link", "port", "recording"]
    before, after = (delays[delays["table"] == name].set_index(key) for name in ("before", "after"))
    both = before.join(after, how="inner", lsuffix="_before", rsuffix="_after").reset_index()
    both["greater_in"] = both["greatest_after"] > both["greatest_before"]
    both["less_in"] = both["greatest_after"] < both["greatest_before"]
    wanted = both.groupby(["link", "port"]).agg(
        recordings=("recording", "size"), greatest_before=("greatest_before", "max"),
        greatest_after=("greatest_after", "max"), greater_in=("greater_in", "sum"), less_in=("less_in", "sum"))
    assert rows(said[["link", "port", *wanted.columns]]) == rows(wanted.reset_index())
    assert (said["change"] == said["greatest_after"] - said["greatest_before"]).all()


def check_lost(said: pandas.DataFrame, ports: pandas.DataFrame) -> None:
    """Compares what was lost or filtered in each recording."""
    sums = ports.groupby(["table", "recording"])[list(LOST_NAMES)].sum().reset_index()
    assert rows(said) == rows(sums[sums[list(LOST_NAMES)].sum(axis=1) > 0])


def test_the_store_is_of_the_answers_alone(campaign: Campaign) -> None:
    root, tasks, _ = campaign
    half = [asked for place, asked in enumerate(tasks) if place % 2]
    with collected(root, half):
        pass
    with collected(root, tasks) as base:
        grown = contents(base)
    store_file(root).unlink()
    with collected(root, tasks) as base:
        assert contents(base) == grown
    store_file(root).write_bytes(b"no store at all" * 100)
    with collected(root, tasks) as base:
        assert contents(base) == grown
    assert forget(root, tasks, 3) == sum(1 for table, *_, status in grown if table == "runs" and status == 3)
    with collected(root, tasks) as base:
        assert base.execute("select count(*) from faults").fetchone() == (0,)


def contents(base: sqlite3.Connection) -> list[tuple[Any, ...]]:
    """Returns all rows, with the names of runs for their numbers."""
    found: list[tuple[Any, ...]] = []
    for table in ("links", "ports", "delays", "spells", "faults"):
        found += [(table, *row) for row in base.execute(
            f'select "table", recording, {table}.* from {table} join runs on runs.id = run')]
    found = [(*row[:3], *row[4:]) for row in found]  # without the number of the run
    found += [("runs", *row) for row in base.execute('select "table", recording, begin, status from runs')]
    return sorted(found, key=repr)


def test_sums_beyond_the_room_for_a_number(tmp_path: Path) -> None:
    """Checks that such numbers of two recordings are in no others' way: no sum of them is an error."""
    most = 2**63 - 1
    tasks = [task(tmp_path, name=f"r{number}") for number in range(3)]
    text = "\n".join((HEADING, row("delays", link=10, port=2, sent=most, least=1, greatest=most, bound=most), *(
        row(kind, port=1, **dict.fromkeys(words, most)) for kind, words in (
            ("in", ("seen", "cut", "short", "long", "foreign", "no-link", "wrong-port", "too-big", "clean")),
            ("buffer", ("occupied", "buffer", "at")))), *(
        row("out", port=1, priority=word, offered=most, full=most, aged=most, sent=most) for word in ("high", "low"))))
    for asked, said in zip(tasks, (text, text, f"{HEADING}\n{PASSED}")):
        put(asked, 0, said, 0)
    with collected(Path(tasks[0].root), tasks) as base:
        assert all(isinstance(question.ask(base), list) for question in QUESTIONS)
        assert len(asked_of(base, "lost")) == 2 and asked_of(base, "worst")["greatest"][0] == most


def test_rows_of_a_network_name_their_switch() -> None:
    read = rows_of("switch,kind,port,link,priority,passed,policed,offered,full,aged,sent,from,to,least,greatest,"
                   "least_bound,bound,occupied,buffer,at,first,last,least_early,greatest_early\n"
                   "A,link,,10,,3,1,,,,,,,,,,,,,,,,,\nB,out,2,,high,,,4,1,0,3,,,,,,,,,,,,,\n"
                   ",way,,10,,,,,,,3,A.1,B-2.11,100,200,90,1000,,,,,,,\n,way,,11,,,,,,,0,,A.3,,,,,,,,,,,\n"
                   "B,buffer,2,,,,,,,,,,,,,,,64,100,7,,,,\nA,spell,,10,,,1,,,,,,,,,,,,,,2000,2500,500,700\n"
                   "A,span,,,,,,,,,,,,,,,,,,,1000,2500,,")
    assert read.links == [("A", 10, 3, 1)]
    assert read.ports[("B", 2)][9:13] == [4, 1, 0, 3]
    assert read.ports[("B", 2)][-3:] == [64, 100, 7]
    assert read.delays == [("B-2", 10, 11, 3, 100, 200, 1000), ("A", 11, 3, 0, None, None, None)]
    assert read.spells == [("A", 10, 2000, 2500, 1, 500, 700)]


def of_table(asked: Task, name: str, identity: str) -> Task:
    """Returns the task under another table."""
    return replace(asked, table=Table(name, (), (), False, identity))


def worst_bounds(root: Path, tasks: list[Task]) -> set[tuple[str, int]]:
    """Returns each table's name with the bounds that the store has under it."""
    with collected(root, tasks) as base:
        return set(base.execute('select tables.name, bound from delays join runs on runs.id = run '
                                'join tables on tables.id = runs."table"'))


def test_answers_follow_their_tables_to_other_names(tmp_path: Path) -> None:
    asked = task(tmp_path)
    first, second, third = (of_table(asked, "", identity) for identity in ("41", "42", "43"))
    for number, one in enumerate((first, second, third), 41):
        put(one, 0, "\n".join((HEADING, row("delays", link=1, port=1, sent=1, least=1, greatest=1, bound=number))), 0)
    root = Path(asked.root)
    for before, after in ((41, 42), (42, 43), (43, 42), (42, 42), (41, 42)):
        tasks = [of_table(asked, "before", str(before)), of_table(asked, "after", str(after))]
        assert worst_bounds(root, tasks) == {("before", before), ("after", after)}


def test_a_fault_of_a_file_whose_name_is_no_utf_8(tmp_path: Path) -> None:
    room = tmp_path / "a\udcff"
    room.mkdir()
    asked = task(room, "echo \"afdx: device get $folder/port-1.pcap\" >&2; exit 3", tries=1)
    work_hard(asked)
    with collected(Path(asked.root), [asked]) as base:
        assert base.execute("select line from faults").fetchall() == [
            (f"afdx: device get {tmp_path}/a\ufffd/recordings/r1/port-1.pcap",)]


def test_a_damaged_store_is_named(tmp_path: Path) -> None:
    asked = task(tmp_path)
    put(asked, 0, HEADING, 0)
    root = Path(asked.root)
    with collected(root, [asked]):
        pass
    size = store_file(root).stat().st_size
    with open(store_file(root), "r+b") as file:
        file.seek(4096)  # after its first page
        file.write(b"\xff" * (size - 4096))
    with pytest.raises(Failure) as failure:
        with collected(root, [asked]):
            pass
    said = f"afdx-campaign: {store_file(root)} is damaged: remove it, and `page` makes it again"
    assert (failure.value.status, failure.value.lines) == (5, (said,))


@pytest.mark.parametrize("text", [b"", b"no gzip", gzip.compress(b"{}" * 99)[:-9], gzip.compress(b"{"),
                                  gzip.compress(b"{}"), gzip.compress(b"[]"), gzip.compress(b"[" * 99999)])
def test_a_damaged_answer_is_named(tmp_path: Path, text: bytes) -> None:
    asked = task(tmp_path)
    asked.answer.parent.mkdir(parents=True)
    asked.answer.write_bytes(text)
    with pytest.raises(OSError) as error:
        digest(Path(asked.root), [asked])
    assert error.value.strerror == "damaged: remove it, and `run` asks again"
    assert error.value.filename == str(asked.answer)


@pytest.mark.parametrize("field, value", [
    ("key", "0" * 64), ("status", "0"), ("text", None), ("how", {"at": 0.0}), ("begin", 2**63), ("status", -2**63),
    ("how", HOW | {"seconds": 2**63}), ("how", HOW | {"at": float("nan")})])
def test_an_answer_of_other_fields_is_damaged(tmp_path: Path, field: str, value: object) -> None:
    asked = task(tmp_path)
    put(asked, 0, "", 0)
    assert answer_at(asked.answer)["status"] == 0
    answer = json.loads(gzip.decompress(asked.answer.read_bytes())) | {field: value}
    asked.answer.write_bytes(gzip.compress(json.dumps(answer).encode()))
    with pytest.raises(OSError) as error:
        answer_at(asked.answer)
    assert error.value.strerror == "damaged: remove it, and `run` asks again"


@pytest.mark.parametrize("text", ["", "kind,link\nlink,1\n", *(
    f"kind,link,passed,policed\nlink,{fields}\n" for fields in ("abc,1,0", f"1,{2**63},0", "1,1,0\nlink,1,1,0"))])
def test_rows_that_no_program_prints_are_named(tmp_path: Path, text: str) -> None:
    asked = task(tmp_path)
    put(asked, 0, text, 0)
    with pytest.raises(OSError) as error:
        with collected(Path(asked.root), [asked]):
            pass
    assert error.value.strerror == "has rows that no afdx prints: remove it, and `run` asks again"
    assert error.value.filename == str(asked.answer)


@pytest.mark.parametrize("forgets", [lambda asked: forget(Path(asked.root), [asked], 3),
                                     lambda asked: asked.answer.unlink()])
def test_a_new_answer_takes_the_place_of_one_that_was_forgotten(tmp_path: Path,
                                                                forgets: Callable[[Task], object]) -> None:
    """Checks it without a look into the store in between, of tables that share the answer too."""
    asked = task(tmp_path)
    root = Path(asked.root)
    tasks = [asked, of_table(asked, "other", asked.table.identity)]
    put(asked, 3, "", 0)
    with collected(root, tasks) as base:
        assert base.execute("select count(*) from faults").fetchone() == (2,)
    forgets(asked)
    put(asked, 0, f"{HEADING}\n{PASSED}", 7)
    with collected(root, tasks) as base:
        assert base.execute("select count(*) from faults").fetchone() == (0,)
        assert base.execute("select status, begin from runs").fetchall() == [(0, 7), (0, 7)]
        assert base.execute("select count(*) from links").fetchone() == (2,)
        changes = base.total_changes
    with collected(root, tasks) as base:
        assert base.total_changes <= changes and base.execute("select count(*) from links").fetchone() == (2,)


def test_the_digest_is_of_the_names_that_tables_have_now(tmp_path: Path) -> None:
    asked = task(tmp_path)
    put(asked, 0, "", 0)
    root = Path(asked.root)
    one, other = (of_table(asked, name, asked.table.identity) for name in ("one", "other"))
    assert digest(root, [one]) != digest(root, [other])
    assert digest(root, [one, other]) == digest(root, [other, one])
    assert forget(root, [one, other], 0) == 1
