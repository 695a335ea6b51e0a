"""Makes tasks over a stand-in for afdx, which does what each recording's file `act` says."""
import time
from dataclasses import replace
from pathlib import Path
from typing import Any

from afdx.campaign.worker.task import Recording, Table, Task, content_of, identity_of, table_identity
from captures import HEADER

PATIENCE = 120  # seconds, on a busy machine too
STAND_IN = """#!/bin/sh
# check TABLE, or survey|run|trace TABLE IN [OUT], or after the word network the same of a network file
[ "$1" != network ] || { of=network && shift; }
command=$1 folder=$3 out=$4
[ "$1" = check ] || . "$folder/act"
"""
COLUMNS = ("kind,port,link,priority,seen,cut,short,long,foreign,no-link,wrong-port,too-big,clean,passed,policed,"
           "offered,full,aged,sent,least,greatest,bound,slack,slack_per_mille,occupied,buffer,at,from,to,least_early,"
           "greatest_early,frames").split(",")


def row(kind: str, **fields: object) -> str:
    """Writes a row of `survey`; a column whose name has a dash has `_` in its place here."""
    given = {name.replace("_", "-"): value for name, value in fields.items()} | fields | {"kind": kind}
    return ",".join(str(given.get(column, "")) for column in COLUMNS)


HEADING = ",".join(COLUMNS)
SEEN = row("in", port=1, seen=4, cut=0, short=1, long=0, foreign=0, no_link=0, wrong_port=0, too_big=0, clean=3)
PASSED = row("link", link=10, passed=3, policed=0)
LEFT = "\n".join(row("out", port=1, priority=word, offered=0, full=0, aged=0, sent=0) for word in ("high", "low"))
DELAYS = row("delays", link=10, port=2, sent=3, least=100, greatest=200, bound=1000, slack=800, slack_per_mille=800)
SPAN = row("span", to=2500, frames=3, **{"from": 1000})
QUIET = f"""case $command in
survey|run) echo "{HEADING}"
            echo "{SEEN}"
            echo "{PASSED}"
            echo "{LEFT}" ;;
esac
[ "$command" != survey ] || {{
    echo "{DELAYS}"
    echo "{SPAN}"
}}
"""

GOOD = """program = "./afdx"
recordings = ["flights/*/run*"]
root = "campaign"
[[table]]
name = "one"
file = "one.toml"
"""
PORTS = "[[port]]\nid = 1\n[[port]]\nid = 7\n"


def campaign(room: Path, text: str = GOOD) -> Path:
    """Makes a campaign file beside a stand-in for afdx, a table and two recordings."""
    (room / "afdx").write_text(STAND_IN)
    (room / "afdx").chmod(0o755)
    (room / "one.toml").write_text(PORTS)
    for name in ("monday/run1", "tuesday/run1"):
        folder = room / "flights" / name
        folder.mkdir(parents=True)
        for port in (1, 7):
            (folder / f"port-{port}.pcap").write_bytes(bytes(24))
    (room / "campaign.toml").write_text(text)
    return room / "campaign.toml"


def recording(room: Path, name: str, act: str) -> Recording:
    """Makes a recording of two captures under which the stand-in acts so."""
    folder = room / "recordings" / name
    folder.mkdir(parents=True)
    files = ("port-1.pcap", "port-2.pcap")
    for file in files:
        (folder / file).write_bytes(HEADER)
    (folder / "act").write_text(act)
    return Recording(name, str(folder), files, 48, False, identity_of(name, str(folder), files, False))


def task(room: Path, act: str = QUIET, name: str = "r1", **changes: Any) -> Task:
    """Makes a task in a folder of its own."""
    program, table = room / "afdx", room / "table.toml"
    if not program.exists():
        room.mkdir(exist_ok=True)
        program.write_text(STAND_IN)
        program.chmod(0o755)
        table.write_text("[[link]]\nid = 10\nbag_ms = 1\n")
    made = Task(
        root=str(room / "campaign"), program=str(program), program_identity=content_of(program),
        recording=recording(room, name, act), table=Table("t", (str(table),), (), False, table_identity((str(table),))),
        ask="survey", keep="none", scratch=str(room / "scratch"), tries=2, timeout=PATIENCE, memory=64 << 20)
    return replace(made, **changes)


def await_number(path: Path) -> int:
    """Waits for the number that a process writes into a file."""
    deadline = time.monotonic() + PATIENCE
    while not path.exists() or not path.read_text().endswith("\n"):
        assert time.monotonic() < deadline
        time.sleep(0.01)
    return int(path.read_text())


def ends(pid: int) -> bool:
    """Returns whether a process ends within some seconds."""
    deadline = time.monotonic() + PATIENCE
    while is_running(pid) and time.monotonic() < deadline:
        time.sleep(0.01)
    return not is_running(pid)


def is_running(pid: int) -> bool:
    """Returns whether a process is there that has not ended."""
    try:
        return Path(f"/proc/{pid}/stat").read_text().rpartition(")")[2].split()[0] not in "ZX"
    except FileNotFoundError:
        return False
