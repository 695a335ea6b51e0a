"""Answers of the program to a run of a network of two switches, written by hand.

Link 10 comes in at A.1, and goes over the wire from A.2 to B.1 to B.2; A polices one of its frames. Link 11 comes in at
B.3 and goes back, over the wire from B.1 to A.2, to A.1. Link 12 comes in at B.3 too and leaves at B.2.
"""
from dataclasses import replace
from pathlib import Path

import pytest

from afdx.program import Progress
from afdx.view.answers import Answers
from afdx.view.network import run
from afdx.view.network.answers import NetworkAnswers, SizedNetwork, sizes_of
from afdx.view.network.layout import Layout, Port, Wire
from afdx.view.network.run import NetworkRun
from afdx.view.table import Link, Table

FIRST = 1_768_471_200_000_000_000
WIRES = [Wire(Port("A", 2), Port("B", 1), 100), Wire(Port("B", 1), Port("A", 2), 0)]
LAYOUT = Layout({"A": Path("a.toml"), "B": Path("b.toml")}, WIRES)
TABLES = {"A": Table(0, [1, 2], {10: Link(1_000_000, "high"), 11: Link(2_000_000, "low")}),
          "B": Table(0, [1, 2, 3], {10: Link(1_000_000, "low"), 11: Link(2_000_000, "low"),
                                    12: Link(2_000_000, "high")})}
CHECK = """link,from,to,ways,least,most,jitter
10,A.1,B.2,A.2;B.2,200,1000,0;1
11,B.3,A.1,B.1;A.1,200,500,0;2
12,B.3,B.2,B.2,100,400,0
"""
SIZE = """switch,port,rate,rate_limit,buffer,buffer_limit,high,high_limit,low,low_limit,breaks
A,1,20,200,100,200,,,250,1000,
A,2,50,200,100,200,250,1000,,,
B,1,20,200,100,200,,,250,1000,
B,2,190,200,100,200,250,1000,900,1000,
"""
REPORT = """switch,kind,port,link,priority,seen,cut,short,long,foreign,no-link,wrong-port,too-big,clean,\
passed,policed,offered,full,aged,sent
A,in,1,,,3,0,0,0,0,0,0,0,3,,,,,,
A,in,2,,,1,0,0,0,0,0,0,0,1,,,,,,
A,link,,10,,,,,,,,,,,2,1,,,,
A,link,,11,,,,,,,,,,,1,0,,,,
A,out,1,,high,,,,,,,,,,,,0,0,0,0
A,out,1,,low,,,,,,,,,,,,1,0,0,1
A,out,2,,high,,,,,,,,,,,,2,0,0,2
A,out,2,,low,,,,,,,,,,,,0,0,0,0
B,in,1,,,2,0,0,0,0,0,0,0,2,,,,,,
B,in,2,,,0,0,0,0,0,0,0,0,0,,,,,,
B,in,3,,,3,0,0,0,1,0,0,0,2,,,,,,
B,link,,10,,,,,,,,,,,2,0,,,,
B,link,,11,,,,,,,,,,,1,0,,,,
B,link,,12,,,,,,,,,,,1,0,,,,
B,out,1,,high,,,,,,,,,,,,0,0,0,0
B,out,1,,low,,,,,,,,,,,,1,0,0,1
B,out,2,,high,,,,,,,,,,,,1,0,0,1
B,out,2,,low,,,,,,,,,,,,2,0,0,2
B,out,3,,high,,,,,,,,,,,,0,0,0,0
B,out,3,,low,,,,,,,,,,,,0,0,0,0
"""
Came = tuple[int, int, int, int | str, str, str]  # port, record, stamp, link, fate, early
Left = tuple[int, int, int, int, str, int, int]  # port, record, frame, link, priority, came, left
# of each switch what measure and trace say; stamps are given after FIRST
MEASURED = {
    "A": """kind,link,port,sent,least,greatest,bound,slack,slack_per_mille,occupied,buffer,at
delays,10,2,2,200,210,250,40,160,,,
delays,11,1,1,100,100,250,150,600,,,
buffer,,1,,,,,,,64,200,1768471200000005200
buffer,,2,,,,,,,64,200,1768471200000000000
""",
    "B": """kind,link,port,sent,least,greatest,bound,slack,slack_per_mille,occupied,buffer,at
delays,10,2,2,300,310,900,590,655,,,
delays,11,1,1,200,200,250,50,200,,,
delays,12,2,1,100,100,250,150,600,,,
buffer,,1,,,,,,,64,200,1768471200000005000
buffer,,2,,,,,,,128,200,1768471200000000300
"""}
ARRIVALS: dict[str, list[Came]] = {
    "A": [(1, 1, 0, 10, "passed", ""), (1, 2, 400, 10, "policed", "999600"), (2, 1, 5200, 11, "passed", ""),
          (1, 3, 1_000_000, 10, "passed", "")],
    "B": [(1, 1, 300, 10, "passed", ""), (3, 1, 400, 12, "passed", ""), (3, 2, 450, "", "foreign", ""),
          (3, 3, 5000, 11, "passed", ""), (1, 2, 1_000_310, 10, "passed", "")]}
DEPARTURES: dict[str, list[Left]] = {
    "A": [(1, 1, 2, 11, "low", 5200, 5300), (2, 1, 0, 10, "high", 0, 200), (2, 2, 3, 10, "high", 1_000_000, 1_000_210)],
    "B": [(1, 1, 3, 11, "low", 5000, 5200), (2, 1, 1, 12, "high", 400, 500), (2, 2, 0, 10, "low", 300, 610),
          (2, 3, 4, 10, "low", 1_000_310, 1_000_610)]}


# The same in an outage of the wire from A.2 to B.1: of link 10 nothing comes to B.
CUT_LAYOUT = Layout(LAYOUT.tables, [replace(WIRES[0], down=True), WIRES[1]])
CUT_CHECK = """link,from,to,ways,least,most,jitter
11,B.3,A.1,B.1;A.1,200,500,0;2
12,B.3,B.2,B.2,100,400,0
10,,B.2,,,,
"""
CUT_REPORT = REPORT.replace("B,in,1,,,2", "B,in,1,,,0").replace(
    "B,link,,10,,,,,,,,,,,2", "B,link,,10,,,,,,,,,,,0").replace(
    "B,out,2,,low,,,,,,,,,,,,2,0,0,2", "B,out,2,,low,,,,,,,,,,,,0,0,0,0")
CUT_MEASURED = MEASURED | {"B": MEASURED["B"].replace("10,2,2,300,310,900,590,655", "10,2,0,,,900,,")}
CUT_ARRIVALS = ARRIVALS | {"B": [row for row in ARRIVALS["B"] if row[0] == 3]}
CUT_DEPARTURES = DEPARTURES | {"B": [(1, 1, 2, 11, "low", 5000, 5200), (2, 1, 0, 12, "high", 400, 500)]}


def cut(monkeypatch: pytest.MonkeyPatch) -> SizedNetwork:
    """Has the answers be those of the outage."""
    for name in ("LAYOUT", "CHECK", "REPORT", "MEASURED", "ARRIVALS", "DEPARTURES"):
        monkeypatch.setitem(globals(), name, globals()[f"CUT_{name}"])
    return asked(said=CUT_CHECK)


def arrivals_of(switch: str) -> str:
    rows = [f"{frame},{port},{record},{FIRST + at},64,{link},{fate},{early},"
            for frame, (port, record, at, link, fate, early) in enumerate(ARRIVALS[switch])]
    return "\n".join(["frame,port,record,stamp,size,link,fate,early,full", *rows, ""])


def departures_of(switch: str) -> str:
    rows = [f"{port},{record},{frame},{link},{priority},64,{FIRST + came},0,{FIRST + left},{left - came},sent"
            for port, record, frame, link, priority, came, left in DEPARTURES[switch]]
    return "\n".join(["port,record,frame,link,priority,size,came,start,left,delay,outcome", *rows, ""])


def asked(checked: bool = True, said: str = CHECK, refused: tuple[str, ...] = (),
          premises: tuple[str, ...] = ()) -> SizedNetwork:
    return SizedNetwork("net.toml", checked, said, list(refused), list(premises), sizes_of(SIZE), LAYOUT, TABLES)


def answers(folder: Path) -> NetworkAnswers:
    """Puts the files of `trace` into the folder."""
    switches = {}
    for switch in TABLES:
        own = folder / switch
        own.mkdir()
        (own / "arrivals.csv").write_text(arrivals_of(switch))
        (own / "departures.csv").write_text(departures_of(switch))
        switches[switch] = Answers(asked().sizes[switch], MEASURED[switch], own)
    return NetworkAnswers(REPORT, switches)


def read(folder: Path, what: SizedNetwork | None = None) -> NetworkRun:
    """Reads the answers that are put into the folder."""
    return run.read(what or asked(), answers(folder), Progress("test"))
