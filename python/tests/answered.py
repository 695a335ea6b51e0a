"""Answers of the program to a small run, written by hand.

There are two ports. Link 10 is high, with a gap of 1 ms, and goes to port 2; link 11 is low, with a gap of 2 ms, and
goes to both ports. The switch takes 5 us. Two frames of link 10 are policed, 1.5 ms apart; a copy of link 11 finds the
buffer of port 1 full, and another is discarded at port 2.
"""
from pathlib import Path

from afdx.program import Progress
from afdx.view import run
from afdx.view.answers import Answers, Compared
from afdx.view.run import Run
from afdx.view.table import Link, Table

FIRST = 1_768_471_200_000_000_000
TABLE = Table(5_000, [1, 2], {10: Link(1_000_000, "high"), 11: Link(2_000_000, "low")})
SIZE = """port,rate,rate_limit,buffer,buffer_limit,high,high_limit,low,low_limit,breaks
1,10,2048000000,100,200,,,500,1000,
2,20,2048000000,300,200,250,1000,1000,900,L2;L4
"""
MEASURED = """kind,link,port,sent,least,greatest,bound,slack,slack_per_mille,occupied,buffer,at
delays,10,2,2,200,240,250,10,40,,,
delays,11,1,1,300,300,500,200,400,,,
delays,11,2,1,400,400,1000,600,600,,,
buffer,,1,,,,,,,0,200,
buffer,,2,,,,,,,150,200,1768471200002000000
"""
NOTHING_LEFT = """kind,link,port,sent,least,greatest,bound,slack,slack_per_mille,occupied,buffer,at
delays,10,2,0,,,250,,,,,
delays,11,1,0,,,500,,,,,
delays,11,2,0,,,1000,,,,,
buffer,,1,,,,,,,0,200,
buffer,,2,,,,,,,0,200,
"""
ARRIVALS = """frame,port,record,stamp,size,link,fate,early,full
0,1,1,1768471200000000000,64,10,passed,,
1,1,2,1768471200000000400,64,10,policed,999600,
2,1,3,1768471200000000500,64,,foreign,,
3,1,4,1768471200001500400,64,10,policed,100,
4,2,1,1768471200002000000,64,11,passed,,1
5,1,5,1768471200003000000,64,10,passed,,
6,2,2,1768471200004000000,64,11,passed,,
"""
DEPARTURES = """port,record,frame,link,priority,size,came,start,left,delay,outcome
1,1,6,11,low,64,1768471200004005000,0,0,300,sent
2,1,0,10,high,64,1768471200000005000,0,0,200,sent
2,2,4,11,low,64,1768471200002005000,0,0,400,sent
2,3,5,10,high,64,1768471200003005000,0,0,240,sent
2,,6,11,low,64,1768471200004005000,0,,,aged
"""


def put_answers(folder: Path, size: str = SIZE, measured: str = MEASURED, arrivals: str = ARRIVALS,
                departures: str = DEPARTURES) -> None:
    texts = {"size.csv": size, "measure.csv": measured, "arrivals.csv": arrivals, "departures.csv": departures}
    for name, text in texts.items():
        (folder / name).write_text(text)


def read(folder: Path, table: Table = TABLE, checked: bool = True, compared: Compared | None = None) -> Run:
    """Reads the answers that the folder has."""
    size, measured = ((folder / name).read_text() for name in ("size.csv", "measure.csv"))
    return run.read(Answers(size, measured, folder, compared), table, checked, Progress("test"))
