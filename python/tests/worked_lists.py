"""Writes small lists of a network, for tests: three switches in a triangle."""
from pathlib import Path

#   A1, A2 - A --20----20- B - B1
#             \22        /21
#              \22-- C 21
#                    C1, C2
ENDS = """\
name,switch,port,mbit
A1,A,1,100
A2,A,2,10
B1,B,1,100
C1,C,1,100
C2,C,8,100
"""
WIRES = """\
switch_a,port_a,switch_b,port_b,mbit,delay_ns
A,20,B,20,1000,50
B,21,C,21,1000,
A,22,C,22,100,25
"""
LINKS = """\
id,name,from,to,bag_ms,jitter_us,max_size,udp_payload,priority,police,via
10,positions,A1,B1|C1,2,40,200,,high,,
11,attitude,A1,"C1, C2",4,0,,33,low,frame,B
12,,C2,A2,128,1000,1518,,L,,
13,local,A1,A2,8,0,64,17,H,byte,
"""


def write(folder: Path, links: str = LINKS, ends: str = ENDS, wires: str = WIRES) -> list[Path]:
    """Writes three lists; returns their paths, as a command takes them."""
    paths = [folder / name for name in ("icd.csv", "ends.csv", "wires.csv")]
    for path, text in zip(paths, (links, ends, wires)):
        path.write_text(text, encoding="utf-8")
    return paths
