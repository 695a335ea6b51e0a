"""What compare answers of recordings of the small run of `answered`, written by hand.

At port 2 a frame of link 10 is missing, a record of link 11 is late and one is of no link. The recorder there was
1000 ns ahead. At port 1 a record of link 11 is of no frame that was passed.
"""
from pathlib import Path

SAID = """kind,link,port,passed,seen,missing,extra,early,late,before,after,unsure,least,greatest,bound,slack,\
slack_per_mille,foreign,from,until,verdict
span,,,,,,,,,,,,,,,,,,1768471200000000000,1768471200004000500,
link,10,2,2,1,1,0,0,0,0,0,1,210,210,280,70,250,,,,
link,11,1,1,2,0,1,0,0,1,1,2,,,600,,,,,,
link,11,2,2,2,0,0,0,1,0,0,2,410,1300,1200,-100,-84,,,,
out,,1,,2,,,,,,,,,,,,,0,,,
out,,2,,4,,,,,,,,,,,,,1,,,
verdict,,,,,,,,,,,,,,,,,,,,differs
"""
ROWS = """port,link,kind,record_in,stamp_in,record_out,stamp_out,delay,bound
1,11,extra,,,2,1768471200003000000,,
2,10,missing,1,1768471200000000000,,,,280
2,,foreign,,,2,1768471200001001000,,
2,11,late,1,1768471200002000000,3,1768471200002002300,1300,1200
"""
OPTIONS = ["--offset=2=-1000"]
CONFORMS = (SAID.replace("10,2,2,1,1,0,0,0,", "10,2,2,1,0,0,0,0,").replace("11,1,1,2,0,1,0,0,", "11,1,1,2,0,0,0,0,")
            .replace("11,2,2,2,0,0,0,1,", "11,2,2,2,0,0,0,0,").replace(",1,,,\nverdict", ",0,,,\nverdict")
            .replace("differs", "conforms"))
NOTHING = (CONFORMS.replace("10,2,2,1,", "10,2,2,0,").replace("11,1,1,2,0,0,0,0,1,", "11,1,1,0,0,0,0,0,0,")
           .replace("11,2,2,2,", "11,2,2,0,").replace("out,,1,,2", "out,,1,,0"))


def put(folder: Path, said: str = SAID, rows: str = ROWS) -> None:
    (folder / "compare.csv").write_text(said)
    (folder / "differences.csv").write_text(rows)
