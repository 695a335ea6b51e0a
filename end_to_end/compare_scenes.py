#!/usr/bin/env python3
"""Recordings of a switch with a fault of each kind, and what was worked out of them by hand: the lines, and the rows of differences.csv.

Links 9 and 7 lead from ports 3 and 1 to port 2, with a frame of 64 bytes in each millisecond and no jitter. Such a frame takes 6720 ns on
the line, and both at once take 13,440, which is the bound. A letter fills a frame; a small one also gives it another constant field. The
sixth recording has a table of its own. Run as a script with a program or the model, it says what of their answers differs.
"""
import argparse
import subprocess
import sys
import tempfile
from dataclasses import dataclass
from pathlib import Path

from captures import HEADER, frame, record

PORT = "[[port]]\nid = {}\nmbit = 100\nbuffer = 100000\nmax_delay_us = 500000\n"
LINK = '[[link]]\nid = {}\nfrom = {}\nto = [2]\nbag_ms = 1\njitter_us = 0\nmax_size = 64\npriority = "low"\n'
TABLE = "version = 1\n" + "".join(PORT.format(port) for port in (1, 2, 3)) + LINK.format(9, 3) + LINK.format(7, 1)
# Link 7 leads from port 1 to a fast port and to a slow one, whose gap of 12 bytes takes 9600 ns.
LINES = "version = 3\n" + "".join(
    f"[[port]]\nid = {port}\nmbit = {mbit}\nbuffer = 100000\nmax_delay_us = 500000\n" for port, mbit in ((1, 1000), (2, 1000), (3, 10))
) + LINK.format(7, 1).replace("[2]", "[2, 3]").replace("jitter_us = 0", "jitter_us = 1000")
HEADING = "port,link,kind,record_in,stamp_in,record_out,stamp_out,delay,bound"
# A stamp, a link, and the letter that fills the frame.
Sight = tuple[int, int, str]


@dataclass(frozen=True)
class Scene:
    name: str
    came: dict[int, list[Sight]]  # by port
    left: dict[int, list[Sight]]
    options: list[str]
    lines: list[str]
    rows: list[str]
    table: str = TABLE

    def write(self, folder: Path) -> None:
        """Writes the table and the captures of what came and of what left."""
        (folder / "table.toml").write_text(self.table, encoding="utf-8")
        for name, captures in (("in", self.came), ("out", self.left)):
            (folder / name).mkdir()
            for port in (1, 2, 3):
                (folder / name / f"port-{port}.pcap").write_bytes(capture(captures.get(port, [])))

    def words(self, folder: Path) -> list[str]:
        return [f"{folder}/table.toml", f"{folder}/in", f"{folder}/out", *self.options, "--rows", str(folder)]


def capture(sights: list[Sight]) -> bytes:
    return HEADER + b"".join(record(stamp, frame(link, 64, constant_of(letter), fill=letter.encode())) for stamp, link, letter in sights)


def constant_of(letter: str) -> str:
    """Returns the constant field of a frame, or the first bytes of the address to which LLDP sends."""
    return "0180c200" if letter.islower() else "03000000"


# The recorder at port 2 is 1000 ns ahead. C leaves 13,441 ns after it came. P comes half a millisecond after B and is policed. At 4,000,000
# D and M come, which do not leave, and Y and Z leave, which did not come. E waits for its bound. The frame at port 1 is of a
# link that does not lead there.
FAULTY = Scene(
    "a fault of each kind",
    {1: [(1_000_000, 7, "A"), (2_000_000, 7, "B"), (2_500_000, 7, "P"), (3_000_000, 7, "C"), (4_000_000, 7, "D"), (5_000_000, 7, "E")],
     3: [(4_000_000, 9, "M")]},
    {1: [(1_000_000, 7, "A")],
     2: [(1_007_720, 7, "A"), (2_007_719, 7, "B"), (2_507_720, 7, "P"), (3_014_441, 7, "C"), (3_501_000, 8, "X"), (4_001_000, 8, "Z"),
         (4_001_000, 7, "Y"), (5_014_440, 7, "E")]},
    ["--stamps", "free", "--rest", "--offset", "2=-1000"],
    ["span 1000000 to 5013440",
     "link 9 out 2 passed 1 seen 0 missing 1 extra 0 early 0 late 0 before 0 after 0 unsure 0 least - greatest - bound 13440",
     "link 7 out 2 passed 5 seen 6 missing 1 extra 2 early 1 late 1 before 0 after 0 unsure 0 least 6719 greatest 13441 bound 13440",
     "out 1 seen 1 foreign 1",
     "out 2 seen 8 foreign 2",
     "out 3 seen 0 foreign 0",
     "differs"],
    ["1,,foreign,,,1,1000000,,",
     "2,7,early,2,2000000,2,2007719,6719,13440",
     "2,7,extra,3,2500000,3,2507720,,13440",
     "2,7,late,4,3000000,4,3014441,13441,13440",
     "2,,foreign,,,5,3501000,,",
     "2,9,missing,1,4000000,,,,13440",
     "2,7,extra,,,7,4001000,,13440",
     "2,7,missing,5,4000000,,,,13440",
     "2,,foreign,,,6,4001000,,"])

# W left within the bound of the beginning, and before any pair; B came within the bound of the end.
CUT = Scene(
    "what lies at the ends is no difference",
    {1: [(1_030_000, 7, "A"), (2_030_000, 7, "B")]},
    {2: [(1_013_439, 7, "W"), (1_036_720, 7, "A")]},
    ["--stamps", "free", "--from", "1000000", "--until", "2043439"],
    ["span 1000000 to 2043439",
     "link 9 out 2 passed 0 seen 0 missing 0 extra 0 early 0 late 0 before 0 after 0 unsure 0 least - greatest - bound 13440",
     "link 7 out 2 passed 2 seen 2 missing 0 extra 0 early 0 late 0 before 1 after 1 unsure 1 least 6720 greatest 6720 bound 13440",
     "out 1 seen 0 foreign 0",
     "out 2 seen 2 foreign 0",
     "out 3 seen 0 foreign 0",
     "conforms"],
    [])

# The same where W left a nanosecond later, and the recordings end a nanosecond later.
PAST = Scene(
    "a nanosecond past them it is",
    {1: [(1_030_000, 7, "A"), (2_030_000, 7, "B")]},
    {2: [(1_013_440, 7, "W"), (1_036_720, 7, "A")]},
    ["--stamps", "free", "--from", "1000000", "--until", "2043440"],
    ["span 1000000 to 2043440",
     "link 9 out 2 passed 0 seen 0 missing 0 extra 0 early 0 late 0 before 0 after 0 unsure 0 least - greatest - bound 13440",
     "link 7 out 2 passed 2 seen 2 missing 1 extra 1 early 0 late 0 before 0 after 0 unsure 1 least 6720 greatest 6720 bound 13440",
     "out 1 seen 0 foreign 0",
     "out 2 seen 2 foreign 0",
     "out 3 seen 0 foreign 0",
     "differs"],
    ["2,7,extra,,,1,1013440,,13440",
     "2,7,missing,2,2030000,,,,13440"])

# The same as CUT, but what left first has another constant field: it is of no link, whatever its number.
STRANGE = Scene(
    "a record of another constant field",
    {1: [(1_030_000, 7, "A"), (2_030_000, 7, "B")]},
    {2: [(1_013_439, 7, "w"), (1_036_720, 7, "A")]},
    ["--stamps", "free", "--from", "1000000", "--until", "2043439"],
    ["span 1000000 to 2043439",
     "link 9 out 2 passed 0 seen 0 missing 0 extra 0 early 0 late 0 before 0 after 0 unsure 0 least - greatest - bound 13440",
     "link 7 out 2 passed 2 seen 1 missing 0 extra 0 early 0 late 0 before 0 after 1 unsure 1 least 6720 greatest 6720 bound 13440",
     "out 1 seen 0 foreign 0",
     "out 2 seen 2 foreign 1",
     "out 3 seen 0 foreign 0",
     "differs"],
    ["2,,foreign,,,1,1013439,,"])

# X was recorded at 500, which the offset takes before the first stamp: it counts as at that one, and is that one without the offset.
FIRST = Scene(
    "an offset that takes a stamp past the first one",
    {1: [(1_000_000, 7, "A")]},
    {2: [(500, 8, "X"), (1_007_720, 7, "A")]},
    ["--stamps", "free", "--rest", "--offset", "2=-1000"],
    ["span 0 to 1006720",
     "link 9 out 2 passed 0 seen 0 missing 0 extra 0 early 0 late 0 before 0 after 0 unsure 0 least - greatest - bound 13440",
     "link 7 out 2 passed 1 seen 1 missing 0 extra 0 early 0 late 0 before 0 after 0 unsure 0 least 6720 greatest 6720 bound 13440",
     "out 1 seen 0 foreign 0",
     "out 2 seen 2 foreign 1",
     "out 3 seen 0 foreign 0",
     "differs"],
    ["2,,foreign,,,1,1000,,"])

# The last bit of A leaves the fast port 576 ns after it came, and the slow one 57,600 ns after; then the recordings end, and B, which came
# at the end, may leave both ports later.
SLOWER = Scene(
    "a frame that came at the end, and a record of a slower port",
    {1: [(1_000_000, 7, "A"), (1_057_600, 7, "B")]},
    {2: [(1_000_576, 7, "A")], 3: [(1_057_600, 7, "A")]},
    ["--rest"],
    ["span 1000000 to 1057600",
     "link 7 out 2 passed 2 seen 1 missing 0 extra 0 early 0 late 0 before 0 after 1 unsure 0 least 672 greatest 672 bound 1344",
     "link 7 out 3 passed 2 seen 1 missing 0 extra 0 early 0 late 0 before 0 after 1 unsure 0 least 67200 greatest 67200 bound 134400",
     "out 1 seen 0 foreign 0",
     "out 2 seen 1 foreign 0",
     "out 3 seen 1 foreign 0",
     "conforms"],
    [],
    LINES)

# Frames half a gap apart, of which none leaves, and stamps that may be off by more than a quarter of a gap: the level is credited from
# 1,300,000 on, the tolerance after the beginning. At E it is no less than 1.7 gaps by the stamps, and of these 0.6 are in doubt.
CLOSE = Scene(
    "a link of which nothing leaves, with frames closer together than twice the tolerance",
    {1: [(stamp * 500_000, 7, letter) for stamp, letter in enumerate("ABCDEFG", 2)]},
    {},
    ["--tolerance", "300000"],
    ["span 1000000 to 4000000",
     "link 9 out 2 passed 0 seen 0 missing 0 extra 0 early 0 late 0 before 0 after 0 unsure 0 least - greatest - bound 13440",
     "link 7 out 2 passed 1 seen 0 missing 1 extra 0 early 0 late 0 before 0 after 0 unsure 5 least - greatest - bound 13440",
     "out 1 seen 0 foreign 0",
     "out 2 seen 0 foreign 0",
     "out 3 seen 0 foreign 0",
     "differs"],
    ["2,7,missing,5,3000000,,,,13440"])

SCENES = [FAULTY, CUT, PAST, STRANGE, FIRST, SLOWER, CLOSE]


def answer_of(command: list[str], scene: Scene, folder: Path) -> tuple[list[str], list[str], int]:
    """Returns the lines that a program prints of a scene, its rows, and its status."""
    scene.write(folder)
    done = subprocess.run([*command, *scene.words(folder)], stdout=subprocess.PIPE, text=True)
    rows = folder / "differences.csv"
    return done.stdout.splitlines(), rows.read_text(encoding="utf-8").splitlines() if rows.exists() else [], done.returncode


def main() -> int:
    parser = argparse.ArgumentParser(description="Has a program answer recordings of which the answers were worked out by hand")
    parser.add_argument("command", nargs="+", help="the program, with the words before those of the recordings")
    differing = 0
    command = parser.parse_args().command
    for scene in SCENES:
        with tempfile.TemporaryDirectory() as folder:
            got = answer_of(command, scene, Path(folder))
        for name, found, wanted in zip(("lines", "rows", "status"), got,
                                       (scene.lines, [HEADING, *scene.rows], int(scene.lines[-1] == "differs"))):
            if found != wanted:
                differing += 1
                print(f"{scene.name}: {name}: got {found!r}, wanted {wanted!r}")
    print(f"{len(SCENES)} recordings; {differing} differ")
    return 1 if differing else 0


if __name__ == "__main__":
    sys.exit(main())
