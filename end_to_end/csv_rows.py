#!/usr/bin/env python3
"""Makes of the lines of a command of afdx what it writes with --csv, by docs/use/FORMATS.md, of which it takes the headings.

    csv_rows.py COMMAND <LINES >ROWS
"""

import argparse
import csv
import io
import re
import sys
from collections.abc import Callable, Iterator
from pathlib import Path

FORMATS = Path(__file__).resolve().parents[1] / "docs/use/FORMATS.md"
CHECK = re.compile(r"port (?P<port>\d+) rate (?P<rate>\d+) buffer (?P<buffer>\d+) high (?P<high>\S+) low (?P<low>\S+)")
SIZE = re.compile(r"port (?P<port>\d+) rate (?P<rate>\d+) of (?P<rate_limit>\d+) buffer (?P<buffer>\d+) of (?P<buffer_limit>\d+) "
                  r"high (?:-|(?P<high>none|\d+) of (?P<high_limit>\d+)) low (?:-|(?P<low>none|\d+) of (?P<low_limit>\d+)) "
                  r"(?:fits|breaks (?P<breaks>[L\d ]+))(?:, switch (?P<switch>\S+))?")
VERDICT = re.compile(r"policed (?P<links>\d+) links? (?P<policed>\d+) frames?, filtered (?P<filtered>\d+), lost (?P<lost>\d+)")
WAY = re.compile(r"link (?P<link>\d+) from (?P<from>\S+) to (?P<to>\S+) ways (?P<ways>.+) least (?P<least>\d+) most (?P<most>\d+) "
                 r"jitter (?P<jitter>[\d ]+)")
LOST = re.compile(r"link (?P<link>\d+) to (?P<to>\S+) none")
END = re.compile(r"link (?P<link>\d+) from (?P<from>\S+) to (?P<to>\S+) sent (?P<sent>\d+) least (?P<least>\S+) greatest (?P<greatest>\S+) "
                 r"bound (?P<least_bound>\S+) to (?P<bound>\S+)")
SPELL = re.compile(r"link (?P<link>\d+) policed (?P<policed>\d+) from (?P<from>\d+) to (?P<to>\d+) "
                   r"early (?P<least_early>\d+) to (?P<greatest_early>\d+)")
SPAN = re.compile(r"span from (?P<from>\S+) to (?P<to>\S+) frames (?P<frames>\d+)")
JITTER = re.compile(r"switch (?P<switch>\S+) link (?P<link>\d+) jitter_us (?P<jitter_us>\d+)")

Row = dict[str, str]


def headings() -> dict[str, list[str]]:
    """Reads the heading of each command."""
    found = dict(re.findall(r"^\| `([a-z ]+)` \| `([a-z_,-]+)` \|$", FORMATS.read_text(encoding="utf-8"), re.M))
    columns = {command: heading.split(",") for command, heading in found.items()}
    of_report = columns["run"][:columns["run"].index("sent") + 1]
    return columns | {"network size": ["switch", *columns["size"]], "network run": ["switch", *of_report]}


def pairs(words: list[str]) -> Row:
    """Returns the numbers of words by these."""
    return dict(zip(words[::2], words[1::2]))


def matched(pattern: re.Pattern[str]) -> Callable[[str], Row | None]:
    """Makes a reader of the lines of one form; lists have semicolons."""
    def read(line: str) -> Row | None:
        found = pattern.fullmatch(line)
        return {word: value.replace(" ", ";") for word, value in found.groupdict("").items()} if found else None
    return read


def slack(row: Row) -> Row:
    """Adds what the greatest delay left of the bound."""
    if not row["greatest"].isdigit() or not row["bound"].isdigit():
        return row
    greatest, bound = int(row["greatest"]), int(row["bound"])
    return row | {"slack": str(bound - greatest), "slack_per_mille": str(1000 * (bound - greatest) // bound)}


def counted(line: str) -> Row | None:
    """Reads a line of the report."""
    match line.split():
        case ["in", port, *counts]:
            return {"kind": "in", "port": port} | pairs(counts)
        case ["link", link, *counts]:
            return {"kind": "link", "link": link} | pairs(counts)
        case ["out", port, priority, *counts]:
            return {"kind": "out", "port": port, "priority": priority} | pairs(counts)
    found = VERDICT.fullmatch(line)
    return {"kind": "verdict"} | found.groupdict() if found else None


def counted_at_switch(line: str) -> Row | None:
    """Reads a line of `network run`."""
    return at_switch(line, counted)


def measured(line: str) -> Row | None:
    """Reads a line of `measure`."""
    match line.split():
        case ["link", link, "out", port, *counts]:
            return slack({"kind": "delays", "link": link, "port": port} | pairs(counts))
        case ["out", port, "occupied", occupied, "of", buffer, "at", at]:
            return {"kind": "buffer", "port": port, "occupied": occupied, "buffer": buffer, "at": at}
    return None


def surveyed(line: str) -> Row | None:
    """Reads a line of `survey`."""
    for kind, pattern in (("spell", SPELL), ("span", SPAN)):
        if found := pattern.fullmatch(line):
            return {"kind": kind} | found.groupdict()
    return measured(line) or counted(line)


def end_of_link(line: str) -> Row | None:
    """Reads a line of a link between two ports of a network."""
    found = END.fullmatch(line)
    return slack({"kind": "way"} | found.groupdict()) if found else None


def at_switch(line: str, read: Callable[[str], Row | None]) -> Row | None:
    """Reads a line with the name of a switch before it."""
    switch, _, rest = line.partition(" ")
    row = read(rest)
    return row and {"switch": switch} | row


def measured_in_network(line: str) -> Row | None:
    """Reads a line of `network measure`."""
    return end_of_link(line) or at_switch(line, measured)


def surveyed_in_network(line: str) -> Row | None:
    """Reads a line of `network survey`, whose stamps have columns other than those of ports."""
    found = end_of_link(line)
    if found:
        return found
    row = at_switch(line, surveyed)
    return row and {{"from": "first", "to": "last"}.get(word, word): value for word, value in row.items()}


def checked_way(line: str) -> Row | None:
    """Reads a line of `network check`, of a way or of an end to which nothing comes."""
    return matched(WAY)(line) or matched(LOST)(line)


def compared(line: str) -> Row | None:
    """Reads a line of `compare`."""
    match line.split():
        case ["span", begin, "to", end]:
            return {"kind": "span", "from": begin, "until": end}
        case ["link", link, "out", port, *counts]:
            return slack({"kind": "link", "link": link, "port": port} | pairs(counts))
        case ["out", port, *counts]:
            return {"kind": "out", "port": port} | pairs(counts)
        case [verdict]:
            return {"kind": "verdict", "verdict": verdict}
    return None


READERS = {"check": matched(CHECK), "size": matched(SIZE), "run": counted, "measure": measured, "survey": surveyed, "compare": compared,
           "network check": checked_way, "network size": matched(SIZE), "network jitter": matched(JITTER),
           "network run": counted_at_switch, "network measure": measured_in_network, "network survey": surveyed_in_network}


def rows_of(command: str, lines: str) -> Iterator[Row]:
    """Reads lines; what has no value is empty."""
    for line in lines.splitlines():
        row = READERS[command](line)
        if row:
            yield {word: "" if value in ("-", "none") else value for word, value in row.items() if word != "switch" or "network" in command}


def csv_of(command: str, lines: str) -> str:
    """Writes the rows of lines below their heading."""
    text = io.StringIO()
    writer = csv.DictWriter(text, headings()[command], restval="", lineterminator="\n")
    writer.writeheader()
    writer.writerows(rows_of(command, lines))
    return text.getvalue()


def main() -> None:
    parser = argparse.ArgumentParser(description=__doc__, formatter_class=argparse.RawDescriptionHelpFormatter)
    parser.add_argument("command", nargs="+")
    sys.stdout.write(csv_of(" ".join(parser.parse_args().command), sys.stdin.read()))


if __name__ == "__main__":
    main()
