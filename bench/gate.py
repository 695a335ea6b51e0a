#!/usr/bin/env python3
"""Says where the gate's processor minutes go, by crate and by kind: its proof, its tests, its wrong bodies.

    gate.py watch PID      watches the prover below this process, and prints the minutes when SIGTERM comes or it ends
    gate.py table LOG      prints the table of docs/develop/PERFORMANCE.md from a log that has what `watch` printed
    gate.py slower LOG     warns of what took half as much again as that table says

`./test` watches `rt ci`, so its log has the minutes. What was kept from an earlier run takes none. Checks are looked at
twice a second, so up to half a second of each is missed. Wrong bodies are counted with the proof that they begin with.
"""
from __future__ import annotations

import argparse
import os
import re
import signal
import time
from collections.abc import Iterator
from dataclasses import dataclass, field
from pathlib import Path

PAGE = Path(__file__).resolve().parents[1] / "docs/develop/PERFORMANCE.md"
KINDS = ("proof", "tests", "wrong bodies")
HEAD = "| Crate | Proof | Tests | Wrong bodies |"
LINE = re.compile(r"-- minutes of (\w+): " + ", ".join(f"{kind} ([0-9.]+)" for kind in KINDS))
PERIOD = 0.5  # seconds
TICKS = os.sysconf("SC_CLK_TCK")

Minutes = dict[str, list[float]]  # of each crate, those of each kind


@dataclass
class Process:
    parent: int
    name: str
    began: str
    ticks: int  # its own and those of its children that have ended


def processes() -> dict[int, Process]:
    """Reads all processes that are there."""
    found = {}
    for entry in os.scandir("/proc"):
        if entry.name.isdigit():
            try:
                text = Path(entry.path, "stat").read_text(encoding="utf-8", errors="replace")
            except OSError:
                continue
            name, _, rest = text.partition("(")[2].rpartition(") ")
            words = rest.split()
            found[int(entry.name)] = Process(int(words[1]), name, words[19], sum(map(int, words[11:15])))
    return found


def check_of(pid: int) -> tuple[str, str] | None:
    """Says of a process of the prover which crate it checks, and of which kind that is."""
    try:
        words = Path(f"/proc/{pid}/cmdline").read_bytes().decode(errors="replace").split("\0")
        folder = os.path.basename(os.readlink(f"/proc/{pid}/cwd"))
    except OSError:
        return None
    if "--crate-name" not in words:
        return None
    kind = "wrong bodies" if folder.startswith("rt-edit-") else "tests" if "--test" in words else "proof"
    return words[words.index("--crate-name") + 1], kind


@dataclass
class Watch:
    """The checks of the prover below one process: what each is, and the ticks that it has taken so far."""

    root: int
    checks: dict[tuple[int, str], tuple[str, str]] = field(default_factory=dict)
    ticks: dict[tuple[int, str], int] = field(default_factory=dict)

    def first_of(self, there: dict[int, Process], pid: int) -> int | None:
        """Finds the process by which a check began, of one that it may have forked; None if it isn't below the root."""
        first, at = pid, pid
        while at in there and at != self.root:
            first, at = at if there[at].name == "rattle" else first, there[at].parent
        return first if at == self.root else None

    def look(self) -> None:
        """Notes what the checks that run now have taken."""
        there = processes()
        now: dict[tuple[int, str], int] = {}
        for pid, process in there.items():
            first = self.first_of(there, pid) if process.name == "rattle" else None
            if first is not None:
                key = first, there[first].began
                now[key] = now.get(key, 0) + process.ticks
        for key, ticks in now.items():
            check = self.checks.get(key) or check_of(key[0])
            if check:
                self.checks[key] = check
                self.ticks[key] = max(ticks, self.ticks.get(key, 0))

    def minutes(self) -> Minutes:
        """Sums them by crate and kind."""
        sums: Minutes = {}
        for key, (crate, kind) in self.checks.items():
            sums.setdefault(crate, [0.0] * len(KINDS))[KINDS.index(kind)] += self.ticks[key] / TICKS / 60
        return sums


def watch(root: int) -> None:
    """Looks until SIGTERM comes or the process has ended, and prints a line for each crate, the dearest first."""
    ended = []
    signal.signal(signal.SIGTERM, lambda *_: ended.append(True))
    seen = Watch(root)
    while not ended and os.path.exists(f"/proc/{root}"):
        seen.look()
        time.sleep(PERIOD)
    for crate, sums in dearest(seen.minutes()):
        print(f"-- minutes of {crate}: " + ", ".join(f"{kind} {minutes:.2f}" for kind, minutes in zip(KINDS, sums)))


def dearest(minutes: Minutes) -> list[tuple[str, list[float]]]:
    return sorted(minutes.items(), key=lambda row: -sum(row[1]))


def minutes_in(log: Path) -> Minutes:
    """Reads the lines that `watch` printed."""
    found = map(LINE.fullmatch, log.read_text(encoding="utf-8", errors="replace").splitlines())
    return {line[1]: [float(number) for number in line.groups()[1:]] for line in found if line}


def minutes_on(page: str) -> Minutes:
    """Reads the table of a page, which an empty line ends."""
    rows = page.partition(f"{HEAD}\n")[2].partition("\n\n")[0].splitlines()[1:]
    cells = [[cell.strip(" `") for cell in row.split("|")[1:-1]] for row in rows]
    return {crate: [float(number or 0) for number in numbers] for crate, *numbers in cells}


def table(minutes: Minutes) -> Iterator[str]:
    """Writes the table of the page; below 0.05 minutes a cell is empty."""
    yield from (HEAD, "|---|---|---|---|")
    sums = [sum(kind) for kind in zip(*minutes.values())]
    for name, row in [*((f"`{crate}`", row) for crate, row in dearest(minutes)), ("all", sums)]:
        yield f"| {name} | " + " | ".join(f"{cell:.1f}" if cell >= 0.05 else "" for cell in row) + " |"


def slower(minutes: Minutes, before: Minutes) -> Iterator[str]:
    """Warns of what took half as much again, and half a minute more, than before."""
    for crate, row in minutes.items():
        for kind, now, then in zip(KINDS, row, before.get(crate, [])):
            if then and now > max(1.5 * then, then + 0.5):
                yield f"-- warning: {crate}, {kind}: {now:.1f} processor minutes, and {then:.1f} in {PAGE.name}"


def main() -> None:
    parser = argparse.ArgumentParser(description="Says where the gate's processor minutes go, by crate and by kind.")
    commands = parser.add_subparsers(dest="command", required=True)
    commands.add_parser("watch", help="watch the prover below a process").add_argument("pid", metavar="PID", type=int)
    commands.add_parser("table", help="print PERFORMANCE's table").add_argument("log", metavar="LOG", type=Path)
    commands.add_parser("slower", help="warn of what got slower").add_argument("log", metavar="LOG", type=Path)
    options = parser.parse_args()
    if options.command == "watch":
        watch(options.pid)
        return
    try:
        minutes, page = minutes_in(options.log), PAGE.read_text(encoding="utf-8")
    except OSError as error:
        parser.exit(1, f"gate.py: {error.filename}: {error.strerror}\n")
    if not minutes:
        parser.exit(1, f"gate.py: {options.log} has no minutes: no log of ./test, or all was kept\n")
    for line in table(minutes) if options.command == "table" else slower(minutes, minutes_on(page)):
        print(line)


if __name__ == "__main__":
    main()
