#!/usr/bin/env python3
"""Runs `afdx size` over tables that are drawn by chance, many of which do not fit, and compares its lines with the model's,
and whether all ports fit with what `afdx check` says.
"""
import argparse
import subprocess
import sys
from collections import Counter
from pathlib import Path
from random import Random

import babblers
import model


def draw(chance: Random) -> model.Table:
    """Draws a network some of whose ports may have a slow line, a small buffer or a short delay."""
    table = babblers.draw_network(chance)
    for port in table.ports:
        port.tick = chance.choice([8, 80, 800])
        port.buffer = chance.choice([64, 1518, 20_000, 16_777_216])
        port.max_delay = 1000 * chance.choice([1, 300, 5_000, 500_000])
    return table


def answers(program: str, command: str, path: Path) -> tuple[int, str]:
    done = subprocess.run([program, command, path], capture_output=True, text=True, check=False)
    return done.returncode, done.stdout


def verdict_of(line: str) -> str:
    """Returns the end of a port's line: `fits`, or the rules that it breaks."""
    return line[line.rindex(" breaks "):].strip() if " breaks " in line else line.split()[-1]


def main() -> None:
    parser = argparse.ArgumentParser(description=__doc__, formatter_class=argparse.RawDescriptionHelpFormatter)
    parser.add_argument("program")
    parser.add_argument("room", type=Path, help="the folder of the tables")
    parser.add_argument("number", type=int, help="of tables")
    given = parser.parse_args()
    verdicts: Counter[str] = Counter()
    for seed in range(given.number):
        table = draw(Random(seed))
        path = given.room / "table.toml"
        path.write_text(babblers.text_of(table), encoding="utf-8")
        status, lines = answers(given.program, "size", path)
        if (status, lines) != (0, model.size(table)):
            sys.exit(f"table {seed}: other lines than the model's")
        fits = all(line.endswith(" fits") for line in lines.splitlines())
        if (answers(given.program, "check", path)[0] == 0) != fits:
            sys.exit(f"table {seed}: check says otherwise")
        verdicts.update(map(verdict_of, lines.splitlines()))
    print(", ".join(f"{count} {verdict}" for verdict, count in sorted(verdicts.items())))


if __name__ == "__main__":
    main()
