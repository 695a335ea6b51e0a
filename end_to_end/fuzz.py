#!/usr/bin/env python3
"""Runs the program on hostile inputs of a family, and says what is wrong with its answers.

Each input is drawn by a seed of its own, a number: so many from the first one on are tried, and an input whose answer
is wrong is drawn again by its number. What inputs are, and by which model they are judged, the module of each family
says: fuzz_captures.py, fuzz_tables.py, fuzz_networks.py. What every answer has to keep, fuzz_run.py says.
"""
import argparse
import shlex
import sys
import time
from collections import Counter
from pathlib import Path
from random import Random

import fuzz_captures
import fuzz_networks
import fuzz_run
import fuzz_tables
from fuzz_run import Answer, Trial

FAMILIES = {"captures": fuzz_captures.draw, "tables": fuzz_tables.draw, "networks": fuzz_networks.draw}
SHOWN = 10  # failed inputs of which more than the number is said


def keep(folder: Path, trial: Trial, answer: Answer, wanted: Answer | None) -> None:
    """Writes an input, its command and both answers, for who looks for the reason."""
    fuzz_run.lay_out(folder, trial)
    (folder / "command").write_text(shlex.join(["afdx", *trial.arguments]) + " <stdin\n")
    (folder / "stdin").write_bytes(trial.stdin)
    for name, said in (("got", answer), ("wanted", wanted)):
        if said:
            streams = {"status": f"{said.status}\n".encode(), "stdout": said.out, "stderr": said.line}
            fuzz_run.put(folder / name, streams | said.files)


def main() -> int:
    parser = argparse.ArgumentParser(description=__doc__, formatter_class=argparse.RawDescriptionHelpFormatter)
    parser.add_argument("program", help="the program, whose file has to be called afdx")
    parser.add_argument("family", choices=FAMILIES)
    parser.add_argument("count", type=int, help="how many inputs")
    parser.add_argument("seed", type=int, help="of the first input; each further one has the next number")
    parser.add_argument("--room", type=Path, required=True, help="a folder to make, in which the program is run")
    parser.add_argument("--keep", type=Path, required=True, help="a folder for the inputs that failed")
    given = parser.parse_args()
    program, began = str(Path(given.program).resolve()), time.monotonic()
    kinds: Counter[str] = Counter()
    failed = unjudged = 0
    for seed in range(given.seed, given.seed + given.count):
        trial = FAMILIES[given.family](Random(seed))
        wanted, answer = trial.judge(), fuzz_run.made(program, trial, given.room)
        faults = fuzz_run.faults_of(trial, wanted, answer)
        kinds[answer.kind()] += 1
        unjudged += wanted is None
        failed += bool(faults)
        if faults and failed <= SHOWN:
            folder = given.keep / f"{given.family}-{seed}"
            keep(folder, trial, answer, wanted)
            print(f"{given.family} {seed}: {'; '.join(faults)}")
            print(f"  kept in {folder}; again: bash end_to_end/fuzz.sh 1 {seed}")
    print(f"{given.family}: {given.count} inputs from seed {given.seed} on, {given.count - unjudged} by a model, "
          f"{failed} failed, {time.monotonic() - began:.0f} s: "
          + ", ".join(f"{count} {kind}" for kind, count in sorted(kinds.items())))
    return 1 if failed else 0


if __name__ == "__main__":
    sys.exit(main())
