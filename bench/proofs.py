#!/usr/bin/env python3
"""Says where the time of a crate's proof goes: for each function, and for each file of lemmas, the seconds that its modules took,
the dearest first, by the times at which the prover wrote them; and in all for each part of what the prover makes of a function, as
its lifetimes (Lts).

A crate has to be checked from nothing by one job, which writes one module after the other: `rm -r out` and
`rt check --jobs 1` in its folder. `rt ci` keeps such a folder of modules while it tries a crate's wrong bodies (/tmp/rt-edits-*,
until the second is tried).
"""
import argparse
import collections
import os
import re
import sys

TOP = os.path.dirname(os.path.dirname(os.path.abspath(__file__)))
# What the prover makes of one function: its code, its types and lifetimes, and its proof.
PARTS = "Answers|Code|Contract|Given|Goals|Invariants|Key|Kinds|Layout|Lts|Met|Named|Proof|Reads|Statement|Symbol|TheImpl|TheLink|Tie"


def written(folder: str) -> list[tuple[float, str]]:
    """Returns the modules of a folder with the times at which they were written, the first one first."""
    modules: list[tuple[float, str]] = []
    for place, _, names in os.walk(folder):
        modules += [(os.stat(f"{place}/{name}").st_mtime, name) for name in names if name.endswith(".oantt")]
    return sorted(modules)


def subject(module: str) -> str:
    """Returns the function, or the file of definitions or lemmas, that a module is of."""
    name = re.sub(r"^Rattle-\w+[-.]((proofs|specs)\.)?(contracts\.)?|(\.decls)?\.oantt$", "", module)
    return re.sub(rf"\.({PARTS})(\..*)?$", "", name)


def part(module: str) -> str:
    """Returns which part of what the prover makes of a function a module is, or that it is none."""
    found = re.search(rf"\.({PARTS})(\..*)?$", re.sub(r"(\.decls)?\.oantt$", "", module))
    return found[1] if found else "none"


def in_order(seconds: dict[str, float]) -> list[tuple[str, float]]:
    """Returns the names with their seconds, the dearest first."""
    return sorted(seconds.items(), key=lambda one: -one[1])


def main() -> None:
    parser = argparse.ArgumentParser(description=__doc__, formatter_class=argparse.RawDescriptionHelpFormatter)
    parser.add_argument("crate", help="a crate, or any folder of modules")
    parser.add_argument("count", type=int, nargs="?", default=25, help="how many are printed; 25 if none are named")
    given = parser.parse_args()
    folder = given.crate if os.path.isdir(given.crate) else f"{TOP}/crates/{given.crate}/out/incremental"
    modules = written(folder)
    if not modules:
        sys.exit(f"no modules below {folder}")
    seconds: dict[str, float] = collections.defaultdict(float)
    parts: dict[str, float] = collections.defaultdict(float)
    for (before, _), (after, module) in zip(modules, modules[1:]):
        seconds[subject(module)] += after - before
        parts[part(module)] += after - before
    print(f"{len(modules)} modules, {modules[-1][0] - modules[0][0]:.0f} s")
    for name, took in in_order(seconds)[:given.count]:
        print(f"{took:7.1f} {name}")
    print("by part: " + ", ".join(f"{name} {took:.0f}" for name, took in in_order(parts) if took >= 1))


if __name__ == "__main__":
    main()
