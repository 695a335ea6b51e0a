#!/usr/bin/env python3
"""Keeps the maps of crates in the pages as `crates.txt` and the first lines of the crates have them.

    docs/develop/crates.py           writes the drawing and the tables of ARCHITECTURE.md, README's list of the kit's
                                     crates, and the counts of TESTED.md
    docs/develop/crates.py --check   changes nothing; fails if one of these differs, and if a crate of the program has
                                     no row in README's table of what is proved or no section in PROOFS.md

What is written stands between `<!-- crates KIND -->` and `<!-- end -->`. What a crate is, the first paragraph of its
`src/lib.rt` or `src/main.rt` says.
"""

import argparse
import re
import sys
from pathlib import Path

TOP = Path(__file__).resolve().parents[2]
ARCHITECTURE = Path("docs/develop/ARCHITECTURE.md")
README = Path("README.md")
PROOFS = Path("docs/trust/PROOFS.md")
TESTED = Path("docs/trust/TESTED.md")
PROGRAM = "afdx"
WIDTH = 100
PART = re.compile(r"(<!-- crates (\w+) -->\n).*?(<!-- end -->)", re.S)

Uses = dict[str, list[str]]


def read_uses() -> Uses:
    """Reads which crates each crate uses, lowest first."""
    uses: Uses = {}
    for line in (TOP / "crates.txt").read_text(encoding="utf-8").splitlines():
        name, colon, others = line.partition(":")
        if colon and not name.startswith("#"):
            uses[name] = others.split()
    return uses


def below(uses: Uses, name: str) -> set[str]:
    """Collects all crates that a crate rests on, directly or not."""
    found: set[str] = set()
    waiting = list(uses.get(name, []))
    while waiting:
        other = waiting.pop()
        if other not in found:
            found.add(other)
            waiting += uses.get(other, [])
    return found


def layers(uses: Uses, names: list[str]) -> list[list[str]]:
    """Sorts crates into layers, lowest first: each crate into the first one above all that it rests on."""
    heights: dict[str, int] = {}
    for name in names:
        heights[name] = max((heights[other] + 1 for other in uses[name] if other in heights), default=0)
    return [[name for name in names if heights[name] == height] for height in range(max(heights.values()) + 1)]


def short(name: str) -> str:
    return name.removeprefix("afdx_")


def drawing(uses: Uses, names: list[str]) -> str:
    """Draws the layers, the program at the top."""
    rows = ["   ".join(map(short, layer)).center(WIDTH).rstrip() for layer in reversed(layers(uses, names))]
    return "```\n" + "\n".join(rows) + "\n```\n"


def purpose(name: str) -> str:
    """Reads the first paragraph of a crate's own documentation."""
    source = TOP / "crates" / name / "src"
    file = source / "lib.rt" if (source / "lib.rt").exists() else source / "main.rt"
    lines = []
    for line in file.read_text(encoding="utf-8").splitlines():
        if line.rstrip() == "//!" or not line.startswith("//!"):
            break
        lines.append(line.removeprefix("//!").strip())
    return " ".join(lines).rstrip(".").replace("|", "\\|")


def rests_on(uses: Uses, name: str) -> str:
    """Names the crates of ours that a crate uses, but for those that it has through another one."""
    ours = [other for other in uses[name] if other in uses]
    through = set().union(*(below(uses, other) for other in ours)) if ours else set()
    return ", ".join(short(other) for other in ours if other not in through)


def table(uses: Uses, names: list[str]) -> str:
    rows = [f"| `{name}` | {purpose(name)} | {rests_on(uses, name)} |" for name in names]
    return "\n".join(["| Crate | What it is | Rests on |", "|---|---|---|", *rows]) + "\n"


def listed(names: list[str]) -> str:
    """Joins names as a sentence does."""
    quoted = [f"`{name}`" for name in names]
    return " and ".join([", ".join(quoted[:-1]), quoted[-1]] if len(quoted) > 1 else quoted)


def kit(uses: Uses, program: list[str]) -> str:
    """Says which crates of the kit the program uses, and which the others use beside them."""
    ours = {other for name in program for other in uses[name] if other not in uses}
    others = {other for name in uses for other in uses[name] if other not in uses} - ours
    return f"The program uses the kit's {listed(sorted(ours))}; tests use its {listed(sorted(others))} as well.\n"


def number_of_tests(name: str) -> int:
    """Counts the tests of a crate."""
    sources = (TOP / "crates" / name / "src").rglob("*.rt")
    return sum(source.read_text(encoding="utf-8").count("#[test]") for source in sources)


def number_of_edits(name: str, folder: str) -> int:
    """Counts the wrong bodies and wrong statements of a crate in one of its folders."""
    return len(list((TOP / "crates" / name / folder).glob("*.edit")))


def counts(uses: Uses) -> str:
    """Says how many of each kind of test there are."""
    tests = [number_of_tests(name) for name in uses]
    edits = [number_of_edits(name, "must-fail") for name in uses]
    audit = sum(number_of_edits(name, "audit") for name in uses)
    scripts = [path for path in (TOP / "end_to_end").glob("*.sh") if path.name != "common.sh"]
    return "".join([
        f"There are {sum(tests)} tests in {sum(map(bool, tests))} crates; {sum(edits)} wrong bodies and wrong ",
        f"statements of {sum(map(bool, edits))} crates in `must-fail`, and {audit} in `audit`; ",
        f"and {len(scripts)} scripts over the built program and the pages.\n",
    ])


def missing(uses: Uses, program: list[str]) -> list[str]:
    """Finds crates of the program that a page of what is proved leaves out, and crates there that are gone."""
    readme = (TOP / README).read_text(encoding="utf-8")
    rows = set(re.findall(r"^\| `(\w+)` \|", readme, re.M))
    proofs = (TOP / PROOFS).read_text(encoding="utf-8")
    sections = set(re.findall(r"^## .*\(`(\w+)`\)$", proofs, re.M))
    wanted = set(program) - {PROGRAM}
    wrong = [f"{README}: no row of `{name}`" for name in sorted(wanted - rows)]
    wrong += [f"{README}: a row of `{name}`, which the program does not use" for name in sorted(rows - wanted)]
    wrong += [f"{PROOFS}: no section of `{name}`" for name in sorted(wanted - sections)]
    return wrong + [f"{PROOFS}: a section of `{name}`, which is no crate" for name in sorted(sections - set(uses))]


def texts_of(uses: Uses, program: list[str]) -> dict[str, str]:
    """Makes the text of each part, by its kind."""
    return {
        "drawing": drawing(uses, program),
        "program": table(uses, program),
        "beside": table(uses, [name for name in uses if name not in program]),
        "kit": kit(uses, program),
        "counts": counts(uses),
    }


def renewed(page: Path, texts: dict[str, str], check: bool) -> bool:
    """Writes the parts of a page, unless it is only checked. Says whether they differed."""
    old = (TOP / page).read_text(encoding="utf-8")
    new = PART.sub(lambda part: part[1] + texts[part[2]] + part[3], old)
    if not check:
        (TOP / page).write_text(new, encoding="utf-8")
    return new != old


def main() -> None:
    parser = argparse.ArgumentParser(description="Keeps the maps of crates in the pages as crates.txt has them.")
    parser.add_argument("--check", action="store_true", help="change nothing, and fail if something differs")
    check = parser.parse_args().check
    uses = read_uses()
    program = [name for name in uses if name in below(uses, PROGRAM) | {PROGRAM}]
    texts = texts_of(uses, program)
    wrong = missing(uses, program)
    for page in (ARCHITECTURE, README, TESTED):
        if renewed(page, texts, check) and check:
            wrong.append(f"{page}: not as crates.txt and the crates have it: run docs/develop/crates.py")
    sys.exit("\n".join(wrong) or None)


if __name__ == "__main__":
    main()
