#!/usr/bin/env python3
"""Compares what the pages claim with the contracts that carry it, by the list docs/trust/claims.txt.

    claims.py           fails if a page names a contract or a clause that is not there, if a clause is not what it was
                        when its claims were read last, and if a column of contracts or definitions has anything else
    claims.py --renew   writes the list anew, and prints what has changed: for whoever has read these claims again

A claim is in backticks, and names what stands in a source:

    Session::feed, ok               the clause `ok` of a method; `laws::NAME` is a law
    Session::{feed, close}, ok      that of each of them
    afdx_session::run, ok, err      clauses of a free function, which has its crate before it
    Session::feed                   the whole contract; a clause that has no name has the name `ensures`
    Meter, pays                     what a trait says of each of its types
    impl Model for Port, invariant  what an `impl` says; without a name all that it says

The crate of any other name is the only one that has it, or that of the heading above; else it stands before the name.
The list has of each clause the first 12 hex digits of the SHA-256 of its text, white space apart, and of that of the
definitions that it names and no page quotes. What a function requires is listed too: who requires more promises less.
"""

import argparse
import hashlib
import re
import sys
from collections.abc import Iterator
from dataclasses import dataclass

from contracts import TOP, Contract, contracts, definitions

LIST = TOP / "docs/trust/claims.txt"
HEADING = """\
# The clauses that pages claim, each with the first digits of the SHA-256 of its text. `end_to_end/claims.py` compares
# them; its `--renew` writes them anew, for whoever has read the claims of what has changed.

"""
OF_THE_PAST = ("CHANGELOG.md", "bench/HISTORY.md")
CONTRACTS = ("Contract", "Carried by", "Law")
DEFINITIONS = ("Definition", "Statement")

NAME = r"[a-z_]\w*"
CLAIM = re.compile(
    rf"(?:(?:(?P<crate>(?!laws::){NAME})::)?(?:(?P<owner>\w+)::)?(?P<names>{NAME}|\{{{NAME}(?:, {NAME})*\}})"
    rf"|(?P<item>(?:impl \S+ for )?[A-Z]\w+))(?P<clauses>(?:, {NAME})*)"
)


class Wrong(Exception):
    """A claim that names nothing, or not one thing."""


@dataclass(frozen=True)
class Claim:
    """What stands on a page in backticks, below the heading of this crate."""

    page: str
    text: str
    heading: str


def is_claim(text: str) -> bool:
    """Says whether this is a claim by its form, and not the name of a module."""
    mark = CLAIM.fullmatch(text)
    if not mark:
        return False
    if mark["item"]:
        return bool(mark["clauses"]) or text.startswith("impl ")
    module = TOP / "crates" / (mark["crate"] or "") / "src" / f"{mark['names']}.rt"
    return "::" in text and (mark["names"] in contracts() or not module.is_file())


def cells(line: str) -> list[str]:
    return [cell.strip() for cell in re.split(r"(?<!\\)\|", line.strip())[1:-1]]


def foreign(columns: list[str], line: str) -> Iterator[str]:
    """Lists what a row has in a column of contracts or of definitions that is no claim, or no definition."""
    for column, cell in zip(columns, cells(line)):
        names = re.findall(r"`([^`]+)`", re.sub(r"\(.*?\)", "", cell))
        if column in CONTRACTS:
            yield from (f"`{name}` is in a column of contracts, and no claim" for name in names if not is_claim(name))
        if column in DEFINITIONS:
            named = [name for name in names if not (TOP / "crates" / name).is_dir()]
            yield from (f"there is no definition `{name}`" for name in named if name not in definitions())


def read_page(page: str) -> tuple[list[Claim], list[str]]:
    """Reads the claims of a page, and what is wrong in its columns."""
    claims, wrong = [], []
    columns: list[str] = []
    heading = ""
    text = re.sub(r"^```.*?^```$", "", (TOP / page).read_text(encoding="utf-8"), flags=re.M | re.S)
    for line in text.splitlines():
        if line.startswith("#"):
            heading = "".join(re.findall(r"\(`(\w+)`\)", line)[:1])
        columns = [] if not line.startswith("|") else columns or cells(line)
        wrong += [f"{page}: {fault}" for fault in foreign(columns, line)]
        claims += [Claim(page, name, heading) for name in re.findall(r"`([^`]+)`", line) if is_claim(name)]
    return claims, wrong


def pages() -> list[str]:
    """Lists the pages of what is so today."""
    paths = [*TOP.glob("*.md"), *TOP.glob("docs/**/*.md"), *TOP.glob("bench/*.md"), *TOP.glob("examples/*.md")]
    return sorted({str(path.relative_to(TOP)) for path in paths} - set(OF_THE_PAST))


def contract_of(name: str, crate: str | None, heading: str) -> Contract:
    """Finds the one contract of a name."""
    found = [one for one in contracts().get(name, []) if crate in (None, one.crate)]
    if not found:
        raise Wrong(f"there is no contract {name}")
    if len({one.crate for one in found}) > 1:
        found = [one for one in found if one.crate == heading] or found
    if len(found) > 1:
        found = [one for one in found if one.public] or found
    if len(found) > 1:
        raise Wrong(f"{name} is in {' and in '.join(one.crate for one in found)}")
    return found[0]


def clauses_of(claim: Claim) -> dict[str, str]:
    """Gives the text of each clause that is claimed, by its name in the list."""
    mark = CLAIM.fullmatch(claim.text)
    assert mark is not None
    wanted = mark["clauses"].split(", ")[1:]
    names = [mark["item"]] if mark["item"] else re.findall(r"\w+", mark["names"])
    found: dict[str, str] = {}
    for name in names:
        one = contract_of(f"{mark['owner']}::{name}" if mark["owner"] else name, mark["crate"], claim.heading)
        lacking = [clause for clause in wanted if clause not in one.clauses]
        if lacking:
            raise Wrong(f"{one.name} has no clause {lacking[0]}")
        taken = [clause for clause in one.clauses if not wanted or clause in wanted or clause.startswith("requires")]
        found |= {f"{one.crate} {one.name}, {clause}": one.clauses[clause] for clause in taken}
    return found


def claimed() -> tuple[dict[str, str], dict[str, list[str]], list[str]]:
    """Gives the digest of each clause that pages claim, the pages that claim it, and what is wrong with claims."""
    digests: dict[str, str] = {}
    places: dict[str, list[str]] = {}
    wrong: list[str] = []
    for page in pages():
        claims, faults = read_page(page)
        found: dict[str, str] = {}
        for claim in claims:
            try:
                found |= clauses_of(claim)
            except Wrong as fault:
                faults.append(f"{page}: `{claim.text}`: {fault}")
        wrong += faults
        digests |= {name: hashlib.sha256(text.encode()).hexdigest()[:12] for name, text in found.items()}
        for name in found:
            places.setdefault(name, []).append(page)
    return digests, places, wrong


def differences(digests: dict[str, str], places: dict[str, list[str]]) -> list[str]:
    """Says where the list differs from what is claimed."""
    lines = LIST.read_text(encoding="utf-8").splitlines() if LIST.is_file() else []
    listed = {name: digest for name, _, digest in (line.rpartition(": ") for line in lines if not line.startswith("#"))}
    said = [f"{name}: no page claims it any more" for name in listed if name and name not in digests]
    for name in sorted(digests):
        reason = "is not what it was when its claims were read" if name in listed else "is claimed, and not in the list"
        if listed.get(name) != digests[name]:
            said.append(f"{name}: {reason} ({', '.join(places[name])})")
    return said


def main() -> None:
    parser = argparse.ArgumentParser(description="Compares what the pages claim with the contracts that carry it.")
    parser.add_argument("--renew", action="store_true", help="write docs/trust/claims.txt anew")
    renew = parser.parse_args().renew
    digests, places, wrong = claimed()
    said = differences(digests, places)
    if renew and not wrong:
        LIST.write_text(HEADING + "".join(f"{name}: {digests[name]}\n" for name in sorted(digests)), encoding="utf-8")
    print("\n".join([*wrong, *said, f"{len(digests)} clauses are claimed"]))
    sys.exit(1 if wrong or (said and not renew) else 0)


if __name__ == "__main__":
    main()
