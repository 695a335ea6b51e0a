"""Reads the contracts of all crates out of their sources, and what these name out of `specs/`."""

import re
from collections.abc import Iterator
from dataclasses import dataclass, field, replace
from functools import cache
from pathlib import Path

TOP = Path(__file__).resolve().parents[1]

ITEM = re.compile(
    r"^(?P<end>\})"
    r"|^(?:pub(?:\(crate\))? )?(?:unsafe )?(?P<kind>impl|trait|struct)\b(?P<head>[^{;]*)\{"
    r"|^(?: {4})?(?P<public>pub )?(?:pub\(crate\) )?fn (?P<function>\w+)"
    r"|^ {4}ghost (?P<ghost>\w+)",
    re.M,
)
SIGNATURE = re.compile(r"(?:[^{};\[]|\[[^\]]*\])*?(?=\n\s*(?:requires|ensures) |\{|;)")
CLAUSE = re.compile(r"\s*(?P<kind>requires|ensures)(?: (?P<name>\w+))? \{")
USE = re.compile(r"^ *(?:ghost )?use Rattle\.(\w+)\.specs\.([\w.]+)\.\{([^}]*)\}", re.M)
WORD = re.compile(r"[\w']+")
DEFINITION = r"^ *(?:(?:abbrev|unfoldable|opaque) )?(?:pub )?(?:(?:record|data) )?([\w']+)(?= (?:.* )?:)"


@dataclass
class Contract:
    """What a function, a type, a trait or an `impl` says, by the names of its clauses."""

    crate: str
    name: str
    public: bool
    clauses: dict[str, str] = field(default_factory=dict)


def sources(kind: str) -> list[Path]:
    return sorted(TOP.glob(f"crates/*/{kind}"))


def words(text: str) -> str:
    return " ".join(text.split())


def block_end(text: str, start: int) -> int:
    """Finds the place behind the brace that closes the one at `start`."""
    depth = 0
    for mark in re.compile(r"[{}]").finditer(text, start):
        depth += 1 if mark[0] == "{" else -1
        if depth == 0:
            return mark.end()
    raise ValueError("a brace that is not closed")


def clauses_at(text: str, start: int) -> dict[str, str]:
    """Reads the clauses of the function whose name ends at `start`. Of one that is ensured the name is enough."""
    found: dict[str, str] = {}
    signature = SIGNATURE.match(text, start)
    at = signature.end() if signature else start
    while mark := CLAUSE.match(text, at):
        at = block_end(text, mark.end() - 1)
        name = f"{mark['kind']} {mark['name'] or ''}".strip().removeprefix("ensures ")
        found[name] = words(f"{found.get(name, '')} {text[mark.end():at - 1]}")
    return found


def ghost_at(text: str, start: int) -> str:
    """Reads what a type, a trait or an `impl` says from `start` on to the next mark that is in no braces."""
    at = start
    while text[at] not in ";,":
        at = block_end(text, at) if text[at] == "{" else at + 1
    return words(text[start:at])


def names_of(kind: str, head: str) -> tuple[str, str]:
    """Gives the name of a type or trait, and what it or its `impl` is called."""
    head = re.sub(r"^<(?:[^<>]|<[^<>]*>)*>", "", head).split(" where ")[0]
    trait, _, of_type = head.rpartition(" for ")
    name = re.sub(r"\W.*", "", of_type.strip())
    return name, name if kind != "impl" else f"impl {trait.strip().rpartition('::')[2]} for {name}"


def contracts_in(path: Path) -> Iterator[Contract]:
    """Reads the contracts of a source. A function that is no type's may have its module's name before its own."""
    crate = path.relative_to(TOP / "crates").parts[0]
    text = re.sub(r"^\s*(?://.*|ghost use .*;)$", "", path.read_text(encoding="utf-8"), flags=re.M)
    owner, item = "", Contract(crate, "", True)
    for mark in ITEM.finditer(text):
        if mark["end"]:
            yield item
            owner, item = "", Contract(crate, "", True)
        elif mark["kind"]:
            owner, name = names_of(mark["kind"], mark["head"])
            item = Contract(crate, name, True)
        elif mark["ghost"]:
            item.clauses[mark["ghost"]] = ghost_at(text, mark.end())
        else:
            name = f"{owner or path.stem}::{mark['function']}"
            one = Contract(crate, name, bool(mark["public"]), clauses_at(text, mark.end()))
            yield from [one] if owner or path.stem == "laws" else [one, replace(one, name=mark["function"])]


@cache
def defined_in(path: Path) -> dict[str, str]:
    """Reads the definitions of a file of `specs/`, by their names, without comments."""
    text = re.sub(r"--.*", "", path.read_text(encoding="utf-8"))
    parts = re.split(r"\n\s*\n(?=\S)", text)
    heads = [(re.search(DEFINITION, part, re.M), part) for part in parts]
    return {head[1]: words(part) for head, part in heads if head}


@cache
def quoted() -> set[tuple[str, str]]:
    """Lists the definitions that a page quotes, each with its file."""
    pages = "".join(path.read_text(encoding="utf-8") for path in TOP.glob("docs/trust/*.md"))
    marks = re.findall(r"^<!-- quote (\S+) (.*?) -->$", pages, re.M)
    return {(path, name) for path, names in marks for name in names.split()}


def brought_by(source: Path) -> dict[str, str]:
    """Reads the definitions that a source brings and no page quotes."""
    found: dict[str, str] = {}
    for crate, module, names in USE.findall(source.read_text(encoding="utf-8")):
        path = TOP / "crates" / crate / "specs" / f"{module.replace('.', '/')}.antt"
        for original, _, other in [name.partition(" as ") for name in names.split(", ") if path.is_file()]:
            if (str(path.relative_to(TOP)), original) not in quoted():
                found[other or original] = defined_in(path).get(original, "")
    return found


def with_named(clause: str, definitions_by_name: dict[str, str]) -> str:
    named = [word for word in dict.fromkeys(WORD.findall(clause)) if word in definitions_by_name]
    return " ".join([clause, *(definitions_by_name[word] for word in named)])


@cache
def contracts() -> dict[str, list[Contract]]:
    """Reads all contracts. Behind the text of a clause is that of the definitions that it names and no page quotes."""
    found: dict[str, list[Contract]] = {}
    for path in sources("src/**/*.rt"):
        brought = brought_by(path)
        for one in [one for one in contracts_in(path) if one.clauses]:
            clauses = {name: with_named(clause, brought) for name, clause in one.clauses.items()}
            found.setdefault(one.name, []).append(replace(one, clauses=clauses))
    return found


@cache
def definitions() -> set[str]:
    """Lists the names of `specs/`, of the types of `src/` and of what they say, and what both bring from elsewhere."""
    found: set[str] = set()
    for path in sources("specs/**/*.antt"):
        text = path.read_text(encoding="utf-8")
        found |= set(re.findall(DEFINITION, text, re.M))
        found |= {name for _, _, names in USE.findall(text) for name in names.split(", ")}
    for path in sources("src/**/*.rt"):
        text = path.read_text(encoding="utf-8")
        found |= set(re.findall(r"^ *(?:pub(?:\(crate\))? )?(?:struct|enum|trait|type|ghost) (\w+)", text, re.M))
        found |= {name for _, _, names in USE.findall(text) for name in names.split(", ")}
    return found
