#!/usr/bin/env python3
"""Keeps the quotes of HEADLINE.md, SPECIFICATION.md, NETWORKS.md and PROGRAM.md as their sources have them.

It writes each quote anew from its source, also if that has moved to another file, and each count. It fails if a quote is not its
source's text, if a name is not found, if a count is not what it counts, if something that the contracts of ROOTS rest on is not
quoted, or something else is, if a word of the kit has no meaning in the table of these words, and if what a quote has under
another name (`use .. as`) is in backticks under that name on no page. Constants of the code are not quoted: a definition that names
one says what it is.

A quote is a line `<!-- quote FILE NAME.. -->`, and after it the file's name and the block of code, which this script writes. In a
file of specs/ a NAME is that of a definition. In a file of src/ it is that of a type, a trait or a function (its docstring and
contract), `TYPE.FUNCTION` (one of the type's), or `TYPE.Model` (what contracts see of the type). The line `<!-- kit -->` is before a
table whose first column has the words of the kit that the quotes use, in backticks. HEADLINE.md quotes again what the other pages
have.

A count is `<!-- count FILE NAME -->106 definitions, 424 lines<!-- end -->`: how many definitions NAME rests on, itself among them,
and how many lines these have without comments, attributes and blank lines. This script writes it.
"""
import argparse
import re
import sys
from collections.abc import Iterable
from itertools import groupby
from pathlib import Path

TOP = Path(__file__).resolve().parents[2]
PAGES = [Path(__file__).resolve().parent / name for name in ("SPECIFICATION.md", "NETWORKS.md", "PROGRAM.md")]
HEADLINE = Path(__file__).resolve().parent / "HEADLINE.md"

# What the pages are about: whatever the contracts of these public functions name, directly or not, is quoted.
ROOTS = [
    ("afdx_session", "run"),
    ("afdx_account", "conforming_is_tested"),
    ("afdx_session", "own_frames_are_the_links_alone"),
    ("afdx_session", "others_change_nothing"),
    ("afdx_session", "Session.new"),
    ("afdx_session", "Session.feed"),
    ("afdx_session", "Session.close"),
    ("afdx_session", "Session.take"),
    ("afdx_session", "Session.finish"),
    ("afdx_jitter", "jitter_enough"),
    ("afdx_network_check", "outages_change_no_way"),
    ("afdx_network", "run"),
    ("afdx_network", "run_unchecked"),
    ("afdx_network", "given_has_one_run"),
    ("afdx_network", "ways_deliver"),
    ("afdx_network", "ways_are_there"),
    ("afdx_network", "network_runs_deliver"),
    ("afdx_network", "printed_delays_are_kept"),
    ("afdx_network", "others_change_nothing_in_networks"),
    ("afdx_network", "lesser_ways_deliver"),
    ("afdx_origins", "none_takes_more_than_its_way"),
    ("afdx_network", "copies_end_apart"),
    ("afdx_network", "delays_are_one"),
    ("afdx_network", "watched_runs_keep_bounds"),
    ("afdx_serve", "serve"),
]

# Types whose fields are of the crate's private types: how these stand for the `Value`, no contract says.
BY_VALUE_ALONE = ["Session.Model"]

WORD = r"[A-Za-z_][A-Za-z0-9_']*"
BEGIN = re.compile(r"(abbrev|unfoldable|opaque|pub record|pub data|record |data )")
DEFINITION = re.compile(r"^(?:(?:abbrev|unfoldable|opaque) )?(?:pub )?(?:(?:record|data) )?(?P<name>\S+) ")


class Missing(Exception):
    """A name that its file has not."""


Place = tuple[str, str]  # a file and a name in it
Names = set[str]


def read(file: str) -> str:
    try:
        return (TOP / file).read_text(encoding="utf-8")
    except OSError:
        raise Missing(f"{file} is not there") from None


# ---- definitions, specs/*.antt


def paragraphs(text: str) -> list[str]:
    return [part.strip("\n") for part in re.split(r"\n\s*\n(?=\S)", text)]


def defined_in(file: str) -> dict[str, str]:
    """Returns the definitions of a file by their names: each is a paragraph, with the comment above it."""
    found: dict[str, str] = {}
    for part in paragraphs(read(file)):
        first = next(filter(BEGIN.match, part.split("\n")), "")
        if match := DEFINITION.match(first):
            found[match["name"]] = part
    return found


def owner_of(file: str, name: str) -> str:
    """Returns the definition that a name of a file belongs to: itself, or the type that it constructs."""
    definitions = defined_in(file)
    for other, text in definitions.items():
        if re.search(r"^pub data ", text, re.M) and re.search(rf"^  {re.escape(name)} : ", text, re.M):
            return other
    if name not in definitions:
        raise Missing(f"{file} has no {name}")
    return name


def without_comments(text: str, mark: str) -> str:
    return "\n".join(line.split(mark)[0] for line in text.split("\n"))


def imports(text: str, keyword: str) -> dict[str, str]:
    """Returns what `use` lines bring: each word with the path of what it stands for."""
    brought: dict[str, str] = {}
    for path, names in re.findall(rf"^\s*{keyword} (Rattle\.[\w.]+?)\.\{{([^}}]*)\}}", text, re.M):
        for name in names.split(","):
            original, _, other = name.strip().partition(" as ")
            brought[other or original] = f"{path}.{original}"
    for path, other in re.findall(rf"^\s*{keyword} (Rattle\.[\w.]+) as (\w+)", text, re.M):
        brought[other] = path
    return brought


def other_names(text: str, keyword: str) -> Names:
    """Returns the words that `use` lines bring for what has another name."""
    groups = re.findall(rf"^\s*{keyword} Rattle\.[\w.]+?\.\{{([^}}]*)\}}", text, re.M)
    others = [name.partition(" as ")[2].strip() for names in groups for name in names.split(",")]
    others += re.findall(rf"^\s*{keyword} Rattle\.[\w.]+ as (\w+)", text, re.M)
    return set(others) - {""}


def words_of(text: str) -> Names:
    """Returns the words of a definition or clause that may name another one: all but the fields. A bound name counts as well, so that more
    may be found than is named, and never less."""
    text = re.sub(rf"^ *(?:pub )?{WORD} : ", "", text, flags=re.M)
    text = re.sub(rf"(^ *|[{{;] ){WORD} (?:=|←) ", r"\1", text, flags=re.M)
    return set(re.findall(rf"(?<![\w.'])({WORD})", text))


def place_of(path: str) -> Place | None:
    """Returns the file and the name of what a path stands for; none where it is the kit's."""
    parts = path.split(".")
    crate = TOP / "crates" / parts[1]
    if not crate.is_dir() or parts[2] != "specs":
        return None
    if parts[3] == "declared":
        inner = [part for part in parts[4:] if part != "TheVariants"]
        if parts[-1] != "TheVariants":
            inner.pop()
        return type_in(crate, inner[-1], inner[:-1])
    file = f"crates/{parts[1]}/specs/{'/'.join(parts[3:-1])}.antt"
    return (file, owner_of(file, parts[-1]))


def type_in(crate: Path, name: str, modules: list[str]) -> Place:
    named = crate / "src" / f"{'/'.join(modules)}.rt"
    for file in [named] if modules else sorted(crate.glob("src/**/*.rt")):
        if re.search(rf"^pub(?:\(crate\))? (?:struct|enum|trait|type) {name}\b", file.read_text(encoding="utf-8"), re.M):
            return (str(file.relative_to(TOP)), name)
    raise Missing(f"no type {name} in {named.relative_to(TOP)}")


def uses_of_definition(file: str, name: str, kit: Names, others: Names) -> set[Place]:
    text, definitions = read(file), defined_in(file)
    body = without_comments(definitions[name], "--")
    brought = imports(text, "use")
    words = words_of(body) - {name}
    for sign in set(brought) | set(definitions):
        part = sign.strip("◌").split("◌")[0] if "◌" in sign else None
        if part and sign != name and (part in body or (part == ">>=" and "←" in body)):
            words.add(sign)
    others |= words & other_names(text, "use")
    return named(words, brought, {word: (file, word) for word in definitions}, kit)


def named(words: Names, brought: dict[str, str], here: dict[str, Place], kit: Names) -> set[Place]:
    found: set[Place] = set()
    for word in words:
        if word in here:
            found.add(here[word])
        elif word in brought and ".TheConstants." not in brought[word]:
            place = place_of(brought[word])
            if place is None:
                kit.add(brought[word])
            else:
                found.add(place)
    return found


# ---- types, traits and functions, src/*.rt


def head_of(lines: list[str], start: int) -> int:
    """Returns the place of the first line of the docstring and attributes above an item."""
    while start > 0 and re.match(r" *(///|#\[)", lines[start - 1]):
        start -= 1
    return start


def item_at(lines: list[str], start: int) -> list[str]:
    """Returns the lines of a type, a trait or an impl that begins here, with the docstring and attributes above it."""
    end = start
    if not lines[start].endswith((";", "}")):
        while not lines[end].startswith("}"):
            end += 1
    return lines[head_of(lines, start):end + 1]


def contract_at(lines: list[str], start: int) -> list[str]:
    """Returns the lines of a function that begins here, but for its body."""
    end = start
    while not lines[end].lstrip().startswith("{"):
        end += 1
    indent = len(lines[start]) - len(lines[start].lstrip())
    return [line[indent:] for line in lines[head_of(lines, start):end]]


def rust_item(file: str, name: str) -> str:
    """Returns a type or trait, a function's docstring and contract, that of TYPE.FUNCTION, or TYPE.Model, as it is in a file."""
    lines = read(file).split("\n")
    type_name, _, model = name.partition(".")
    if model == "Model":
        pattern = rf"impl.* Model for {type_name}\b"
    elif model:
        pattern = rf"    pub(?:\(crate\))? fn {model}[<(]"
        inside = [at for at, line in enumerate(lines) if re.match(rf"impl\b(?!.* for ).*\b{type_name}\b", line)]
        lines = lines[inside[0]:] if inside else []
    else:
        pattern = rf"pub(?:\(crate\))? (?:(?:struct|enum|trait|type) {name}\b|fn {name}[<(])"
    for start, line in enumerate(lines):
        if re.match(pattern, line):
            return "\n".join(contract_at(lines, start) if " fn " in line else item_at(lines, start))
    raise Missing(f"{file} has no {name}")


def rust_imports(file: str) -> dict[str, tuple[Path, list[str]]]:
    """Returns the types that `use` lines bring: the crate and the modules of each."""
    brought: dict[str, tuple[Path, list[str]]] = {}
    crate = TOP / file.split("/src/")[0]
    for path, names in re.findall(r"^use ([\w:]+)::\{?([\w, ]+)\}?;", read(file), re.M):
        first = path.split("::")[0]
        if first != "crate" and not (TOP / "crates" / first).is_dir():
            continue
        base, modules = (crate, path.split("::")[1:]) if first == "crate" else (TOP / "crates" / first, list[str]())
        for name in names.split(","):
            name = name.strip().split(" as ")[0]
            if name[:1].isupper() and not name.isupper():
                brought[name] = (base, modules)
    return brought


def has_model(file: str, name: str) -> bool:
    return re.search(rf"^impl.* Model for {name}\b", read(file), re.M) is not None


def uses_of_item(file: str, name: str, kit: Names, others: Names) -> set[Place]:
    text = rust_item(file, name)
    code = without_comments(text, "//")
    brought = imports(read(file), "ghost use") | imports(text, "ghost use")
    clauses = re.sub(r"^\s*ghost use .*$", "", code, flags=re.M)
    if name in BY_VALUE_ALONE:
        clauses = "\n".join(re.findall(r"^\s*ghost Value = .*$", clauses, re.M))
    ghost: set[Place] = set()
    if re.search(r"\bghost\b|\bensures\b|\brequires\b", clauses):
        ghost = named(words_of(clauses), brought, {}, kit)
        others |= words_of(clauses) & (other_names(read(file), "ghost use") | other_names(text, "ghost use"))
    return ghost | types_in(file, name, code)


def types_in(file: str, name: str, code: str) -> set[Place]:
    """Returns the types that a reader meets in a signature or in public fields: of one that contracts see otherwise, what they see."""
    if name.endswith(".Model"):
        shown = "\n".join(re.findall(r"^    pub .*$", rust_item(file, name[:-len(".Model")]), re.M))
    else:
        shown = re.sub(r"^\s*(ghost|ensures|requires|#).*$", "", code, flags=re.M)
        shown = shown if " fn " in shown.split("{")[0] else shown.partition("{")[2] or shown.partition("(")[2]
    brought = rust_imports(file)
    here = set(re.findall(r"^pub(?:\(crate\))? (?:struct|enum|trait|type) (\w+)", read(file), re.M))
    words = set(re.findall(r"\b([A-Z]\w*)", shown))
    return {(file, word) for word in words & here} | {type_in(brought[w][0], w, brought[w][1]) for w in words & set(brought) - here}


def has(file: str, name: str) -> bool:
    """Returns whether a file of the repository has this definition or item."""
    try:
        return name in defined_in(file) if file.endswith(".antt") else bool(rust_item(file, name))
    except Missing:
        return False


def home_of(file: str, name: str) -> str:
    """Returns the file itself where it has the name; else the one file of its crate, or of all crates, that has it. Raises Missing if none
    or several have."""
    if has(file, name):
        return file
    crate, kind = file.split("/")[1], "specs/**/*.antt" if file.endswith(".antt") else "src/**/*.rt"
    for folder in (f"crates/{crate}", "crates/*"):
        homes = [str(path.relative_to(TOP)) for path in sorted(TOP.glob(f"{folder}/{kind}"))]
        homes = [home for home in homes if has(home, name)]
        if len(homes) == 1:
            return homes[0]
        if homes:
            raise Missing(f"{file} has no {name}; it may be that of {' or '.join(homes)}")
    raise Missing(f"{file} has no {name}, and no other file has")


# ---- what the contracts rest on


def contracts() -> list[Place]:
    """Returns the functions of ROOTS, each with its file."""
    return [(home_of(f"crates/{crate}/src/lib.rt", name), name) for crate, name in ROOTS]


def closure(roots: Iterable[Place]) -> tuple[dict[Place, set[Place]], Names, Names]:
    """Returns each thing that the roots name, directly or not, with what it names; the kit's words among these; and the words that are
    other names."""
    kit: Names = set()
    others: Names = set()
    seen: dict[Place, set[Place]] = {}
    waiting = list(roots)
    while waiting:
        file, name = waiting.pop()
        if file.endswith(".rt") and "." not in name and name[0].isupper() and has_model(file, name):
            name = f"{name}.Model"
        if (file, name) in seen:
            continue
        uses = uses_of_definition if file.endswith(".antt") else uses_of_item
        seen[(file, name)] = uses(file, name, kit, others)
        waiting.extend(seen[(file, name)])
    return seen, kit, others


# ---- the page

MARK = re.compile(r"^<!-- quote (?P<file>\S+) (?P<names>.*?) -->\n(?:`[^`\n]+`\n\n)?(?:```\w*\n.*?^```\n)?", re.M | re.S)
COUNT = re.compile(r"<!-- count (?P<file>\S+) (?P<name>\S+) -->[^<]*<!-- end -->")
KIT = re.compile(r"^<!-- kit -->\n(?P<table>(?:\|.*\n)*)", re.M)


def quoted(file: str, names: list[str]) -> str:
    if file.endswith(".antt"):
        definitions = defined_in(file)
        language, texts = "text", [definitions[name] for name in names]
    else:
        language, texts = "rust", [rust_item(file, name) for name in names]
    text = "\n\n".join(texts)
    return f"<!-- quote {file} {' '.join(names)} -->\n`{file}`\n\n```{language}\n{text}\n```\n"


def code_lines(file: str, name: str) -> list[str]:
    """Returns the lines of a definition or of an item, without comments, attributes and blank lines."""
    text, mark = (defined_in(file)[name], "--") if file.endswith(".antt") else (rust_item(file, name), "//")
    return [line for line in without_comments(text, mark).split("\n") if line.strip() and not line.startswith("#[")]


def counted(mark: re.Match[str]) -> str:
    """Returns a count as it is to be written."""
    seen, _, _ = closure([(home_of(mark["file"], mark["name"]), mark["name"])])
    lines = sum(len(code_lines(file, name)) for file, name in seen)
    return f"<!-- count {mark['file']} {mark['name']} -->{len(seen)} definitions, {lines} lines<!-- end -->"


def rewritten(page: str) -> tuple[str, list[Place], list[str]]:
    """Returns the page with each quote as its source has it, what is quoted, and what is wrong. A quote follows what has moved to another
    file, and becomes several if only a part has."""
    there: list[Place] = []
    wrong: list[str] = []

    def block(mark: re.Match[str]) -> str:
        try:
            homes = [(home_of(mark["file"], name), name) for name in mark["names"].split()]
        except Missing as error:
            wrong.append(str(error))
            return mark[0]
        there.extend(homes)
        parts = groupby(homes, key=lambda home: home[0])
        return "\n".join(quoted(file, [name for _, name in part]) for file, part in parts)

    try:
        return COUNT.sub(counted, MARK.sub(block, page)), there, wrong
    except Missing as error:
        return page, there, [*wrong, str(error)]


def judged(there: list[Place], needed: Iterable[Place]) -> list[str]:
    """Returns what is wrong with a choice of quotes."""
    wrong = [f"not quoted: {file} {name}" for file, name in sorted(set(needed) - set(there))]
    seen_types = {(file, name.removesuffix(".Model")) for file, name in needed}
    wrong += [f"quoted, but nothing rests on it: {file} {name}" for file, name in sorted(set(there) - set(needed) - seen_types)]
    return wrong + [f"quoted twice: {file} {name}" for file, name in sorted({q for q in there if there.count(q) > 1})]


def without_meaning(pages: list[str], kit: Names) -> list[str]:
    """Returns a line for each word of the kit that no table explains."""
    explained: Names = set()
    for page in pages:
        for mark in KIT.finditer(page):
            for row in mark["table"].splitlines():
                explained |= set(re.findall(r"`([^`]+)`", row.split(" | ")[0].replace("\\|", "|")))
    words = {path.rpartition(".")[2].replace("◌", " ").strip() for path in kit}
    return [f"a word of the kit without a meaning: {word}" for word in sorted(words - explained)]


def unexplained(pages: list[str], others: Names) -> list[str]:
    """Returns a line for each other name that is in backticks on no page."""
    prose = "\n".join(re.sub(r"^```.*?^```$", "", page, flags=re.M | re.S) for page in pages)
    return [f"another name, which no page explains: {name}" for name in sorted(others) if f"`{name}`" not in prose]


def main() -> None:
    parser = argparse.ArgumentParser(description=__doc__, formatter_class=argparse.RawDescriptionHelpFormatter)
    parser.add_argument("--check", action="store_true", help="changes nothing, and fails also if a quote or a count would be written anew")
    parser.add_argument("--list", action="store_true", help="prints what the contracts of ROOTS rest on, and where it is")
    given = parser.parse_args()
    try:
        needed, kit, others = closure(contracts())
    except Missing as error:
        sys.exit(f"quotes.py: {error}")
    if given.list:
        print("\n".join([f"{file} {name}" for file, name in sorted(needed)] + sorted(kit)))
        return
    there: list[Place] = []
    wrong: list[str] = []
    texts: list[str] = []
    for page in [*PAGES, HEADLINE]:
        old = page.read_text(encoding="utf-8")
        new, quotes, faults = rewritten(old)
        wrong += faults
        if page is HEADLINE:
            wrong += [f"{page.name} quotes what no other page does: {file} {name}" for file, name in quotes if (file, name) not in there]
        else:
            there += quotes
            texts.append(new)
        if not given.check:
            page.write_text(new, encoding="utf-8")
        elif new != old:
            wrong.append(f"{page.name}: a quote is not its source's text, or a count is wrong: run docs/trust/quotes.py")
    wrong += judged(there, needed) + without_meaning(texts, kit) + unexplained(texts, others)
    print("\n".join([*wrong, f"{len(there)} quotes, {len(needed)} needed"]))
    sys.exit(1 if wrong else 0)


if __name__ == "__main__":
    main()
