#!/usr/bin/env python3
"""Fails where a page names a file of the repository that is not there, or a section that its page has not.

Read are the targets of links, and in backticks what looks like a path of this repository: it begins with one of its folders, or
ends as its sources and pages do. A word in capitals stands for any name (`crates/NAME/src`), and so does `*`. A file may be named
from the top, from the page's own folder, or by the end of its path (`specs/Headline.antt`). What programs make (`out/`) isn't
looked for.
"""
import argparse
import os
import re
import sys
from collections.abc import Iterator
from fnmatch import fnmatch
from pathlib import Path

TOP = Path(__file__).resolve().parents[1]
FOLDERS = ("bench/", "crates/", "docs/", "end_to_end/", "examples/", "python/", "release/", ".ci/")
ENDINGS = (".md", ".py", ".sh", ".rt", ".antt", ".edit", ".c")


def there() -> set[str]:
    """Returns the files and folders of the repository, but for what programs make."""
    names: set[str] = set()
    for folder, folders, files in os.walk(TOP):
        folders[:] = [name for name in folders if name not in ("out", ".git", "__pycache__")]
        names |= {os.path.relpath(os.path.join(folder, name), TOP) for name in folders + files}
    return names


def is_path(word: str) -> bool:
    if " " in word or "out/" in word or word.startswith("http"):
        return False
    return word.startswith(FOLDERS) or (word.endswith(ENDINGS) and len(Path(word).stem) > 0)


def is_there(word: str, folder: Path, names: set[str]) -> bool:
    pattern = re.sub(r"(?<![A-Za-z_.])[A-Z]{4,}(?![A-Za-z_.])", "*", word).rstrip("/")
    near = os.path.normpath(folder / pattern)
    return any(fnmatch(name, form) for form in (pattern, near, f"*/{pattern}") for name in names)


def prose(page: Path) -> str:
    """Reads a page without its blocks of code."""
    return re.sub(r"^ *```.*?^ *```$", "", page.read_text(encoding="utf-8"), flags=re.M | re.S)


def anchors(page: Path) -> set[str]:
    """Returns the sections of a page, as links name them."""
    heads = re.findall(r"^#+ (.*)$", prose(page), re.M)
    return {re.sub(r"[^\w\- ]", "", head.lower()).replace(" ", "-") for head in heads}


def links(text: str) -> list[str]:
    return [link for link in re.findall(r"\]\(([^)\s]+)\)", text) if not link.startswith("http")]


def faults(page: Path) -> Iterator[str]:
    names = there()
    folder = page.parent
    text = prose(page)
    plain = re.sub(r"`[^`\n]*`", "", text)
    for link in links(plain):
        file, _, anchor = link.partition("#")
        target = (TOP / folder / file).resolve() if file else TOP / page
        if not target.exists():
            yield f"{page}: no {link}"
        elif anchor and anchor not in anchors(target):
            yield f"{page}: no section {link}"
    for word in re.findall(r"`([^`\n]+)`", text) + re.findall(r"<!-- quote (\S+)", text):
        if is_path(word) and not is_there(word, folder, names):
            yield f"{page}: no {word}"


def main() -> None:
    parser = argparse.ArgumentParser(description=__doc__, formatter_class=argparse.RawDescriptionHelpFormatter)
    parser.add_argument("page", type=Path)
    page = parser.parse_args().page
    found = list(faults(page.resolve().relative_to(TOP)))
    print("\n".join(found))
    sys.exit(1 if found else 0)


if __name__ == "__main__":
    main()
