#!/usr/bin/env python3
"""Fails if a wrong body of crates/NAME/must-fail or crates/NAME/audit cannot be applied, or docs/trust/PROOFS.md does
not name it, or a column of wrong bodies there names one of which there is no edit.

The gate counts an edit that cannot be applied for nothing, and fails nothing by it.
"""
import re
import sys
from collections.abc import Iterator
from pathlib import Path

TOP = Path(__file__).resolve().parents[1]
PAGE = TOP / "docs/trust/PROOFS.md"


def pairs_of(edit: Path) -> Iterator[tuple[str, str, str]]:
    """Reads the file, the old and the new text of each pair of lines."""
    path = old = ""
    for line in edit.read_text(encoding="utf-8").split("\n"):
        word, _, rest = line.partition(":")
        rest = rest.removeprefix(" ")
        if word == "file":
            path = rest.strip()
        elif word == "old":
            old = rest
        elif word == "new":
            yield path, old, rest


def why_not(edit: Path) -> str | None:
    """Says why the edit cannot be applied; None if it can."""
    crate = edit.parents[1]
    texts: dict[str, str] = {}
    for path, old, new in pairs_of(edit):
        if not (crate / path).is_file():
            return f"there is no file {path}"
        text = texts.setdefault(path, (crate / path).read_text(encoding="utf-8"))
        if text.count(old) != 1:
            return f"an old text is in {path} {text.count(old)} times"
        texts[path] = text.replace(old, new)
    return None if texts else "it has no pair of lines"


def named_in_columns(page: str) -> Iterator[str]:
    """Lists what the columns of wrong bodies and wrong statements name, but for crates."""
    column = None
    for line in page.splitlines():
        cells = line.split(" | ")
        if not line.startswith("|"):
            column = None
        elif column is None:
            column = next((place for place, cell in enumerate(cells) if cell.startswith("Wrong ")), len(cells))
        elif column < len(cells):
            yield from re.findall(r"`(?!afdx_)(\w+)`", cells[column])


def main() -> None:
    page = PAGE.read_text(encoding="utf-8")
    edits = sorted([*TOP.glob("crates/*/must-fail/*.edit"), *TOP.glob("crates/*/audit/*.edit")])
    wrong = []
    for edit in edits:
        reason = why_not(edit) or ("" if f"`{edit.stem}`" in page else "PROOFS.md does not name it")
        wrong += [f"{edit.relative_to(TOP)}: {reason}"] if reason else []
    lacking = sorted(set(named_in_columns(page)) - {edit.stem for edit in edits})
    wrong += [f"PROOFS.md names {name}, of which there is no edit" for name in lacking]
    print("\n".join([*wrong, f"{len(edits)} wrong bodies"]))
    sys.exit(1 if wrong else 0)


if __name__ == "__main__":
    main()
