"""Makes man pages of what the help says, in the macros of man(7)."""

import re
import textwrap
from collections import defaultdict
from collections.abc import Iterator

from described import Command, Row

MARKS = ((re.compile(r"^Status: |(?=\bExit status \d)"), "EXIT STATUS"), (re.compile("^Example: "), "EXAMPLES"))
ESCAPES = str.maketrans({"\\": r"\e", "-": r"\-", "'": r"\(aq", "`": r"\(ga", "^": r"\(ha", "~": r"\(ti"})
WIDTH = 72


def escaped(text: str) -> str:
    """Writes a text so that troff prints it letter by letter."""
    return text.translate(ESCAPES)


def lines(text: str) -> list[str]:
    """Writes a text in lines, none of which is a request though it begins with a full stop."""
    wrapped = textwrap.wrap(text, WIDTH, break_long_words=False, break_on_hyphens=False)
    return [(r"\&" if line.startswith(".") else "") + escaped(line) for line in wrapped]


def bold(text: str) -> str:
    return rf"\fB{escaped(text)}\fR"


def synopsis(command: Command) -> Iterator[str]:
    """Gives the ways to call a command, one below the other."""
    for number, usage in enumerate(command.usage):
        yield from [".br"] if number else []
        yield bold(command.name) + escaped(usage.removeprefix(command.name))


def items(rows: list[Row]) -> list[str]:
    return [line for row in rows for line in (".TP", bold(row.head), *lines(row.words))]


def parts(text: str) -> Iterator[tuple[str, str]]:
    """Splits a paragraph by section: what a mark begins has one of its own, all else describes."""
    for mark, section in MARKS:
        if found := mark.search(text):
            yield "DESCRIPTION", text[:found.start()].strip()
            yield section, text[found.end():]
            return
    yield "DESCRIPTION", text


def paragraphs(texts: list[str]) -> list[str]:
    written = [[".PP", *lines(text)] for text in texts if text]
    return [line for paragraph in written for line in paragraph][1:]


def also(command: Command, pages: list[str]) -> list[str]:
    """Names the other pages."""
    others = sorted(page for page in pages if page != command.page)
    return [f".BR {escaped(page)} (1){',' if page != others[-1] else ''}" for page in others]


def manual(command: Command, pages: list[str], date: str, version: str) -> str:
    """Makes the man page of a command; `pages` are the names of all pages."""
    texts: dict[str, list[str]] = defaultdict(list)
    for section, part in (found for text in command.texts for found in parts(text)):
        texts[section].append(part)
    sections = {
        "NAME": lines(f"{command.page} - {command.texts[0].removesuffix('.')}"),
        "SYNOPSIS": list(synopsis(command)),
        "DESCRIPTION": paragraphs(texts["DESCRIPTION"]),
        "COMMANDS": items(command.rows),
        "ARGUMENTS": items(command.arguments),
        "OPTIONS": items(command.options),
        "EXIT STATUS": paragraphs(texts["EXIT STATUS"]),
        "EXAMPLES": paragraphs(texts["EXAMPLES"]),
        "SEE ALSO": also(command, pages),
    }
    head = f'.TH {escaped(command.page.upper())} 1 {date} "{version}" "User Commands"'
    written = [line for section, body in sections.items() if body for line in (f".SH {section}", *body)]
    return "\n".join([head, *written]) + "\n"
