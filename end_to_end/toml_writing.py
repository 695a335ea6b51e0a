"""Writes a tree as TOML, in one of the many spellings that say the same; tools and people write most of them.

A plain text has a line for each value and a `[[header]]` for each row. An odd one has some of: rows in braces or in any
order, quoted and escaped keys and texts, numbers with signs, bases and underscores, comments, blank lines, arrays over
several lines, other line ends, a mark of the order of bytes, no line feed at the end. A newer one has what TOML 1.1 has
and 1.0 has not.
"""
import re
from dataclasses import dataclass
from random import Random
from typing import Any

from toml_reading import Tree

NOT_PLAIN = {'"', "\\", "\x7f", *map(chr, range(32))}  # between double quotes
SHORT = {"\b": "\\b", "\t": "\\t", "\n": "\\n", "\f": "\\f", "\r": "\\r", '"': '\\"', "\\": "\\\\"}
COMMENTS = ["#", "# [[link]]", "# é ❤ = \" '", "#\t[", "##"]


@dataclass
class Style:
    """How a text is written."""
    chance: Random
    odd: bool = False
    newer: bool = False

    def may(self, share: float) -> bool:
        """Says whether to do something that is odd, so often."""
        return self.odd and self.chance.random() < share

    def comment(self, share: float) -> str:
        return f" {self.chance.choice(COMMENTS)}" if self.may(share) else ""


def number_text(style: Style, number: int) -> str:
    if not style.may(0.3):
        return str(number)
    if number < 0:
        return f"{number:_}"
    forms = ["+{}", "{:_}", "0x{:x}", "0x{:X}", "0x{:06x}", "0o{:o}", "0b{:b}", "0x{:_x}"]
    return "-0" if number == 0 and style.may(0.2) else style.chance.choice(forms).format(number)


def escaped(style: Style, letter: str) -> str:
    """Writes a letter by an escape."""
    code = ord(letter)
    forms = [f"\\U{code:08x}"]
    if code < 0x10000:
        forms.append(f"\\u{code:04X}")
    if style.newer and code < 256:
        forms += [f"\\x{code:02x}"] + ["\\e"] * (code == 0x1b)
    if letter in SHORT:
        forms.append(SHORT[letter])
    return style.chance.choice(forms) if style.odd else forms[-1]


def basic(style: Style, text: str) -> str:
    """Writes what stands between double quotes."""
    return "".join(escaped(style, letter) if letter in NOT_PLAIN or style.may(0.1) else letter for letter in text)


def text_text(style: Style, text: str) -> str:
    """Writes a text between quotes, on one line."""
    if style.may(0.3) and re.fullmatch(r"[^'\x00-\x1f\x7f]*", text):
        return f"'{text}'"
    return f'"{basic(style, text)}"'


def long_text(style: Style, text: str) -> str:
    """Writes a text between three quotes; the line feed after them, and what a backslash takes away, are not in it."""
    if style.may(0.4) and re.fullmatch(r"[^'\x00-\x1f\x7f]*", text):
        return f"'''\n{text}'''"
    begin = style.chance.choice(["", "\n", "\\\n  ", "\\\n\n\t"]) if not text.startswith((" ", "\t")) else "\n"
    return f'"""{begin}{basic(style, text)}{style.chance.choice(["", chr(92) + chr(10) + " "])}"""'


def key_text(style: Style, key: str) -> str:
    if re.fullmatch(r"[A-Za-z0-9_-]+", key) and not style.may(0.15):
        return key
    return text_text(style, key)


def gap(style: Style) -> str:
    """Gives what may stand between the members of an array."""
    return style.chance.choice(["", " ", "\t", "\n", " \n ", " # ]\n", "\n# ,\n"])


def array_text(style: Style, items: list[Any]) -> str:
    texts = [value_text(style, item) for item in items]
    if not style.may(0.4):
        return f"[{', '.join(texts)}]"
    last = gap(style) + ("," if texts and style.may(0.5) else "") + gap(style)
    return "[" + gap(style) + f"{gap(style)},{gap(style)}".join(texts) + last + "]"


def braces_text(style: Style, members: Tree) -> str:
    """Writes a table between braces. TOML 1.1 alone has line feeds there, and a comma after the last member."""
    newer = style.newer and style.may(0.7)
    between = [gap(style) if newer else " " for _ in range(3)]
    last = "," + gap(style) if newer and members and style.may(0.5) else ""
    lines = [f"{key_text(style, key)} = {value_text(style, inner)}" for key, inner in members.items()]
    return "{" + between[0] + f"{between[1]},{between[2]}".join(lines) + between[0] + last + "}"


def value_text(style: Style, value: Any) -> str:
    match value:
        case bool():
            return "true" if value else "false"
        case int():
            return number_text(style, value)
        case float():
            return str(value)
        case str():
            return long_text(style, value) if style.may(0.15) else text_text(style, value)
        case list():
            return array_text(style, value)
        case dict():
            return braces_text(style, value)
        case _:
            return str(value.isoformat())


def line(style: Style, key: str, value: Any) -> str:
    """Writes a key and its value, and a line feed."""
    blank = "\n" * style.chance.randint(1, 2) if style.may(0.1) else ""
    indent, equals = ("\t", " =\t") if style.may(0.1) else ("", "=") if style.may(0.1) else ("", " = ")
    return blank + indent + key_text(style, key) + equals + value_text(style, value) + style.comment(0.1) + "\n"


def header(style: Style, key: str) -> str:
    name = key_text(style, key)
    form = style.chance.choice(["[[ {} ]]", "[[{}]] ", "  [[{}]]", "[[\t{}]]"]) if style.may(0.15) else "[[{}]]"
    return form.format(name) + style.comment(0.15) + "\n"


def section(style: Style, key: str, members: Tree) -> str:
    values = list(members.items())
    if style.may(0.2):
        style.chance.shuffle(values)
    lines = [line(style, name, value) for name, value in values]
    return header(style, key) + "".join(lines) + "\n" * style.chance.randint(0, 1)


def is_rows(value: Any) -> bool:
    return isinstance(value, list) and value != [] and all(isinstance(row, dict) for row in value)


def sections(style: Style, rows: dict[str, list[Tree]]) -> list[str]:
    """Writes all rows: array after array, or among one another in any way that keeps the order of each array."""
    queues = [[section(style, key, row) for row in found] for key, found in rows.items()]
    if style.may(0.2):
        style.chance.shuffle(queues)
    if not style.may(0.2):
        return sum(queues, [])
    texts = []
    while queues := [queue for queue in queues if queue]:
        texts.append(style.chance.choice(queues).pop(0))
    return texts


def text_of(style: Style, tree: Tree) -> str:
    """Writes a tree."""
    rows = {key: value for key, value in tree.items() if is_rows(value) and not style.may(0.1)}
    lines = [line(style, key, value) for key, value in tree.items() if key not in rows]
    text = "".join(lines + sections(style, rows))
    if style.may(0.2):
        text = text.replace("\n", "\r\n")
    if style.may(0.1):
        text = text.rstrip("\r\n")
    return ("\ufeff" if style.may(0.05) else "") + text
