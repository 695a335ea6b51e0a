"""Reads TOML, as far as Python knows it: the program takes TOML 1.1, Python 1.0."""
import json
import re
import tomllib
from pathlib import Path
from typing import Any

from afdx import files
from afdx.failure import INPUT, Failure


class NotToml(Exception):
    """Is raised for a text that is no TOML, or that has a number or a nesting that Python has no room for."""


def shown(key: str) -> str:
    """Returns a key as TOML has it, on one line."""
    return key if re.fullmatch("[A-Za-z0-9_-]+", key) else json.dumps(key, ensure_ascii=False)


def content(text: bytes) -> dict[str, Any]:
    """Returns the content of a text, which may have a byte order mark. Raises NotToml."""
    try:
        return tomllib.loads(text.decode("utf-8-sig"))
    except (ValueError, RecursionError) as error:
        raise NotToml(str(error)) from error


def read(command: str, path: Path) -> dict[str, Any]:
    """Returns the content of a file."""
    try:
        return content(files.get(command, path))
    except NotToml as error:
        raise Failure(INPUT, f"{command}: not TOML 1.0: {error}, {path}") from error
