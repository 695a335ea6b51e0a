"""Fills the templates of pages."""
from pathlib import Path

import jinja2

from afdx.pages import words

FOLDER = Path(__file__).resolve().parent / "templates"


def environment(package: Path) -> jinja2.Environment:
    """Returns the templates of a package and those that all pages share: frame, style and sorting.

    They write what they are given as text of HTML, with the functions of `words`.
    """
    loader = jinja2.FileSystemLoader([package / "templates", FOLDER])
    made = jinja2.Environment(loader=loader, autoescape=True, undefined=jinja2.StrictUndefined, trim_blocks=True,
                              lstrip_blocks=True)
    functions = (words.number, words.percent, words.since, words.lasting, words.utc, words.count)
    made.globals.update({function.__name__: function for function in functions})
    return made
