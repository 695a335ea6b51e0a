"""Reads the comma-separated values that the program prints."""
import csv

CSV = "--csv"  # asks for them

Row = dict[str, str]  # its fields by the names of their columns


def rows_of(text: str, kind: str | None = None) -> list[Row]:
    """Returns the rows below the heading, or those of a kind. A field that is not there is empty. KeyError is raised if
    the heading has no column `kind` and one is asked for."""
    rows = csv.DictReader(text.splitlines(), restval="")
    return [row for row in rows if kind is None or row["kind"] == kind]


def listed(field: str) -> str:
    """Returns the words of a field that has several."""
    return field.replace(";", " ")


def number(field: str) -> int | None:
    """Returns the number of a field, None of an empty one."""
    return int(field) if field else None
