#!/usr/bin/env python3
"""Compares table_model.py with the lines of cases/table_refusals.toml, which were worked out by hand.

Prints what differs, and fails then.
"""
import sys

import cases
import fuzz_tables
import model
from toml_reading import Unknown


def line_of(data: bytes) -> str | None:
    """Gives the model's line for a table, which is empty for one that is read; none if it cannot say."""
    try:
        fuzz_tables.table_of(data)
    except model.Refused as refused:
        return str(refused.line)
    except Unknown:
        return None
    return ""


def main() -> int:
    """Compares all of them."""
    rows, starts, differing, unknown = cases.cases_of(cases.CASES / "table_refusals.toml"), cases.read_starts(), 0, 0
    for case in rows:
        line = line_of(cases.given(case, starts)["table"])
        if line is None:
            unknown += 1
        elif line != case["stderr"]:
            differing += 1
            print(f"{case['name']}: the model has {line}, wanted is {case['stderr']}")
    print(f"{len(rows)} tables, {differing} with another line, {unknown} of which the model cannot say")
    return 1 if differing else 0


if __name__ == "__main__":
    sys.exit(main())
