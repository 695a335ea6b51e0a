#!/usr/bin/env python3
"""Runs a program with a capture cut to each number of bytes, and compares all that it answers with the model.

Prints how many cuts were tried.
"""
import argparse
import subprocess
import sys
from pathlib import Path

import model

Answer = tuple[int, str, str, dict[str, bytes]]  # status, standard output, standard error and the captures


def answer(program: str, table: str) -> Answer:
    out = Path("out")
    out.mkdir(exist_ok=True)
    for path in out.iterdir():
        path.unlink()
    done = subprocess.run([program, "run", table, "cut", "out", "--unchecked"], capture_output=True, check=False)
    return done.returncode, done.stdout.decode(), done.stderr.decode(), {path.name: path.read_bytes() for path in out.iterdir()}


def modelled(table: model.Table, captures: dict[int, bytes]) -> Answer:
    try:
        outcome = model.run(table, captures)
    except model.Refused as refused:
        return refused.status, "", refused.line + "\n", {}
    return 0, outcome.report, "", {f"port-{port}.pcap": data for port, data in outcome.captures.items()}


def main() -> None:
    parser = argparse.ArgumentParser(description=__doc__, formatter_class=argparse.RawDescriptionHelpFormatter)
    parser.add_argument("program")
    parser.add_argument("table")
    parser.add_argument("folder", help="has the captures of the table's ports")
    parser.add_argument("port", type=int, help="whose capture is cut")
    given = parser.parse_args()
    table = model.read(given.table)
    captures = model.captures_in(given.folder, table)
    whole, cut = captures[given.port], Path("cut")
    cut.mkdir(exist_ok=True)
    for row, data in captures.items():
        (cut / f"port-{row}.pcap").write_bytes(data)
    for length in range(len(whole) + 1):
        captures[given.port] = whole[:length]
        (cut / f"port-{given.port}.pcap").write_bytes(whole[:length])
        said, wanted = answer(given.program, given.table), modelled(table, captures)
        if said != wanted:
            sys.exit(f"cut to {length} bytes: status {said[0]}, {said[2]}, where the model has {wanted[0]}, {wanted[2]}")
    print(f"{len(whole) + 1} cuts")


if __name__ == "__main__":
    main()
