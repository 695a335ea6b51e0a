#!/usr/bin/env python3
"""Runs a program with each of its allocations refused in turn.

LIBRARY is refuse.c, built. Without a refusal the program, which reads INPUT and writes to OUTPUT (- is a pipe), ends with STATUS
and, on standard error, LINE. With the Nth allocation refused, for each N until none is, it answers the same: status, both streams
and the files of the folder `out`; or its status is 5, standard error is `afdx: memory`, nothing is on standard output, and the
files that are there are the first of the right ones. Prints how many allocations were refused.
"""
import argparse
import os
import re
import subprocess
import sys
from pathlib import Path

Said = tuple[int, bytes, bytes]  # status, standard output, standard error
Files = dict[str, bytes]
WANT = (5, b"", b"afdx: memory\n")


def names() -> list[Path]:
    """Returns the files of the folder `out` in the order in which they are put: by folder, and by rising port number."""
    found = [path for path in Path("out").rglob("*") if path.is_file()]
    return sorted(found, key=lambda path: (path.parent, int("0" + re.sub(r"\D", "", path.stem)), path.name))


def files() -> Files:
    """Returns the bytes of the files that are there, by their paths."""
    return {str(path): path.read_bytes() for path in names()}


def answer(library: str, number: int, source: str, sink: str, arguments: list[str]) -> tuple[Said, Files, bool]:
    """Runs the program, whose allocation of this number is refused. Returns status, standard output, standard error, files; and whether an
    allocation was refused."""
    for path in names():
        path.unlink()
    heard, say = os.pipe()
    os.dup2(say, 9)
    os.close(say)
    reads = os.open(source, os.O_RDONLY)
    writes = subprocess.PIPE if sink == "-" else os.open(sink, os.O_WRONLY)
    done = subprocess.run(arguments, stdin=reads, stdout=writes, stderr=subprocess.PIPE, pass_fds=[9], check=False,
                          env={**os.environ, "LD_PRELOAD": library, "REFUSE": str(number)})
    for file in [9, reads] + [writes] * (sink != "-"):
        os.close(file)
    refused = os.read(heard, 1) == b"!"
    os.close(heard)
    return (done.returncode, done.stdout or b"", done.stderr), files(), refused


def are_a_prefix(found: Files, right: Files) -> bool:
    """Returns whether the files are the first of those that are right."""
    return list(found.items()) == list(right.items())[:len(found)]


def main() -> None:
    parser = argparse.ArgumentParser(description=__doc__, formatter_class=argparse.RawDescriptionHelpFormatter)
    parser.add_argument("library")
    parser.add_argument("status", type=int)
    parser.add_argument("line")
    parser.add_argument("input")
    parser.add_argument("output", help="- is a pipe")
    parser.add_argument("program", nargs=argparse.REMAINDER, help="and its arguments")
    given = parser.parse_args()
    around = (given.input, given.output, given.program)
    right, right_files, refused = answer(given.library, 0, *around)
    if refused or right[0] != given.status or right[2].decode() != (given.line + "\n" if given.line else ""):
        sys.exit(f"without a refusal: status {right[0]}, {right[2]!r}")
    number = 0
    while True:
        number += 1
        said, found, refused = answer(given.library, number, *around)
        is_right = said == right and found == right_files
        wants = refused and said == WANT and are_a_prefix(found, right_files)
        if not is_right and not wants:
            sys.exit(f"allocation {number}: status {said[0]}, {said[2]!r}, {len(said[1])} bytes, files {list(found)}")
        if not refused:
            print(f"{number - 1} allocations refused")
            return


if __name__ == "__main__":
    main()
