#!/usr/bin/env python3
"""Runs the program on each case of cases/*.toml, and compares its status, what it prints and the files that it puts.

A file has the list `case`; what `default` has, each of its cases has. A case has

    name        what is so
    arguments   the command line after `afdx`
    start       the files that it starts from, by their name in cases/start/*.toml
    files, in   further files; those of `in` lie in the folder `in`
    set         other values: `set.table.port.2.buffer = 64` is that of port 2 in the file `table`
    change      other texts: `change.table = ["to = [2]", "to = [1]"]`, and further pairs
    stdin       what is on standard input
    status      the status that is wanted, 0 where it is missing
    stdout      what is to be on standard output; nothing where it is missing and the status is above 1
    lines       lines that are to be among those on standard output
    stderr      the lines that are to be on standard error; none where it is missing
    out         the files that are to be in the folder `out`, all of them; none where it is missing

A file is a text, a TOML file by its values and rows, or a capture: a list of frames `STAMP LINK SIZE`, with the stamp
in ns and the check sequence in the size. After these may stand `original=N` (the original length), `constant=HEX` (the
first four bytes), `times=N` (so many such frames) and `every=NS` (each so much later than the one before it).
`{ frames = [..], patch = { 20 = "71" }, length = 99 }` is a capture with these bytes at these places, cut to that
length; `{ hex = ".." }` has these bytes. The file `2` is `port-2.pcap`. A table of files is a folder.
"""
import argparse
import difflib
import json
import shlex
import subprocess
import sys
import tempfile
import tomllib
from pathlib import Path
from typing import Any

from captures import HEADER, SECOND, frame, record, rows_of

CASES = Path(__file__).parent / "cases"
KEYS = {"name", "arguments", "start", "files", "in", "set", "change"}
KEYS |= {"stdin", "status", "stdout", "lines", "stderr", "out"}
ROWS = {"port", "link", "switch", "wire"}

Case = dict[str, Any]
Files = dict[str, bytes]


class Wrong(Exception):
    """A case that is none."""


# --- Files ---


def records_of(words: str) -> bytes:
    """Makes the records of `STAMP LINK SIZE KEY=VALUE..`."""
    stamp, link, size, *rest = words.split()
    more = dict(word.split("=") for word in rest)
    data = frame(int(link), int(size), more.get("constant", "03000000"))
    times, every, original = (int(more.get(key, other)) for key, other in (("times", 1), ("every", 0), ("original", len(data))))
    return b"".join(record(int(stamp) + number * every, data, original) for number in range(times))


def capture_of(frames: list[str]) -> bytes:
    """Makes the capture of these frames."""
    return HEADER + b"".join(map(records_of, frames))


def patched(capture: dict[str, Any]) -> bytes:
    """Makes a capture of which bytes are others, or that is cut."""
    data = bytearray(capture_of(capture["frames"]))
    for place, text in capture.get("patch", {}).items():
        patch = bytes.fromhex(text)
        data[int(place):int(place) + len(patch)] = patch
    return bytes(data[:capture.get("length", len(data))])


def toml_of(values: dict[str, Any]) -> str:
    """Writes values, and then rows, as TOML."""
    lines = [f"{key} = {json.dumps(value)}" for key, value in values.items() if key not in ROWS]
    for key in [key for key in values if key in ROWS]:
        for row in values[key]:
            lines += [f"[[{key}]]", *(f"{name} = {json.dumps(value)}" for name, value in row.items())]
    return "".join(line + "\n" for line in lines)


def bytes_of(value: Any) -> bytes:
    """Makes a file."""
    if isinstance(value, str):
        return value.encode()
    if isinstance(value, list):
        return capture_of(value)
    if "hex" in value:
        return bytes.fromhex(value["hex"])
    return patched(value) if "frames" in value else toml_of(value).encode()


def files_of(folder: dict[str, Any], path: str = "") -> Files:
    """Makes the files of a folder, by their names."""
    files: Files = {}
    for name, value in folder.items():
        if isinstance(value, dict) and not value.keys() & (ROWS | {"frames", "hex"}):
            files |= files_of(value, f"{path}{name}/")
        else:
            files[path + (f"port-{name}.pcap" if name.isdigit() else name)] = bytes_of(value)
    return files


def with_values(file: dict[str, Any], values: dict[str, Any]) -> dict[str, Any]:
    """Sets values of the top, and values of rows by their numbers."""
    top = {key: value for key, value in values.items() if key not in ROWS}
    changed = top | {key: value for key, value in file.items() if key not in top}
    for key in values.keys() & ROWS:
        rows = {str(row["id"]): dict(row) for row in file[key]}
        for number, row in values[key].items():
            rows[number] |= row
        changed[key] = list(rows.values())
    return changed


def with_texts(data: bytes, texts: list[str], name: str) -> bytes:
    """Puts each second text in the place of the one before it."""
    text = data.decode()
    for old, new in zip(texts[::2], texts[1::2], strict=True):
        if old not in text:
            raise Wrong(f"{name} has no {old!r}")
        text = text.replace(old, new)
    return text.encode()


def given(case: Case, starts: dict[str, Any]) -> Files:
    """Makes the files that are there before a case is run."""
    start = dict(starts[case["start"]]) if "start" in case else {}
    for name, values in case.get("set", {}).items():
        start[name] = with_values(start[name], values)
    files = files_of(start) | files_of(case.get("files", {})) | files_of(case.get("in", {}), "in/")
    for name, texts in case.get("change", {}).items():
        files[name] = with_texts(files[name], texts, name)
    return files


def make_room(case: Case, files: Files, room: Path) -> None:
    """Writes the files, and makes the folders that captures are put into."""
    (room / "out").mkdir()
    for name in [*files, *files_of(case.get("in", {}), "out/"), *files_of(case.get("out", {}), "out/")]:
        (room / name).parent.mkdir(parents=True, exist_ok=True)
    for name, data in files.items():
        (room / name).write_bytes(data)


# --- What is not as it is to be ---


def shown(data: bytes) -> list[str]:
    """Gives the lines of a text, or the frames of a capture as a case has them."""
    if not data.startswith(HEADER):
        return data.decode(errors="replace").splitlines()
    return [f"{seconds * SECOND + nanos} {int.from_bytes(text[4:6], 'big')} {captured + 4} original={original}"
            for seconds, nanos, captured, original, text in rows_of(data)]


def differences(name: str, wanted: bytes, got: bytes) -> list[str]:
    """Says in which lines or frames a file is another than is wanted."""
    if wanted == got:
        return []
    lines = list(difflib.unified_diff(shown(wanted), shown(got), "wanted", name, lineterm="", n=0))
    return lines or [f"{name}: {got[:200].hex(' ')}", f"where this is wanted: {wanted[:200].hex(' ')}"]


def wrong_output(case: Case, out: bytes) -> list[str]:
    """Says what is not right on standard output."""
    missing = [f"no line {line}" for line in case.get("lines", []) if line not in out.decode().splitlines()]
    wanted = case.get("stdout", "" if case.get("status", 0) > 1 else None)
    return missing + ([] if wanted is None else differences("standard output", bytes_of(wanted), out))


def wrong_files(case: Case, room: Path) -> list[str]:
    """Says which files of the folder `out` are not as they are to be."""
    wanted = files_of(case.get("out", {}))
    paths = [path for path in (room / "out").rglob("*") if path.is_file()]
    found = {str(path.relative_to(room / "out")): path.read_bytes() for path in paths}
    lines = [] if wanted.keys() == found.keys() else [f"in out are {sorted(found)}"]
    for name in sorted(wanted.keys() & found.keys()):
        lines += differences(f"out/{name}", wanted[name], found[name])
    return lines


def faults_of(case: Case, program: str, starts: dict[str, Any]) -> list[str]:
    """Runs a case, and says what is not as it is to be."""
    if case.keys() - KEYS:
        raise Wrong(f"no key of a case: {', '.join(case.keys() - KEYS)}")
    with tempfile.TemporaryDirectory() as folder:
        room = Path(folder)
        make_room(case, given(case, starts), room)
        words, stdin = [program, *shlex.split(case["arguments"])], bytes_of(case.get("stdin", ""))
        done = subprocess.run(words, cwd=room, input=stdin, capture_output=True, timeout=60, check=False)
        status, line = case.get("status", 0), case["stderr"].rstrip("\n") + "\n" if "stderr" in case else ""
        faults = [] if done.returncode == status else [f"status {done.returncode}, where {status} is wanted"]
        faults += differences("standard error", line.encode(), done.stderr)
        return faults + wrong_output(case, done.stdout) + wrong_files(case, room)


# --- Cases ---


def cases_of(path: Path) -> list[Case]:
    """Reads the cases of a file, no two of one name."""
    tree = tomllib.loads(path.read_text())
    cases = [tree.get("default", {}) | case for case in tree["case"]]
    if tree.keys() - {"default", "case"} or len({case["name"] for case in cases}) < len(cases):
        raise Wrong(f"{path.name}: another key than default and case, or a name twice")
    return cases


def run_file(path: Path, program: str, starts: dict[str, Any]) -> tuple[int, int]:
    """Runs the cases of a file: how many passed, and how many failed."""
    failed = 0
    cases = cases_of(path)
    for case in cases:
        try:
            faults = faults_of(case, program, starts)
        except (Wrong, KeyError, ValueError, OSError, subprocess.TimeoutExpired) as fault:
            faults = [repr(fault)]
        if faults:
            failed += 1
            print("\n        ".join([f"FAILED  {path.stem}: {case['name']}", *faults]))
    print(f"{'FAILED ' if failed else 'ok     '} {path.stem}: {len(cases)} cases")
    return len(cases) - failed, failed


def read_starts() -> dict[str, Any]:
    """Reads what cases start from, by name."""
    starts: dict[str, Any] = {}
    for path in (CASES / "start").glob("*.toml"):
        starts |= tomllib.loads(path.read_text())
    return starts


def main() -> None:
    """Runs the cases of these files, or of all."""
    parser = argparse.ArgumentParser(description=__doc__, formatter_class=argparse.RawDescriptionHelpFormatter)
    parser.add_argument("program", type=Path)
    parser.add_argument("files", type=Path, nargs="*", help="all of cases/ if none is named")
    given = parser.parse_args()
    starts = read_starts()
    counts = [run_file(path, str(given.program.resolve()), starts) for path in given.files or sorted(CASES.glob("*.toml"))]
    passed, failed = (sum(column) for column in zip(*counts))
    print(f"{passed} passed, {failed} failed")
    sys.exit(1 if failed else 0)


if __name__ == "__main__":
    main()
