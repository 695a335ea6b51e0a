"""Runs the command afdx-import."""
import argparse
import os
from collections.abc import Sequence
from glob import glob
from pathlib import Path

from tqdm import tqdm  # type: ignore[import]

from afdx.failure import DEVICE, INPUT, Failure, failing, say, tell
from afdx.importing.alignment import Alignment, Unaligned, aligned, sightings
from afdx.importing.captures import Captures
from afdx.importing.report import alignment_text, broken_note, notes, port_line
from afdx.importing.rules import Rules, RulesFault, rules_of
from afdx.importing.running import Import
from afdx.recordings.faults import RecordingFault

COMMAND = "afdx-import"


def options_of(arguments: Sequence[str]) -> argparse.Namespace:
    parser = argparse.ArgumentParser(
        prog=COMMAND, description="Makes the captures that afdx reads of recordings as they come.",
        usage="%(prog)s [-h] RULES.toml RAW IN\n       %(prog)s --align A B",
        epilog="Exit status 0: the captures are in IN; 2: usage; 3: the rules or a recording are refused, and nothing "
               "was put; 5: a file or folder fails; 70: a defect of this command.")
    parser.add_argument("rules", metavar="RULES.toml", type=Path, nargs="?",
                        help="which frames of which recordings come to which port")
    parser.add_argument("raw", metavar="RAW", type=Path, nargs="?", help="the folder of the recordings")
    parser.add_argument("folder", metavar="IN", type=Path, nargs="?",
                        help="the folder of the captures; it is made if it is not there")
    parser.add_argument("--align", metavar=("A", "B"), type=Path, nargs=2,
                        help="prints the rules that bring recording B to the clock of A, by the frames of both")
    options = parser.parse_args(arguments)
    if (options.align is None) == (options.folder is None) or options.align and options.rules:
        parser.error("either RULES.toml, RAW and IN, or --align A B")
    return options


def rules_in(path: Path) -> Rules:
    try:
        return rules_of(path.read_bytes())
    except OSError as error:
        raise failing(COMMAND, f"cannot read {path}", error) from error
    except RulesFault as fault:
        raise Failure(INPUT, *(f"{COMMAND}: {what}, {path}" for what in fault.faults)) from fault


def named_by(pattern: str, raw: Path) -> list[Path]:
    """Returns what has this name, as one with brackets, or if nothing has what fits this pattern, by name."""
    path = raw / pattern
    return [path] if path.exists() else [raw / name for name in sorted(glob(pattern, root_dir=raw))]


def recordings_of(rules: Rules, raw: Path) -> list[list[Path]]:
    """Returns the files of each source, by name."""
    if not raw.is_dir():
        raise Failure(DEVICE, f"{COMMAND}: no folder {raw}")
    named = [named_by(source.file, raw) for source in rules.sources]
    found = [[path for path in paths if path.is_file()] for paths in named]
    missing = [f"{COMMAND}: no {'regular file' if named[at] else 'recording'} {source.file}, source {at + 1}, {raw}"
               for at, source in enumerate(rules.sources) if not found[at]]
    if missing:
        raise Failure(INPUT, *missing)
    return found


def refuse_replacing(captures: Captures, found: list[list[Path]]) -> None:
    """Refuses to put a capture in the place of a recording."""
    read = {os.path.realpath(path) for paths in found for path in paths}
    for path in captures.paths.values():
        if os.path.realpath(path) in read:
            raise Failure(DEVICE, f"{COMMAND}: a recording would be replaced, {path}")


def import_all(rules: Rules, raw: Path, folder: Path) -> Import:
    """Makes all captures, or none."""
    found = recordings_of(rules, raw)
    captures = Captures(COMMAND, folder, rules.ports)
    refuse_replacing(captures, found)
    with captures:
        try:
            done = Import(rules, raw, found, captures.write)
            size = sum(path.stat().st_size for path in done.readings)
            with tqdm(total=size, unit="B", unit_scale=True, desc=COMMAND, leave=False, disable=None) as bar:
                done.run(bar.update)
        except OSError as error:
            raise failing(COMMAND, f"cannot read {error.filename}", error) from error
        if done.faults:
            raise Failure(INPUT, *(f"{COMMAND}: {fault}" for fault in done.faults))
        captures.put()
    return done


def align(paths: list[Path]) -> Alignment:
    """Returns how the second recording comes to the clock of the first one."""
    try:
        first, second = map(sightings, paths)
        tell(*(f"{COMMAND}: {broken_note(seen.broken)}" for seen in (first, second) if seen.broken))
        return aligned(first, second)
    except OSError as error:
        raise failing(COMMAND, f"cannot read {error.filename}", error) from error
    except RecordingFault as fault:
        raise Failure(INPUT, f"{COMMAND}: {fault}") from fault
    except Unaligned as what:
        raise Failure(INPUT, f"{COMMAND}: {what}, {paths[0]} and {paths[1]}") from what


def main(arguments: Sequence[str]) -> int:
    """Runs the command; returns its exit status."""
    options = options_of(arguments)
    if options.align:
        say(COMMAND, alignment_text(options.align[0], options.align[1], align(options.align)))
        return 0
    done = import_all(rules_in(options.rules), options.raw, options.folder)
    tell(*(f"{COMMAND}: {note}" for note in notes(done)))
    say(COMMAND, "".join(f"{port_line(name, port)}\n" for name, port in done.ports.items()))
    return 0
