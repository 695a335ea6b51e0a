"""Runs the command afdx-skew."""
import argparse
import heapq
import os
from collections.abc import Iterator, Sequence
from glob import glob
from pathlib import Path

import numpy as np

from afdx.failure import INPUT, Failure, failing, say, tell
from afdx.importing.instants import instant
from afdx.importing.report import broken_note
from afdx.recordings.columns import Batch
from afdx.recordings.faults import RecordingFault
from afdx.recordings.reading import Recording
from afdx.skew.copies import Copy, Link, Odd, Pairing, copy_of

COMMAND = "afdx-skew"
MILLISECOND, MICROSECOND = 1_000_000, 1_000
NAMES = ("a", "b")


def options_of(arguments: Sequence[str]) -> argparse.Namespace:
    parser = argparse.ArgumentParser(
        prog=COMMAND, description="Prints, for each link and port, how far apart two networks deliver the same frames.",
        epilog="Exit status 0: the lines are printed, whatever they say; 2: usage; 3: a folder is not there, neither "
               "has captures, or a capture is refused; 5: a file fails; 70: a defect of this command.")
    parser.add_argument("a", metavar="A", type=Path,
                        help="the folder of network A's outputs, as afdx run or network run puts them")
    parser.add_argument("b", metavar="B", type=Path, help="the folder of network B's outputs")
    parser.add_argument("--within-ms", type=int, default=20, metavar="MS",
                        help="how far apart two copies of a frame may be (%(default)s)")
    parser.add_argument("--apart-us", type=int, metavar="US",
                        help="also prints each frame whose copies lie further apart, and each that one side lacks")
    options = parser.parse_args(arguments)
    if options.within_ms < 0:
        parser.error("--within-ms is below 0")
    if options.apart_us is not None and options.apart_us < 0:
        parser.error("--apart-us is below 0")
    return options


def ports_of(folder: Path) -> set[str]:
    """Returns the captures that lie in a folder and in those below it, also where a link leads to one."""
    if not folder.is_dir():
        raise Failure(INPUT, f"{COMMAND}: no folder {folder}")
    return {name.removesuffix(".pcap") for name in glob("**/port-*.pcap", root_dir=folder, recursive=True)}


def in_order(port: str) -> tuple[str, int, str]:
    """Returns what ports are sorted by: their folder, then their number."""
    folder, _, number = port.rpartition("-")
    return folder, int(number) if number.isdecimal() else 0, number


def refuse_falling(batch: Batch, newest: int | None) -> None:
    """Raises RecordingFault if a stamp is below that of the record before; `newest` is that before the batch."""
    falls = np.diff(batch.stamp, prepend=batch.stamp[:1] if newest is None else newest) < 0
    if falls.any():
        place = batch.origin.place_of(int(batch.where[falls.argmax()]))
        raise RecordingFault("a stamp below that of the record before (afdx-import sorts)", place)


def copies_of(network: int, path: Path) -> Iterator[Copy]:
    """Returns the frames of a capture; those without addresses are left out. Raises RecordingFault if stamps fall."""
    recording = Recording(path, str(path))
    newest: int | None = None
    for batch in recording.batches():
        refuse_falling(batch, newest)
        newest = int(batch.stamp[-1]) if batch.stamp.size else newest
        end = batch.start + batch.captured
        for stamp, begin, after in zip(batch.stamp.tolist(), batch.start.tolist(), end.tolist()):
            if copy := copy_of(stamp, network, batch.data[begin:after]):
                yield copy
    if recording.broken:
        tell(f"{COMMAND}: {broken_note(recording.broken)}")


def paired(port: str, folders: Sequence[Path], options: argparse.Namespace) -> Pairing:
    """Pairs the frames of a port."""
    paths = [(network, folder / f"{port}.pcap") for network, folder in enumerate(folders)]
    apart_us: int | None = options.apart_us
    pairing = Pairing(options.within_ms * MILLISECOND, None if apart_us is None else apart_us * MICROSECOND)
    both = (copies_of(network, path) for network, path in paths if os.path.lexists(path))
    for copy in heapq.merge(*both, key=lambda copy: copy.stamp):
        pairing.add(copy)
    pairing.give_up_before(None)
    return pairing


def odd_line(port: str, odd: Odd) -> str:
    what = f"apart {odd.difference}" if odd.network is None else f"only-{NAMES[odd.network]}"
    return f"{port} link {odd.link} {what} at {instant(odd.stamp)}\n"


def lines_of(port: str, pairing: Pairing) -> list[str]:
    """Returns a port's lines: for each link, and for each frame that is odd."""
    return [*(line(port, number, link) for number, link in sorted(pairing.links.items())),
            *(odd_line(port, odd) for odd in sorted(pairing.odd, key=lambda odd: (odd.stamp, odd.link)))]


def line(port: str, number: int, link: Link) -> str:
    least, greatest = (link.least, link.greatest) if link.pairs else ("-", "-")
    sides = " ".join(f"only-{name} {side.alone} run-{name} {side.longest}" for name, side in zip(NAMES, link.sides))
    return f"{port} link {number} pairs {link.pairs} least {least} greatest {greatest} {sides}\n"


def warn_of(missing: set[str], folder: Path) -> None:
    """Says which captures a folder lacks that the other one has."""
    for port in sorted(missing, key=in_order):
        tell(f"{COMMAND}: warning: no capture {port}.pcap, {folder}")


def compared(port: str, folders: Sequence[Path], options: argparse.Namespace) -> list[str]:
    """Compares what both networks delivered at a port."""
    try:
        return lines_of(port, paired(port, folders, options))
    except RecordingFault as fault:
        raise Failure(INPUT, f"{COMMAND}: {fault}") from fault
    except OSError as error:
        raise failing(COMMAND, f"cannot read {error.filename}", error) from error


def main(arguments: Sequence[str]) -> int:
    """Runs the command; returns its exit status."""
    options = options_of(arguments)
    folders = [options.a, options.b]
    first, second = map(ports_of, folders)
    if not first | second:
        raise Failure(INPUT, f"{COMMAND}: no captures, {options.a} and {options.b}")
    warn_of(second - first, options.a)
    warn_of(first - second, options.b)
    ports = sorted(first | second, key=in_order)
    say(COMMAND, "".join(text for port in ports for text in compared(port, folders, options)))
    return 0
