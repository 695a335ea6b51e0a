"""Says what came of an import: a line for each port, and what a user should look at."""
import math
from collections import Counter, defaultdict
from collections.abc import Iterable, Iterator
from pathlib import Path

import numpy as np

from afdx.importing.alignment import MOST_DRIFT, Alignment
from afdx.importing.instants import instant
from afdx.importing.rules import NETWORKS
from afdx.importing.running import Import, Reading
from afdx.importing.taking import Port, Taker
from afdx.recordings.columns import SECOND
from afdx.recordings.faults import Place

MOST_NAMED = 8  # end systems, or interfaces, that are named in a line
NETWORK_NAMES = ["neither network", *(f"network {name}" for name in NETWORKS)]  # by their numbers
SET_BACK = 100_000_000  # ns; frames that are later are hardly so because a recorder has put them in another order
MANY, PART = 10, 10  # frames, and one of so many, that make the question whether the mirror has both directions


def port_line(name: str, port: Port) -> str:
    """Returns the line of a port."""
    some = "stripped" if port.stripped == port.frames else f"stripped-of-{port.stripped}"
    fcs = some if port.stripped else "none"
    first, last = (instant(port.first), instant(port.last)) if port.frames else ("-", "-")
    return (f"{name} frames {port.frames} reordered {port.ordering.reordered} cut {port.cut} fcs {fcs} "
            f"first {first} last {last}")


def notes(done: Import) -> Iterator[str]:
    """Says what was found out of the recordings, and what may be wrong with them."""
    for reading in done.readings.values():
        if reading.recording.broken:
            yield broken_note(reading.recording.broken)
        yield from dropped_notes(reading)
        yield from check_sequence_notes(reading)
        yield from tag_notes(reading)
        yield from left_notes(reading)
    for _, taker in done.takers:
        if taker.source.interface is not None and not any(map(taker.is_asked, taker.recording.interfaces)):
            yield interface_note(taker)
    yield from port_notes(done.ports)


def broken_note(place: Place) -> str:
    """Says that a recording breaks off here."""
    return f"warning: breaks off; what was whole before is used, {place}"


def dropped_notes(reading: Reading) -> Iterator[str]:
    """Says of which interfaces that are asked for the recording says that frames were dropped."""
    for place, count in sorted(reading.recording.dropped.items()):
        interface = reading.recording.interfaces[place]
        if count and any(taker.is_asked(interface) for taker in reading.takers):
            yield (f"warning: {count} frames were dropped when it was recorded, {reading.recording.name}, "
                   f"interface {interface.number}")


def check_sequence_notes(reading: Reading) -> Iterator[str]:
    """Says of which interfaces check sequences were taken off, and where frames differ."""
    for place, check in reading.checks.items():
        interface = reading.recording.interfaces[place].number
        if check.unknown:
            yield (f"warning: {check.unknown} cut frames came before any whole one that shows whether they had a check "
                   f"sequence, none taken off, {reading.recording.name}, interface {interface}")
        if check.right:
            warning = "" if check.right == check.looked else "warning: "
            what = "taken off all" if check.are_there else "none taken off"
            yield (f"{warning}{check.right} of {check.looked} frames looked at end with their check sequence, {what}, "
                   f"{reading.recording.name}, interface {interface}")
    for place, check in reading.claimed.items():
        if check.right < check.looked:
            yield (f"warning: {check.looked - check.right} of {check.looked} frames looked at do not end with their "
                   f"check sequence, taken off all, {reading.recording.name}, "
                   f"interface {reading.recording.interfaces[place].number}")


def tag_notes(reading: Reading) -> Iterator[str]:
    """Says how many frames have VLAN tags, and of how many these were taken off."""
    for is_off in (False, True):
        if count := sum(taker.tagged for taker in reading.takers if taker.source.tags == is_off):
            what = f"tags of {count} frames taken off" if is_off else (
                f"warning: {count} frames have a VLAN tag: tags = true in the rules takes it off")
            yield f"{what}, {reading.recording.name}"


def left_notes(reading: Reading) -> Iterator[str]:
    """Says which frames no source takes, and of end systems that sources name, of which network and interface."""
    groups: dict[tuple[str, str], Counter[int]] = defaultdict(Counter)
    unasked = interfaces_unasked(reading)
    for place, network, sender, count in reading.left.rows():
        sources = [taker.source for taker in reading.takers if taker.is_named(sender)]
        of = f" of {NETWORK_NAMES[network]}" if any(source.network for source in sources) else ""
        where = ""
        if any(source.interface is not None for source in sources):
            where = unasked.get(place, f", interface {reading.recording.interfaces[place].number}")
        groups[of, where][sender] += count
    for (of, where), senders in sorted(groups.items()):
        named = listed(str(number) if number >= 0 else "none" for number in sorted(senders))
        yield (f"{senders.total()} of {reading.frames} frames are taken by no source, end systems {named}{of}, "
               f"{reading.recording.name}{where}")


def interfaces_unasked(reading: Reading) -> dict[int, str]:
    """Returns the name, by their places, of interfaces that have frames and that no source asks for: one for all."""
    found = {place: reading.recording.interfaces[place] for place, _, _, _ in reading.left.rows()}
    numbers = {place: str(interface.number) for place, interface in found.items()
               if not any(taker.is_asked(interface) for taker in reading.takers)}
    what = "interface" if len(numbers) == 1 else "interfaces"
    return dict.fromkeys(numbers, f", {what} {listed(numbers.values())}")


def listed(names: Iterable[str]) -> str:
    """Returns names in a row, the first ones if they are many."""
    names = list(names)
    return " ".join(names if len(names) <= MOST_NAMED else [*names[:MOST_NAMED], ".."])


def interface_note(taker: Taker) -> str:
    """Says that a source's interface is not there."""
    there = ", ".join(f"{interface.number} {interface.name!r}" for interface in taker.recording.interfaces)
    return f"warning: no interface {taker.source.interface!r}; there are: {there or 'none'}, {taker.recording.name}"


def has_both_directions(port: Port) -> bool:
    """Returns whether so many frames have come shortly before that they may have left the switch."""
    return port.ordering.repeated >= MANY and PART * port.ordering.repeated >= port.ordering.looked


def port_notes(ports: dict[str, Port]) -> Iterator[str]:
    """Says where networks are mixed, where clocks may have been set back or be apart, and where frames were taken
    twice."""
    for name, port in ports.items():
        if all(port.networks.values()):
            counts = " and ".join(f"{count} of network {network}" for network, count in port.networks.items())
            yield f"warning: frames of both networks: {counts}, {name}"
        if (latest := port.ordering.latest) and port.ordering.most_late > SET_BACK:
            by = f"{port.ordering.most_late / SECOND:.3f} s"
            late = f"{port.ordering.reordered} of {port.frames} frames are late, by up to {by}"
            yield f"warning: {late}: was the recorder's clock set back?, {name} ({latest.place})"
        if has_both_directions(port):
            count = f"{port.ordering.repeated} of {port.ordering.looked}"
            yield (f"warning: {count} frames looked at have the bytes of one at most 5 ms before: does "
                   f"the recording hold what leaves the switch too? take only what comes in, {name}")
        elif port.ordering.twice:
            yield (f"warning: {port.ordering.twice} of {port.frames} frames are there twice, with one stamp: is a "
                   f"recording taken twice?, {name}")
    firsts = sorted((port.first, name) for name, port in ports.items() if port.frames)
    if firsts and firsts[-1][0] - firsts[0][0] > SECOND:
        apart = (firsts[-1][0] - firsts[0][0]) / SECOND
        yield f"warning: the first frames lie {apart:.3f} s apart, {firsts[0][1]} and {firsts[-1][1]}"


def in_comment(path: Path) -> str:
    """Returns a file's name as a comment of TOML may have it: what cannot be printed, and bytes that are not UTF-8, by
    their numbers."""
    return "".join(sign if sign.isprintable() else ascii(sign)[1:-1] for sign in str(path))


def alignment_text(first: Path, second: Path, found: Alignment) -> str:
    """Returns the rules for the second recording, to be pasted, with what they rest on."""
    least, low, high, greatest = (round(part) for part in np.percentile(found.residues, [0, 25, 75, 100]))
    below = f" of less than {math.ceil(found.untold * SECOND)} ppb" if found.untold < MOST_DRIFT else ""
    untold = f"# too short to tell a drift{below}\n" if found.untold else ""
    anchor = f"drift_from_ns = {found.drift_from_ns}\n" if found.drift_ppb else ""
    names = f"{in_comment(second)} by the clock of {in_comment(first)}"
    return (f"# {names}: {found.pairs} frames in both, over {found.seconds:.3f} s\n"
            f"# beside this they differ by {least} to {greatest} ns, half of them by {low} to {high} ns\n{untold}"
            f"offset_ns = {found.offset_ns}\ndrift_ppb = {found.drift_ppb}\n{anchor}")
