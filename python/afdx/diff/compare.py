"""Compares facts, and writes what differs."""
import csv
import io
from dataclasses import dataclass

from afdx.diff.facts import KINDS, NONE, Facts, Place

HEADING = ("switch", "kind", "name", "change", "field", "before", "after")
# what says that something is refused, by kind, and what it is if nothing is
REFUSING = {"load": ("breaks", "-"), "need": ("lacks", "0"), "check": ("verdict", "accepted")}


@dataclass(frozen=True)
class Difference:
    """What differs at a place. A value that a side does not have is `-`."""
    place: Place
    change: str  # added, gone, changed or refused
    values: list[tuple[str, str, str]]  # name, before, after


def is_newly_refused(place: Place, old: dict[str, str], new: dict[str, str]) -> bool:
    """Says whether the program refuses something at a place that it did not refuse before."""
    if place.kind not in REFUSING:
        return False
    name, sound = REFUSING[place.kind]
    before, after = old.get(name, sound), new.get(name, sound)
    if place.kind == "load":  # the names of all rules that are broken
        return not set(after.split()) <= {sound, *before.split()}
    return after != sound and before == sound


def difference(place: Place, old: dict[str, str] | None, new: dict[str, str] | None) -> Difference | None:
    """Returns what differs at a place, if anything does."""
    if old == new:
        return None
    before, after = old or {}, new or {}
    change = "added" if old is None else "gone" if new is None else "changed"
    if is_newly_refused(place, before, after):
        change = "refused"
    names = dict.fromkeys([*before, *after])
    values = [(name, before.get(name, NONE), after.get(name, NONE)) for name in names]
    return Difference(place, change, [value for value in values if value[1] != value[2]])


def comparable(old: Facts, new: Facts) -> set[str]:
    """Returns the kinds to be compared. Of a refused network the program may not say all; what it does not say of one
    side is not compared."""
    kinds = set(KINDS)
    for side in (old, new):
        said = {place.kind for place in side}
        if side[Place("", "check", "")]["verdict"] != "accepted":
            kinds -= {"need", "way"} - said
    return kinds


def differences(old: Facts, new: Facts) -> list[Difference]:
    """Returns all that differs, rows first."""
    kinds = comparable(old, new)
    places = sorted((place for place in old.keys() | new.keys() if place.kind in kinds), key=Place.rank)
    found = (difference(place, old.get(place), new.get(place)) for place in places)
    return [differing for differing in found if differing]


def line_of(differing: Difference) -> str:
    """Writes a difference as a line."""
    if differing.change in ("added", "gone"):
        side = 2 if differing.change == "added" else 1
        values = [f"{value[0]} {value[side]}" for value in differing.values]
    else:
        values = [f"{name} {before} -> {after}" for name, before, after in differing.values]
    return f"{differing.place} {differing.change}{': ' if values else ''}{', '.join(values)}\n"


def text_of(found: list[Difference]) -> str:
    """Writes a line for each place that differs."""
    return "".join(map(line_of, found))


def separated_text_of(found: list[Difference]) -> str:
    """Writes comma-separated values, a line for each value that differs."""
    text = io.StringIO()
    writer = csv.writer(text, lineterminator="\n")
    writer.writerow(HEADING)
    for differing in found:
        place = differing.place
        start = (place.switch, place.kind, place.name, differing.change)
        writer.writerows((*start, *value) for value in differing.values or [("", "", "")])
    return text.getvalue()
