#!/usr/bin/env python3
"""A plain and slow model of what recordings of a switch have to keep to, read literally: whether fates and pairs are as the relation asks.

A link's account is known as an interval of levels. Its frames have fates, the same at all ports, that one level at the beginning
explains; at each port the records are, but for some at the beginning, the first of the passed frames, in order, each within its
bounds, and the other passed frames may still leave after the end. Instants are nanoseconds, all numbers whole. All choices are
tried, so it is for small recordings; `answers_of` is what is found without trying all.
"""
from collections.abc import Iterator
from dataclasses import dataclass
from typing import Any

import model
from model import Link, Record


@dataclass(frozen=True)
class Watch:
    """What is known of the recorders and of the switch."""
    least: int = 0  # ns, the least latency
    scatter: int = 0  # ns by how much latencies differ
    tolerance: int = 0  # ns by which stamps are off
    gap: int = 0  # bytes from an output stamp until the line is free
    start: int | None = None  # None: at rest
    until: int | None = None  # None: until all had left

    def has_frame(self, stamp: int) -> bool:
        return (self.start is None or self.start + self.tolerance <= stamp) and (self.until is None or stamp <= self.until)

    def has_record(self, stamp: int) -> bool:
        return (self.start is None or self.start <= stamp) and (self.until is None or stamp + self.tolerance <= self.until)


@dataclass(frozen=True)
class Line:
    """An output port, as one link sees it."""
    tick: int  # ns of a byte
    bound: int  # ns


# the records of each port of a link
Outs = list[tuple[Line, list[Record]]]
# what became of frames and what records are, kind by kind: numbers, or pairs of numbers
Found = dict[str, list[Any]]


# --- Levels ---


@dataclass(frozen=True)
class Levels:
    least: int
    most: int
    since: int


def first_levels(link: Link, watch: Watch) -> Levels:
    full = cap(link) + 2 * slack(link, watch)
    return Levels(full, full, 0) if watch.start is None else Levels(0, full, watch.start + watch.tolerance)


def rate(link: Link) -> int:
    return link.max_size if link.police == "byte" else 1


def cap(link: Link) -> int:
    return rate(link) * (link.bag + link.jitter)


def price(link: Link, frame: Record) -> int:
    return frame.size * link.bag if link.police == "byte" else link.bag


def slack(link: Link, watch: Watch) -> int:
    return rate(link) * watch.tolerance


def credited(link: Link, levels: Levels, stamp: int) -> Levels:
    credit = rate(link) * (stamp - levels.since)
    return Levels(levels.least + credit, levels.most + credit, stamp)


def may_be(link: Link, watch: Watch, levels: Levels, frame: Record, passes: bool) -> bool:
    if passes:
        return price(link, frame) <= levels.most
    return levels.least < price(link, frame) + 2 * slack(link, watch)


def after(link: Link, watch: Watch, levels: Levels, frame: Record, passes: bool) -> Levels:
    cost, edge = price(link, frame), 2 * slack(link, watch)
    if passes:
        return Levels(min(cap(link), max(levels.least, cost)) - cost, min(cap(link) + edge, levels.most) - cost, levels.since)
    return Levels(levels.least, min(levels.most, cost + edge - 1), levels.since)


def allowed(link: Link, watch: Watch, levels: Levels, frames: list[Record]) -> Iterator[list[bool]]:
    """Yields all lists of fates that these frames may have."""
    if not frames:
        yield []
        return
    now = credited(link, levels, frames[0].stamp)
    for passes in (True, False):
        if may_be(link, watch, now, frames[0], passes):
            for fates in allowed(link, watch, after(link, watch, now, frames[0], passes), frames[1:]):
                yield [passes] + fates


# --- The relation ---


def left_at(watch: Watch, line: Line, left: Record) -> int:
    return left.stamp + watch.gap * line.tick


def most(watch: Watch, line: Line) -> int:
    return line.bound + watch.tolerance


def in_bound(watch: Watch, line: Line, came: Record, left: Record) -> bool:
    first = came.stamp + watch.least + (came.size + model.LINE_OVERHEAD) * line.tick
    return first <= left_at(watch, line, left) + watch.tolerance and left_at(watch, line, left) <= came.stamp + most(watch, line)


def came_within(watch: Watch, line: Line, times: int, came: Record, left: Record) -> bool:
    return came.data == left.data and came.stamp < left_at(watch, line, left) <= came.stamp + times * most(watch, line)


def may_be_before(watch: Watch, line: Line, own: list[Record], left: Record) -> bool:
    return (watch.start is not None and left_at(watch, line, left) < watch.start + watch.tolerance + most(watch, line)
            and not any(came_within(watch, line, 2, frame, left) for frame in own))


def may_come(watch: Watch, line: Line, frame: Record) -> bool:
    return watch.until is not None and watch.until - watch.tolerance + watch.gap * line.tick < frame.stamp + most(watch, line)


def kept_for(watch: Watch, line: Line, own: list[Record], passed: list[Record], out: list[Record]) -> bool:
    """Returns whether these records left a port for a link, of whose own frames these were passed."""
    for split in range(len(out) + 1):
        before, seen = out[:split], out[split:]
        gone, rest = passed[:len(seen)], passed[len(seen):]
        if (len(gone) == len(seen)
                and all(came.data == left.data and in_bound(watch, line, came, left) for came, left in zip(gone, seen))
                and all(may_be_before(watch, line, own, left) for left in before)
                and all(may_come(watch, line, frame) for frame in rest)):
            return True
    return False


def within(watch: Watch, came: list[Record], outs: Outs) -> tuple[list[Record], Outs]:
    """Returns the link's own frames and its records at each port, a list of pairs of a line and its records, within the span."""
    own = [frame for frame in came if watch.has_frame(frame.stamp)]
    return own, [(line, [left for left in out if watch.has_record(left.stamp)]) for line, out in outs]


def is_kept(link: Link, watch: Watch, came: list[Record], outs: Outs) -> bool:
    """Returns whether some fates, the same at all ports, explain all records of a link."""
    own, outs = within(watch, came, outs)
    return any(all(kept_for(watch, line, own, [frame for frame, passes in zip(own, fates) if passes], out) for line, out in outs)
               for fates in allowed(link, watch, first_levels(link, watch), own))


# --- What is found without trying all ---


def fates_of(link: Link, watch: Watch, own: list[Record], outs: Outs) -> tuple[list[bool], int]:
    """Returns the fates, and how many of them were unsure: an unsure frame was passed where a record within its bounds has its bytes."""
    levels, fates, unsure = first_levels(link, watch), [], 0
    for frame in own:
        levels = credited(link, levels, frame.stamp)
        passes = may_be(link, watch, levels, frame, True)
        if passes and may_be(link, watch, levels, frame, False):
            unsure += 1
            passes = any(frame.data == left.data and in_bound(watch, line, frame, left) for line, out in outs for left in out)
        levels = after(link, watch, levels, frame, passes)
        fates.append(passes)
    return fates, unsure


def answer_at(watch: Watch, line: Line, own: list[Record], fates: list[bool], out: list[Record]) -> Found:
    """Returns what became of the passed frames of a link, and what each record at a port is: sorted lists of numbers among these, from
    1."""
    passed = [(number, frame) for number, (frame, passes) in enumerate(zip(own, fates), 1) if passes]
    found: Found = {kind: [] for kind in ("kept", "early", "late", "missing", "after", "extra", "before")}
    begun = False
    for number, left in enumerate(out, 1):
        places = [place for place, (_, frame) in enumerate(passed)
                  if frame.data == left.data and in_bound(watch, line, frame, left)]
        places += [place for place, (_, frame) in enumerate(passed) if came_within(watch, line, 2, frame, left)]
        if places:
            came_number, came = passed[places[0]]
            late = came.stamp + most(watch, line) < left_at(watch, line, left)
            kind = "kept" if in_bound(watch, line, came, left) else "late" if late else "early"
            found[kind].append((came_number, number))
            found["missing"] += [skipped for skipped, _ in passed[:places[0]]]
            passed, begun = passed[places[0] + 1:], True
        elif not begun and may_be_before(watch, line, own, left):
            found["before"].append(number)
        else:
            names = [place for place, (frame, passes) in enumerate(zip(own, fates), 1)
                     if not passes and came_within(watch, line, 1, frame, left)]
            found["extra"].append((number, names[0] if names else None))
    for number, frame in passed:
        found["after" if may_come(watch, line, frame) else "missing"].append(number)
    return found


def answers_of(link: Link, watch: Watch, came: list[Record], outs: Outs) -> tuple[list[Found], int]:
    """Returns what is found at each port, and how many frames were unsure."""
    own, outs = within(watch, came, outs)
    fates, unsure = fates_of(link, watch, own, outs)
    return [answer_at(watch, line, own, fates, out) for line, out in outs], unsure


def is_clear(watch: Watch, line: Line, own: list[Record]) -> bool:
    """Returns whether each record at a port can be of one of these frames only: by the stamps none has left when it comes, whatever these
    are off by, and frames of the same bytes come a bound apart. Where all is known of the account they may come as they like."""
    later = all(watch.tolerance < watch.least + (frame.size + model.LINE_OVERHEAD) * line.tick for frame in own)
    differ = all(one.data != other.data or one.stamp + most(watch, line) <= other.stamp
                 for place, one in enumerate(own) for other in own[place + 1:])
    return later and (differ or watch.start is None and watch.tolerance == 0)


def conforms(found: Found) -> bool:
    return not any(found[kind] for kind in ("early", "late", "missing", "extra"))
