#!/usr/bin/env python3
"""Checks compare_model.py against rows that were worked out by hand, and what it finds against all that it tries; prints what differs, and
fails then."""
import dataclasses
import random
import sys

from compare_model import Line, Outs, Watch, answers_of, conforms, is_clear, is_kept, within
from model import Link, Record
from model_rows import differing, same

# a stamp, and the letter that fills a frame
Sight = tuple[int, str]
LINK = Link(7, 1, [2], 1_000_000, 0, 64, "low", "byte")
LINE = Line(80, 22_720)
EXACT, CUT = Watch(), Watch(start=1_000_000)
A, B, D = (1_000_000, "A"), (2_000_000, "B"), (3_000_000, "D")
EARLY_B, C, LATE_D = (1_500_000, "B"), (2_499_999, "C"), (2_500_000, "D")


def good(sight: Sight) -> Sight:
    """Returns the record of a frame that waits for nothing."""
    return sight[0] + 6720, sight[1]


def records(sights: list[Sight], size: int = 60) -> list[Record]:
    return [Record(stamp, size, letter.encode() * size) for stamp, letter in sights]


def row(name: str, watch: Watch, came: list[Sight], left: list[Sight], **wanted: object) -> None:
    """Checks what is found, and that it conforms exactly where some choice of all does."""
    frames, out = records(came), records(left)
    (found,), unsure = answers_of(LINK, watch, frames, [(LINE, out)])
    counted: dict[str, object] = {kind: what for kind, what in found.items() if what}
    same(name, counted | ({"unsure": unsure} if unsure else {}), wanted)
    same(name + ", by all choices", is_kept(LINK, watch, frames, [(LINE, out)]), conforms(found))


def bounds() -> None:
    row("at the bound", EXACT, [A], [(1_022_720, "A")], kept=[(1, 1)])
    row("past it", EXACT, [A], [(1_022_721, "A")], late=[(1, 1)])
    row("past it by the tolerance", Watch(tolerance=1), [A], [(1_022_721, "A")], kept=[(1, 1)])
    row("early", EXACT, [A], [(1_006_719, "A")], early=[(1, 1)])
    row("end stamps", Watch(gap=12), [A], [(1_005_760, "A")], kept=[(1, 1)])
    row("end stamps taken for free ones", EXACT, [A], [(1_005_760, "A")], early=[(1, 1)])


def frames_that_do_not_leave_once() -> None:
    again, early, policed = (2_000_000, "A"), (1_999_999, "A"), (1_500_000, "P")
    row("lost", EXACT, [A, B, D], [good(A), good(D)], kept=[(1, 1), (3, 2)], missing=[2])
    row("twice", EXACT, [A, B, D], [good(A), good(B), (2_013_440, "B"), good(D)], kept=[(1, 1), (2, 2), (3, 4)], extra=[(3, None)])
    row("a byte turned", EXACT, [A, B, D], [good(A), (2_006_720, "X"), good(D)], kept=[(1, 1), (3, 3)], missing=[2], extra=[(2, None)])
    row("the first of two", EXACT, [A, again], [good(again)], kept=[(2, 1)], missing=[1])
    row("the second of two", EXACT, [A, again], [good(A)], kept=[(1, 1)], missing=[2])
    row("let through", EXACT, [A, policed, B], [good(A), good(policed), good(B)], kept=[(1, 1), (3, 3)], extra=[(2, 2)])
    row("a policed frame between", EXACT, [A, early, again], [good(A), good(again)], kept=[(1, 1), (3, 2)])
    row("reordered", EXACT, [A, B], [good(B), (2_013_440, "A")], kept=[(2, 1)], missing=[1], extra=[(2, None)])


def ends_of_recordings() -> None:
    late = (1_030_000, "A")
    row("before", CUT, [late], [(1_022_719, "X"), good(late)], kept=[(1, 2)], before=[1], unsure=1)
    row("too late for before", CUT, [late], [(1_022_720, "X"), good(late)], kept=[(1, 2)], extra=[(1, None)], unsure=1)
    row("behind a pair", CUT, [A], [good(A), (1_013_440, "X")], kept=[(1, 1)], extra=[(2, None)], unsure=1)
    row("after", Watch(until=2_022_719), [A, B], [good(A)], kept=[(1, 1)], after=[2])
    row("no longer after", Watch(until=2_022_720), [A, B], [good(A)], kept=[(1, 1)], missing=[2])
    near, policed = (1_080_000, "A"), (2_200_000, "B")  # of 1,180,000 and 2,100,000, if their stamps are off by the tolerance
    row("policed after a frame that does not count", Watch(start=1_000_000, tolerance=100_000), [near, policed, (5_000_000, "D")],
        [(1_186_720, "A"), (5_006_720, "D")], before=[1], kept=[(2, 2)], unsure=1)


def levels() -> None:
    came = [A, EARLY_B, C, LATE_D]
    row("an unknown level", CUT, came, [good(EARLY_B), good(LATE_D)], kept=[(2, 1), (4, 2)], unsure=2)
    row("one that must pass", CUT, came, [good(EARLY_B)], kept=[(2, 1)], missing=[4], unsure=2)
    row("one that never passes", CUT, came, [good(EARLY_B), good(C), good(LATE_D)], kept=[(2, 1), (4, 3)], extra=[(2, 3)], unsure=2)
    row("half of the price", CUT, [A, EARLY_B, LATE_D], [good(A), good(EARLY_B), good(LATE_D)],
        kept=[(1, 1), (3, 3)], extra=[(2, 2)], unsure=1)
    row("the same at rest", EXACT, came, [good(EARLY_B), good(LATE_D)], missing=[1, 3], extra=[(1, 2), (2, 4)])


def noise() -> None:
    soon = (1_999_950, "B")
    for tolerance in (0, 24):
        row(f"tolerance {tolerance}", Watch(tolerance=tolerance), [A, soon], [good(A), good(soon)], kept=[(1, 1)], extra=[(2, 2)])
    row("unsure, and seen", Watch(tolerance=25), [A, soon], [good(A), good(soon)], kept=[(1, 1), (2, 2)], unsure=1)
    row("unsure, and not seen", Watch(tolerance=25), [A, soon], [good(A)], kept=[(1, 1)], unsure=1)


def beyond_what_is_told_apart() -> None:
    """Checks records that some choice explains and that differ all the same, since they may be of more frames than one."""
    one, other = (1_106_169, "A"), (1_106_170, "A")  # at one port a record of either left, at the other only one of the second could
    for name, watch, came, lefts in (
            ("equal frames a nanosecond apart", CUT, [one, other], [[good(other)], [(other[0] + LINE.bound, "A")]]),
            ("a record that left before its frame came, by the stamps", Watch(start=1_000_000, tolerance=20_000), [(1_050_000, "A")],
             [[(1_040_000, "A"), (1_056_720, "A")]])):
        frames = records(came)
        outs: Outs = [(LINE, records(left)) for left in lefts]
        found, _ = answers_of(LINK, watch, frames, outs)
        answer = all(conforms(at_port) for at_port in found)
        same(name, (is_kept(LINK, watch, frames, outs), answer, is_clear(watch, LINE, frames)), (True, False, False))


def stamps_by_chance(draw: random.Random) -> list[int]:
    """Returns up to five instants, some of them soon after others."""
    stamps: list[int] = []
    for _ in range(draw.randrange(6)):
        soon = [stamp + draw.choice([0, 1, 5_000, 23_000, 40_000, 100_000]) for stamp in stamps]
        stamps.append(draw.choice(soon) if soon and draw.random() < 0.3 else draw.randrange(700_000, 3_600_000))
    return sorted(stamps)


def out_by_chance(draw: random.Random, watch: Watch, line: Line, came: list[Record]) -> list[Record]:
    """Returns what left of most of these frames, at the edges of their bounds, and at times a record of none."""
    gap, left = watch.gap * line.tick, []
    for frame in came:
        if draw.random() < 0.75:
            first = watch.least + 84 * line.tick
            last = line.bound + watch.tolerance - gap
            delay = draw.choice([first, first - watch.tolerance, line.bound - gap, line.bound, last, line.bound + 1])
            left.append(dataclasses.replace(frame, stamp=max(0, frame.stamp + delay)))
    if draw.random() < 0.2:
        left += records([(draw.randrange(900_000, 3_600_000), draw.choice("AX"))])
    return sorted(left, key=lambda record: record.stamp)


def by_chance(seed: int) -> tuple[bool, bool]:
    """Tries a small recording: what conforms has a witness, and what has one conforms where each record can be of one frame only. Returns
    whether it has one, and whether each can."""
    draw = random.Random(seed)
    link = dataclasses.replace(LINK, jitter=draw.choice([0, 300_000]), police=draw.choice(["byte", "frame"]))
    watch = Watch(least=draw.choice([0, 0, 5_000]), tolerance=draw.choice([0, 0, 25, 3_000, 20_000]), gap=draw.choice([0, 12]),
                  start=draw.choice([None, 1_000_000]), until=draw.choice([None, 3_500_000]))
    differ = draw.random() < 0.4
    came = records([(stamp, chr(65 + number) if differ else draw.choice("AB")) for number, stamp in enumerate(stamps_by_chance(draw))])
    lines = [Line(draw.choice([80, 800]), draw.choice([22_720, 70_000, 400_000])) for _ in range(draw.choice([1, 1, 2]))]
    outs: Outs = [(line, out_by_chance(draw, watch, line, came)) for line in lines]
    found, _ = answers_of(link, watch, came, outs)
    answer = all(conforms(at_port) for at_port in found)
    kept = is_kept(link, watch, came, outs)
    own, _ = within(watch, came, outs)
    clear = all(is_clear(watch, line, own) for line in lines)
    if answer and not kept or clear and kept and not answer:
        differing.append(f"seed {seed}: found {found}, by all choices {kept}")
    return kept, clear


def main() -> int:
    bounds()
    frames_that_do_not_leave_once()
    ends_of_recordings()
    levels()
    noise()
    beyond_what_is_told_apart()
    count = int(sys.argv[1]) if len(sys.argv) > 1 else 3000
    by_seed = [by_chance(seed) for seed in range(count)]
    for line in differing:
        print(line)
    kept, clear = (sum(which) for which in zip(*by_seed))
    print(f"{count} recordings by chance, {kept} of which conform, {clear} told apart; {len(differing)} differ")
    return 1 if differing else 0


if __name__ == "__main__":
    sys.exit(main())
