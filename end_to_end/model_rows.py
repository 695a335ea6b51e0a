#!/usr/bin/env python3
"""Checks model.py against numbers and bytes that were worked out by hand; prints what differs, and fails then."""
import re
import sys
from collections.abc import Callable

import model
from captures import HEADER, frame, header, record, words

PORT = "[[port]]\nid = {}\nmbit = 100\nbuffer = 100000\nmax_delay_us = 500000\n"
LINK = ('[[link]]\nid = {}\nfrom = {}\nto = [{}]\nbag_ms = 1\njitter_us = 0\nmax_size = 1518\npriority = "{}"\n')
SINGLE = PORT.format(1) + PORT.format(2) + LINK.format(10, 1, 2, "low")
DOUBLE = "".join(PORT.format(port) for port in (1, 2, 3)) + LINK.format(10, 1, 3, "low") + LINK.format(20, 2, 3, "low")
MIXED = (PORT.format(1) + PORT.format(2) + LINK.format(10, 1, 2, "low") + LINK.format(11, 1, 2, "low")
         + LINK.format(12, 1, 2, "high"))


def by_frames(text: str, links: int = 1) -> str:
    """Returns the table in version 2, with its last links policed by frames."""
    places = text.split("[[link]]")
    return "version = 2\n" + "[[link]]".join(
        place + 'police = "frame"\n' if place_number > len(places) - 1 - links else place
        for place_number, place in enumerate(places))


def later(text: str, latency_us: int) -> str:
    """Returns the table in version 3, with this latency."""
    return f"version = 3\nlatency_us = {latency_us}\n" + text


differing: list[str] = []


def same(name: str, got: object, wanted: object) -> None:
    if got != wanted:
        differing.append(f"{name}: got {got!r}, wanted {wanted!r}")


def with_port(text: str, number: int, **values: int) -> str:
    """Returns the table with these values at this port."""
    places = text.split("[[")
    for key, value in values.items():
        places[number] = re.sub(rf"(?m)^{key} = .*$", f"{key} = {value}", places[number])
    return "[[".join(places)


def capture(*frames: tuple[int, int, int]) -> bytes:
    """Returns a capture of (link, size, stamp)."""
    return HEADER + b"".join(record(stamp, frame(link, size)) for link, size, stamp in frames)


def run(text: str, *captures: bytes) -> model.Outcome:
    table = model.table_of(text)
    return model.run(table, {port.id: data for port, data in zip(table.ports, captures)})


def leaves(outcome: model.Outcome, port: int) -> list[int]:
    """Returns the stamps of a port's output in the order of the capture."""
    return [record.stamp for record in model.records_of(outcome.captures[port], port)]


def sees(name: str, outcome: model.Outcome, *lines: str) -> None:
    """Checks that the report has these lines."""
    for line in lines:
        same(name, line in outcome.report.splitlines(), True)


def refuses(name: str, line: str, status: int, call: Callable[..., object], *arguments: object) -> None:
    try:
        call(*arguments)
        same(name, "no refusal", line)
    except model.Refused as refused:
        same(name, (refused.line, refused.status), (line, status))


def frames_and_accounts() -> None:
    one = capture((10, 64, 0))
    outcome = run(SINGLE, one, HEADER)
    same("one frame", outcome.captures[1], HEADER)
    same("one frame", outcome.captures[2], HEADER + bytes.fromhex("00000000401a00003c0000003c000000") + frame(10, 64))
    outcome = run(SINGLE, HEADER, HEADER)
    same("no frames", (outcome.captures[1], outcome.captures[2]), (HEADER, HEADER))
    same("no frames", outcome.report, """\
in 1 seen 0 cut 0 short 0 long 0 foreign 0 no-link 0 wrong-port 0 too-big 0 clean 0
in 2 seen 0 cut 0 short 0 long 0 foreign 0 no-link 0 wrong-port 0 too-big 0 clean 0
link 10 passed 0 policed 0
out 1 high offered 0 full 0 aged 0 sent 0
out 1 low offered 0 full 0 aged 0 sent 0
out 2 high offered 0 full 0 aged 0 sent 0
out 2 low offered 0 full 0 aged 0 sent 0
""")
    name = "policed a nanosecond early"
    outcome = run(SINGLE, capture(*((10, 1518, at) for at in (0, 999_999, 1_000_000))), HEADER)
    same(name, leaves(outcome, 2), [123_040, 1_123_040])
    sees(name, outcome, "link 10 passed 2 policed 1")
    outcome = run(SINGLE, capture((10, 1518, 0), (10, 1518, 4 * 10**18)), HEADER)
    same("far apart", leaves(outcome, 2), [123_040, 4 * 10**18 + 123_040])
    outcome = run(SINGLE, capture(*[(10, 64, 0)] * 24), HEADER)
    same("burst of small frames", leaves(outcome, 2), [6_720 * count for count in range(1, 24)])
    sees("burst of small frames", outcome, "link 10 passed 23 policed 1")
    name = "babbler beside a quiet link"
    babbled = run(DOUBLE, one, capture(*[(20, 1518, 0)] * 1000), HEADER)
    same(name, leaves(babbled, 3), [6_720, 129_760])
    sees(name, babbled, "link 20 passed 1 policed 999")
    same(name, babbled.verdict, "policed 1 link 999 frames, filtered 0, lost 0\n")
    quiet = run(DOUBLE, one, HEADER, HEADER)
    same(name, babbled.captures[3][:100], quiet.captures[3])


def ports() -> None:
    for name, high in (("high overtakes", 1), ("high at the instant of the end", 123_040)):
        outcome = run(MIXED, capture((10, 1518, 0), (11, 64, 1), (12, 64, high)), HEADER)
        left = model.records_of(outcome.captures[2], 2)
        same(name, [(item.data[5], item.stamp) for item in left], [(10, 123_040), (12, 129_760), (11, 136_480)])
    name = "buffer of one frame"
    text = with_port(SINGLE, 2, buffer=1518).replace("jitter_us = 0", "jitter_us = 1000")
    outcome = run(text, capture((10, 1518, 0), (10, 1518, 0), (10, 1518, 1_000_000)), HEADER)
    same(name, leaves(outcome, 2), [123_040, 1_123_040])
    sees(name, outcome, "link 10 passed 3 policed 0", "out 2 low offered 3 full 1 aged 0 sent 2")
    refuses(name, "afdx: load L2 Buffer, port 2, need 904847360000000, limit 248709120000000", 4,
            model.check, model.table_of(text))
    name, text = "buffer at the edge", with_port(DOUBLE, 3, buffer=1518)
    outcome = run(text, capture((10, 1518, 0)), capture((20, 1518, 123_040)), HEADER)
    same(name, leaves(outcome, 3), [123_040, 246_080])
    outcome = run(text, capture((10, 1518, 0)), capture((20, 1518, 123_039)), HEADER)
    sees(name, outcome, "out 3 low offered 2 full 1 aged 0 sent 1")
    text = with_port(DOUBLE, 3, buffer=1581, max_delay_us=100)
    outcome = run(text, capture((10, 1517, 0)), capture((20, 64, 0), (20, 1518, 122_960)), HEADER)
    same(name, leaves(outcome, 3), [122_960])
    sees(name, outcome, "out 3 low offered 3 full 1 aged 1 sent 1")
    same(name, outcome.verdict, "policed 0 links 0 frames, filtered 0, lost 2\n")
    outcome = run(text, capture((10, 1517, 0)), capture((20, 64, 0), (20, 1518, 122_961)), HEADER)
    same(name, leaves(outcome, 3), [122_960, 246_001])
    name, text = "age at the edge", with_port(DOUBLE, 3, max_delay_us=100)
    outcome = run(text, capture((10, 1518, 0)), capture((20, 64, 0), (20, 64, 23_040)), HEADER)
    same(name, leaves(outcome, 3), [123_040, 129_760])
    sees(name, outcome, "out 3 low offered 3 full 0 aged 1 sent 2")
    name = "full at one port only"
    text = with_port(PORT.format(1) + PORT.format(2) + PORT.format(3), 2, mbit=10, buffer=64)
    outcome = run(text + LINK.format(10, 1, "2, 3", "low"), capture((10, 64, 0), (10, 64, 0)), HEADER, HEADER)
    same(name, (leaves(outcome, 2), leaves(outcome, 3)), ([67_200], [6_720, 13_440]))
    sees(name, outcome, "out 2 low offered 2 full 1 aged 0 sent 1", "out 3 low offered 2 full 0 aged 0 sent 2")


def latency() -> None:
    gigabit = with_port(SINGLE, 2, mbit=1000)
    one = capture((10, 64, 0)), HEADER
    same("gigabit", leaves(run(later(gigabit, 50), *one), 2), [50_672])
    same("gigabit", leaves(run(later(SINGLE, 50), *one), 2), [56_720])
    for high in (1, 123_040):
        outcome = run(later(MIXED, 50), capture((10, 1518, 0), (11, 64, 1), (12, 64, high)), HEADER)
        same("latency on M", leaves(outcome, 2), [173_040, 179_760, 186_480])
    name = "latency and age"
    outcome = run(later(with_port(SINGLE, 2, max_delay_us=100), 100), *one)
    same(name, leaves(outcome, 2), [106_720])
    outcome = run(later(with_port(SINGLE, 2, max_delay_us=99), 100), *one)
    same(name, leaves(outcome, 2), [])
    sees(name, outcome, "out 2 low offered 1 full 0 aged 1 sent 0")


def policing_by_frames() -> None:
    name = "frame policing"
    outcome = run(by_frames(SINGLE), capture(*[(10, 64, 0)] * 24), HEADER)
    same(name, leaves(outcome, 2), [6_720])
    sees(name, outcome, "link 10 passed 1 policed 23")
    outcome = run(by_frames(SINGLE), capture(*((10, 1518, at) for at in (0, 999_999, 1_000_000))), HEADER)
    same(name, leaves(outcome, 2), [123_040, 1_123_040])
    jittered = by_frames(SINGLE.replace("jitter_us = 0", "jitter_us = 1000"))
    outcome = run(jittered, capture(*[(10, 64, 0)] * 3), HEADER)
    same(name, leaves(outcome, 2), [6_720, 13_440])
    name, bytewise = "the police key", "version = 2\n" + SINGLE
    frames = capture(*[(10, 64, 0)] * 24)
    same(name, run(bytewise, frames, HEADER).captures, run(SINGLE, frames, HEADER).captures)
    same(name, model.check(model.table_of(bytewise)), model.check(model.table_of(SINGLE)))
    name = "both kinds of policing"
    outcome = run(by_frames(DOUBLE), capture((10, 64, 0), (10, 64, 0)), capture((20, 64, 0), (20, 64, 0)), HEADER)
    same(name, leaves(outcome, 3), [6_720, 13_440, 20_160])
    sees(name, outcome, "link 10 passed 2 policed 0", "link 20 passed 1 policed 1")


def captures() -> None:
    name, late = "last second", 4_294_967_295 * 10**9
    refuses(name, "afdx: capture P9 Late, port 1, record 1", 3, run, SINGLE, capture((10, 64, late)), HEADER)
    outcome = run(SINGLE, capture((10, 64, late - 1)), HEADER)
    same(name, outcome.captures[2][24:40].hex(), "ffffffff3f1a00003c0000003c000000")
    headers = {"4d3cb2a1": ("<", 1), "a1b23c4d": (">", 1), "d4c3b2a1": ("<", 1000), "a1b2c3d4": (">", 1000)}
    for magic, (order, unit) in headers.items():
        data = header(order, unit, others=(0, 0, 65_535))
        same("four magics", data[:4].hex(), magic)
        data += record(1_000_005_000, frame(10, 64), order=order, unit=unit)
        outcome = run(SINGLE, data, HEADER)
        same("four magics", outcome.captures[2],
             HEADER + bytes.fromhex("01000000c82d00003c0000003c000000") + frame(10, 64))

    name, one = "capture faults", capture((10, 64, 0))
    same(name, model.records_of(one[:24], 1), [])

    def refused(fault: str, data: bytes) -> None:
        refuses(name, f"afdx: capture {fault}", 3, model.records_of, data, 1)

    refused("P2 NoHeader, port 1", one[:23])
    refused("P2 NoHeader, port 1", bytes(23))
    refused("P3 Magic, port 1", bytes(24))
    refused("P4 Version, port 1", HEADER[:6] + b"\3" + HEADER[7:])
    refused("P5 LinkType 113, port 1", header(link_type=113))
    refused("P5 LinkType 65537, port 1", header(link_type=65_537))
    refused("P6 CutHeader, port 1, record 1", one[:39])
    refused("P11 CutData, port 1, record 1", one[:40])
    refused("P11 CutData, port 1, record 1", one[:99])
    refused("P7 Huge, port 1, record 1", HEADER + words(0, 0, 262_145, 0))
    refused("P7 Huge, port 1, record 1", HEADER + words(0, 10**9, 262_145, 0))
    refused("P8 Fraction, port 1, record 1", HEADER + words(0, 10**9, 60, 60))
    refused("P8 Fraction, port 1, record 1", header(unit=1000) + words(0, 10**6, 60, 60))
    refused("P10 Backwards, port 1, record 2", capture((10, 64, 10**9), (10, 64, 0)))
    outcome = run(SINGLE, HEADER + record(0, bytes(262_144)), HEADER)
    sees(name, outcome, "in 1 seen 1 cut 0 short 0 long 1 foreign 0 no-link 0 wrong-port 0 too-big 0 clean 0")


def every_verdict() -> None:
    text = DOUBLE.replace("max_size = 1518", "max_size = 500", 1)
    first = [record(0, frame(10, 64), original=61), record(0, frame(10, 63)), record(0, frame(10, 1519)),
             record(0, frame(10, 64, "02000000")), record(0, frame(11, 64)), record(0, frame(20, 64)),
             record(0, frame(10, 501)), record(0, frame(10, 63, "02000000")), record(0, frame(10, 64))]
    outcome = run(text, HEADER + b"".join(first), capture((10, 64, 0)), HEADER)
    same("every verdict", leaves(outcome, 3), [6_720])
    sees("every verdict", outcome,
         "in 1 seen 9 cut 1 short 2 long 1 foreign 1 no-link 1 wrong-port 1 too-big 1 clean 1",
         "in 2 seen 1 cut 0 short 0 long 0 foreign 0 no-link 0 wrong-port 1 too-big 0 clean 0")
    same("every verdict", outcome.verdict, "policed 0 links 0 frames, filtered 9, lost 0\n")


def load() -> None:
    def says(name: str, text: str, *lines: str) -> None:
        same(name, model.check(model.table_of(text)), "".join(line + "\n" for line in (*lines, "accepted")))

    def fails(name: str, text: str, line: str) -> None:
        refuses(name, f"afdx: load {line}", 4, model.check, model.table_of(text))

    def equal_links(count: int) -> str:
        return PORT.format(1) + PORT.format(2) + "".join(LINK.format(link + 1, 1, 2, "low") for link in range(count))

    says("one link", SINGLE, "port 2 rate 326430720 buffer 3531 high - low 159390")
    name = "six links fit"
    says(name, with_port(equal_links(6), 2, buffer=13_493), "port 2 rate 1958584320 buffer 13493 high - low 956340")
    fails(name, with_port(equal_links(6), 2, buffer=13_492),
          "L2 Buffer, port 2, need 2210570240000000, limit 2210529280000000")
    name = "rate too high"
    fails(name, equal_links(7), "L1 Rate, port 2, need 2285015040, limit 2048000000")
    slow = with_port(SINGLE, 2, mbit=10)
    fails(name, slow, "L1 Rate, port 2, need 3264307200, limit 2048000000")
    says(name, slow.replace("bag_ms = 1", "bag_ms = 2"), "port 2 rate 1632153600 buffer 3531 high - low 1593900")
    name = "bounds of a mixed port"
    text = PORT.format(1) + PORT.format(2) + LINK.format(10, 1, 2, "low") + LINK.format(12, 1, 2, "high")
    says(name, text, "port 2 rate 652861440 buffer 5523 high 282430 low 379224")
    fails(name, with_port(text, 2, max_delay_us=282), "L3 HighDelay, port 2, need 282430, limit 282000")
    fails(name, with_port(text, 2, max_delay_us=283), "L4 LowDelay, port 2, need 379224, limit 283000")
    says(name, with_port(text, 2, max_delay_us=380), "port 2 rate 652861440 buffer 5523 high 282430 low 379224")
    gigabit = with_port(SINGLE, 2, mbit=1000)
    says("gigabit", later(gigabit, 0), "port 2 rate 32643072 buffer 3531 high - low 15939")
    says("gigabit", later(gigabit, 50), "port 2 rate 32643072 buffer 3531 high - low 65939")
    name = "latency and age"
    fails(name, later(with_port(SINGLE, 2, max_delay_us=259), 100), "L4 LowDelay, port 2, need 259390, limit 259000")
    says(name, later(with_port(SINGLE, 2, max_delay_us=260), 100), "port 2 rate 326430720 buffer 3531 high - low 259390")
    says("frame policing", by_frames(SINGLE), "port 2 rate 251985920 buffer 3076 high - low 123040")
    name = "eight frame-policed links"
    says(name, by_frames(equal_links(8), 8), "port 2 rate 2015887360 buffer 13842 high - low 984320")
    fails(name, by_frames(equal_links(9), 9), "L1 Rate, port 2, need 2267873280, limit 2048000000")
    whole = by_frames(equal_links(8) + LINK.format(9, 1, 2, "low").replace("1518", "176"), 9)
    says(name, whole, "port 2 rate 2048000000 buffer 14038 high - low 1000000")
    fails(name, whole.replace("= 176", "= 177"), "L1 Rate, port 2, need 2048163840, limit 2048000000")
    says("both kinds of policing", by_frames(DOUBLE), "port 3 rate 578416640 buffer 5069 high - low 282430")


def lesser_bursts() -> None:
    """Checks the rows of crates/afdx_rule_tests/src/bursts.rt: port 2 at 100 Mbit/s, links of 1518 bytes each millisecond."""
    ports = PORT.format(1) + PORT.format(2) + PORT.format(3)
    low, other, third = LINK.format(10, 1, 2, "low"), LINK.format(11, 1, 2, "low"), LINK.format(11, 3, 2, "low")
    high, third_high = LINK.format(12, 1, 2, "high"), LINK.format(12, 3, 2, "high")
    framed = LINK.format(13, 1, 2, "low")
    slow, fast = (with_port(ports + low + other, 1, mbit=mbit) for mbit in (10, 1000))
    rows: list[tuple[str, str, dict[int, int], tuple[int, int]]] = [
        ("no line is known", ports + low + other, {3: 0}, (652_861_440_000_000, 0)),
        ("one line", ports + low + other, {1: 0}, (251_985_920_000_000, 0)),
        ("a slow line", slow, {1: 0}, (251_985_920_000_000, 0)),
        ("a fast line", fast, {1: 0}, (624_653_133_455_360, 0)),
        ("two lines", ports + low + third, {1: 0, 3: 0}, (592_531_463_249_920, 0)),
        ("a high link on the line", ports + low + high, {1: 0}, (578_416_640_000_000, 251_985_920_000_000)),
        ("both kinds, and a high link beside", by_frames(ports + low + third_high + framed), {1: 0},
         (650_924_737_249_280, 326_430_720_000_000)),
        ("no link", ports, {1: 0, 3: 0}, (0, 0)),
        ("a line of rounded stamps", ports + low + other, {1: 999}, (254_031_872_000_000, 0)),
        ("a slow line of them", slow, {1: 999}, (252_190_515_200_000, 0)),
        ("a fast line of them", fast, {1: 999}, (626_092_916_449_280, 0)),
        ("a high link on a line of them", ports + low + high, {1: 999}, (580_462_592_000_000, 254_031_872_000_000)),
    ]
    for name, text, lines, wanted in rows:
        table = model.table_of(text)
        same(f"lesser bursts: {name}", model.lesser_bursts(table, table.ports[1], lines), wanted)


if __name__ == "__main__":
    for part in (frames_and_accounts, ports, latency, policing_by_frames, captures, every_verdict, load, lesser_bursts):
        part()
    print("\n".join(differing) or "the model gives every worked number")
    sys.exit(bool(differing))
