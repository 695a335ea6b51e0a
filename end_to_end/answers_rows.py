#!/usr/bin/env python3
"""Checks answers.py against lines that were worked out by hand; prints what differs, and fails then."""
import dataclasses
import random
import sys

import answers
import model
import model_rows as rows
from captures import HEADER, frame, record
from model_rows import DOUBLE, LINK, MIXED, PORT, SINGLE, capture, later, same, with_port


def answered(text: str, *captures: bytes) -> list[list[str]]:
    """Returns the lines of `measure --unchecked` and of the two files of `trace`, their headings left away."""
    table = model.table_of(text)
    data = {port.id: capture for port, capture in zip(table.ports, captures)}
    arrivals, departures = answers.trace(table, data)
    same("headings", [file.splitlines()[0] for file in (arrivals, departures)], [answers.ARRIVALS, answers.DEPARTURES])
    return [answers.measure(table, data, True).splitlines()] + [file.splitlines()[1:] for file in (arrivals, departures)]


def early_and_late() -> None:
    name, sent = "a nanosecond early", capture(*((10, 1518, at) for at in (0, 999_999, 1_000_000)))
    measured, arrivals, departures = answered(SINGLE, sent, HEADER)
    same(name, arrivals, ["0,1,1,0,10,1518,passed,,", "1,1,2,999999,10,1518,policed,1,", "2,1,3,1000000,10,1518,passed,,"])
    same(name, departures, ["2,1,0,10,low,1518,0,0,123040,123040,sent", "2,2,2,10,low,1518,1000000,1000000,1123040,123040,sent"])
    same(name, measured, ["link 10 out 2 sent 2 least 123040 greatest 123040 bound -",
                          "out 1 occupied 0 of 100000 at -", "out 2 occupied 1518 of 100000 at 0"])
    table = model.table_of(SINGLE)
    same("with its bound", answers.measure(table, {1: sent, 2: HEADER}, False).splitlines()[0],
         "link 10 out 2 sent 2 least 123040 greatest 123040 bound 159390")
    # 23 frames leave 46 bytes of 1518; 18 more are there after 18 / 1518 of a millisecond, 11,857.7 ns.
    name = "burst of small frames"
    measured, arrivals, departures = answered(SINGLE, capture(*[(10, 64, 0)] * 24), HEADER)
    same(name, arrivals[22:], ["22,1,23,0,10,64,passed,,", "23,1,24,0,10,64,policed,11858,"])
    same(name, departures[-1], "2,23,22,10,low,64,0,147840,154560,154560,sent")
    same(name, (measured[0], measured[2]),
         ("link 10 out 2 sent 23 least 6720 greatest 154560 bound -", "out 2 occupied 1472 of 100000 at 0"))
    same("nothing sent", answered(SINGLE, HEADER, HEADER),
         [["link 10 out 2 sent 0 least - greatest - bound -", "out 1 occupied 0 of 100000 at -", "out 2 occupied 0 of 100000 at -"],
          [], []])


def ports() -> None:
    name = "high overtakes"
    measured, arrivals, departures = answered(MIXED, capture((10, 1518, 0), (11, 64, 1), (12, 64, 1)), HEADER)
    same(name, departures, ["2,1,0,10,low,1518,0,0,123040,123040,sent", "2,2,2,12,high,64,1,123040,129760,129759,sent",
                            "2,3,1,11,low,64,1,129760,136480,136479,sent"])
    same(name, measured[-1], "out 2 occupied 1646 of 100000 at 1")
    name, text = "full and aged", with_port(DOUBLE, 3, buffer=1581, max_delay_us=100)
    measured, arrivals, departures = answered(text, capture((10, 1517, 0)), capture((20, 64, 0), (20, 1518, 122_960)), HEADER)
    same(name, arrivals, ["0,1,1,0,10,1517,passed,,", "1,2,1,0,20,64,passed,,", "2,2,2,122960,20,1518,passed,,3"])
    same(name, departures, ["3,1,0,10,low,1517,0,0,122960,122960,sent", "3,,1,20,low,64,0,122960,,,aged"])
    same(name, measured, ["link 10 out 3 sent 1 least 122960 greatest 122960 bound -", "link 20 out 3 sent 0 least - greatest - bound -",
                          "out 1 occupied 0 of 100000 at -", "out 2 occupied 0 of 100000 at -", "out 3 occupied 1581 of 1581 at 0"])
    name, text = "full at two ports", "".join(PORT.format(port) for port in (1, 2, 3)) + LINK.format(10, 1, "3, 2", "low")
    text = with_port(with_port(text, 2, mbit=10, buffer=64), 3, mbit=10, buffer=64)
    measured, arrivals, departures = answered(text, capture((10, 64, 0), (10, 64, 0)), HEADER, HEADER)
    same(name, arrivals[1], "1,1,2,0,10,64,passed,,3;2")
    same(name, departures, ["2,1,0,10,low,64,0,0,67200,67200,sent", "3,1,0,10,low,64,0,0,67200,67200,sent"])
    same(name, [line.split()[3] for line in measured[:2]], ["3", "2"])


def latency() -> None:
    sent = capture((10, 64, 0), (10, 64, 6_720))
    wanted = "link 10 out 2 sent 2 least {0} greatest {0} bound {1}"
    for latency_us, delay, bound in ((0, 6_720, 159_390), (50, 56_720, 209_390)):
        text = later(SINGLE, latency_us)
        lines = answers.measure(model.table_of(text), {1: sent, 2: HEADER}, False).splitlines()
        same("behind a latency", (lines[0], lines[2]), (wanted.format(delay, bound), "out 2 occupied 64 of 100000 at 0"))
    departures = answered(later(SINGLE, 10), capture((10, 64, 5), (10, 64, 6)), HEADER)[2]
    same("behind a latency", departures, ["2,1,0,10,low,64,10005,10005,16725,16720,sent", "2,2,1,10,low,64,10006,16725,23445,23439,sent"])


def spells() -> None:
    """Checks spells at a gap of 1 ms and no jitter: the next frame of 1,518 bytes conforms a whole gap after the one that was passed."""
    table = model.table_of(SINGLE)

    def lines(*stamps: int) -> list[str]:
        text = answers.survey(table, {1: capture(*((10, 1518, at) for at in stamps)), 2: HEADER}, True)
        return [line for line in text.splitlines() if line.startswith("span") or (line.startswith("link") and "early" in line)]

    same("none", lines(), ["span from - to - frames 0"])
    same("none policed", lines(5, 1_000_005), ["span from 5 to 1000005 frames 2"])
    same("one", lines(0, 999_999), ["link 10 policed 1 from 999999 to 999999 early 1 to 1", "span from 0 to 999999 frames 2"])
    # 400,000 and 1,400,000 are policed: the second for the frame that was passed at 1,000,000. They are a gap apart, so one spell.
    same("a gap apart", lines(0, 400_000, 1_000_000, 1_400_000),
         ["link 10 policed 2 from 400000 to 1400000 early 600000 to 600000", "span from 0 to 1400000 frames 4"])
    same("a gap and a nanosecond apart", lines(0, 400_000, 1_000_000, 1_400_001),
         ["link 10 policed 1 from 400000 to 400000 early 600000 to 600000",
          "link 10 policed 1 from 1400001 to 1400001 early 599999 to 599999", "span from 0 to 1400001 frames 4"])
    same("three in a row", lines(0, 1, 2, 999_999),
         ["link 10 policed 3 from 1 to 999999 early 1 to 999999", "span from 0 to 999999 frames 4"])
    both = model.table_of(PORT.format(1) + PORT.format(2) + LINK.format(11, 1, 2, "low") + LINK.format(10, 1, 2, "low"))
    frames = [(10, 1518, 0), (11, 1518, 0), (10, 1518, 1), (11, 1518, 1),
              (10, 1518, 2_000_000), (11, 1518, 2_000_000), (11, 1518, 2_000_002), (10, 1518, 2_000_003)]
    text = answers.survey(both, {1: capture(*frames), 2: HEADER}, True).splitlines()
    same("in the table's order", text[-5:],
         ["link 11 policed 1 from 1 to 1 early 999999 to 999999", "link 11 policed 1 from 2000002 to 2000002 early 999998 to 999998",
          "link 10 policed 1 from 1 to 1 early 999999 to 999999", "link 10 policed 1 from 2000003 to 2000003 early 999997 to 999997",
          "span from 0 to 2000003 frames 8"])
    same("the report and the measures come first", text[0].split()[:2] + text[-9].split()[:2], ["in", "1", "link", "11"])


def every_fate() -> None:
    first = [record(0, frame(10, 64), original=61), record(0, frame(10, 63)), record(0, frame(10, 1519)),
             record(0, frame(10, 64, "02000000")), record(0, frame(11, 64)), record(0, frame(20, 64)), record(0, frame(10, 501))]
    text = DOUBLE.replace("max_size = 1518", "max_size = 500", 1)
    same("every fate", answered(text, HEADER + b"".join(first), HEADER, HEADER)[1],
         ["0,1,1,0,,64,cut,,", "1,1,2,0,,63,short,,", "2,1,3,0,,1519,long,,", "3,1,4,0,,64,foreign,,", "4,1,5,0,,64,no-link,,",
          "5,1,6,0,20,64,wrong-port,,", "6,1,7,0,10,501,too-big,,"])


def sizes() -> None:
    def says(name: str, text: str, line: str) -> None:
        same(name, model.size(model.table_of(text)), line + "\n")

    both = PORT.format(1) + PORT.format(2)
    says("one link", SINGLE, "port 2 rate 326430720 of 2048000000 buffer 3531 of 100000 high - low 159390 of 500000000 fits")
    # 7 and 8 links of 326,430,720 parts and 159,390 ns, and a frame of 123,040 ns
    says("no bound for low links", both + "".join(LINK.format(link, 1, 2, "high") for link in range(7)) + LINK.format(7, 1, 2, "low"),
         "port 2 rate 2611445760 of 2048000000 buffer 17477 of 100000 high 1238770 of 500000000 low none of 500000000 breaks L1")
    says("several rules", with_port(with_port(SINGLE, 2, mbit=10), 2, buffer=64, max_delay_us=1),
         "port 2 rate 3264307200 of 2048000000 buffer 3531 of 64 high - low 1593900 of 1000 breaks L1 L2 L4")


def early_is_the_least() -> None:
    """Checks that what `early` adds up is the least shift with which the model's windows pass the frame."""
    chance = random.Random(1)
    for _ in range(300):
        bag, jitter = 1_000_000 << chance.randint(0, 7), 1000 * chance.choice([0, 40, 10_000])
        link = model.Link(1, 1, [2], bag, jitter, chance.randint(64, 1518), "low", chance.choice(["byte", "frame"]))
        stamps = sorted(chance.randrange(4 * link.bag) for _ in range(30))
        passed: list[model.Arrival] = []
        for stamp in stamps:
            arrival = model.Arrival(1, model.Record(stamp, 0, bytes(chance.randint(60, link.max_size - 4))), "clean", link)
            soon = answers.early(passed, arrival)

            def passes(shift: int) -> bool:
                shifted = dataclasses.replace(arrival, record=dataclasses.replace(arrival.record, stamp=stamp + shift))
                return model.conforms(link, passed, shifted)

            same("early is the least", (passes(soon), soon > 0 and passes(soon - 1)), (True, False))
            if soon == 0:
                passed.append(arrival)


for part in (early_and_late, ports, latency, spells, every_fate, sizes, early_is_the_least):
    part()
print("\n".join(rows.differing) or "the answers have every worked line")
sys.exit(bool(rows.differing))
