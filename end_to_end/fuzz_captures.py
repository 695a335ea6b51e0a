"""Draws captures as recorders, tools and damaged disks leave them, and says what `afdx run`, `measure`, `survey`, `trace` and
`alone` make of them.

They are drawn by babblers.py over the tables of sizes.py (tight buffers, short delays) or by ties.py (much at one
instant), or are parts of the example network's. Each is written in one of the four forms of pcap; then records are
mutated in some, and bytes in a few (fuzz_records.py).

The judge is a model for each input: model.py and answers.py say status, report, captures and lines to the byte, and so
does the first fault of captures that have one.
"""
from collections.abc import Callable
from dataclasses import dataclass
from functools import cache
from pathlib import Path
from random import Random
from typing import Any

import answers
import babblers
import fuzz_records
import model
import sizes
import ties
from fuzz_records import Capture, capture_of
from fuzz_run import Answer, Files, Trial, refusal

EXAMPLE = Path(__file__).resolve().parents[1] / "examples/network"
FRAMES = 12  # of a capture at most, or 20 where much is at one instant: the model takes long for many
STARTS = [0, 0, 1, 999_999_000, 1_768_471_200_000_000_000, 4_294_967_294_000_000_000, 4_294_967_294_990_000_000]
COMMANDS = ["run"] * 6 + ["measure", "survey", "trace", "alone"]
NAMES = {"run": [f"out/port-{port}.pcap" for port in range(1, 5)], "trace": ["out/arrivals.csv", "out/departures.csv"]}
PAST = [("id", 65_536), ("bag", 3), ("bag", 0), ("bag", 256), ("jitter", 10_001), ("size", 63), ("size", 1519)]


@dataclass
class Traffic:
    """A table and what comes in."""
    table: Any
    text: str  # of the table
    captures: dict[int, Capture]


# --- What comes in ---


def part(chance: Random, records: list[Any]) -> list[Any]:
    """Takes some records that follow one another."""
    at = chance.randint(0, max(len(records) - FRAMES, 0))
    return records[at:at + chance.randint(0, FRAMES)]


def moved(records: list[Any], start: int) -> list[Any]:
    """Moves records later in time, and leaves out those that no capture could hold then."""
    found = [model.Record(record.stamp + start, record.original, record.data) for record in records]
    return [record for record in found if record.stamp < model.LAST_SECOND * model.SECOND]


def drawn_traffic(chance: Random) -> Traffic:
    table = sizes.draw(chance)
    table.links = table.links[:chance.randint(1, 10)]
    start, captures = chance.choice(STARTS), {}
    for port in table.ports:
        babbles = chance.random() < 0.2
        frames = (babblers.babble(chance, table, port.id, FRAMES) if babbles
                  else babblers.traffic(chance, table, port.id))
        records = part(chance, model.records_of(babblers.capture(frames), port.id))
        captures[port.id] = capture_of(chance, moved(records, start))
    return Traffic(table, babblers.text_of(table), captures)


def tied_traffic(chance: Random) -> Traffic:
    text, start, captures = ties.table(chance), chance.choice(STARTS), {}
    for port in (1, 2, 3, 4):
        records = model.records_of(ties.capture(chance, port, chance.randint(0, 20)), port)
        captures[port] = capture_of(chance, moved(records, start))
    return Traffic(model.table_of(text), text, captures)


@cache
def example() -> tuple[str, dict[int, list[Any]]]:
    captures = {port: (EXAMPLE / f"in/port-{port}.pcap").read_bytes() for port in (1, 2, 3, 4)}
    return (EXAMPLE / "table.toml").read_text(), {port: model.records_of(data, port) for port, data in captures.items()}


@cache
def table_of(text: str) -> Any:
    return model.table_of(text)


def example_traffic(chance: Random) -> Traffic:
    """Takes a part of the example's captures, for its ports or for tight ones."""
    text, records = example()
    if chance.random() < 0.5:
        tight = {"mbit": 10, "buffer": chance.choice([64, 1000, 1600]), "max_delay_us": chance.choice([1, 300, 1300])}
        lines = text.splitlines()
        keys = [line.split(" = ")[0] for line in lines]
        text = "".join(f"{key} = {tight[key]}\n" if key in tight else f"{line}\n" for key, line in zip(keys, lines))
    captures = {port: capture_of(chance, part(chance, found)) for port, found in records.items()}
    return Traffic(table_of(text), text, captures)


def texts_of(chance: Random, traffic: Traffic) -> dict[int, bytes]:
    """Writes the captures, of which some are mutated or at another's port."""
    ports = list(traffic.captures)
    for port in chance.sample(ports, chance.choice([0, 1, 1, 2])):
        fuzz_records.mutate(chance, traffic.captures[port], traffic.table)
    if chance.random() < 0.1:
        chance.shuffle(ports)
    return {port: fuzz_records.text_of(chance, traffic.captures[other]) for port, other in zip(traffic.captures, ports)}


# --- What is right ---


def named(texts: dict[int, bytes], folder: str) -> Files:
    return {f"{folder}/port-{port}.pcap": data for port, data in texts.items()}


def answer_of(command: str, traffic: Traffic, texts: dict[int, bytes], unchecked: bool) -> Answer:
    """Gives the answer to these captures. The load is refused first, then a capture that is not there."""
    try:
        if not unchecked:
            model.check(traffic.table)
        for port in traffic.table.ports:
            if port.id not in texts:
                raise model.Refused(f"afdx: device get in/port-{port.id}.pcap", 5)
        if command in answers.PRINTED:
            return Answer(0, answers.PRINTED[command](traffic.table, texts, unchecked).encode())
        if command == "trace":
            arrivals, departures = answers.trace(traffic.table, texts)
            return Answer(0, files={"out/arrivals.csv": arrivals.encode(), "out/departures.csv": departures.encode()})
        outcome = model.run(traffic.table, texts)
        return Answer(0, outcome.report.encode(), files=named(outcome.captures, "out"))
    except model.Refused as refused:
        return refusal(refused)


def alone_answer(link: Any, data: bytes) -> Answer:
    """Gives the answer of `alone`: the frames that are clean in a table of this link alone, and that it passes."""
    table = model.Table(bytes.fromhex("03000000"), [], [link])
    try:
        records = model.records_of(data, link.source)
    except model.Refused as refused:
        refused.line = refused.line.replace(f", port {link.source}", "")
        return refusal(refused)
    passed: list[Any] = []
    for record in records:
        frame = model.Arrival(link.source, record, link=link)
        if model.verdict_of(table, link.source, record)[0] == "clean" and model.conforms(link, passed, frame):
            passed.append(frame)
    return Answer(0, model.capture_of([frame.record for frame in passed]))


# --- An input ---


def old_files(chance: Random, names: list[str]) -> Files:
    """Gives files that are there already: a refusal leaves them."""
    return {name: b"as it was\n" for name in names if chance.random() < 0.3}


def draw_alone(chance: Random, traffic: Traffic, texts: dict[int, bytes]) -> Trial:
    """Draws an input of `alone`, of which a value may be past its limits."""
    row = chance.choice(traffic.table.links)
    link = model.Link(row.id, row.source, [], row.bag, row.jitter, row.max_size, "low", "byte")
    values = {"id": row.id, "bag": row.bag // babblers.MILLISECOND, "jitter": row.jitter // 1000, "size": row.max_size}
    judge: Callable[[], Answer] = lambda: alone_answer(link, texts[row.source])  # noqa: E731
    if chance.random() < 0.1:
        values |= [chance.choice(PAST)]
        judge = lambda: Answer(2, b"", b"afdx: usage\n")  # noqa: E731
    return Trial(["alone", *(f"--{key}={value}" for key, value in values.items())], {}, judge, texts[row.source])


def draw(chance: Random) -> Trial:
    """Draws an input."""
    traffic = chance.choice([drawn_traffic, drawn_traffic, tied_traffic, example_traffic])(chance)
    texts = texts_of(chance, traffic)
    command, unchecked = chance.choice(COMMANDS), chance.random() < 0.8
    if command == "alone":
        return draw_alone(chance, traffic, texts)
    if chance.random() < 0.02:
        del texts[chance.choice(list(texts))]
    elif chance.random() < 0.1:
        texts.setdefault(24, b"of a port that the table lacks")
    arguments = [command, "table.toml", "in"] + ["out"] * (command in NAMES) + ["--unchecked"] * unchecked
    files = {"table.toml": traffic.text.encode()} | named(texts, "in") | old_files(chance, NAMES.get(command, []))
    return Trial(arguments, files, lambda: answer_of(command, traffic, texts, unchecked), folders=["in", "out"])
