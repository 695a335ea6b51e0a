#!/usr/bin/python3
"""Opens a page of afdx-view of a network in chromium and compares it with what the program and the model say of the same run.

Each way has its row: bounds and jitters are those of the model, and delays those of frames that are found by their bytes and their
order, the n-th that the first switch's account passes being the n-th that leaves at the end. So has each end that gets nothing in an
outage. At 1280, 800 and 400 pixels all holds that holds of the page of one switch (view_page.py). The drawing has a box for each
switch, which leads to its section, and a line for each wire, whose ends are at its boxes; both say what is down. Each link within the
page leads somewhere.
"""
import argparse
import os
import re
import subprocess
import tempfile
from pathlib import Path
from typing import Any

import network_model
from network_model import End, Network, Row
from networks import passed_at
from view_page import (WIDTHS, browser, check_colours, check_places, check_print, check_sorting, end, expect, grouped,
                       open_page)

SENT = re.compile(r"(\S+) out (\d+) (?:high|low) offered \d+ full \d+ aged \d+ sent (\d+)")
ROWS = """return [...document.getElementById(arguments[0]).tBodies[0].rows].map(
    row => [...row.cells].map(cell => cell.textContent.trim()))"""
NAMES = """const leads = [...document.querySelectorAll("a")].map(link => link.getAttribute("href").slice(1));
return [leads.filter(name => !document.getElementById(name)),
    [...document.querySelectorAll("[id]")].filter(element => !element.ownerSVGElement).map(element => element.id)]"""
# Of the drawing that is shown: where each box leads to and its place, and where each wire begins and ends, in pixels.
DRAWN = """
const svg = [...document.querySelectorAll(".map svg")].find(svg => svg.checkVisibility());
const place = element => { const box = element.getBoundingClientRect(); return [box.left, box.top, box.right, box.bottom]; };
const at = (path, part) => {
    const point = path.getPointAtLength(part * path.getTotalLength()).matrixTransform(path.getScreenCTM());
    return [point.x, point.y];
};
return [[...svg.querySelectorAll("a")].map(link => [link.getAttribute("href"), place(link.querySelector("rect")), place(link),
                                                    link.querySelector(".name").textContent]),
        [...svg.querySelectorAll(".wire")].map(path => [path.querySelector("title").textContent, at(path, 0), at(path, 1)])];
"""
STRIP = """
const figure = document.getElementById(arguments[0]);
if (!figure) return null;
figure.scrollIntoView();
return [figure.querySelector("figcaption").innerText, figure.querySelector("path").getAttribute("d").split("M").length - 1];
"""
NEAR = 3  # pixels


class Told:
    """What the program and the model say of a run."""

    def __init__(self, options: argparse.Namespace) -> None:
        self.net = network_model.read(options.network)
        self.checked = not options.unchecked
        with tempfile.TemporaryDirectory() as name:
            out = Path(name)
            for switch in self.net.names:
                (out / switch).mkdir()
            command = [os.environ["AFDX"], "network", "run", options.network, options.folder, name]
            said = subprocess.run([*command, *([] if self.checked else ["--unchecked"])], capture_output=True, text=True, check=True)
            self.report = said.stdout
            self.left = {End(path.parent.name, int(path.stem.removeprefix("port-"))): network_model.written(path.read_bytes())
                         for path in out.glob("*/port-*.pcap")}
        self.given = {End(path.parent.name, int(path.stem.removeprefix("port-"))): path.read_bytes()
                      for path in Path(options.folder).glob("*/port-*.pcap")}

    def policed(self, switch: str, link: int) -> str:
        found = re.search(rf"^{switch} link {link} passed \d+ policed (\d+)$", self.report, re.M)
        assert found
        return found[1]

    def frames(self, row: Row, port: int) -> tuple[int, list[int]]:
        """Returns how many frames of a way's link the first switch passed, and how long each took that left at the end. In an accepted
        network the n-th of these is the n-th of those; else each is the next of its bytes."""
        first = network_model.whole_way(self.net, row)[0][0]
        came = passed_at(self.net, first, self.given[End(first.switch, first.link.source)])
        left = [record for record in self.left[End(row.switch, port)] if int.from_bytes(record.data[4:6], "big") == row.link.id]
        if self.checked:
            expect(f"link {row.link.id} to {row.switch}.{port} is delivered", [one.data for one in came] == [one.data for one in left])
        rest = iter(came)
        return len(came), [last.stamp - next(one.stamp for one in rest if one.data == last.data) for last in left]

    def way(self, row: Row, port: int) -> list[str]:
        """Returns the cells of a way, but for its slack."""
        first = network_model.whole_way(self.net, row)[0][0]
        passed, delays = self.frames(row, port)
        least, greatest = (grouped(str(found(delays))) if delays else "-" for found in (min, max))
        cells = [str(row.link.id), f"{first.switch}.{first.link.source}", f"{row.switch}.{port}", str(passed),
                 self.policed(first.switch, row.link.id), str(len(delays)), least, greatest]
        if not self.checked:
            return cells
        words = re.fullmatch(r"link .* ways (.*) least (\d+) most (\d+) jitter (.*)", network_model.way_line(self.net, row, port)[0])
        assert words
        ports, floor, most, jitters = words.groups()
        return [*cells, grouped(most), grouped(floor), ports, jitters]

    def ways(self) -> list[list[str]]:
        """Returns the rows of all ways: first of those with nothing down, then of the ends of the others; of a run that is unchecked those
        that frames took."""
        up, lost = ([pair for pair in network_model.ends_of(self.net) if network_model.is_lost(self.net, pair[0]) == is_lost]
                    for is_lost in (False, True))
        found = [way for way in (self.way(row, port) for row, port in up) if self.checked or way[5] != "0"]
        if self.checked:
            found += [[str(row.link.id), "-", f"{row.switch}.{port}", "-", "-", "none", *["-"] * 6] for row, port in lost]
        return found


def check_ways(page: Any, told: Told) -> int:
    """Checks that each way has its row, and that those that sent have a picture with their numbers. Returns how many ways there are."""
    wanted = told.ways()
    cells = page.execute_script(ROWS, "all")
    shown = [row[:9] + row[11:] if told.checked else row[:8] for row in cells]
    expect(f"rows of ways: {[pair for pair in zip(shown, wanted) if pair[0] != pair[1]][:2]}", shown == wanted and shown)
    for number, row in enumerate(cells):
        link, start, last, _, _, sent, least, greatest, bound, slack = row[:10]
        if told.checked and greatest != "-":
            expect(f"slack of {row}", int(slack.replace(",", "")) == int(bound.replace(",", "")) - int(greatest.replace(",", "")))
        strip = page.execute_script(STRIP, f"w{number}")
        expect(f"a picture of {link} if it sent", (strip is None) == (sent in ("0", "none")))
        if strip:
            numbers = [f"link {link}, {start} to {last}", f"{sent} sent", f"{least} to {greatest} ns"]
            for text in numbers + ([f"bound {bound}"] if told.checked else []):
                expect(f"no {text} in {strip[0]!r}", text in " ".join(strip[0].split()))
            expect(f"points of {link}", 1 <= strip[1] <= int(sent.replace(",", "")))
    return len(wanted)


def check_switches(page: Any, told: Told) -> None:
    """Checks that each switch has a section, and that what its links sent is what the report says of its ports."""
    for switch in told.net.names:
        sent: dict[str, int] = {}
        for name, port, many in SENT.findall(told.report):
            if name == switch and int(many):
                sent[port] = sent.get(port, 0) + int(many)
        shown: dict[str, int] = {}
        for cells in page.execute_script(ROWS, f"{switch}.all"):
            if cells[5] != "0":
                shown[cells[1]] = shown.get(cells[1], 0) + int(cells[5].replace(",", ""))
        expect(f"what {switch} sent: {shown} and not {sent}", shown == sent)


def check_names(page: Any) -> None:
    astray, names = page.execute_script(NAMES)
    expect(f"links that lead nowhere: {astray[:5]}", not astray)
    expect("each name is there once", len(set(names)) == len(names))


def near(point: list[float], box: list[float]) -> bool:
    """Returns whether a point is at the border of a box."""
    (x, y), (left, top, right, bottom) = point, box
    within = left - NEAR <= x <= right + NEAR and top - NEAR <= y <= bottom + NEAR
    return within and min(abs(x - left), abs(x - right), abs(y - top), abs(y - bottom)) <= NEAR


def check_drawing(page: Any, net: Network) -> None:
    boxes, wires = page.execute_script(DRAWN)
    expect("a box for each switch, which leads to it", sorted(name for name, *_ in boxes) == sorted(f"#at-{name}" for name in net.names))
    places = {name.removeprefix("#at-"): place for name, place, *_ in boxes}
    names = [f"{name}, down" if name in net.down else name for name in net.names]
    expect("each says whether it is down", sorted(said for *_, said in boxes) == sorted(names))
    for name, (left, top, right, bottom), whole, _ in boxes:
        is_within = left <= whole[0] + 1 and whole[2] <= right + 1 and top <= whole[1] + 1 and whole[3] <= bottom + 1
        expect(f"all of {name} is in its box", is_within)
        for other, (other_left, other_top, other_right, other_bottom) in places.items():
            apart = right <= other_left or other_right <= left or bottom <= other_top or other_bottom <= top
            expect(f"{name} and {other} are apart", apart or name == f"#at-{other}")
    expect(f"a line for each wire, not {len(wires)}", len(wires) == len(net.wires))
    for wire, (said, begin, last) in zip(net.wires, wires):
        expect(f"{wire.start} to {wire.end} is {said}", said.startswith(f"{wire.start} to {wire.end}: "))
        expect(f"{said} if it is", said.endswith(": down") != network_model.is_up(net, wire))
        expect(f"{said} leads from box to box", near(begin, places[wire.start.switch]) and near(last, places[wire.end.switch]))


def main() -> None:
    parser = argparse.ArgumentParser(description=__doc__, formatter_class=argparse.RawDescriptionHelpFormatter)
    for argument in ("page", "network", "folder"):
        parser.add_argument(argument)
    parser.add_argument("--unchecked", action="store_true")
    parser.add_argument("--seconds", type=float, default=10)
    options = parser.parse_args()
    told, page = Told(options), browser()
    try:
        for width in WIDTHS:
            open_page(page, options.page, options.seconds, width)
            check_places(page, width)
            check_drawing(page, told.net)
            console = page.get_log("browser")
            expect(f"an empty console, not {console}", not console)
        many = check_ways(page, told)
        check_switches(page, told)
        check_names(page)
        check_sorting(page, [()] * many)
        for scheme in ("light", "dark"):
            check_colours(page, scheme)
        check_print(page)
    finally:
        page.quit()
    print(f"{many} ways")
    end()


if __name__ == "__main__":
    main()
