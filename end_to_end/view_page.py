#!/usr/bin/python3
"""Opens a page of afdx-view in chromium and compares it with what the program said of the same run.

At 1280, 800 and 400 pixels: nothing is on the console, nothing else was loaded, nothing stands out at the side, no text touches
another, the verdict and the first columns of the links are there without scrolling, each link and port that sent has a picture
whose heading has its numbers and whose points are on it, and each row leads to its picture. The table sorts. In the light and in
the dark all texts can be read, and the verdict is green, amber or red. With --print each row of each table is in the PDF, with
all its cells.
"""
import argparse
import base64
import colorsys
import math
import os
import random
import re
import subprocess
import sys
import time
from collections import Counter
from pathlib import Path
from typing import Any, NoReturn

from selenium import webdriver
from selenium.webdriver.chrome.options import Options
from selenium.webdriver.chrome.service import Service

WIDTHS = (1280, 800, 400)
LOOKED_AT = 40  # pictures, drawn by chance if there are more
Box = tuple[str, float, float, float, float]  # a text and its place
COLOURED = 3000  # texts whose colours are looked at, the first ones
FIRST_COLUMNS = {1280: 12, 800: 8, 400: 3}
CONTRAST = 4.5  # the least of a text to its paper, by WCAG
HUES = {"verdict good": (120, 180), "verdict policed": (35, 55), "verdict empty": (35, 55),
        "verdict bad": (0, 30)}  # degrees: green, amber, amber, red
KINDS = ("missing", "extra", "early", "late", "foreign")
DELAYS = re.compile(r"link (\d+) out (\d+) sent (\d+) least (\S+) greatest (\S+) bound (\S+)")
COMPARED = re.compile(r"link (\d+) out (\d+) passed (\d+) seen (\d+) missing (\d+) extra (\d+) early (\d+) late (\d+) "
                      r"before (\d+) after (\d+) unsure (\d+) least (\S+) greatest (\S+) bound (\d+)")
PICTURE = """
const figure = document.getElementById(arguments[0]);
if (!figure) return null;
figure.scrollIntoView();
const place = figure.getBoundingClientRect(), drawing = figure.querySelector("svg").getBoundingClientRect();
return {text: figure.querySelector("figcaption").innerText, points: figure.querySelector("path").getAttribute("d").split("M").length - 1,
        width: drawing.width, height: drawing.height, left: place.left, right: place.right,
        link: !!document.querySelector(`a[href="#${arguments[0]}"]`)};
"""
COLUMN = "return [...document.querySelectorAll('#all tbody tr')].map(row => row.cells[arguments[0]].textContent)"
HEADING = """document.querySelectorAll('#all th button')[arguments[0]].click();
return document.querySelectorAll('#all th')[arguments[0]].ariaSort"""
TABLES = """return [...document.querySelectorAll('table')].map(
    table => [...table.rows].map(row => [...row.cells].map(cell => cell.textContent.trim())))"""
# The places of the texts in each picture with axes that is shown, and of the two texts of each bar.
TEXTS = """
const place = (text, name) => { const box = text.getBoundingClientRect(); return [name, box.left, box.top, box.right, box.bottom]; };
const shown = [...document.querySelectorAll("svg[role=img]")].filter(svg => svg.checkVisibility());
const placed = texts => [...texts].map(text => place(text, text.textContent));
const pictures = shown.map(svg => { svg.scrollIntoView(); return placed(svg.querySelectorAll("text")); });
const bars = [...document.querySelectorAll(".bar")].map(bar => placed(bar.querySelectorAll("b, span")));
return [...pictures, ...bars];
"""
# The texts of pictures with axes that are cut at the picture's edge.
CUT = """
const shown = [...document.querySelectorAll("svg[role=img]")].filter(svg => svg.checkVisibility());
return shown.flatMap(svg => {
    svg.scrollIntoView();
    const whole = svg.getBoundingClientRect();
    const stands = box => box.left < whole.left || box.right > whole.right || box.top < whole.top || box.bottom > whole.bottom;
    return [...svg.querySelectorAll("text")].filter(text => stands(text.getBoundingClientRect())).map(text => text.textContent);
});
"""
HIDDEN = "return [...document.querySelectorAll('.side')].filter(side => side.scrollWidth > side.clientWidth).length"
LATEST = """const heading = document.querySelectorAll("#differences th button")[4];
heading.click();
heading.click();"""
TIGHT = "return [...document.querySelectorAll('td, th')].filter(cell => cell.scrollWidth > cell.clientWidth).map(cell => cell.textContent)"
FIRST = """
const table = document.getElementById("all");
table.scrollIntoView();
const verdict = document.querySelector(".verdict").getBoundingClientRect();
const right = [...table.rows[0].cells].slice(0, arguments[0]).map(cell => cell.getBoundingClientRect().right);
table.parentNode.scrollLeft = 10000;
const left = table.rows[1] ? table.rows[1].cells[0].getBoundingClientRect().left : 0;
table.parentNode.scrollLeft = 0;
return {verdict: [verdict.left, verdict.right], right: Math.max(...right), link: left};
"""
# The colours of texts and of the paper below each.
COLOURS = """
const paper = element => {
    const colour = getComputedStyle(element).backgroundColor;
    return element === document.documentElement || !colour.endsWith(", 0)") ? colour : paper(element.parentNode);
};
const ink = element => element.ownerSVGElement ? getComputedStyle(element).fill : getComputedStyle(element).color;
const texts = [...document.querySelectorAll("h1, h2, h3, p, b, a, td, th, figcaption, .bar span, svg[role=img] text")];
return texts.slice(0, arguments[0]).map(text => [text.textContent.trim().slice(0, 40), ink(text), paper(text)]);
"""
VERDICTS = "return [...document.querySelectorAll('.verdict')].map(said => [said.className, getComputedStyle(said).borderLeftColor])"
ROWS = """const table = document.getElementById(arguments[0]);
return table ? [...table.tBodies[0].rows].map(row => [...row.cells].map(cell => cell.textContent.trim())) : []"""
OVERVIEWS = """return [...document.querySelectorAll("svg[aria-label='The run at a glance']")].filter(
    svg => svg.getBoundingClientRect().height > 100).length"""
# The texts of the picture of all differences, and how many pictures of links have ticks below, and a band.
MARKED = """const shown = [...document.querySelectorAll("svg[aria-label^=Differences]")].filter(svg => svg.checkVisibility());
return [shown.flatMap(svg => [...svg.querySelectorAll("text")].map(text => text.textContent.trim())),
        document.querySelectorAll("figure:not(.policed) path.t").length, document.querySelectorAll("path.r").length]"""
faults: list[str] = []


def expect(what: str, holds: object) -> None:
    if not holds:
        faults.append(what)


def end() -> NoReturn:
    """Says what was not as expected, and ends."""
    print("\n".join(faults[:20]))
    sys.exit(bool(faults))


def browser() -> Any:
    options: Any = Options()
    options.binary_location = "/usr/bin/chromium"
    for argument in ("--headless=new", "--no-sandbox", "--disable-gpu", "--disable-dev-shm-usage"):
        options.add_argument(argument)
    options.set_capability("goog:loggingPrefs", {"browser": "ALL"})
    page = webdriver.Chrome(service=Service("/usr/bin/chromedriver"), options=options)
    page.set_script_timeout(600)  # on a busy machine too
    return page


def measured(options: argparse.Namespace) -> list[tuple[str, ...]]:
    arguments = ["--unchecked"] if options.unchecked else []
    command = [os.environ["AFDX"], "measure", options.table, options.folder, *arguments]
    said = subprocess.run(command, capture_output=True, text=True, check=True)
    return [match.groups() for match in map(DELAYS.fullmatch, said.stdout.splitlines()) if match]


def grouped(word: str) -> str:
    return f"{int(word):,}" if word != "-" else word


def compared(options: argparse.Namespace) -> list[tuple[str, ...]]:
    """Returns the lines `link` of compare."""
    command = [os.environ["AFDX"], "compare", options.table, options.folder, options.recorded, *options.compare]
    said = subprocess.run(command, capture_output=True, text=True, check=False)
    return [match.groups() for match in map(COMPARED.fullmatch, said.stdout.splitlines()) if match]


def recorded_row(line: tuple[str, ...], model: tuple[str, ...]) -> list[str]:
    """Returns the cells of a link at a port that was recorded, but for which part of its bound it took."""
    link, port, passed, seen, *kinds, before, after, unsure, least, greatest, bound = line
    verdict = "differs" if any(many != "0" for many in kinds) else "conforms"
    numbers = [*model[3:], least, greatest, bound, passed, seen, *kinds, before, after, unsure]
    return [link, port, verdict, *map(grouped, numbers)]


def check_recordings(page: Any, options: argparse.Namespace, rows: list[tuple[str, ...]]) -> None:
    """Checks that each link at each port that was recorded, and each difference up to 50 of a port, has its row and its mark."""
    models = {row[:2]: row for row in rows}
    wanted = [recorded_row(line, models[line[:2]]) for line in compared(options)]
    cells = page.execute_script(ROWS, "compared")
    expect(f"rows of compare: {len(cells)}", wanted and [row[:9] + row[10:] for row in cells] == wanted)
    beside = Path(options.page).with_name(f"{Path(options.page).stem}-differences.csv")
    lines = [line.split(",") for line in beside.read_text(encoding="ascii").splitlines()[1:]]
    shown = [[port, link or "-", kind, *(grouped(word or "-") for word in (came, left, delay, bound))]
             for port, link, kind, came, _, left, _, delay, bound in lines]
    cells = page.execute_script(ROWS, "differences")
    expect(f"rows of differences: {len(cells)}", [row[:3] + row[5:] for row in cells] == shown)
    if cells:
        page.execute_script(LATEST)
        stamps = [row[4] for row in page.execute_script(ROWS, "differences")]
        expect("differences sort by their time in UTC", stamps == sorted((row[4] for row in cells), reverse=True))
    texts, ticks, bands = page.execute_script(MARKED)
    named = {text for port, _, kind, *_ in lines for text in (f"port {port}", kind)}
    expect(f"a picture of {named}, not of {texts}", named == {text for text in texts if text in KINDS or text.startswith("port ")})
    expect(f"{ticks} pictures of links have ticks", ticks == len({(port, link) for port, link, *_ in lines if link}))
    expect(f"{bands} pictures have a band", bands == sum(line[-2] != "-" for line in compared(options)))


def check_picture(page: Any, row: tuple[str, ...], width: int) -> None:
    link, port, sent, least, greatest, bound = row
    name = f"link {link} at port {port}, {width} px"
    picture = page.execute_script(PICTURE, f"l{link}p{port}")
    if picture is None or sent == "0":
        expect(f"{name}: a picture for what sent, and for nothing else", picture is None and sent == "0")
        return
    numbers = [f"link {link}", f"{grouped(sent)} sent", f"{grouped(least)} to {grouped(greatest)} ns"]
    if bound != "-":
        numbers += [f"bound {grouped(bound)}", f"slack {int(bound) - int(greatest):,} ns"]
    for text in numbers:
        expect(f"{name}: no {text} in {picture['text']!r}", text in picture["text"])
    expect(f"{name}: points", 1 <= picture["points"] <= int(sent))
    is_shown = picture["width"] > 200 and picture["height"] > 40 and picture["left"] >= 0 and picture["right"] <= width
    expect(f"{name}: a place on the page", is_shown)
    expect(f"{name}: a row that leads to it", picture["link"])


def check_sorting(page: Any, rows: list[tuple[str, ...]]) -> None:
    """Checks sorting by each column that has numbers, up and down; what is no number stays last."""
    for column in (0, 7, 8, 9, 10):
        for turn, name in ((False, "ascending"), (True, "descending")):
            expect(f"column {column} says {name}", page.execute_script(HEADING, column) == name)
            cells = page.execute_script(COLUMN, column)
            values = [float(cell.replace(",", "")) for cell in cells if cell.strip() != "-"]
            expect(f"column {column} is {name}", values == sorted(values, reverse=turn) and "-" not in map(str.strip, cells[:len(values)]))
            expect(f"column {column} has a cell for each link and port", len(cells) == len(rows))


def touching(texts: list[Box]) -> str | None:
    """Returns the first two texts of a group that share a place."""
    for place, (name, left, top, right, bottom) in enumerate(texts):
        for other, other_left, other_top, other_right, other_bottom in texts[:place]:
            if left < other_right and other_left < right and top < other_bottom and other_top < bottom:
                return f"{name!r} and {other!r}"
    return None


def check_places(page: Any, width: int) -> None:
    """Checks that nothing touches or has to be looked for at the side."""
    first = page.execute_script(FIRST, FIRST_COLUMNS[width])
    expect(f"the verdict is in {width} px: {first}", first["verdict"][0] >= 0 and first["verdict"][1] <= width)
    expect(f"so are the first columns: {first}", first["right"] <= width)
    expect(f"the link stays where the table is scrolled: {first}", first["link"] >= 0)
    for texts in page.execute_script(TEXTS):
        expect(f"at {width} px {touching(texts)} touch", touching(texts) is None)
    cut = page.execute_script(CUT)
    expect(f"at {width} px no text of a picture is cut, not {cut[:3]}", not cut)
    expect(f"at {width} px small tables are there whole", width < max(WIDTHS) or page.execute_script(HIDDEN) == 0)
    tight = page.execute_script(TIGHT)
    expect(f"at {width} px each cell has room, not {tight[:3]}", not tight)


def parts_of(colour: str) -> list[float]:
    """Returns red, green and blue, up to 1, of a colour that the browser names."""
    return [int(part) / 255 for part in re.findall(r"\d+", colour)[:3]]


def brightness(colour: str) -> float:
    """Returns the relative luminance of a colour."""
    red, green, blue = (part / 12.92 if part <= 0.04045 else math.pow((part + 0.055) / 1.055, 2.4) for part in parts_of(colour))
    return 0.2126 * red + 0.7152 * green + 0.0722 * blue


def check_colours(page: Any, scheme: str) -> None:
    """Checks that each text stands out from its paper, which is as light or as dark as was asked for, and that the verdict has its kind's
    colour."""
    page.execute_cdp_cmd("Emulation.setEmulatedMedia", {"features": [{"name": "prefers-color-scheme", "value": scheme}]})
    for text, ink, paper in page.execute_script(COLOURS, COLOURED):
        over, under = sorted((brightness(ink), brightness(paper)), reverse=True)
        expect(f"{scheme}: {text!r} is {ink} on {paper}", (over + 0.05) / (under + 0.05) >= CONTRAST)
        expect(f"{scheme}: the paper of {text!r} is {paper}", (brightness(paper) < 0.1) == (scheme == "dark"))
    for kind, colour in page.execute_script(VERDICTS):
        least, most = HUES[kind]
        expect(f"{scheme}: the {kind} is {colour}", least <= 360 * colorsys.rgb_to_hsv(*parts_of(colour))[0] <= most)


def check_print(page: Any) -> None:
    """Checks that each row of each table is in the PDF, cell by cell, as often as it is on the page."""
    page.refresh()  # no heading has the mark of sorting
    printed = base64.b64decode(page.execute_cdp_cmd("Page.printToPDF", {"preferCSSPageSize": True})["data"])
    text = subprocess.run(["pdftotext", "-raw", "-", "-"], input=printed, capture_output=True, check=True).stdout.decode()
    text = " ".join(text.split())
    rows = Counter(" ".join(" ".join(row).split()) for table in page.execute_script(TABLES) for row in table)
    print(f"{sum(rows.values())} rows of tables in a PDF of {len(printed)} bytes")
    for row, many in rows.items():
        found = len(re.findall(rf"(?<!\S){re.escape(row)}(?!\S)", text))
        expect(f"printed {found} times, not {many}: {row}", found >= many)


def open_page(page: Any, path: str | Path, seconds: float, width: int) -> None:
    """Opens a page of this width within some seconds; it is whole, and nothing of it stands out."""
    page.execute_cdp_cmd("Emulation.setDeviceMetricsOverride", {"width": width, "height": 900, "deviceScaleFactor": 1, "mobile": False})
    page.execute_cdp_cmd("Performance.enable", {"timeDomain": "threadTicks"})
    began = time.monotonic()
    page.get("file://" + os.path.abspath(path))
    waited = time.monotonic() - began
    # what the browser's own thread worked, so that a busy machine does not count
    metrics = page.execute_cdp_cmd("Performance.getMetrics", {})["metrics"]
    took = next(metric["value"] for metric in metrics if metric["name"] == "TaskDuration")
    print(f"{width} px: open after {waited:.1f} s, {took:.1f} s of work")
    expect(f"opens within {seconds} s, not {took:.1f}", took <= seconds)
    expect("loads nothing else", page.execute_script("return performance.getEntriesByType('resource').length") == 0)
    expect(f"nothing stands out at {width} px", page.execute_script("return document.documentElement.scrollWidth") <= width)


def check_page(page: Any, options: argparse.Namespace, rows: list[tuple[str, ...]], width: int) -> None:
    open_page(page, options.page, options.seconds, width)
    overviews = page.execute_script(OVERVIEWS)
    expect("one picture of the run, where frames came in", overviews == any(sent != "0" for _, _, sent, *_ in rows))
    check_places(page, width)
    for row in rows if len(rows) <= LOOKED_AT else random.Random(1).sample(rows, LOOKED_AT):
        check_picture(page, row, width)
    console = page.get_log("browser")
    expect(f"an empty console, not {console}", not console)


def main() -> None:
    parser = argparse.ArgumentParser(description=__doc__, formatter_class=argparse.RawDescriptionHelpFormatter)
    for argument in ("page", "table", "folder"):
        parser.add_argument(argument)
    parser.add_argument("--unchecked", action="store_true")
    parser.add_argument("--seconds", type=float, default=10)
    parser.add_argument("--print", action="store_true")
    parser.add_argument("--recorded", help="the folder of what was recorded")
    parser.add_argument("--compare", nargs="*", default=[], help="the options of compare, as name=value without dashes")
    options = parser.parse_args()
    options.compare = [f"--{option}" for option in options.compare]
    rows, page = measured(options), browser()
    try:
        for width in WIDTHS:
            check_page(page, options, rows, width)
        if options.recorded:
            check_recordings(page, options, rows)
        check_sorting(page, rows)
        for scheme in ("light", "dark"):
            check_colours(page, scheme)
        if options.print:
            check_print(page)
    finally:
        page.quit()
    print(f"{len(rows)} links and ports")
    end()


if __name__ == "__main__":
    main()
