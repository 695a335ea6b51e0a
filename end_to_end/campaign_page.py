#!/usr/bin/python3
"""Opens the page of a campaign in chromium and compares it with the files beside it.

At 1280, 800 and 400 pixels: nothing is on the console, nothing else was loaded, nothing stands out at the side; each table has the
first rows of its CSV, leads to it, and sorts by a click; there is a picture of the recordings under each table. In the light
and in the dark all texts can be read.
"""
import argparse
import csv
from pathlib import Path
from typing import Any

import view_page
from view_page import expect

MOST = 300  # rows of a table on the page
TABLES = """return [...document.querySelectorAll("table")].map(table => [
    table.closest(".scroll").nextElementSibling.querySelector("a").getAttribute("href"),
    [...table.tBodies[0].rows].map(row => [...row.cells].map(cell => cell.textContent.trim()))])"""
PICTURES = """return [...document.querySelectorAll("svg")].map(svg => {
    const place = svg.getBoundingClientRect(); return [svg.ariaLabel, place.width, place.height]; })"""
SORTED = """const heads = document.querySelectorAll("table")[arguments[0]].tHead.rows[0].cells;
    heads[arguments[1]].querySelector("button").click(); return heads[arguments[1]].ariaSort"""


def check_tables(page: Any, root: Path) -> list[str]:
    """Expects that each table's rows are those of the CSV to which it leads; lists these files."""
    tables = page.execute_script(TABLES)
    for link, rows in tables:
        with open(root / link, encoding="utf-8", newline="") as file:
            said = list(csv.DictReader(file))
        cells = {cell for row in said for cell in row.values()}
        expect(f"{link}: rows, not {len(rows)}", 0 < len(rows) <= min(MOST, len(said)))
        names = {row["recording"] for row in said if "recording" in row}
        expect(f"{link}: recordings that the page has not", not names or all(names & set(row) for row in rows))
        expect(f"{link}: numbers as they are in the file", link.endswith(("outliers.csv", "trends.csv")) or all(
            cell.replace(",", "") in cells for row in rows for cell in row if cell.replace(",", "").isdigit()))
    for number, (link, _) in enumerate(tables):
        expect(f"{link}: sorts", [page.execute_script(SORTED, number, 0) for _ in range(2)] == ["ascending", "descending"])
    return [link for link, _ in tables]


def check_page(page: Any, options: argparse.Namespace, width: int) -> None:
    view_page.open_page(page, options.root / "campaign.html", options.seconds, width)
    links = check_tables(page, options.root)
    expect("faults, delays and policed links are there", {f"csv/{name}.csv" for name in ("faults", "worst", "babblers")} <= set(links))
    pictures = page.execute_script(PICTURES)
    of_recordings = sum(label.startswith("Recordings under") for label, *_ in pictures)
    expect("a picture of the recordings under each table", of_recordings == links.count("csv/worst.csv"))
    expect("pictures have a place", all(200 < wide <= width and high > 60 for _, wide, high in pictures))
    console = page.get_log("browser")
    expect(f"an empty console, not {console}", not console)


def main() -> None:
    parser = argparse.ArgumentParser(description=__doc__, formatter_class=argparse.RawDescriptionHelpFormatter)
    parser.add_argument("root", type=Path, help="that of the campaign")
    parser.add_argument("--seconds", type=float, default=10)
    options = parser.parse_args()
    page = view_page.browser()
    try:
        for width in view_page.WIDTHS:
            check_page(page, options, width)
        for scheme in ("light", "dark"):
            view_page.check_colours(page, scheme)
    finally:
        page.quit()
    view_page.end()


if __name__ == "__main__":
    main()
