"""Makes what a campaign hands over: the CSV of each question and the page."""
import sqlite3
from dataclasses import dataclass
from pathlib import Path
from typing import Any

from markupsafe import Markup
from matplotlib.figure import Figure

from afdx.campaign import pictures
from afdx.campaign.changes import FAR
from afdx.campaign.findings import Finding, Rows, findings_of
from afdx.campaign.listings import listing
from afdx.campaign.store import collected
from afdx.campaign.worker.files import put_text
from afdx.campaign.worker.task import Task
from afdx.pages.drawing import svg_of
from afdx.pages.templates import environment
from afdx.pages.words import count, percent

STEPS = 8  # pictures of steps


@dataclass(frozen=True)
class Sums:
    """What there is of a campaign."""
    tasks: int
    answers: int
    faults: int

    @property
    def left(self) -> int:
        """Counts the tasks without an answer."""
        return self.tasks - self.answers


def put_report(title: str, root: Path, tasks: list[Task]) -> Sums:
    """Collects the answers and puts a CSV for each question and the page."""
    with collected(root, tasks) as base:
        findings = findings_of(base)
        for finding in findings.values():
            put_text(root / "csv" / f"{finding.name}.csv", finding.csv())
        answers, = base.execute("select count(*) from runs").fetchone()
        sums = Sums(len(tasks), answers, len(findings["faults"].rows))
        put_text(root / "campaign.html", page_of(title, base, findings, sums))
    return sums


def page_of(title: str, base: sqlite3.Connection, findings: dict[str, Finding], sums: Sums) -> str:
    """Makes the page as one text that needs no other file."""
    tables = [name for name, in base.execute("select name from tables order by id")]
    return environment(Path(__file__).resolve().parent).get_template("campaign.html").render(
        title=title, far=FAR, verdict=verdict(base, sums), bad=sums.faults + sums.left > 0,
        faults=listing("faults", findings["faults"].rows),
        parts=[part_of(base, findings, table, place) for place, table in enumerate(tables)],
        pairs=[pair_of(findings["compare"], tables[0], table, place) for place, table in enumerate(tables[1:])])


def verdict(base: sqlite3.Connection, sums: Sums) -> list[Markup]:
    """Returns what there is, and what is missing."""
    recordings, size = base.execute(
        "select count(*), sum(size) from (select max(size) as size from runs group by recording)").fetchone()
    said = [bold(f"{count(recordings, 'recording')}, {(size or 0) / 1e9:,.2f} GB."),
            Markup.escape(f"{sums.answers:,} of {count(sums.tasks, 'task')} are answered")]
    said[-1] += bold(f", {count(sums.faults, 'of them is a fault', 'of them are faults')}.") if sums.faults else "."
    return said + ([bold(f"{count(sums.left, 'is left', 'are left')}.")] if sums.left else [])


def bold(text: str) -> Markup:
    """Makes a text stand out."""
    return Markup("<b>{}</b>").format(text)


def part_of(base: sqlite3.Connection, findings: dict[str, Finding], table: str, place: int) -> dict[str, Any]:
    """Returns what the page says of a table."""
    rows = {name: finding.of(table) for name, finding in findings.items()}
    rows["worst"].sort(key=lambda row: -(row[6] or 0))
    course = pictures.course_of(base, table)
    steps = [pictures.trend(base, table, course, row) for row in rows["trends"][:STEPS]]
    return {name: listing(name, rows[name]) for name in ("worst", "trends", "babblers", "lost", "outliers")} | {
        "name": table, "anchor": f"table{place}", "verdict": table_verdict(rows),
        "overview": drawn(pictures.overview(course, rows["babblers"]), f"Recordings under table {table}")
        if course.recordings else "",
        "slack": drawn(pictures.slack(rows["slack"]), "Greatest delays, of their bounds") if rows["slack"] else "",
        "steps": [drawn(figure, f"Step {number}") for number, figure in enumerate(steps, 1)]}


def drawn(figure: Figure, label: str) -> Markup:
    """Makes a picture for the page."""
    return Markup(svg_of(figure, label))


def table_verdict(rows: dict[str, Rows]) -> list[Markup]:
    """Returns what stands out under a table."""
    said = []
    worst = rows["worst"]
    if worst and worst[0][6] is not None:
        switch, link, port, _, greatest, bound, share, recording = worst[0]
        said.append(Markup.escape(f"The nearest to its bound was {named(switch, link, port)}: {percent(share)} of it "
                                  f"({greatest:,} of {bound:,} ns), in {recording}."))
    babblers = rows["babblers"]
    if babblers:
        links = len({row[:2] for row in babblers})
        recordings = len({row[2] for row in babblers})
        said.append(bold(f"{count(links, 'link was', 'links were')} policed, in {count(recordings, 'recording')}."))
    lost = sum(1 for row in rows["lost"] if row[-1] or row[-2])
    if lost:
        said.append(bold(f"{count(lost, 'recording')} lost copies."))
    if rows["trends"]:
        switch, link, port, _, step, *_, change, _ = rows["trends"][0]
        steps = count(len(rows["trends"]), "link and port", "links and ports")
        said.append(bold(f"Of {steps} the delays have a step,"))
        said.append(Markup.escape(f"most clearly of {named(switch, link, port)}: {change:+,.0f} ns from {step} on."))
    return said


def named(switch: str, link: int, port: int) -> str:
    """Names a link at a port, in a network with its switch."""
    return f"{switch} link {link} at port {port}".strip()


def pair_of(finding: Finding, before: str, after: str, place: int) -> dict[str, Any]:
    """Returns what the page says of a table against the first one."""
    rows = [row[2:] for row in finding.rows if row[:2] == (before, after)]
    rows.sort(key=lambda row: abs(int(row[6])), reverse=True)
    greater, less = (sum(1 for row in rows if sign * row[6] > 0) for sign in (1, -1))
    return {
        "before": before, "after": after, "anchor": f"pair{place}", "compare": listing("compare", rows),
        "picture": drawn(pictures.compare(rows, before, after), f"{before} against {after}") if rows else "",
        "verdict": f"Of {count(len(rows), 'link and port', 'links and ports')}, over what was answered under both, "
                   f"{greater:,} have a greater delay under {after} and {less:,} a smaller one."}
