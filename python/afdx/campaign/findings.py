"""Asks what a campaign wants to know: the store answers each question by rows, for a CSV and a place on the page."""
import csv
import io
import sqlite3
from collections.abc import Callable
from dataclasses import dataclass
from typing import Any

from afdx.campaign.changes import outliers, trends
from afdx.campaign.worker.rows import FILTERED

BINS = 50  # of the slack histogram

Rows = list[tuple[Any, ...]]

# `total`, since `sum` ends with an error where it has no room, for all recordings
WORST = """
select tables.name, switch, link, port, cast(total(sent) as integer), max(greatest), bound,
    1.0 * max(greatest) / bound, recording
from delays join runs on runs.id = run join tables on tables.id = runs."table"
where greatest is not null group by tables.id, switch, link, port order by tables.id, switch, link, port"""

SLACK = f"""
select tables.name, bin * 100 / {BINS}, (bin + 1) * 100 / {BINS}, count(*)
from (select run, {BINS} * greatest / bound as bin from delays where greatest is not null and bound is not null)
join runs on runs.id = run join tables on tables.id = runs."table" group by tables.id, bin order by tables.id, bin"""

BABBLERS = """
select tables.name, links.switch, links.link, recording, passed, policed, spells.begin, spells.end, frames,
    least_early, greatest_early
from links join runs on runs.id = links.run join tables on tables.id = runs."table"
left join spells on spells.run = links.run and spells.switch = links.switch and spells.link = links.link
where policed > 0 order by tables.id, links.switch, links.link, spells.begin, runs.begin, recording"""

LOST_NAMES = (*FILTERED, "full", "aged")
LOST_SUMS = tuple(f"cast(total({words}) as integer)" for words in (
    *(f'"{name}"' for name in FILTERED), *(f"high_{name} + low_{name}" for name in ("full", "aged"))))
LOST = f"""
select name, recording, {", ".join(f'"{word}"' for word in LOST_NAMES)} from (
    select tables.id as place, tables.name as name, recording, runs.begin as begin,
        {", ".join(f'{total} as "{word}"' for word, total in zip(LOST_NAMES, LOST_SUMS))}
    from ports join runs on runs.id = run join tables on tables.id = runs."table" group by run)
where {" + ".join(f'"{word}"' for word in LOST_NAMES)} > 0 order by place, begin, recording"""

FAULTS = """
select tables.name, recording, faults.status, fault, tries, line
from faults join runs on runs.id = run join tables on tables.id = runs."table" order by tables.id, recording"""

COMPARE = """
select before.name, after.name, b.switch, b.link, b.port, count(*), max(b.greatest), max(a.greatest),
    max(a.greatest) - max(b.greatest), sum(a.greatest > b.greatest), sum(a.greatest < b.greatest), b.bound, a.bound
from tables as before join tables as after on after.id > before.id
join runs as rb on rb."table" = before.id join runs as ra on ra."table" = after.id and ra.recording = rb.recording
join delays as b on b.run = rb.id
join delays as a on a.run = ra.id and a.switch = b.switch and a.link = b.link and a.port = b.port
where before.id = (select min(id) from tables) and a.greatest is not null and b.greatest is not null
group by after.id, b.switch, b.link, b.port order by after.id, b.switch, b.link, b.port"""


@dataclass(frozen=True)
class Question:
    """A question, which has the name of its CSV."""
    name: str
    heads: tuple[str, ...]
    ask: Callable[[sqlite3.Connection], Rows]


@dataclass(frozen=True)
class Finding:
    """A question with its answer."""
    name: str
    heads: tuple[str, ...]
    rows: Rows

    def csv(self) -> str:
        """Writes the answer as comma-separated values."""
        text = io.StringIO()
        writer = csv.writer(text, lineterminator="\n")
        writer.writerow(self.heads)
        writer.writerows(self.rows)
        return text.getvalue()

    def of(self, table: str) -> Rows:
        """Returns the rows of a table, without its name."""
        return [row[1:] for row in self.rows if row[0] == table]


def selecting(sql: str) -> Callable[[sqlite3.Connection], Rows]:
    """Makes a question of SQL, which the store answers by itself."""
    return lambda base: base.execute(sql).fetchall()


QUESTIONS = (
    Question("worst", ("table", "switch", "link", "port", "sent", "greatest", "bound", "share", "recording"),
             selecting(WORST)),
    Question("slack", ("table", "from_percent", "to_percent", "links_and_ports"), selecting(SLACK)),
    Question("babblers", ("table", "switch", "link", "recording", "passed", "policed", "begin", "end", "frames",
                          "least_early", "greatest_early"), selecting(BABBLERS)),
    Question("lost", ("table", "recording", *LOST_NAMES), selecting(LOST)),
    Question("faults", ("table", "recording", "status", "fault", "tries", "line"), selecting(FAULTS)),
    Question("compare", ("before", "after", "switch", "link", "port", "recordings", "greatest_before", "greatest_after",
                         "change", "greater_in", "less_in", "bound_before", "bound_after"), selecting(COMPARE)),
    Question("trends", ("table", "switch", "link", "port", "recordings", "step_at", "median_before", "median_after",
                        "change", "chance"), trends),
    Question("outliers", ("table", "recording", "what", "value", "usual_from", "usual_to"), outliers))


def findings_of(base: sqlite3.Connection) -> dict[str, Finding]:
    """Asks all questions."""
    return {question.name: Finding(question.name, question.heads, question.ask(base)) for question in QUESTIONS}
