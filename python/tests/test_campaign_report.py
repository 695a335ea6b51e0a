"""The page of a campaign while there is little to show."""
import re
from dataclasses import replace
from pathlib import Path

import pytest

from afdx.campaign.report import put_report
from afdx.campaign.worker.task import Table
from afdx.campaign.worker.work import work
from tests.campaign_samples import QUIET, task


@pytest.mark.parametrize("ask, answered, parts", [
    ("survey", False, ["no recording", "no recording"]), ("survey", True, ["a picture", "no recording"]),
    ("run", True, ["a picture", "no recording"])])
@pytest.mark.filterwarnings("error")
def test_a_page_of_tables_without_answers(tmp_path: Path, caplog: pytest.LogCaptureFixture, ask: str, answered: bool,
                                          parts: list[str]) -> None:
    first = replace(task(tmp_path, act=QUIET), ask=ask)
    if answered:
        assert work(first, 1).status == 0
    second = replace(first, table=Table("second", (), (), False, "another"))
    root = Path(first.root)
    root.mkdir(exist_ok=True)
    assert put_report("title", root, [first, second]).left == 2 - answered
    shown = re.split("<h2 id=\"table", (root / "campaign.html").read_text())[1:]
    says = {"No recording is answered": "no recording", "<svg": "a picture"}
    assert [word for part in shown for sign, word in says.items() if sign in part] == parts
    assert not caplog.records


def test_a_fault_is_an_answer_on_the_page_too(tmp_path: Path) -> None:
    """Checks that the page has the numbers that the commands say."""
    tasks = [task(tmp_path, act, name) for name, act in (("r1", QUIET), ("r2", "exit 3"), ("r3", "exit 3"))]
    for says in ("1 of 3 tasks are answered. 2 are left.",
                 "2 of 3 tasks are answered, 1 of them is a fault. 1 is left.",
                 "3 of 3 tasks are answered, 2 of them are faults."):
        work(next(asked for asked in tasks if not asked.answer.exists()), 1)
        sums = put_report("title", tmp_path / "campaign", tasks)
        page = re.sub("<[^>]*>", "", (tmp_path / "campaign/campaign.html").read_text())
        assert f" GB. {says}\n" in page
        assert f"{sums.answers} of {sums.tasks} tasks" in page
