"""The program as a command runs it: where it is found, what it says and how it fails."""
import os
from pathlib import Path

import pytest

from afdx import program
from afdx.failure import DEVICE, Failure
from afdx.program import Answer, Program, Progress


def script(path: Path, text: str) -> Path:
    path.parent.mkdir(parents=True, exist_ok=True)
    path.write_text(f"#!/bin/sh\n{text}\n", encoding="utf-8")
    path.chmod(0o755)
    return path


@pytest.mark.parametrize("package, there, named, found", [
    ("clone/python/afdx", ["clone/crates/afdx/out/afdx", "clone/bin/afdx", "path/afdx"], "mine", "mine"),
    ("clone/python/afdx", ["clone/crates/afdx/out/afdx", "path/afdx"], "", "{}/clone/crates/afdx/out/afdx"),
    ("afdx-1.0/python/afdx", ["afdx-1.0/bin/afdx", "bin/afdx", "path/afdx"], "", "{}/afdx-1.0/bin/afdx"),
    ("usr/share/afdx/afdx", ["usr/bin/afdx", "path/afdx"], "", "{}/usr/bin/afdx"),
    ("clone/python/afdx", ["bin/afdx", "path/afdx"], "", "{}/path/afdx"),
    ("clone/python/afdx", ["path/afdx"], "", "{}/path/afdx"),
    ("usr/share/afdx/afdx", [], "", None),
])
def test_where_it_is_found(tmp_path: Path, monkeypatch: pytest.MonkeyPatch, package: str, there: list[str], named: str,
                           found: str | None) -> None:
    """Checks the order: what is named comes first, then what came with the commands: built in the repository, of the
    .tar.gz or of the .deb; then what is on the path."""
    for place in there:
        script(tmp_path / place, ":")
    monkeypatch.setenv("AFDX", named)
    monkeypatch.setenv("PATH", str(tmp_path / "path"))
    monkeypatch.setattr(program, "PACKAGE", tmp_path / package)
    assert program.find_program() == (found and found.format(tmp_path))


def test_it_is_not_there(tmp_path: Path, monkeypatch: pytest.MonkeyPatch) -> None:
    monkeypatch.delenv("AFDX", raising=False)
    monkeypatch.setenv("PATH", str(tmp_path))
    monkeypatch.setattr(program, "PACKAGE", tmp_path / "python" / "afdx")
    with pytest.raises(Failure, match="^command: no program afdx: ") as ended:
        Program("command")
    assert ended.value.status == DEVICE


def test_what_it_says_and_how_it_ends(tmp_path: Path, monkeypatch: pytest.MonkeyPatch) -> None:
    refusing = script(tmp_path / "afdx", 'echo "port $2"; echo "afdx: table C2 Toml" >&2; [ "$1" = size ] || exit 3')
    monkeypatch.setenv("AFDX", str(refusing))
    assert Program("command").ask("check", Path("table.toml")) == Answer(3, "port table.toml\n", "afdx: table C2 Toml")
    assert Program("command").answer("size", "table.toml") == "port table.toml\n"
    with pytest.raises(Failure, match="^afdx: table C2 Toml$") as ended:
        Program("command").answer("check", "table.toml")
    assert ended.value.status == 3


def test_a_kill_and_a_program_that_cannot_be_run(tmp_path: Path, monkeypatch: pytest.MonkeyPatch) -> None:
    monkeypatch.setenv("AFDX", os.fspath(script(tmp_path / "afdx", "kill -9 $$")))
    assert Program("command").ask("check", "table.toml").status == 128 + 9
    monkeypatch.setenv("AFDX", os.fspath(tmp_path / "none"))
    with pytest.raises(Failure, match=f"^command: cannot run {tmp_path}/none: No such file or directory$") as ended:
        Program("command").ask("check", "table.toml")
    assert ended.value.status == DEVICE


def test_what_it_runs_ends_with_the_command(tmp_path: Path, monkeypatch: pytest.MonkeyPatch) -> None:
    """Checks that nothing goes on after a signal, which is an exception here."""
    process = tmp_path / "process"
    told = f'echo $$ >"{process}.new"; mv "{process}.new" "{process}"'  # so that it has its text as soon as it is there
    monkeypatch.setenv("AFDX", str(script(tmp_path / "afdx", f"{told}; exec sleep 60")))

    def say(_: Progress, __: str) -> None:
        if process.exists():
            raise SystemExit(143)

    monkeypatch.setattr(Progress, "say", say)
    with pytest.raises(SystemExit):
        Program("command").ask("check", "table.toml")
    with pytest.raises(ProcessLookupError):
        os.kill(int(process.read_text()), 0)
