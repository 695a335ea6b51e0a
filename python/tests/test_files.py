"""How files are put."""
from pathlib import Path

from afdx import files


def test_a_link_is_replaced_and_not_what_it_leads_to(tmp_path: Path) -> None:
    (tmp_path / "kept").write_text("old")
    for name, target in (("link", "kept"), ("dangling", "none"), ("loop", "loop")):
        (tmp_path / name).symlink_to(target)
        files.put("command", tmp_path / name, b"new")
        assert not (tmp_path / name).is_symlink() and (tmp_path / name).read_text() == "new"
    assert sorted(path.name for path in tmp_path.iterdir()) == ["dangling", "kept", "link", "loop"]
    assert (tmp_path / "kept").read_text() == "old"
