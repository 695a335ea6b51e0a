"""What the program writes with --csv, read."""
import pytest

from afdx.printed import listed, number, rows_of

TEXT = "kind,port,at\nin,1,\nbuffer,2,5\n"


def test_rows_of_a_kind_and_of_all() -> None:
    assert rows_of(TEXT, "buffer") == [{"kind": "buffer", "port": "2", "at": "5"}]
    assert [row["kind"] for row in rows_of(TEXT)] == ["in", "buffer"]


def test_a_row_that_was_cut_has_empty_fields() -> None:
    assert rows_of("port,at\n1") == [{"port": "1", "at": ""}]


@pytest.mark.parametrize("text", ["", "port,at\n"])
def test_no_rows(text: str) -> None:
    assert rows_of(text) == []


def test_a_text_without_kinds() -> None:
    with pytest.raises(KeyError):
        rows_of("port,at\n1,2\n", "in")


def test_fields() -> None:
    assert (number(""), number("0"), number("-84")) == (None, 0, -84)
    assert (listed(""), listed("L2;L4")) == ("", "L2 L4")
