"""Writes numbers and instants as the page shows them."""
from datetime import datetime, timezone

SECOND = 1_000_000_000  # ns


def number(value: float | None) -> str:
    return "-" if value is None else f"{int(value):,}"


def percent(part: float, whole: float = 1) -> str:
    """Writes a part of a whole; what is less or more than the whole isn't rounded to 100 %."""
    share = 100 * part / whole
    if 0 < share < 0.05:
        return "below 0.1 %"
    is_near = part != whole and 99.5 <= share <= 100.5
    if is_near and abs(share - 100) <= 0.05:
        return "below 100 %" if part < whole else "above 100 %"
    return f"{share:.1f} %" if 0 < share < 10 or is_near else f"{share:.0f} %"


def tenths(share: float) -> str:
    """Writes a share in percent, to a tenth; what is less or more than the whole is not rounded to 100.0."""
    if share != 1 and abs(100 * share - 100) <= 0.05:
        return "99.9" if share < 1 else "100.1"
    return f"{100 * share:.1f}"


def since(ns: int) -> str:
    """Writes a time after the first frame."""
    return f"{ns / 1e6:,.3f} ms"


def lasting(ns: int) -> str:
    return f"{ns / 1e6:,.0f} ms" if ns >= 10_000_000 else f"{ns / 1e6:,.3f} ms"


def utc(stamp: int) -> str:
    """Writes a stamp, which is ns after 1970, to the nanosecond, without the word UTC."""
    moment = datetime.fromtimestamp(stamp // SECOND, timezone.utc)
    return f"{moment:%Y-%m-%d %H:%M:%S}.{stamp % SECOND:09}"


def count(many: int, noun: str, plural: str | None = None) -> str:
    return f"{many:,} {noun if many == 1 else plural or noun + 's'}"
