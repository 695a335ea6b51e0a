"""Shows stamps as dates."""
from afdx.pages.words import utc


def instant(stamp: int) -> str:
    """Returns a stamp, which is ns after 1970, as ISO 8601 has it, in UTC to the nanosecond."""
    return f"{utc(stamp).replace(' ', 'T')}Z"
