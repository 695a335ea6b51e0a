"""Reads the first stamp of captures, which says when a recording began."""
from __future__ import annotations

import os
import struct
from collections.abc import Iterable

SECOND = 10**9
MAGICS = {  # byte order, and ns in a part of the stamp's fraction
    b"\xd4\xc3\xb2\xa1": ("<", 1000), b"\xa1\xb2\xc3\xd4": (">", 1000),
    b"\x4d\x3c\xb2\xa1": ("<", 1), b"\xa1\xb2\x3c\x4d": (">", 1)}


def first_stamp(paths: Iterable[str]) -> int | None:
    """Returns the least of the first stamps, in ns; none if no capture has one."""
    return min((stamp for stamp in map(stamp_of, paths) if stamp is not None), default=None)


def stamp_of(path: str) -> int | None:
    """Returns the stamp of the first record; none if there is none. What is no regular file is not opened."""
    if not os.path.isfile(path):
        return None
    try:
        with open(path, "rb") as file:
            head = file.read(32)
    except OSError:
        return None
    if len(head) < 32 or head[:4] not in MAGICS:
        return None
    order, part = MAGICS[head[:4]]
    seconds, fraction = struct.unpack(f"{order}II", head[24:32])
    return int(seconds) * SECOND + int(fraction) * part
