"""Refuses the captures of a recording that are missing or cannot be read, or that are not those that were listed."""
from __future__ import annotations

import os

from afdx.campaign.worker.task import IRREGULAR, MISSING, Recording, identity_by, signs_of

INPUT, DEVICE = 3, 5  # the program's statuses of a capture that it refuses, and if a file fails
CHANGED, GARBLED = 75, 76  # as sysexits.h has them of what may pass and of what does not keep to a protocol


class Refused(Exception):
    """A fault of a task before or after its question is asked."""

    def __init__(self, fault: str, status: int, line: str) -> None:
        super().__init__(line)
        self.fault, self.status, self.line = fault, status, line


def check_captures(recording: Recording) -> None:
    """Refuses a recording of which a capture is missing, no regular file or out of reach, without opening one for it.

    If it was another one when it was listed, it changed: what is away for a moment is not missing for good.
    """
    signs = signs_of(recording.folder, recording.files, by_content=False)
    check_errors(recording, signs)
    missing, irregular = ([file for file, sign in zip(recording.files, signs) if sign == kind]
                          for kind in (MISSING, IRREGULAR))
    if missing or irregular:
        check_listed(recording)
    if missing:
        raise Refused("missing", DEVICE, f"no {', '.join(missing)} in {recording.folder}")
    if irregular:
        raise Refused("capture", INPUT, f"no regular file: {', '.join(irregular)} in {recording.folder}")


def check_errors(recording: Recording, signs: list[str | OSError]) -> None:
    """Refuses a recording of which a file cannot be read: that may pass."""
    for file, sign in zip(recording.files, signs):
        if isinstance(sign, OSError):
            raise Refused("device", DEVICE, f"cannot read {os.path.join(recording.folder, file)}: {sign.strerror}")


def check_listed(recording: Recording) -> None:
    """Refuses a recording that is not as it was listed."""
    signs = signs_of(recording.folder, recording.files, recording.by_content)
    if identity_by(recording.name, recording.files, signs) != recording.identity:
        check_errors(recording, signs)
        raise Refused("changed", CHANGED, f"the recording {recording.folder} changed since it was listed")
