"""Ends afdx-campaign early."""
from afdx.failure import Failure, failing

COMMAND = "afdx-campaign"
INTERRUPTED = 6  # or the engine is gone


def failure(status: int, line: str) -> Failure:
    """Returns a failure that is one line."""
    return Failure(status, f"{COMMAND}: {line}")


def file_failure(what: str, error: OSError) -> Failure:
    """Returns the failure of a file that cannot be read, written or run."""
    return failing(COMMAND, f"cannot {what}", error)


def gone(what: str) -> Failure:
    """Returns the failure of an engine that is away for too long."""
    return failure(INTERRUPTED, f"{what}; what is answered is kept, the same command goes on")
