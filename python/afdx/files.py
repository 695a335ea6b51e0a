"""Puts and reads whole files: under a name is what was there or the whole new text, never a part of it."""
from __future__ import annotations  # the workers of a campaign get `put_by` by value, without the names of types

import contextlib
import os
import secrets
import tempfile
from collections.abc import Callable
from pathlib import Path
from typing import BinaryIO

from afdx.failure import failing


def beside(path: Path) -> Path:
    """Returns a name beside another one, for what is moved onto that once it is whole."""
    return path.with_name(f".{path.name}.{secrets.token_hex(4)}")


def put_by(path: Path, write: Callable[[BinaryIO], object]) -> None:
    """Has a new file written beside the name, has the device take it, and moves it onto the name.

    What fails has the name in its OSError.
    """
    new = beside(path)
    try:
        with open(new, "xb") as file:
            write(file)
            file.flush()
            os.fsync(file.fileno())
        os.replace(new, path)
    except BaseException as error:  # a signal too
        with contextlib.suppress(OSError):
            new.unlink()
        if isinstance(error, OSError):
            raise OSError(error.errno, error.strerror, str(path)) from error
        raise


def put(command: str, path: Path, text: bytes) -> None:
    """Puts a text under a name."""
    try:
        put_by(path, lambda file: file.write(text))
    except OSError as error:
        raise failing(command, f"cannot write {path}", error) from error


def temporary_folder(command: str) -> tempfile.TemporaryDirectory[str]:
    """Makes a folder that goes with the block that it is made for."""
    try:
        return tempfile.TemporaryDirectory(prefix=f"{command}-")
    except OSError as error:
        raise failing(command, "cannot make a temporary folder", error) from error


def get(command: str, path: Path) -> bytes:
    """Reads a whole file."""
    try:
        return path.read_bytes()
    except OSError as error:
        raise failing(command, f"cannot read {path}", error) from error
