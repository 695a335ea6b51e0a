"""Writes the captures of all ports to new files, and moves them onto their names when all are whole."""
import errno
import os
from collections.abc import Iterable, Iterator
from contextlib import ExitStack, contextmanager, suppress
from pathlib import Path
from types import TracebackType
from typing import BinaryIO, Self

from afdx import files, signals
from afdx.failure import failing
from afdx.recordings.pcap import WRITTEN


class Captures:
    """Are the new captures, by port. On leaving, those that were not put are removed, with folders made for them."""

    def __init__(self, command: str, folder: Path, ports: Iterable[str]) -> None:
        self.command = command
        self.paths = {port: folder / f"{port}.pcap" for port in ports}
        self.folders: list[Path] = []
        self.files: dict[str, BinaryIO] = {}

    def __enter__(self) -> Self:
        with ExitStack() as stack:
            stack.callback(self.close)
            for port in self.paths:
                self.begin(port)
            stack.pop_all()
        return self

    def __exit__(self, kind: type[BaseException] | None, error: BaseException | None,
                 trace: TracebackType | None) -> None:
        self.close()

    def begin(self, port: str) -> None:
        """Begins the new file of a port, without frames."""
        path = self.paths[port]
        with self.writing(port):
            if path.is_dir():
                raise IsADirectoryError(errno.EISDIR, os.strerror(errno.EISDIR))
            with signals.held():  # so that what is made is known, and removed
                for folder in [one for one in [*reversed(path.parent.parents), path.parent] if not one.exists()]:
                    folder.mkdir()
                    self.folders.append(folder)
                self.files[port] = open(files.beside(path), "xb")
        self.write(port, WRITTEN)

    @contextmanager
    def writing(self, port: str) -> Iterator[None]:
        """Says of what fails in the context that the port's capture cannot be written."""
        try:
            yield
        except OSError as error:
            raise failing(self.command, f"cannot write {self.paths[port]}", error) from error

    def write(self, port: str, text: bytes | memoryview) -> None:
        with self.writing(port):
            self.files[port].write(text)

    def put(self) -> None:
        """Has the device take all files, then moves each onto its name, in order of the ports; a signal waits for that,
        so that no capture is of another import than the others."""
        for port, file in self.files.items():
            with self.writing(port):
                file.flush()
                os.fsync(file.fileno())
        with signals.held():
            for port, file in self.files.items():
                with self.writing(port):
                    os.replace(file.name, self.paths[port])

    def close(self) -> None:
        """Closes the new files, and removes those that have not been moved, and the folders that are empty then, as far
        as the system lets it: what failed before is what is told."""
        for file in self.files.values():
            with suppress(OSError):  # what could not be written is removed
                file.close()
            with suppress(OSError):
                Path(file.name).unlink()
        for folder in reversed(self.folders):
            with suppress(OSError):  # as if it is not empty
                folder.rmdir()
