"""Finds out whether the modules that a command rests on are installed."""
import logging
import sys
from collections.abc import Callable, Sequence
from importlib import import_module
from importlib.util import find_spec

from afdx import signals
from afdx.failure import DEVICE, Failure


def need(command: str, *names: str) -> None:
    """Ends the command if this Python lacks one of the modules; Debian's package of each is python3-NAME."""
    missing = [name for name in names if find_spec(name) is None]
    if missing:
        packages = " ".join(f"python3-{name}" for name in missing)
        raise Failure(DEVICE, f"{command}: no {', '.join(missing)} in {sys.executable}: "
                              f"install {packages} and use /usr/bin/python3")
    if "matplotlib" in names:  # it warns that it looks for fonts, once for each user, and of a home that takes no files
        logging.getLogger("matplotlib").setLevel(logging.ERROR)


def main_of(command: str, module: str, *names: str) -> Callable[[Sequence[str]], int]:
    """Returns the `main` of a command's module, which is imported once it is called and these modules are there: their
    import takes some time, in which a signal has to wait (`afdx.view.making`)."""
    def main(arguments: Sequence[str]) -> int:
        need(command, *names)
        with signals.held():
            found = import_module(module)
        status: int = found.main(arguments)
        return status
    return main
