"""Runs the command afdx-view."""
import argparse
from collections.abc import Sequence

from afdx import modules
from afdx.view.answers import ToCompare
from afdx.view.making import make
from afdx.view.request import Request

COMMAND = "afdx-view"
# the options of `afdx compare` that have a value and decide what it finds
VALUED = {
    "--least-latency": ("US", "the least latency of that switch in us"),
    "--tolerance": ("NS", "by how many ns stamps may be off"),
    "--stamps": ("end|free", "what stamps at its outputs are: end of the last bit, or line free"),
    "--offset": ("PORT=NS", "adds NS to the stamps at output PORT; more with commas between"),
    "--from": ("STAMP", "where the recordings begin in ns"),
    "--until": ("STAMP", "where they end in ns"),
    "--ports": ("PORT", "the outputs that were recorded, with commas between"),
}
REST = "--rest"


def add_comparison(parser: argparse.ArgumentParser) -> None:
    """Adds the options by which recordings of a switch are compared."""
    parser.add_argument("--recorded", metavar="FOLDER",
                        help="the folder of what was recorded at the outputs of a real switch, port-1.pcap and so on: "
                             "the page shows what afdx compare says of it")
    for name, (value, words) in VALUED.items():
        parser.add_argument(name, metavar=value, action="append", default=[], dest=name,
                            help=f"for compare: {words}")
    parser.add_argument(REST, action="store_true", dest=REST,
                        help="for compare: the recordings begin with the switch at rest")


def recordings_of(parser: argparse.ArgumentParser, options: argparse.Namespace) -> ToCompare | None:
    """Returns what is to be compared, if anything is."""
    given = vars(options)
    handed = [f"{name}={value}" for name in VALUED for value in given[name]] + ([REST] if given[REST] else [])
    if options.recorded is None and handed:
        parser.error(f"{handed[0].partition('=')[0]} is for compare, which is run for --recorded alone")
    if options.recorded is not None and options.unchecked:
        parser.error("recordings are compared by an accepted table alone: --recorded goes without --unchecked")
    if options.recorded is None:
        return None
    asked = ToCompare(options.recorded, handed)
    try:
        asked.offsets()
    except ValueError:  # with --answers no program refuses it
        parser.error("--offset has to be PORT=NS, more with commas between")
    return asked


def request_of(arguments: Sequence[str]) -> Request:
    parser = argparse.ArgumentParser(
        prog=COMMAND,
        description="Runs afdx over captures and makes one page of pictures of what became of the frames, at one "
                    "switch or in a network of several.",
        epilog="The page needs nothing else, no network either. With --recorded all differences are put beside it, "
               "into OUT-differences.csv; that there are some is no failure. Exit status 0: the page was made; 2: "
               "usage; 5: a file fails or the program can't be run; else that of the program, with its line.")
    parser.add_argument("table", metavar="TABLE", help="the configuration table, or the file of a network")
    parser.add_argument("folder", metavar="IN",
                        help="the folder of the captures, port-1.pcap and so on; of a network it has a folder with "
                             "these for each switch")
    parser.add_argument("out", metavar="OUT.html", help="the page to make; its folder must be there")
    parser.add_argument("--unchecked", action="store_true",
                        help="run a table that is not accepted too; no bound is promised then")
    parser.add_argument("--answers", metavar="FOLDER",
                        help="do not run the program: show what FOLDER has of an earlier run, in size.csv and "
                             "measure.csv what these commands printed, and the two files of trace; with --recorded "
                             "compare.csv and differences.csv of compare too")
    add_comparison(parser)
    options = parser.parse_args(arguments)
    if not options.out.endswith(".html"):
        parser.error("OUT.html has to end in .html")
    names = (options.table, options.folder, options.out, options.answers or "", options.recorded or "")
    if any(name.startswith("-") for name in names):
        parser.error("a name may not begin with a dash: write ./ before it")
    return Request(options.table, options.folder, options.out, options.unchecked, options.answers or "",
                   recordings_of(parser, options))


def main(arguments: Sequence[str]) -> int:
    request = request_of(arguments)
    modules.need(COMMAND, "jinja2", "matplotlib", "numpy", "pandas")
    make(COMMAND, request)
    return 0
