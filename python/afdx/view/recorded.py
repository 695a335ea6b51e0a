"""Puts what was recorded at a switch beside what the model says of the same frames."""
from dataclasses import dataclass

from afdx import printed
from afdx.view.answers import Compared
from afdx.view.arrivals import Clock
from afdx.view.bounded import Bounded
from afdx.view.differences import KINDS, Differences, Times
from afdx.view.differences import read as read_differences
from afdx.view.pairs import Pair

VERDICTS = {"conforms": True, "differs": False}  # of `afdx compare`
AT_LINKS = KINDS[:-1]  # kinds of differences that are of a link


class Judged:
    """Is what has differences, or none."""
    differences: dict[str, int]  # by kind

    @property
    def verdict(self) -> str:
        """Returns the word that `afdx compare` has for it."""
        conforms = not any(self.differences.values())
        return next(word for word, means in VERDICTS.items() if means == conforms)


@dataclass(frozen=True)
class Recorded(Bounded, Judged):
    """A link at an output port that was recorded, beside the same of the model. Times are in ns."""
    model: Pair
    passed: int
    seen: int
    differences: dict[str, int]  # by kind
    before: int  # records that may be of frames before the span
    after: int  # passed frames that may leave after it
    unsure: int  # frames that the account may have passed or policed
    least: int | None  # None where no frame was paired with a record
    greatest: int | None
    bound: int

    @property
    def paired(self) -> int:
        return self.seen - self.differences["extra"] - self.before

    @property
    def between(self) -> tuple[int, int] | None:
        """Returns the least and the greatest delay."""
        return None if self.least is None or self.greatest is None else (self.least, self.greatest)


@dataclass(frozen=True)
class RecordedPort(Judged):
    """What was recorded at an output port, of all links and of none."""
    port: int
    seen: int
    differences: dict[str, int]  # by kind
    before: int
    after: int


@dataclass(frozen=True)
class Recordings:
    """What the recordings of a switch say. Stamps are ns after 1970."""
    begin: int  # of the span in which they count
    end: int
    conforms: bool
    links: list[Recorded]
    ports: list[RecordedPort]
    differences: Differences

    @property
    def paired(self) -> int:
        """Returns how many frames were paired with a record at a port."""
        return sum(link.paired for link in self.links)

    @property
    def kind(self) -> str:
        """Returns which colour the verdict has; recordings that have no pair conform and say nothing."""
        return "bad" if not self.conforms else "good" if self.paired else "empty"

    @property
    def unsure(self) -> int:
        """Returns for how many frames an account may have decided either way; a link counts once."""
        return sum({link.model.link: link.unsure for link in self.links}.values())

    @property
    def nearest(self) -> Recorded | None:
        """Returns the link that came nearest to its bound, at the port where it did; None if nothing was paired."""
        paired = [link for link in self.links if link.share is not None]
        return max(paired, key=lambda link: link.share or 0) if paired else None

    def totals(self) -> dict[str, int]:
        """Returns how many differences of each kind there are, where there are some."""
        sums = {kind: sum(port.differences[kind] for port in self.ports) for kind in KINDS}
        return {kind: many for kind, many in sums.items() if many}


def links_of(said: str, pairs: list[Pair]) -> list[Recorded]:
    """Returns what `afdx compare` says of links. KeyError is raised if one is of no pair."""
    models = {(pair.link, pair.port): pair for pair in pairs}
    links = []
    for row in printed.rows_of(said, "link"):
        counts = {word: int(row[word]) for word in (*AT_LINKS, "passed", "seen", "before", "after", "unsure", "bound")}
        links.append(Recorded(
            models[int(row["link"]), int(row["port"])], counts["passed"], counts["seen"],
            {kind: counts[kind] for kind in AT_LINKS}, counts["before"], counts["after"], counts["unsure"],
            printed.number(row["least"]), printed.number(row["greatest"]), counts["bound"]))
    return links


def ports_of(said: str, links: list[Recorded]) -> list[RecordedPort]:
    """Returns what `afdx compare` says of ports, with the sums of the port's links."""
    ports = []
    for row in printed.rows_of(said, "out"):
        own = [link for link in links if link.model.port == int(row["port"])]
        sums = {kind: sum(link.differences[kind] for link in own) for kind in AT_LINKS}
        ports.append(RecordedPort(int(row["port"]), int(row["seen"]), {**sums, "foreign": int(row["foreign"])},
                                  sum(link.before for link in own), sum(link.after for link in own)))
    return ports


def read(compared: Compared, pairs: list[Pair], shown: list[Pair], clock: Clock, parts: int) -> Recordings:
    """Reads what was found of recordings; `shown` are the pairs that have a picture of so many parts. KeyError or
    ValueError is raised if it is not of these pairs, or its numbers are not those of its file."""
    links = links_of(compared.said, pairs)
    ports = ports_of(compared.said, links)
    (span,), (verdict,) = (printed.rows_of(compared.said, kind) for kind in ("span", "verdict"))
    begin, end = int(span["from"]), int(span["until"])
    times = Times(begin, end, begin if clock.first is None else clock.first, clock.span, parts)
    differences = Differences([port.port for port in ports], shown, compared.recordings.offsets(), times)
    read_differences(compared.rows, differences)
    found = {(port.port, kind): many for port in ports for kind, many in port.differences.items() if many}
    conforms = VERDICTS[verdict["verdict"]]
    if found != differences.many or conforms == bool(found):
        raise ValueError("other differences than compare counts")
    return Recordings(begin, end, conforms, links, ports, differences)
