"""Pairs the two networks' copies of each frame, link by link."""
from collections import deque
from dataclasses import dataclass, field

LINK, NETWORK = 4, 11  # places in a frame: two bytes of the link's number, one of the network
ADDRESSES = 12  # bytes of both addresses


@dataclass
class Copy:
    """Is a frame that a network delivered."""
    stamp: int
    network: int  # 0 or 1
    link: int
    frame: bytes  # without the byte that names the network
    is_paired: bool | None = None  # not known yet


@dataclass
class Side:
    """Is what one network delivered of a link, in order, and what the other one did not."""
    undecided: deque[Copy] = field(default_factory=deque)
    alone: int = 0
    longest: int = 0
    run: int = 0

    def settle(self) -> None:
        """Counts the copies of which it is known whether they have a pair, up to an undecided one."""
        while self.undecided and self.undecided[0].is_paired is not None:
            if self.undecided.popleft().is_paired:
                self.run = 0
                continue
            self.alone += 1
            self.run += 1
            self.longest = max(self.longest, self.run)


@dataclass
class Link:
    """Is what both networks delivered of a link at a port; differences are the second less the first, in ns."""
    pairs: int = 0
    least: int = 0
    greatest: int = 0
    sides: tuple[Side, Side] = field(default_factory=lambda: (Side(), Side()))

    def add_pair(self, difference: int) -> None:
        self.least = min(self.least, difference) if self.pairs else difference
        self.greatest = max(self.greatest, difference) if self.pairs else difference
        self.pairs += 1


@dataclass(frozen=True)
class Odd:
    """Is a frame that one network alone delivered, or that both did too far apart."""
    stamp: int  # of the first network's copy, if it has one
    link: int
    network: int | None  # the one that delivered it; None if both did
    difference: int = 0  # ns


def copy_of(stamp: int, network: int, frame: bytes) -> Copy | None:
    """Returns the copy that a frame is; None if it has no addresses."""
    if len(frame) < ADDRESSES:
        return None
    return Copy(stamp, network, int.from_bytes(frame[LINK:LINK + 2], "big"), frame[:NETWORK] + frame[NETWORK + 1:])


class Pairing:
    """Pairs copies as they come. A copy waits for the other network's for so long."""

    def __init__(self, most_ns: int, most_apart: int | None = None) -> None:
        self.most_ns = most_ns
        self.most_apart = most_apart  # ns from which on pairs are odd; if it is None nothing is noted
        self.odd: list[Odd] = []
        self.links: dict[int, Link] = {}
        self.waiting: dict[tuple[int, bytes], deque[Copy]] = {}  # by the network and the frame
        self.by_age: deque[Copy] = deque()

    def add(self, copy: Copy) -> None:
        """Takes the next copy of either network; stamps do not fall."""
        self.give_up_before(copy.stamp - self.most_ns)
        link = self.links.setdefault(copy.link, Link())
        link.sides[copy.network].undecided.append(copy)
        if other := self.oldest_waiting(1 - copy.network, copy.frame):
            other.is_paired = copy.is_paired = True
            first, second = (other, copy) if copy.network else (copy, other)
            self.pair(link, first, second)
        else:
            self.waiting.setdefault((copy.network, copy.frame), deque()).append(copy)
            self.by_age.append(copy)
        for side in link.sides:
            side.settle()

    def pair(self, link: Link, first: Copy, second: Copy) -> None:
        """Counts a pair, and notes it if its copies lie too far apart."""
        difference = second.stamp - first.stamp
        link.add_pair(difference)
        if self.most_apart is not None and abs(difference) > self.most_apart:
            self.odd.append(Odd(first.stamp, first.link, None, difference))

    def oldest_waiting(self, network: int, frame: bytes) -> Copy | None:
        """Takes the oldest copy of a frame that waits, if there is one."""
        waiting = self.waiting.get((network, frame))
        if waiting is None:
            return None
        copy = waiting.popleft()
        if not waiting:
            del self.waiting[network, frame]
        return copy

    def give_up_before(self, stamp: int | None) -> None:
        """Decides of copies older than this, or of all, that they are alone."""
        while self.by_age and (stamp is None or self.by_age[0].stamp < stamp):
            copy = self.by_age.popleft()
            if copy.is_paired is None:
                copy.is_paired = False
                if self.most_apart is not None:
                    self.odd.append(Odd(copy.stamp, copy.link, copy.network))
                self.oldest_waiting(copy.network, copy.frame)
                self.links[copy.link].sides[copy.network].settle()
