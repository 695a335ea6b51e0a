"""Names the columns of the three lists. A column's heading is its key, unless the mapping names another."""
from collections.abc import Sequence
from typing import Any, TypeAlias

from afdx.icd.cells import Column, Unit, link_number, one_of, parts, printable, switch, whole, word

HEADERS = 47  # bytes of a frame round a UDP payload: Ethernet 14, IP 20, UDP 8, sequence number 1, check sequence 4
SMALLEST, LARGEST = 64, 1518  # bytes of a frame

MS = frozenset({"ms", "msec", "msecs", "millisec", "millisecond", "milliseconds"})
US = frozenset({"us", "\N{GREEK SMALL LETTER MU}s", "usec", "usecs", "microsec", "microsecond", "microseconds"})
NS = frozenset({"ns", "nsec", "nsecs", "nanosec", "nanosecond", "nanoseconds"})
TIMES = MS | US | NS | {"sec", "secs", "second", "seconds", "hz", "khz", "mhz"}
IN_MS, IN_US, IN_NS = (Unit(f"in {name}", own, TIMES - own) for name, own in (("ms", MS), ("us", US), ("ns", NS)))
BYTES = Unit("in bytes", frozenset({"byte", "bytes"}), frozenset({
    "kb", "kib", "kbyte", "kbytes", "mb", "mib", "mbyte", "mbytes", "bit", "bits", "kbit", "frames", "packets"}))
DECIMAL = Unit("decimal", frozenset({"dec", "decimal"}), frozenset({"hex", "hexadecimal"}))
WHOLE = Unit("the whole frame", frozenset({"frame"}), frozenset({"payload", "payloads"}))
WITHIN = Unit("the UDP payload", frozenset({"payload", "payloads"}), frozenset({"frame", "lmax"}))

ID = Column("id", link_number, unit=DECIMAL)
NAME = Column("name", printable, "")
SOURCE = Column("from", printable)
TARGETS = Column("to", parts)
BAG = Column("bag_ms", one_of(1, 2, 4, 8, 16, 32, 64, 128), unit=IN_MS)
JITTER = Column("jitter_us", whole(0, 10_000), unit=IN_US)
SIZE = Column("max_size", whole(SMALLEST, LARGEST), "", unit=WHOLE)
PAYLOAD = Column("udp_payload", whole(0, LARGEST - HEADERS), "", unit=WITHIN)
PRIORITY = Column("priority", word("high", "low"), None, ("prio",))
POLICE = Column("police", word("byte", "frame"), "byte", ("polic",))
VIA = Column("via", parts, "", ("rout",))

END = Column("name", printable)
SWITCH = Column("switch", switch)
PORT = Column("port", whole(1, 24))
MBIT = Column("mbit", one_of(10, 100, 1000))
BUFFER = Column("buffer", whole(0, 16_777_216), "16777216", ("buf",), BYTES)
DELAY_LIMIT = Column("max_delay_us", whole(1, 500_000), "500000", ("maximum_delay",), IN_US)

SWITCH_A = Column("switch_a", switch)
PORT_A = Column("port_a", whole(1, 24))
SWITCH_B = Column("switch_b", switch)
PORT_B = Column("port_b", whole(1, 24))
WIRE_DELAY = Column("delay_ns", whole(0, 1_000_000), "0", unit=IN_NS)

Columns: TypeAlias = Sequence[Column[Any]]
LINKS: Columns = (ID, NAME, SOURCE, TARGETS, BAG, JITTER, SIZE, PAYLOAD, PRIORITY, POLICE, VIA)
ENDS: Columns = (END, SWITCH, PORT, MBIT, BUFFER, DELAY_LIMIT)
WIRES: Columns = (SWITCH_A, PORT_A, SWITCH_B, PORT_B, MBIT, WIRE_DELAY, BUFFER, DELAY_LIMIT)
