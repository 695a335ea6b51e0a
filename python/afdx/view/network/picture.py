"""Places the switches of a network and their wires on a drawing."""
from collections import Counter
from dataclasses import dataclass, field

from afdx.pages.words import count, percent
from afdx.view.network.layout import Layout, Wire
from afdx.view.network.run import Load, NetworkRun

LETTER, LINE, HEAD, MARGIN = 7.4, 17, 27, 12  # pixels: width of a letter, height of a line, of a name, room around
GAP, BETWEEN = 90, 26  # between columns, and between boxes of a column
APART = 9  # between wires of the same two switches
BEND, STEP, MOST = 34, 9, 90  # by how much a wire within a column stands out: at least, for each box between, at most
WIDTHS = (1.5, 7.0)  # of a wire that nothing is asked of, and of a full one


@dataclass(frozen=True)
class Box:
    """A switch: its place from the left and the top, and what is written of its ports."""
    switch: str
    lines: list[str]
    x: float
    y: float
    width: float
    down: bool = False

    @property
    def name(self) -> str:
        return name_of(self.switch, self.down)

    @property
    def height(self) -> float:
        return HEAD + LINE * len(self.lines) + 6

    @property
    def middle(self) -> tuple[float, float]:
        return self.x + self.width / 2, self.y + self.height / 2


@dataclass(frozen=True)
class Line:
    """A wire, as a path of SVG."""
    said: str
    path: str
    width: float
    over: bool  # more is asked of it than there is
    down: bool


@dataclass
class Drawing:
    boxes: list[Box] = field(default_factory=list)
    lines: list[Line] = field(default_factory=list)
    width: float = 0
    height: float = 0


def neighbours_of(layout: Layout) -> dict[str, list[str]]:
    """Returns the switches to which wires lead from each or come from, in the order of the network file."""
    found: dict[str, set[str]] = {switch: set() for switch in layout.tables}
    for wire in layout.wires:
        found[wire.start.switch].add(wire.end.switch)
        found[wire.end.switch].add(wire.start.switch)
    return {switch: [other for other in layout.tables if other in own and other != switch]
            for switch, own in found.items()}


def columns_from(start: str, neighbours: dict[str, list[str]]) -> list[list[str]]:
    """Returns the switches by how many wires they are away from one."""
    columns, seen = [[start]], {start}
    while True:
        further = list(dict.fromkeys(other for switch in columns[-1] for other in neighbours[switch]
                                     if other not in seen))
        if not further:
            return columns
        columns.append(further)
        seen.update(further)


def columns_of(layout: Layout) -> list[list[str]]:
    """Returns the switches in columns: from one that is as far as can be from another, by how many wires they are away.
    Parts of a network without a wire between them lie below one another."""
    neighbours, columns, seen = neighbours_of(layout), list[list[str]](), set[str]()
    for switch in layout.tables:
        if switch not in seen:
            part = [other for column in columns_from(switch, neighbours) for other in column]
            seen.update(part)
            first = [other for other in layout.tables if other in part]
            longest = max((columns_from(other, neighbours) for other in first), key=len)
            columns += [[] for _ in range(len(longest) - len(columns))]
            for column, own in zip(columns, longest):
                column += own
    return columns


def name_of(switch: str, down: bool) -> str:
    return f"{switch}, down" if down else switch


def load_of(wire: Wire, share: float) -> str:
    """Writes how much of a wire is taken, or that it is down."""
    return "down" if wire.down else percent(share)


def lines_of(loads: list[Load]) -> list[str]:
    """Writes the load of each wired port of a switch, and the greatest of those that lead to end systems."""
    wired = [f"port {load.port.number} → {load.wire.end}: {load_of(load.wire, load.share)}"
             for load in loads if load.wire]
    others = [load.share for load in loads if not load.wire]
    greatest = [f"{count(len(others), 'port')} to end systems: {percent(max(others))}"] if others else []
    return wired + greatest


def box_lines(run: NetworkRun) -> dict[str, list[str]]:
    return {switch: lines_of([load for load in run.loads if load.port.switch == switch]) for switch in run.runs}


def placed(columns: list[list[str]], said: dict[str, list[str]], down: frozenset[str]) -> Drawing:
    """Places the boxes, each column in the middle of the height."""
    longest = max(len(text) for switch, lines in said.items() for text in (name_of(switch, switch in down), *lines))
    width, drawing = longest * LETTER + 2 * MARGIN, Drawing()
    heights = {switch: Box(switch, lines, 0, 0, width).height for switch, lines in said.items()}
    tall = [sum(heights[switch] for switch in column) + BETWEEN * (len(column) - 1) for column in columns]
    for place, column in enumerate(columns):
        x, y = MARGIN + place * (width + GAP), MARGIN + (max(tall) - tall[place]) / 2
        for switch in column:
            drawing.boxes.append(Box(switch, said[switch], x, y, width, switch in down))
            y += heights[switch] + BETWEEN
    drawing.width = 2 * MARGIN + len(columns) * (width + GAP) - GAP
    drawing.height = 2 * MARGIN + max(tall)
    return drawing


def border(box: Box, x: float, y: float, toward: tuple[float, float]) -> tuple[float, float]:
    """Returns where a line from within a box leaves it, which goes on in this direction."""
    turns = [((box.x + box.width if way > 0 else box.x) - x) / way for way in toward[:1] if way]
    turns += [((box.y + box.height if way > 0 else box.y) - y) / way for way in toward[1:] if way]
    part = min(turns)
    return x + part * toward[0], y + part * toward[1]


def straight(start: Box, end: Box, aside: float) -> str:
    """Draws a line from box to box, so far aside of their middles."""
    (x, y), (to_x, to_y) = start.middle, end.middle
    over, down = to_x - x, to_y - y
    length = (over**2 + down**2)**0.5
    move_x, move_y = -down / length * aside, over / length * aside
    begin = border(start, x + move_x, y + move_y, (over, down))
    stop = border(end, to_x + move_x, to_y + move_y, (-over, -down))
    return f"M{begin[0]:.1f} {begin[1]:.1f}L{stop[0]:.1f} {stop[1]:.1f}"


def bent(start: Box, end: Box, aside: float, bow: float) -> str:
    """Draws a bow at the right of a column, which stands out so far; at a box those upward are above those downward."""
    turn = aside if start.y <= end.y else -aside
    way = HEAD / 3 if start.y < end.y else -HEAD / 3
    x, y, to_y = start.x + start.width, start.middle[1] + turn + way, end.middle[1] + turn - way
    return f"M{x:.1f} {y:.1f}Q{x + 2 * (bow + turn / 2):.1f} {(y + to_y) / 2:.1f} {x:.1f} {to_y:.1f}"


def bow_of(drawing: Drawing, start: Box, end: Box) -> float:
    """Returns by how much a wire stands out, so that it does not lie on those of boxes between."""
    between = sum(box.x == start.x and min(start.y, end.y) < box.y < max(start.y, end.y) for box in drawing.boxes)
    return min(BEND + STEP * between, MOST)


def path_of(drawing: Drawing, start: Box, end: Box, aside: float) -> str:
    if start.x != end.x:
        return straight(start, end, aside)
    bow = bow_of(drawing, start, end)
    drawing.width = max(drawing.width, start.x + start.width + bow + aside + MARGIN)
    return bent(start, end, aside, bow)


def wired(run: NetworkRun, drawing: Drawing) -> Drawing:
    """Draws the wires, each as broad as much of it is taken; one that is down as if nothing were."""
    boxes, loads = {box.switch: box for box in drawing.boxes}, {load.port: load for load in run.loads}
    before: Counter[tuple[str, str]] = Counter()
    least, most = WIDTHS
    for wire in run.asked.layout.wires:
        pair = wire.start.switch, wire.end.switch
        # each on its own right, so that the two directions of a cable are apart
        path = path_of(drawing, boxes[pair[0]], boxes[pair[1]], APART * (before[pair] + 0.5))
        before[pair] += 1
        load = loads.get(wire.start)
        share = load.share if load else 0.0
        broad = least if wire.down else least + (most - least) * min(share, 1)
        drawing.lines.append(Line(f"{wire.start} to {wire.end}: {load_of(wire, share)}", path, broad, share > 1,
                                  wire.down))
    return drawing


def drawings(run: NetworkRun) -> list[Drawing]:
    """Draws the network for wide and for narrow places, by columns and all in one, if it has a switch."""
    columns, said = columns_of(run.asked.layout), box_lines(run)
    down = run.asked.layout.down
    return [wired(run, placed(form, said, down))
            for form in (columns, [[switch for own in columns for switch in own]]) if columns]
