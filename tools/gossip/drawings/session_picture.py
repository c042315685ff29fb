"""Draws a session as one picture: a column for each round, a row for each peer, and signs for exchanges and updates.

It is drawn from a run's data alone. A sign stands for one side of an exchange, and a mark for an update. An exchange that an audit found
unbalanced has a red frame. A legend is below. The picture has its own background and its own colours, so it needs no style of the page
around it.
"""
import collections
import dataclasses
import functools
import typing
from collections.abc import Callable, Iterable, Iterator, Sequence

from gossip.formats.files import SLOTS
from gossip.reports import endings
from gossip.reports.debts import Debt, debt_of
from gossip.reports.run_data import BLOCK_WAY, ExchangeName, PeerRow, ReleaseRow, Run, SideRow, UpdateRow
from gossip.scripts.console import counted

# a function that draws at a position; rows, and the keys that they are grouped by
Drawer = Callable[[float, float], str]
Row, Key = typing.TypeVar("Row"), typing.TypeVar("Key")

# ---- elements


def tag(name: str, *inside: str, **attributes: float | str) -> str:
    """Returns an element. An underscore in an attribute's name stands for a dash, and is dropped at the end of the name."""
    said = "".join(f' {key.rstrip("_").replace("_", "-")}="{value}"' for key, value in attributes.items())
    return f"<{name}{said}>{''.join(inside)}</{name}>"


def text(x: float, y: float, said: str, class_: str) -> str:
    return tag("text", said, x=f"{x:.1f}", y=f"{y:.1f}", class_=class_)


@dataclasses.dataclass(frozen=True)
class Box:
    """A rectangle."""

    x: float
    y: float
    width: float
    height: float

    def drawn(self, class_: str, told: str = "", corner: float = 0) -> str:
        """Returns the rectangle, with a tooltip if a text is given."""
        title = tag("title", told) if told else ""
        place = {"x": f"{self.x:.1f}", "y": f"{self.y:.1f}", "width": f"{self.width:.1f}", "height": self.height}
        return tag("rect", title, **place, rx=corner, class_=class_)


def line(x1: float, y1: float, x2: float, y2: float, class_: str = "rule") -> str:
    return tag("line", x1=f"{x1:.1f}", y1=y1, x2=f"{x2:.1f}", y2=y2, class_=class_)


def arrow(x: float, y: float, up: bool) -> str:
    """Returns a small triangle, with its middle at x and its upper edge at y."""
    points = (x - 4, y + 4.5, x + 4, y + 4.5, x, y) if up else (x - 4, y, x + 4, y, x, y + 4.5)
    return tag("path", d="M{:.1f} {:.1f}L{:.1f} {:.1f}L{:.1f} {:.1f}Z".format(*points), class_="key")


def items(updates: int, junk: int) -> str:
    """Returns in words how many updates and junk items are promised."""
    words = [counted(updates, "update") if updates else "", counted(junk, "junk item") if junk else ""]
    return " and ".join(word for word in words if word)


def told_of(side: SideRow, debt: Debt | None, is_unbalanced: bool, had_nothing: bool) -> str:
    """Returns in words what one side of an exchange came to, and its partner's debt, if there was one."""
    ways = {"balanced": ("is asked by", "asks"), "push": ("is offered by", "offers to")}
    way = ways[side.kind][side.asks]
    end = "nothing to trade" if had_nothing else "no answer" if side.asks and not side.answered else "nothing came of it"
    told = [f"{way} peer {side.partner}", f"promises {items(len(side.gives), side.gives_junk)}" if side.promised else end]
    if side.received:
        told.append(f"is promised {items(len(side.gets), side.gets_junk)}")
    keys = (side.key_given, "gave its key"), (side.key_got, "was given the key"), (side.wrong_key, "was given a wrong key")
    told += [f"{said} at tick {tick}" for tick, said in keys if tick is not None]
    told += [debt.told] if debt else []
    told += ["unbalanced by the audit"] if is_unbalanced else []
    return f"round {side.round}: " + ", ".join(told)


@dataclasses.dataclass(frozen=True)
class Sign:
    """The sign of one side of an exchange: its number, its classes, whether the peer paid and was paid, and its tooltip."""

    partner: int
    classes: Sequence[str]
    paid: bool = False
    was_paid: bool = False
    told: str = ""

    def drawn(self, x: float, y: float, seats: "Seats") -> str:
        """Returns the sign at a position, with an arrow above if the peer paid, and one below if it was paid."""
        middle = x + seats.sign / 2
        inside = [tag("title", self.told)] if self.told else []
        inside.append(Box(x + 0.5, y + 6.5, seats.sign - 1, 13).drawn("sign", corner=3.5))
        inside.append(text(middle, y + 16.5, str(self.partner), seats.class_))
        inside += [arrow(middle, y, True)] if self.paid else []
        inside += [arrow(middle, y + 21.5, False)] if self.was_paid else []
        return tag("g", *inside, class_=" ".join(self.classes))


def token(chart: "Chart", x: float, y: float, side: SideRow) -> str:
    """Returns the sign of one side of an exchange in the drawing."""
    is_unbalanced = side.exchange in chart.unbalanced
    classes = [side.kind, "asks" if side.asks else "asked", "traded" if side.promised else "idle"]
    classes += ["unbalanced"] if is_unbalanced else []
    told = told_of(side, debt_of(chart.run.session, side), is_unbalanced, side.exchange in chart.nothing)
    return Sign(side.partner, classes, side.key_given is not None, side.key_got is not None, told).drawn(x, y, chart.seats)


# ---- the drawing

WIDTH, LABELS, TOTALS = 1160, 84, 76
MOST_COLUMNS = 17
HEAD, CASTER, LANE = 26, 34, 86
STRIP = 55
# the margin between the drawing and the edge of its background, and the space between entries of the legend
EDGE, BETWEEN = 14, 22
# the most marks in a row
MOST_MARKS = 32


@dataclasses.dataclass(frozen=True)
class Seats:
    """The width of a sign, the positions of the signs in a column, and the class of a sign's number.

    The first position is for the exchange that a peer starts, the others are for the two in which it answers.
    """

    sign: float
    places: tuple[float, ...]
    class_: str


# by whether the numbers of partners may have three digits
SEATS = {False: Seats(16, (2.5, 21.5, 39.5), "partner"), True: Seats(18.5, (0, 20, 39.5), "partner long")}


@dataclasses.dataclass
class Chart:
    """A run, and the rounds of it that are drawn."""

    run: Run
    rounds: range

    @property
    def column(self) -> float:
        return (WIDTH - LABELS - TOTALS) / min(MOST_COLUMNS, self.run.session["ends"])

    @property
    def right(self) -> float:
        return LABELS + self.column * len(self.rounds)

    def columns(self) -> list[tuple[int, float]]:
        """Returns each round with the left edge of what is drawn in its column."""
        pad = (self.column - STRIP - 4) / 2
        return [(number, LABELS + self.column * at + pad) for at, number in enumerate(self.rounds)]

    @functools.cached_property
    def releases(self) -> dict[int, list[ReleaseRow]]:
        """The updates by round."""
        return by_key(self.run.releases, lambda row: row.round)

    @functools.cached_property
    def sides(self) -> dict[tuple[int, int], list[SideRow]]:
        """The sides of exchanges by peer and round."""
        return by_key(self.run.sides, lambda row: (row.peer, row.round))

    @functools.cached_property
    def arrivals(self) -> dict[tuple[int, int, int], UpdateRow]:
        """The updates that came in time, by peer, round and index."""
        return {(row.peer, row.round, row.index): row for row in self.run.updates if row.in_time}

    @functools.cached_property
    def accusing(self) -> set[tuple[int, int]]:
        """The peers that sent evidence to the broadcaster, with the rounds in which they did."""
        return {(row.peer, row.round) for row in self.run.rounds if row.accuses}

    @functools.cached_property
    def unbalanced(self) -> set[ExchangeName]:
        """The exchanges that an audit found unbalanced."""
        return {row.exchange for row in self.run.exchanges if row.audit == "unbalanced"}

    @functools.cached_property
    def nothing(self) -> set[ExchangeName]:
        """The exchanges that had nothing to trade."""
        return endings.with_nothing(self.run)

    @property
    def seats(self) -> Seats:
        return SEATS[self.run.session["peers"] > 99]

    def part(self, peer: PeerRow) -> str:
        """Returns the share of the stream that a peer played."""
        return f"{peer.bytes_played / self.run.stream:.1%}" if self.run.stream else "–"


def by_key(rows: Iterable[Row], key: Callable[[Row], Key]) -> dict[Key, list[Row]]:
    """Returns the rows grouped by a key."""
    found = collections.defaultdict(list)
    for row in rows:
        found[key(row)].append(row)
    return found


def marks(x: float, y: float, classes: list[tuple[str, str]]) -> list[str]:
    """Returns a row of marks, one for each update, with its class and tooltip. If there are many, they form rows of lower marks."""
    rows = -(-len(classes) // MOST_MARKS) or 1
    columns = max(8, -(-len(classes) // rows))
    step, (pitch, gap, corner) = STRIP / columns, (10, 1, 1) if rows == 1 else (3.6, 0.6, 0)
    top, size = y + 4.5 - (rows * pitch - gap) / 2, (max(step - gap, 0.8), pitch - gap)
    places = [(x + 2 + at % columns * step, top + at // columns * pitch) for at in range(len(classes))]
    boxes = [Box(*place, *size).drawn(class_, told, corner) for place, (class_, told) in zip(places, classes)]
    return boxes if rows == 1 else [tag("g", *boxes, stroke_width=0.4)]


def mark_of(chart: Chart, peer: PeerRow, release: ReleaseRow) -> tuple[str, str]:
    """Returns the class and the tooltip of the mark of an update, which a peer has played or not."""
    name, row = f"update {release.index + 1} of round {release.round}", chart.arrivals.get((peer.peer, release.round, release.index))
    if row is None or not row.played:
        return "missed", f"{name}: {'has nothing to play' if row else 'not played'}"
    if row.way == BLOCK_WAY:
        return "straight", f"{name}: played, came from the broadcaster at tick {row.tick}"
    return "traded", f"{name}: played, came by a trade with peer {row.sender} at tick {row.tick}"


def tokens(chart: Chart, peer: PeerRow, number: int, x: float, y: float) -> Iterator[str]:
    """Yields the signs of a round's exchanges: a line for the balanced ones, and one for the pushes."""
    for line_, kind in enumerate(("balanced", "push")):
        sides = [side for side in chart.sides.get((peer.peer, number), []) if side.kind == kind]
        own, others = [side for side in sides if side.asks], [side for side in sides if not side.asks]
        places = [*zip(chart.seats.places, own[:1]), *zip(chart.seats.places[1:], others)]
        yield from (token(chart, x + place, y + 6 + 29 * line_, side) for place, side in places)


def alarm(x: float, y: float, told: str = "") -> str:
    """Returns the sign of evidence that is sent to the broadcaster."""
    title = [tag("title", told)] if told else []
    return tag("g", *title, tag("circle", cx=f"{x:.1f}", cy=y, r=6), text(x, y + 3.5, "!", "partner"), class_="alarm")


def cell(chart: Chart, peer: PeerRow, number: int, x: float, y: float) -> list[str]:
    """Returns what is drawn for one peer's round."""
    parts = list(tokens(chart, peer, number, x, y))
    if peer.ticks > SLOTS * (number - 1):
        due = chart.releases.get(number - chart.run.session["life"], [])
        parts += marks(x, y + 69, [mark_of(chart, peer, release) for release in due])
    if (peer.peer, number) in chart.accusing:
        parts.append(alarm(x + STRIP + 3, y + 60, f"round {number}: sends evidence to the broadcaster"))
    return parts


def stopped(chart: Chart, peer: PeerRow, y: float) -> list[str]:
    """Returns a veil over the rounds that a peer didn't run through, if there are any."""
    start = max(LABELS, LABELS + chart.column * (peer.ticks / SLOTS - chart.rounds[0] + 1))
    if start > chart.right - 0.1:
        return []
    told = f"stopped after tick {peer.ticks}"
    veil = Box(start, y + 1, chart.right - start, LANE - 1).drawn("gone", told)
    return [veil, text((start + chart.right) / 2, y + 47, told, "label middle")] if chart.right - start > 110 else [veil]


def lane(chart: Chart, peer: PeerRow, y: float) -> list[str]:
    """Returns one peer's row."""
    lines = ((22, "asks", "label blue"), (51, "offers", "label amber"), (77, "plays", "label"))
    labels = [text(10, y + 30, "peer", "label left"), *(text(LABELS - 10, y + at, said, class_) for at, said, class_ in lines)]
    totals = [text(WIDTH - 4, y + 40, chart.part(peer), "total"), text(WIDTH - 4, y + 56, "played", "label")]
    cells = [part for number, x in chart.columns() for part in cell(chart, peer, number, x, y)]
    return [*stopped(chart, peer, y), line(0, y, WIDTH, y), text(10, y + 48, str(peer.peer), "name"), *labels, *cells, *totals]


def caster_lane(chart: Chart, y: float) -> list[str]:
    """Returns the broadcaster's row: how many peers took each update from it."""
    parts = [line(0, y, WIDTH, y), text(10, y + 21, "broadcaster", "label left")]
    for number, x in chart.columns():
        heard = [release.straight for release in chart.releases.get(number, [])]
        told = [(it, f"update {at} of round {number}: {counted(it, 'peer')} took it from here") for at, it in enumerate(heard, 1)]
        parts += marks(x, y + 13, [("straight" if it else "missed", said) for it, said in told])
    return parts


@dataclasses.dataclass(frozen=True)
class Entry:
    """An entry of the legend: the width of what is drawn, a function that draws it, and the text."""

    width: float
    drawn: Drawer
    told: str


def sign_entry(told: str, *classes: str, paid: bool = False, was_paid: bool = False) -> Entry:
    """Returns the entry of the legend for a sign."""
    return Entry(16, lambda x, y: Sign(3, classes, paid, was_paid).drawn(x, y, SEATS[False]), told)


def mark_entry(told: str, class_: str) -> Entry:
    """Returns the entry of the legend for a mark."""
    return Entry(6, lambda x, y: Box(x, y + 8.5, 6, 9).drawn(class_, corner=1), told)


def legend_entries(chart: Chart) -> Iterator[Entry]:
    """Yields the entries of the legend."""
    yield sign_entry("asks peer 3 for a balanced exchange", "balanced", "asks")
    yield sign_entry("is asked by peer 3", "balanced", "asked")
    yield sign_entry("offers updates to peer 3", "push", "asks")
    yield sign_entry("is offered some by peer 3", "push", "asked")
    yield sign_entry("came to nothing", "balanced", "asks", "idle")
    yield sign_entry("paid: gave its key", "balanced", "asks", paid=True)
    yield sign_entry("was paid: was given the key", "balanced", "asks", was_paid=True)
    if chart.unbalanced:
        yield sign_entry("unbalanced by the audit", "balanced", "asks", "unbalanced")
    if chart.accusing:
        yield Entry(12, lambda x, y: alarm(x + 6, y + 13), "sends evidence to the broadcaster")
    yield mark_entry("played, came from the broadcaster", "straight")
    yield mark_entry("played, came by a trade", "traded")
    yield mark_entry("not played", "missed")


def legend(chart: Chart, y: float) -> tuple[list[str], float]:
    """Returns the legend from this height on, in as many lines as it needs, and the height at which it ends."""
    parts, x = [], 10
    for entry in legend_entries(chart):
        # an estimate: the text is about as wide as in an upright sans-serif font, or a little narrower
        whole = entry.width + 7 + 5.7 * len(entry.told)
        if x + whole > WIDTH:
            x, y = 10, y + 32
        parts += [entry.drawn(x, y), text(x + entry.width + 7, y + 17, entry.told, "label left")]
        x += whole + BETWEEN
    return parts, y + 26


def panel(chart: Chart) -> str:
    """Returns the drawing of a chart's rounds side by side on a background, with the legend below."""
    peers = [peer for peer in chart.run.peers if not peer.refused]
    height = HEAD + CASTER + LANE * len(peers)
    edges = [LABELS + chart.column * at for at in range(len(chart.rounds) + 1)]
    last = chart.run.session["rounds"]
    numbers = [text(x + 2 + STRIP / 2, 17, str(it), "round" if it <= last else "round late") for it, x in chart.columns()]
    parts = [*(line(x, HEAD, x, height, "faint") for x in edges), text(10, 17, "round", "label left"), *numbers]
    parts += caster_lane(chart, HEAD)
    for at, peer in enumerate(peers):
        parts += lane(chart, peer, HEAD + CASTER + LANE * at)
    parts.append(line(0, height - 0.5, WIDTH, height - 0.5))
    signs, end = legend(chart, height + 12)
    whole = -EDGE, -EDGE, WIDTH + 2 * EDGE, end + 2 * EDGE
    told = f"what each peer did in rounds {chart.rounds[0]} to {chart.rounds[-1]}"
    ground = Box(*whole).drawn("ground", corner=6)
    return tag("svg", ground, *parts, *signs, viewBox=" ".join(map(str, whole)), role="img", aria_label=told)


# ---- the file

FONT = 'Inter, system-ui, -apple-system, "Segoe UI", "Helvetica Neue", Arial, sans-serif'

# the colours of a drawing: `style` inserts them, so that a viewer needs no variables
COLOURS = {"INK": "#1d2733", "SOFT": "#5a6673", "RULE": "#d3dae1", "FAINT": "#edf0f3", "GREY": "#8593a1", "BLUE": "#2b67a8"}
COLOURS |= {"AMBER": "#a85f08", "GREEN": "#1f7f5a", "ALARM": "#b23434", "FONT": FONT}

DRAWING_STYLE = """
.ground { fill: #fff; stroke: RULE } text { font: 11px FONT; fill: INK }
.rule { stroke: RULE } .faint { stroke: FAINT }
.label { fill: SOFT; text-anchor: end } .left { text-anchor: start } .middle { text-anchor: middle }
.blue { fill: BLUE } .amber { fill: AMBER }
.round { text-anchor: middle; font-weight: 600 } .late { fill: SOFT; font-weight: 400 }
.name { font-size: 19px; font-weight: 600 } .total { font-size: 15px; font-weight: 600; text-anchor: end }
.partner { text-anchor: middle; font-size: 10.5px; font-weight: 600 } .long { font-size: 9px } .alarm { fill: ALARM } .key { fill: INK }
.sign { stroke-width: 1.2 } .balanced .sign { stroke: BLUE } .push .sign { stroke: AMBER }
.balanced.asks .sign { fill: BLUE } .push.asks .sign { fill: AMBER } .asked .sign { fill: #fff }
.asks .partner, .alarm .partner { fill: #fff } .balanced.asked .partner { fill: BLUE } .push.asked .partner { fill: AMBER }
.idle { opacity: .32 } .unbalanced .sign { stroke: ALARM; stroke-width: 3 } .unbalanced { opacity: 1 }
.straight { fill: GREY } rect.traded { fill: GREEN } .missed { fill: #fff; stroke: RULE }
.gone { fill: #f2f4f6; opacity: .85 }
"""


def style() -> str:
    """Returns the style of a drawing, with its colours."""
    return functools.reduce(lambda told, name: told.replace(name, COLOURS[name]), COLOURS, DRAWING_STYLE)


def picture(run: Run) -> str:
    """Returns the drawing of a run's first rounds, as an SVG file."""
    drawn = panel(Chart(run, range(1, min(MOST_COLUMNS, run.session["ends"]) + 1)))
    return drawn.replace("<svg", '<svg xmlns="http://www.w3.org/2000/svg"', 1).replace(">", f">{tag('style', style())}", 1) + "\n"
