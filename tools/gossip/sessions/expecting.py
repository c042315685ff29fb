"""Estimates what peers play of a session, from its numbers and from the tables of measurements in docs/EXPERIMENTS.md.

The experiments vary one number at a time about a base. A peer gets some updates from the broadcaster itself. It gets a part of the others
by trades, which depends on three quantities:
  reach    the number of peers divided by the fan-out, from the tables of peers and of fan-out
  chances  the rounds in which exchanges may trade an update, at most one less than its life, and none for one of the last round
  load     the updates of a round that a peer has to trade for, divided by the cap, from the table of cap
The log odds by reach and by chances are added; no experiment varied both. The load limits how many items a peer gets in a round. Between
two measured values, logarithms are interpolated linearly. If datagrams are lost, the broadcaster, which sends each block twice, delivers
fewer updates, and the odds fall by the table of loss.
"""
import collections
import dataclasses
import functools
import math
import re
from collections.abc import Iterable, Iterator, Mapping

from gossip.formats.files import NUMBERS, Numbers
from gossip.programs.bar import ROOT
from gossip.scripts.console import Failure, Refusal, counted, listed
from gossip.sessions.choosing import DEFAULTS, has_last_round, pieces_of

TABLES = ROOT / "docs/EXPERIMENTS.md"
HEAD = re.compile(r"\| ([\w ,]+) \| played, mean \| least of a peer \| most of a peer \|.*")
ROW = re.compile(r"\| ([\d.]+) \| ([\d.]+)% \| ([\d.]+)% \| ([\d.]+)% \|.*")

# the numbers of the base on which the estimate depends; its stream ends one round before the last
BASE = {"peers": 20, "rounds": 20, "life": 6, "cap": 8, "per_round": 8, "fanout": 3}

# the columns of the tables
COLUMNS = "mean", "least", "most"

# the tables of loss before this version, and from it on
LOSSES, RESENT = ("loss, version 2", "loss"), 3

# the limits of a share, so that its odds are finite, and the largest difference of logarithms that counts as none
LEAST, MOST, TINY = 0.002, 0.998, 1e-9

# how sharply a share is limited: the higher this is, the nearer to its limit a share has to be to be lowered
SHARPNESS = 4

# the lives that may be chosen so that peers play more; nothing was measured beyond the last
LIVES = range(DEFAULTS["life"], 10)


@dataclasses.dataclass(frozen=True)
class Played:
    """The share of a stream that peers play: their mean, the least of a peer, and the most of a peer."""

    mean: float
    least: float
    most: float


@dataclasses.dataclass(frozen=True)
class Expected(Played):
    """An estimate of the same, with a note for each number that is beyond what was measured."""

    beyond: tuple[str, ...] = ()

    @property
    def told(self) -> str:
        """The estimate in words."""
        beyond = f"; {listed(self.beyond)} than was measured" if self.beyond else ""
        some = f"some {self.mean:.0%} of the stream, a single one {self.least:.0%} to {self.most:.0%}"
        return f"peers play {some if self.least < 1 else 'all of the stream'}{beyond}"


# what was played, by the number that was varied and its values
Tables = dict[str, dict[float, Played]]


def tables_in(text: str) -> Tables:
    """Returns the tables of a document on experiments: for each number, what was played with each of its values."""
    tables, table = {}, {}
    for line in text.splitlines():
        head, row = HEAD.fullmatch(line), ROW.fullmatch(line)
        if head:
            table = tables[head[1]] = {}
        elif row:
            table[float(row[1])] = Played(*(float(part) / 100 for part in row.groups()[1:]))
    return tables


# ---- odds


def odds_of(share: float) -> float:
    """Returns the logarithm of the odds of a share."""
    share = min(MOST, max(LEAST, share))
    return math.log(share / (1 - share))


def share_of(odds: float) -> float:
    return 1 / (1 + math.exp(-odds))


def between(points: Iterable[tuple[float, float]], place: float) -> float:
    """Returns the value at a place, interpolated linearly between points. Before the first and after the last it is the value of that
    point.
    """
    points = sorted(points)
    before = max((point for point in points if point[0] <= place), default=points[0])
    behind = min((point for point in points if point[0] >= place), default=points[-1])
    if before[0] >= behind[0]:
        return before[1]
    return before[1] + (behind[1] - before[1]) * (place - before[0]) / (behind[0] - before[0])


# ---- what was measured


def straight_of(numbers: Mapping[str, float], loss: float = 0) -> float:
    """Returns the share that a peer gets from the broadcaster, which sends each block twice, if `loss` percent of datagrams are lost."""
    return min(1, numbers["fanout"] / numbers["peers"]) * (1 - (loss / 100) ** 2)


def traded(played: float, straight: float) -> float:
    """Returns the share that a peer gets by trades of what it doesn't get from the broadcaster, if it plays this share of all."""
    return min(MOST, max(LEAST, (played - straight) / (1 - straight)))


def load_of(numbers: Mapping[str, float], per_round: float, loss: float = 0) -> float:
    """Returns how many of the updates of a round a peer has to trade for, divided by the cap."""
    return per_round * (1 - straight_of(numbers, loss)) / numbers["cap"]


def limited(share: float, limit: float) -> float:
    """Returns a share under a limit: the lesser of both, or a little less if they are near each other."""
    return (share**-SHARPNESS + limit**-SHARPNESS) ** (-1 / SHARPNESS)


def limit_by(limited_share: float, share: float) -> float:
    """Returns the limit under which `share` becomes `limited_share`."""
    return (limited_share**-SHARPNESS - share**-SHARPNESS) ** (-1 / SHARPNESS)


class Measured:
    """What the tables have in one of their columns: points by the logarithm of the reach, and by that of the load."""

    def __init__(self, tables: Tables, name: str) -> None:
        peers, fanout, straight = BASE["peers"], BASE["fanout"], straight_of(BASE)
        shares = {number: {value: getattr(played, name) for value, played in table.items()} for number, table in tables.items()}
        sides = [(value, fanout, share) for value, share in shares["peers"].items()]
        sides += [(peers, value, share) for value, share in shares["fanout"].items()]
        self.reach = [(math.log(every / some), odds_of(traded(share, some / every))) for every, some, share in sides]
        caps = {load_of(BASE | {"cap": cap}, BASE["per_round"]): traded(share, straight) for cap, share in shares["cap"].items()}
        most = max(caps.values())
        self.limits = [(math.log(load), math.log(limit_by(share, most))) for load, share in caps.items() if share < most]

    def limit(self, load: float) -> float:
        """Returns the largest share that a peer can trade for at this load. Beyond the measured loads the number of items is constant."""
        place, ends = math.log(load), (min(self.limits)[0], max(self.limits)[0])
        beyond = place - min(max(place, ends[0]), ends[1])
        return math.exp(between(self.limits, place) - beyond)

    def share(self, reach: float, load: float, more_odds: float) -> float:
        """Returns the share that a peer gets by trades."""
        return limited(share_of(between(self.reach, math.log(reach)) + more_odds), self.limit(load))


def odds_by_chances(table: dict[float, Played]) -> list[tuple[int, float]]:
    """Returns the log odds of an update by the number of rounds that may trade it, minus those of the base, by the table of life.

    The measured streams fill all rounds but the last, so the updates of the last rounds have fewer chances than a life gives.
    """
    points = [(life, odds_of(traded(played.mean, straight_of(BASE)))) for life, played in table.items()]
    streamed, shares = BASE["rounds"] - 1, {}
    for life in range(int(min(table)), int(max(table)) + 1):
        fewer = sum(shares[chances] for chances in range(1, life - 1))
        shares[life - 1] = (streamed * share_of(between(points, life)) - fewer) / (streamed - life + 2)
    return [(chances, odds_of(share) - between(points, BASE["life"])) for chances, share in shares.items()]


def odds_by_loss(table: dict[float, Played]) -> list[tuple[float, float]]:
    """Returns the log odds by the percentage of lost datagrams, minus those without loss. Losses never raise them."""
    odds = {loss: odds_of(traded(played.mean, straight_of(BASE, loss))) for loss, played in table.items()}
    return [(loss, min(0, its - odds[0])) for loss, its in odds.items()]


@dataclasses.dataclass(frozen=True)
class Experiments:
    """What the experiments measured: the columns by name, the odds by chances, and the odds by loss for each table of losses."""

    columns: dict[str, Measured]
    chances: list[tuple[int, float]]
    losses: dict[str, list[tuple[float, float]]]

    def odds_at(self, loss: float, version: int) -> float:
        """Returns the log odds with `loss` percent of lost datagrams in a session of this version, minus those without loss."""
        return between(self.losses[LOSSES[version >= RESENT]], loss)


@functools.cache
def measured() -> Experiments:
    """Returns what the experiments of this repository measured."""
    try:
        tables = tables_in(TABLES.read_text("utf-8"))
        columns, losses = {name: Measured(tables, name) for name in COLUMNS}, {name: odds_by_loss(tables[name]) for name in LOSSES}
        return Experiments(columns, odds_by_chances(tables["life"]), losses)
    except (OSError, KeyError, ValueError, ArithmeticError) as error:
        raise Failure(f"{TABLES} has no tables of experiments: {error}") from None


# ---- a session


def parts_of(pieces: int, numbers: Numbers) -> Iterator[tuple[float, int]]:
    """Yields the share of a stream that each round has, with the number of rounds in which it may be traded."""
    per_round = min(pieces, numbers["per_round"])
    for number in range(1, -(-pieces // per_round) + 1):
        yield min(per_round, pieces - per_round * (number - 1)) / pieces, min(numbers["life"] - 1, numbers["rounds"] - number)


def expected(numbers: Numbers, length: int, loss: float = 0) -> Expected:
    """Estimates what peers play of a stream of this length, if no party is late and `loss` percent of datagrams are lost."""
    pieces, straight = pieces_of(length), straight_of(numbers, loss)
    if straight >= 1 or not pieces:
        return Expected(1, 1, 1)
    found, parts = measured(), collections.Counter()
    load, odds = load_of(numbers, min(pieces, numbers["per_round"]), loss), found.odds_at(loss, numbers["version"]) if loss else 0
    for part, chances in parts_of(pieces, numbers):
        parts[chances] += part
    shares = {}
    for name, column in found.columns.items():
        by_chances = {chances: column.share(1 / straight, load, between(found.chances, chances) + odds) for chances in parts if chances}
        shares[name] = straight + (1 - straight) * sum(parts[chances] * share for chances, share in by_chances.items())
    return Expected(**shares, beyond=(*beyond(found, numbers, load, loss),))


def beyond(found: Experiments, numbers: Numbers, load: float, loss: float) -> Iterator[str]:
    """Yields, in words, in which respects a session is beyond what was measured."""
    column = found.columns["mean"]
    if math.log(numbers["peers"] / numbers["fanout"]) > max(column.reach)[0] + TINY:
        yield "more peers for this fan-out"
    if math.log(load) > max(column.limits)[0] + TINY:
        yield "more updates a round for this cap"
    if loss > max(found.losses[LOSSES[-1]])[0]:
        yield "more losses"


def lines_of(numbers: Numbers, length: int, loss: float = 0) -> Iterator[str]:
    """Yields lines on what to expect of a session of these numbers, and on the part of its stream that can't be traded, if any."""
    lost = f"{loss:g}% of datagrams are lost" if loss else "nothing is lost"
    try:
        yield f"expected: {expected(numbers, length, loss).told}, if no party is late and {lost}"
    except Failure as failure:
        yield f"what to expect isn't known: {failure}"
    if has_last_round(pieces_of(length), numbers) and numbers["fanout"] < numbers["peers"]:
        last = pieces_of(length) - numbers["per_round"] * (numbers["rounds"] - 1)
        yield f"{counted(last, 'update')} of the last round can't be traded: take more rounds, or --fanout {numbers['peers']}"


# ---- numbers with which peers play a given share


def chosen(given: Numbers, numbers: Numbers, length: int, plays: float, loss: float = 0) -> Numbers:
    """Returns numbers with which peers are expected to play `plays` percent of a stream. Only numbers that aren't given are changed.

    The fan-out is chosen first, as low as possible, as the broadcaster sends each update that many times; then the life and then the cap.
    The life and the cap aren't below their defaults, as they make up for losses.
    """

    def mean_by(tried: Numbers) -> float:
        return expected(tried, length, loss).mean

    ways = {"fanout": range(1, numbers["peers"] + 1), "life": LIVES, "cap": range(DEFAULTS["cap"], NUMBERS["cap"].most + 1)}
    free = {name: values for name, values in ways.items() if name not in given}
    best = numbers | {name: values[-1] for name, values in free.items()}
    most = mean_by(best)
    if 100 * most < plays:
        named = given | ({"loss": f"{loss:g}"} if loss else {})
        told = listed(f"--{name} {named[name]}" for name in (*ways, "loss") if name in named)
        raise Refusal(f"--plays {plays:g}: with {told} peers play some {most:.1%} at the most; leave it out, or take a lower number")
    for name, values in free.items():
        best |= {name: next(value for value in values if 100 * mean_by(best | {name: value}) >= plays)}
    return best
