"""Experiments: simulated sessions in which one number at a time takes several values, and what honest peers played in each.

A case is a session that is made, simulated and removed. The last peers are liars, which lie in their keys. Withholders keep all rules but
give no key; they are drawn from the other peers.
"""
import dataclasses
import itertools
import pathlib
import random
import statistics
import tempfile
from collections.abc import Collection, Container, Iterable, Iterator, Mapping

from gossip.formats.files import NUMBERS, Numbers, Session, finding_of, room_of
from gossip.networks import disturbances
from gossip.networks.disturbances import Network
from gossip.runs import simulation
from gossip.scripts.console import Failure
from gossip.sessions import making
from gossip.sessions.session_folder import Folder

# the base, of which one number at a time is varied; its signatures are the fastest to make and verify for this many rounds
BASE = {"version": 3, "peers": 20, "rounds": 20, "life": 6, "cap": 8, "per_round": 8, "fanout": 3, "lms": 6, "ots": 2, "tick_ms": 50}
BASE |= {"loss": 0, "liars": 0, "withholders": 0, "forger": 0}

# the numbers that are varied, in the order in which they are drawn, each with its title and its values
AXES = {
    "peers": ("peers: how many peers a session has", (5, 10, 20, 40)),
    "fanout": ("fan-out: how many peers the broadcaster sends an update to", (1, 2, 3, 5, 8)),
    "cap": ("cap: how many items an exchange trades at most", (1, 2, 4, 8, 16)),
    "life": ("life: how many rounds an update lives", (2, 3, 4, 6, 9)),
    "loss": ("loss: how many of a hundred datagrams are lost", (0, 5, 10, 25, 35, 50)),
    "liars": ("liars: how many of a hundred peers lie in their keys", (0, 10, 20, 35, 50)),
    "withholders": ("withholders: how many of a hundred peers give no key", (0, 5, 10, 25, 50)),
}

# the earlier version that is drawn beside the base's, for numbers on which the difference in the rules has an effect
BESIDE = {"loss": 2, "withholders": 2}

# the numbers that aren't in the session's text
OTHERS = ("loss", "liars", "withholders", "forger")

# the lies of liars and of withholders
LIES = {"liars": "key", "withholders": "keys"}


@dataclasses.dataclass(frozen=True)
class Case:
    """A session to be simulated: its numbers by name, in order, and the seed of all random choices."""

    numbers: tuple[tuple[str, float], ...]
    seed: int

    @classmethod
    def of(cls, numbers: Numbers, seed: int) -> "Case":
        return cls(tuple(numbers.items()), seed)

    @property
    def by_name(self) -> dict[str, int]:
        return dict(self.numbers)

    @property
    def lies(self) -> dict[int, str]:
        """The peers that lie, each with its lie: the last ones are liars, and withholders are drawn from the others."""
        peers = self.by_name["peers"]
        liars, withholders = (round(peers * self.by_name[name] / 100) for name in LIES)
        drawn = random.Random(f"withholders {self.seed}").sample(range(1, peers - liars + 1), withholders)
        return dict.fromkeys(range(peers - liars + 1, peers + 1), LIES["liars"]) | dict.fromkeys(drawn, LIES["withholders"])

    def peers_of(self, name: str) -> set[int]:
        """Returns the liars or the withholders."""
        return {party for party, lie in self.lies.items() if lie == LIES[name]}

    @property
    def session_numbers(self) -> dict[str, int]:
        """The numbers of the session's text. The fan-out is at most the number of peers, and the port is one that nothing uses."""
        numbers = making.DEFAULTS | {name: value for name, value in self.numbers if name not in OTHERS}
        return numbers | {"fanout": min(numbers["fanout"], numbers["peers"]), "port": 20_000}

    @property
    def network(self) -> Network:
        return disturbances.Network(loss=self.by_name["loss"], seed=str(self.seed), liars=self.lies, forges=bool(self.by_name["forger"]))


@dataclasses.dataclass(frozen=True)
class Result:
    """The result of a case: the share of the stream that each peer played, how many liars were evicted, and what was sent."""

    case: Case
    played: tuple[float, ...]
    evicted: int
    sent: int

    def shares_of(self, parties: Container[int]) -> tuple[float, ...]:
        """Returns what these peers played."""
        return tuple(share for party, share in enumerate(self.played, 1) if party in parties)

    @property
    def shares(self) -> tuple[float, ...]:
        """What honest peers played."""
        return self.shares_of({*range(1, len(self.played) + 1)} - {*self.case.lies})

    @property
    def mean(self) -> float:
        return statistics.fmean(self.shares)


# ---- cases


def told_of(name: str) -> str:
    """Returns what a number of the base means."""
    axes = {axis: told.partition(": ")[2] for axis, (told, _) in AXES.items()}
    others = axes | {"forger": "1 if somebody asks peers for their keys in the names of their partners"}
    return NUMBERS[name].told if name in NUMBERS else others[name]


def values_of(axes: Mapping[str, Collection[float]], base: Numbers) -> dict[str, list[float]]:
    """Returns the values of each axis that is drawn, in rising order, including that of the base."""
    return {name: sorted({*values, base[name]}) for name, values in axes.items()}


def beside(name: str) -> dict[str, int]:
    """Returns the other version in which a number is varied too, if there is one."""
    return {"version": BESIDE[name]} if name in BESIDE else {}


def cases_of(axes: Mapping[str, Collection[float]], base: Numbers, seeds: Iterable[int]) -> list[Case]:
    """Returns the cases of an experiment, each once. One number has one of its values, and all but perhaps the version are the base's."""
    wanted = [base]
    for name, values in values_of(axes, base).items():
        wanted += [base | more | {name: value} for more in ({}, beside(name)) for value in values]
    return [*dict.fromkeys(Case.of(numbers, seed) for numbers, seed in itertools.product(wanted, seeds))]


def stream_of(case: Case) -> bytes:
    """Returns a stream of random bytes that fills all rounds but the last, whose updates can't be traded any more."""
    numbers = case.by_name
    return random.Random(f"stream {case.seed}").randbytes(room_of(max(1, numbers["rounds"] - 1), numbers["per_round"]))


def run_case(case: Case, program: pathlib.Path) -> Result:
    """Makes and simulates the session of a case in a folder that is removed afterwards."""
    with tempfile.TemporaryDirectory(prefix="bar-case-") as name:
        room = pathlib.Path(name)
        (room / "stream").write_bytes(stream_of(case))
        wanted = making.Wanted(room / "session", room / "stream", case.session_numbers, f"{case.seed:08x}")
        folder, session = making.make(wanted, program, None)
        ran = simulation.simulate(folder, session, case.network, None)
        failed = {party: status for party, status in ran.statuses.items() if status}
        if failed:
            raise Failure(f"a simulated session of {case.by_name} fails: the statuses of parties are {failed}")
        return result_of(case, folder, session, ran.fates.sent.total())


def result_of(case: Case, folder: Folder, session: Session, sent: int) -> Result:
    """Returns the result of a case, by the files that its parties left."""
    length, liars = folder.stream.stat().st_size, case.peers_of("liars")
    shares = [folder.played(party).stat().st_size / length for party in session.parties[:-1]]
    findings = map(finding_of, (path.name for path in folder.path.glob("party.0.*")))
    evicted = {int(name) for _, name in filter(None, findings) if name != "table"}
    if evicted - liars:
        raise Failure(f"peers that didn't lie were evicted in a simulated session of {case.by_name}: {sorted(evicted - liars)}")
    return Result(case, tuple(shares), len(evicted), sent)


# ---- reports


@dataclasses.dataclass(frozen=True)
class Point:
    """What honest peers played with a value of a number: the mean of each seed, and the least and the most of a peer.

    If some peers withhold their keys, it also has what they played, and what the same peers played in sessions in which nobody does.
    """

    value: float
    means: tuple[float, ...]
    least: float
    most: float
    withheld: float | None = None
    honest: float | None = None

    @property
    def mean(self) -> float:
        return statistics.fmean(self.means)


def point_of(value: float, results: list[Result], plain: list[Result]) -> Point:
    """Returns the point of these results, and of those of the same seeds in which nobody withholds keys."""
    shares = [share for result in results for share in result.shares]
    point = Point(value, tuple(result.mean for result in results), min(shares), max(shares))
    pairs = [(result, other, result.case.peers_of("withholders")) for result, other in zip(results, plain)]
    if not any(parties for _, _, parties in pairs):
        return point
    withheld = statistics.fmean(share for result, _, parties in pairs for share in result.shares_of(parties))
    honest = statistics.fmean(share for _, other, parties in pairs for share in other.shares_of(parties))
    return dataclasses.replace(point, withheld=withheld, honest=honest)


def points_of(name: str, values: Iterable[float], base: Numbers, results: list[Result]) -> list[Point]:
    """Returns the points of an axis, in the order of its values."""
    by_numbers: dict[tuple[tuple[str, float], ...], list[Result]] = {}
    for result in results:
        by_numbers.setdefault(result.case.numbers, []).append(result)

    def found(numbers: Numbers) -> list[Result]:
        return by_numbers.get(tuple(numbers.items()), [])

    varied = [base | {name: value} for value in values]
    return [point_of(numbers[name], found(numbers), found(numbers | {"withholders": 0})) for numbers in varied]


def lines_of(name: str, values: Iterable[float], base: Numbers, results: list[Result]) -> dict[int, list[Point]]:
    """Returns what is drawn of an axis: its points in each version, those in the base's version first."""
    versions = [base["version"], *beside(name).values()]
    return {version: points_of(name, values, base | {"version": version}, results) for version in dict.fromkeys(versions)}


def table_lines(name: str, points: list[Point], version: int | None = None) -> Iterator[str]:
    """Yields the lines of a table of what was played with each value of this number. If no version is named, it is the base's."""
    withheld = any(point.withheld is not None for point in points)
    heads = [name if version is None else f"{name}, version {version}", "played, mean", "least of a peer", "most of a peer"]
    heads += ["withholders play", "as honest peers they would"] if withheld else []
    yield f"| {' | '.join(heads)} |"
    yield "|---" * len(heads) + "|"
    for point in points:
        cells = [f"{point.value:g}", *(f"{share:.1%}" for share in (point.mean, point.least, point.most))]
        if withheld:
            cells += ["" if share is None else f"{share:.1%}" for share in (point.withheld, point.honest)]
        yield f"| {' | '.join(cells)} |"


def csv_lines(results: list[Result]) -> Iterator[str]:
    """Yields all results, a line each, after a line of the names."""
    names = [name for name, _ in results[0].case.numbers]
    yield ",".join([*names, "seed", "played_mean", "played_least", "played_most", "liars", "evicted", "sent"])
    for result in results:
        told = [f"{share:.4f}" for share in (result.mean, min(result.shares), max(result.shares))]
        counts = [len(result.case.peers_of("liars")), result.evicted, result.sent]
        yield ",".join(map(str, [*result.case.by_name.values(), result.case.seed, *told, *counts]))
