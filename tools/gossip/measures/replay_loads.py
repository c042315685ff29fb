"""Datagrams that are put into a recording, to measure what they cost its peer, and how a replay must answer them.

Datagrams of each kind are put where the rules surely treat them as the kind is named. Where that depends on what was admitted, the answers
of the recording's own replay show this. If a REQUEST is answered at its input, it was admitted then or before.
"""
import dataclasses
import hashlib
import itertools
import typing
from collections.abc import Callable, Iterable, Iterator

from gossip.formats.datagrams import Block, Case, Evict, Exchange, Key, Manifest, Message, Reader, number_at
from gossip.formats.files import DIVULGE, QUERY, RECORDING_HEAD, REQUEST, Malformed, Session, entries_of, recording_of, sends_of
from gossip.reports.exchanges import round_of

# how many datagrams may be taken in a row: pacing puts a tick before the next one
MOST_IN_A_ROW = 65_536

# the rounds near which REQUESTs are changed
LOW, HIGH = 50, 1000


class Taken(typing.NamedTuple):
    """A datagram that a peer took: the number of its input, counted from 1, its bytes, and its contents if it can be read."""

    number: int
    datagram: bytes
    message: Manifest | Evict | Block | Message | None


class Recorded:
    """A recording with the numbers of the inputs that its replay answers. Its datagrams are grouped by how many ticks are before them."""

    def __init__(self, session: Session, recording: bytes, answered: Iterable[int] = ()) -> None:
        self.session, self.head, self.answered = session, recording[:RECORDING_HEAD], frozenset(answered)
        self.party = number_at(self.head, RECORDING_HEAD - 2, 2)
        self.entries, _ = entries_of(recording)
        reader, self.groups, self.ends = Reader(session), [[]], []
        for number, entry in enumerate(self.entries, 1):
            if entry is None:
                self.ends.append(number - 1)
                self.groups.append([])
            else:
                self.groups[-1].append(Taken(number, entry, reader.read(entry)))
        self.ends.append(len(self.entries))

    def is_to_me(self, message: object) -> bool:
        return isinstance(message, Message) and message.receiver == self.party

    def is_answered(self, taken: Taken, kind: int) -> bool:
        """Whether it is a datagram of this kind to this peer that is answered."""
        return taken.number in self.answered and self.is_to_me(taken.message) and taken.message.kind == kind

    def is_request(self, taken: Taken) -> bool:
        """Whether it is a REQUEST to this peer that is answered."""
        return self.is_answered(taken, REQUEST)


# ---- what is put where: for each group the datagram that is put after it, or None


def lasts(recorded: Recorded, accepts: Callable[[Taken], bool]) -> list[Taken | None]:
    """Returns for each group the last datagram accepted of it and of those before it, or None."""
    found = ([None, *filter(accepts, group)][-1] for group in recorded.groups)
    return [*itertools.accumulate(found, lambda before, last: last or before)]


def comings(firsts: list[bytes | None]) -> list[bytes | None]:
    """Returns for each group the first datagram that `firsts` has for a later group, or None."""
    return [*itertools.accumulate([None, *reversed(firsts[1:])], lambda later, first: first or later)][::-1]


def repeated_answered(recorded: Recorded, kind: int, rounds: int) -> list[bytes | None]:
    """Returns for each group the last answered datagram of a kind, unless it is over `rounds` rounds old and not answered again."""
    found = enumerate(lasts(recorded, lambda taken: recorded.is_answered(taken, kind)))
    return [it.datagram if it and it.message.exchange.round >= round_of(tick) - rounds else None for tick, it in found]


def repeated_requests(recorded: Recorded) -> list[bytes | None]:
    """Returns for each group a REQUEST that was admitted, while it is answered again."""
    return repeated_answered(recorded, REQUEST, 1)


def repeated_blocks(recorded: Recorded) -> list[bytes | None]:
    """Returns for each group the last BLOCK that came after the manifest of its round, so it was admitted or its update was held."""
    rounds = set()

    def is_known(taken: Taken) -> bool:
        if isinstance(taken.message, Manifest):
            rounds.add(taken.message.round)
        return isinstance(taken.message, Block) and taken.message.receiver == recorded.party and taken.message.update.round in rounds

    return [it and it.datagram for it in lasts(recorded, is_known)]


def repeated_keys(recorded: Recorded) -> list[bytes | None]:
    """Returns for each group the last KEY that came after the CASE of its sender."""
    cases = set()

    def is_opening(taken: Taken) -> bool:
        if isinstance(taken.message, Case):
            cases.add(side_of(taken.message))
        return isinstance(taken.message, Key) and recorded.is_to_me(taken.message) and side_of(taken.message) in cases

    return [it and it.datagram for it in lasts(recorded, is_opening)]


def past_manifests(recorded: Recorded) -> list[bytes | None]:
    """Returns for each group the last manifest received so far, or None."""
    return [it and it.datagram for it in lasts(recorded, lambda taken: isinstance(taken.message, Manifest))]


def coming_manifests(recorded: Recorded) -> list[bytes | None]:
    """Returns for each group the next manifest that is first received after it, or None."""
    seen, firsts = set(), []
    for group in recorded.groups:
        manifests = [it.datagram for it in group if isinstance(it.message, Manifest) and it.datagram not in seen]
        firsts.append(manifests[0] if manifests else None)
        seen.update(manifests)
    return comings(firsts)


def early_keys(recorded: Recorded) -> list[bytes | None]:
    """Returns for each group a KEY received later, as is the CASE of its sender. Before that CASE no such KEY is admitted."""
    keys, firsts, seen = {}, [], set()
    for taken in itertools.chain(*recorded.groups):
        if isinstance(taken.message, Key) and recorded.is_to_me(taken.message):
            keys.setdefault(side_of(taken.message), taken)
    for group in recorded.groups:
        cases = [side_of(it.message) for it in group if isinstance(it.message, Case)]
        opening = [keys[it] for it in cases if it in keys and it not in seen]
        firsts.append(next((it.datagram for it in opening if it.number >= group[0].number), None))
        seen.update(cases)
    return comings(firsts)


def side_of(message: Message) -> tuple[Exchange, bool]:
    """Returns the exchange of a message and the side that sent it."""
    return message.exchange, message.by_initiator


# ---- loads


def forged(datagram: bytes, number: int) -> bytes:
    """Returns the datagram with the last bytes of its signature changed."""
    last = int.from_bytes(datagram[-4:], "big") ^ (number + 1)
    return datagram[:-4] + last.to_bytes(4, "big")


@dataclasses.dataclass(frozen=True)
class Load:
    """Copies of datagrams that are put before some inputs, which are counted from 0, or after the last one.

    `parts` has for each such place the datagram and the number of its copies. If `is_forged`, each copy has another signature; otherwise
    all are equal. If `is_remembered`, a datagram is verified at its first copy only. `answers` is how many lines answer one copy.
    """

    told: str
    parts: dict[int, tuple[bytes, int]]
    is_forged: bool = False
    is_remembered: bool = False
    answers: int = 0

    @property
    def total(self) -> int:
        return sum(count for _, count in self.parts.values())

    def before(self, place: int) -> list[bytes]:
        """Returns the copies that are put before an input."""
        model, count = self.parts.get(place, (b"", 0))
        return [forged(model, number) if self.is_forged else model for number in range(count)]


def longer(recorded: Recorded, load: Load) -> bytes:
    """Returns the recording with the datagrams of a load."""
    parts = ([*load.before(place), entry] for place, entry in enumerate(recorded.entries))
    return recording_of(recorded.head, itertools.chain(*parts, load.before(len(recorded.entries))))


def spread_over(recorded: Recorded, models: list[bytes | None], count: int) -> dict[int, tuple[bytes, int]]:
    """Returns at most this many copies of the models in all, after the groups that have one: equally many after each, or one more.

    There are none after the last tick, since a recording that continues there is refused.
    """
    groups, parts = [tick for tick, model in enumerate(models) if model and tick < recorded.session.ticks], {}
    for at, group in enumerate(groups):
        share = count * (at + 1) // len(groups) - count * at // len(groups)
        parts[recorded.ends[group]] = models[group], min(share, MOST_IN_A_ROW - len(recorded.groups[group]))
    return parts


def requests_by_round(recorded: Recorded) -> dict[int, tuple[Taken, int]]:
    """Returns for each round its first REQUEST that is answered, which is admitted there, and how many datagrams its group has."""
    found = {}
    for group in recorded.groups:
        for taken in filter(recorded.is_request, group):
            found.setdefault(taken.message.exchange.round, (taken, len(group)))
    return found


def request_loads(recorded: Recorded, count: int) -> Iterator[Load]:
    """Yields loads of a REQUEST with another signature, just before it is admitted, for the rounds nearest `LOW` and `HIGH`."""
    found = requests_by_round(recorded)
    nearest = [min(found, key=lambda number, wanted=wanted: abs(number - wanted)) for wanted in (LOW, HIGH) if found]
    for number in dict.fromkeys(nearest):
        taken, length = found[number]
        copies = taken.datagram, min(count, MOST_IN_A_ROW - length)
        yield Load(f"request of round {number:,}", {taken.number - 1: copies}, is_forged=True)


def loads_of(recorded: Recorded, count: int) -> Iterator[Load]:
    """Yields the loads of all kinds, each of at most this many datagrams."""
    yield Load("repeated", spread_over(recorded, repeated_requests(recorded), count), is_remembered=True, answers=1)
    yield Load("forged", spread_over(recorded, past_manifests(recorded), count), is_forged=True)
    yield Load("verified", spread_over(recorded, coming_manifests(recorded), count), is_forged=True)
    yield Load("early", spread_over(recorded, early_keys(recorded), count), is_remembered=True)
    yield Load("block again", spread_over(recorded, repeated_blocks(recorded), count))
    yield Load("key again", spread_over(recorded, repeated_keys(recorded), count), is_remembered=True)
    yield Load("query again", spread_over(recorded, repeated_answered(recorded, QUERY, 1), count), is_remembered=True, answers=2)
    yield Load("divulge again", spread_over(recorded, repeated_answered(recorded, DIVULGE, 2), count), answers=1)
    yield from request_loads(recorded, count)


# ---- the output of a replay


@dataclasses.dataclass(frozen=True)
class Said:
    """The output of a replay: its number of lines, the inputs it answers, and a digest of each line's tick, receiver and datagram."""

    lines: int
    answered: frozenset[int]
    digest: bytes


def said_in(lines: Iterable[str], recording: bytes) -> Said:
    """Returns what the lines of a transcript say, by the recording that was replayed."""
    entries, _ = entries_of(recording)
    ticks = [0, *itertools.accumulate(entry is None for entry in entries)]
    count, answered, digest = 0, set(), hashlib.sha256()
    for count, (number, receiver, datagram) in enumerate(sends_of(lines), 1):
        if not 0 < number < len(ticks):
            raise Malformed("a line of the transcript has the number of no input")
        answered.add(number)
        digest.update(b"%d %d %d " % (ticks[number], receiver, len(datagram)) + datagram)
    return Said(count, frozenset(answered), digest.digest())


def fault_of(load: Load, alone: Said, said: Said) -> str | None:
    """Returns how the answers to a load differ from what its kind should get, if they do, by the replays without and with it."""
    wanted = alone.lines + load.answers * load.total
    if said.lines != wanted:
        return f"{load.told}: the transcript has {said.lines:,} lines instead of {wanted:,}"
    if not load.answers and said.digest != alone.digest:
        return f"{load.told}: the transcript says other things than that of the recording alone"
    return None
