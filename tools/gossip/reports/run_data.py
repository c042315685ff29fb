"""The data of a run of a session: `session.json`, which docs/FORMATS.md describes, and its tables.

A table is a list of rows of one dataclass, whose fields are its columns. `gathering` makes the data of a run from a folder. The page of a
session is drawn from this data, and for a video also from video.json.
"""
import dataclasses
import json
import typing
from collections.abc import Iterable

from gossip.formats.datagrams import Update
from gossip.formats.files import Malformed

FORMAT = "bar session 1"

# the ways in which an update arrives
BLOCK_WAY, BALANCED_WAY, PUSH_WAY = "block", "balanced", "push"


class ExchangeName(typing.NamedTuple):
    """The name of an exchange."""

    round: int
    kind: str
    initiator: int
    responder: int


@dataclasses.dataclass
class PeerRow:
    """A peer and its totals. `status` is its exit status, if it is known; `refused` is why there is no replay, if there is none."""

    peer: int
    status: int | None = None
    lies: bool = False
    refused: str | None = None
    differs: list[str] = dataclasses.field(default_factory=list)
    ticks: int = 0
    whole: bool = False
    bytes_played: int = 0
    played: int = 0
    played_by_block: int = 0
    played_by_balanced: int = 0
    played_by_push: int = 0
    blocks: int = 0
    late: int = 0
    gap: int = 0
    started: int = 0
    answered: int = 0
    traded: int = 0
    keys_given: int = 0
    keys_got: int = 0
    wrong_keys: int = 0
    sent: int = 0
    bytes_sent: int = 0
    taken: int = 0
    bytes_taken: int = 0
    lost: int = 0
    full: int = 0


@dataclasses.dataclass
class RoundRow:
    """What a peer did in a round in which it had at least one tick."""

    peer: int
    round: int
    due: int
    played: int
    came: int
    started: int
    answered: int
    traded: int
    lost: int
    accuses: bool


@dataclasses.dataclass(frozen=True)
class ReleaseRow:
    """An update of the stream: its size in bytes, if a peer held it, and how many peers got it first from the broadcaster."""

    round: int
    index: int
    bytes: int | None
    straight: int


@dataclasses.dataclass(frozen=True)
class UpdateRow:
    """An update that arrived at a peer: how, when and from whom it first arrived."""

    peer: int
    round: int
    index: int
    tick: int
    sender: int
    way: str
    in_time: bool
    played: bool
    bytes: int


@dataclasses.dataclass(frozen=True)
class ExchangeRow:
    """An exchange. `complete` is whether each side whose log is known gave its key and got the other's. `audit` is what the auditor found.
    `evidence` is how many rows of evidence are about the exchange.
    """

    round: int
    kind: str
    initiator: int
    responder: int
    complete: bool
    audit: str | None
    evidence: int

    @property
    def exchange(self) -> ExchangeName:
        """The exchange's name."""
        return ExchangeName(self.round, self.kind, self.initiator, self.responder)


@dataclasses.dataclass(frozen=True)
class SideRow:
    """A peer's side of an exchange: its totals in items, what both sides promised, and the ticks of its first message and of the keys."""

    peer: int
    round: int
    kind: str
    initiator: int
    responder: int
    answered: bool
    promised: int
    received: int
    opened: int
    gives: list[Update]
    gives_junk: int
    gets: list[Update]
    gets_junk: int
    since: int
    key_asked: int
    key_given: int | None
    key_got: int | None
    wrong_key: int | None

    @property
    def exchange(self) -> ExchangeName:
        """The exchange's name."""
        return ExchangeName(self.round, self.kind, self.initiator, self.responder)

    @property
    def asks(self) -> bool:
        return self.peer == self.initiator

    @property
    def partner(self) -> int:
        return self.responder if self.asks else self.initiator


@dataclasses.dataclass(frozen=True)
class EvictionRow:
    """A party that was evicted: its fault, the round of the first notice of it, and how many peers received a notice."""

    party: int
    fault: str | None
    round: int | None
    told: int


@dataclasses.dataclass(frozen=True)
class EvidenceRow:
    """Evidence that a party keeps: the fault that the judge finds, the kinds of its datagrams, and the exchange it is about, if any."""

    keeper: int
    accused: int
    fault: str | None
    verdict: str | None
    datagrams: list[str]
    round: int | None = None
    kind: str | None = None
    initiator: int | None = None
    responder: int | None = None

    @property
    def exchange(self) -> ExchangeName | None:
        """The name of the exchange that it is about, if any."""
        return None if self.round is None else ExchangeName(self.round, self.kind, self.initiator, self.responder)


@dataclasses.dataclass
class LossRow:
    """What happened to the datagrams of a kind from one party to another, if not all arrived as they were sent.

    `lost` counts those that were sent and not received, `copies` those that were received more often than sent, and `unsent` those that
    were received and never sent.
    """

    sender: int
    receiver: int
    kind: str
    sent: int = 0
    taken: int = 0
    lost: int = 0
    copies: int = 0
    unsent: int = 0


@dataclasses.dataclass
class TrafficRow:
    """How many datagrams of a kind a party sent and received, how many bytes they have, and how many of them are equal to earlier ones.

    `known` counts those that it sent to parties with logs, for which it is known whether they were received. `lost` counts those of them
    that weren't.
    """

    party: int
    kind: str
    sent: int = 0
    bytes_sent: int = 0
    sent_again: int = 0
    known: int = 0
    lost: int = 0
    taken: int = 0
    bytes_taken: int = 0
    taken_again: int = 0


TABLES = {
    "peers": PeerRow,
    "rounds": RoundRow,
    "releases": ReleaseRow,
    "updates": UpdateRow,
    "exchanges": ExchangeRow,
    "sides": SideRow,
    "evictions": EvictionRow,
    "evidence": EvidenceRow,
    "losses": LossRow,
    "traffic": TrafficRow,
}


def columns_of(row_type: type) -> list[str]:
    return [field.name for field in dataclasses.fields(row_type)]


@dataclasses.dataclass
class Run:
    """The data of a run: the session's numbers, how many bytes were streamed, the audit, how many replays agree, and the tables.

    `stream` counts an update that nobody held as full. `casts` is whether it is known what the broadcaster sent.
    `outside` is how many datagrams that don't belong to the session were received on the machine meanwhile, if this is known.
    """

    session: dict[str, int | str | None]
    stream: int
    casts: bool
    replays: dict[str, int]
    audit: dict[str, object] | None
    peers: list[PeerRow]
    rounds: list[RoundRow]
    releases: list[ReleaseRow]
    updates: list[UpdateRow]
    exchanges: list[ExchangeRow]
    sides: list[SideRow]
    evictions: list[EvictionRow]
    evidence: list[EvidenceRow]
    losses: list[LossRow]
    traffic: list[TrafficRow]
    outside: int | None = None

    def document(self) -> dict[str, object]:
        """Returns the run as a JSON object, in which each table is an object of columns and rows."""
        names = [field.name for field in dataclasses.fields(self)]
        return {"format": FORMAT} | {name: tabled(name, getattr(self, name)) if name in TABLES else getattr(self, name) for name in names}

    def to_json(self) -> str:
        """Returns the text of session.json, with a line for each row."""
        return f"{{{', '.join(map(spelled, *zip(*self.document().items())))}}}\n"

    @classmethod
    def of_json(cls, text: str) -> "Run":
        """Reads the text of a session.json."""
        try:
            document = json.loads(text)
            if document.pop("format") != FORMAT:
                raise Malformed("it has another format")
            rows = {name: [row_type(*row) for row in document[name]["rows"]] for name, row_type in TABLES.items()}
            return cls(**document | rows)
        except (ValueError, KeyError, TypeError, AttributeError) as error:
            raise Malformed(f"it isn't a session.json: {type(error).__name__} {error}") from None


def tabled(name: str, rows: Iterable[object]) -> dict[str, list]:
    """Returns the object of a table, with its columns and rows."""
    columns = columns_of(TABLES[name])
    return {"columns": columns, "rows": [[getattr(row, column) for column in columns] for row in rows]}


def spelled(name: str, value: object) -> str:
    """Returns the text of a member of the document. If it is a table, each row is on a line of its own."""
    if name not in TABLES:
        return f"{json.dumps(name)}: {json.dumps(value)}"
    rows = ",\n".join(json.dumps(row, separators=(",", ":")) for row in value["rows"])
    return f'\n{json.dumps(name)}: {{"columns": {json.dumps(value["columns"])}, "rows": [\n{rows}]}}'
