"""What a peer did and held, from its recording, its transcript and the findings of its replay.

A peer holds an update once it has received a BLOCK of it under an admitted manifest, or a KEY that opens the partner's CASE well, if the
update was alive at that tick. Signatures aren't checked here. The peer checked them, and what it sent and found shows what it admitted:
  MANIFEST   the table that the peer found has it
  CASE       its terms are those of the peer's own CASE, and the peer first asked for its key in the tick in which it arrived
  KEY        it arrived in the last tick in which the peer asked for it; if it opens badly, the peer has evidence against its sender
So a forged datagram is mistaken for a real one only if it arrived before it in the same tick, or in the recording's last tick. It has to be
a CASE of the same terms, a KEY that opens well or whose sender the peer has evidence against, or an EVICT of a KEY's sender. In all cases
an update that counts as held has the digest that the table says.
"""
import collections
import dataclasses
import functools
import hashlib

from gossip.formats.briefcases import opened
from gossip.formats.datagrams import Block, Case, Evict, Exchange, Key, Manifest, Message, Promise, Reader, Update, number_at
from gossip.formats.files import CASE, CONTENT, EVIDENCE, KEY, KEYREQ, REPLY, RESPONSE, SLOTS, Session, head_of, manifests_of
from gossip.reports.replays import Log


def round_of(tick: int) -> int:
    return (tick + SLOTS - 1) // SLOTS


def first_tick(number: int) -> int:
    """Returns the first tick of a round."""
    return SLOTS * (number - 1) + 1


def content_size(block: bytes) -> int:
    """Returns how many bytes of a block are played: none if the length in it is too large."""
    size = number_at(block, 0, 2)
    return size if size <= CONTENT else 0


@dataclasses.dataclass(frozen=True)
class Arrival:
    """How an update arrived at a peer: the tick, the sender (0 is the broadcaster), how many bytes are to be played, and the exchange."""

    tick: int
    sender: int
    content: int
    exchange: Exchange | None = None


@dataclasses.dataclass
class Side:
    """A peer's side of an exchange: its own CASE, the partner's CASE that it admitted, and when keys were asked for and given.

    `since` is the tick of the peer's first message.
    """

    exchange: Exchange
    asks: bool
    since: int = 0
    answered: bool = False
    own_case: Case | None = None
    case: Case | None = None
    # the ticks in which it asked for the partner's key, gave its own, was given one that opens well, and one that opens badly
    asked: list[int] = dataclasses.field(default_factory=list)
    paid: int | None = None
    was_paid: int | None = None
    was_cheated: int | None = None

    @property
    def partner(self) -> int:
        return self.exchange.responder if self.asks else self.exchange.initiator

    @property
    def gives(self) -> Promise | None:
        """What this side promises, or None if it sent no CASE."""
        return self.own_case and self.own_case.promise

    @property
    def gets(self) -> Promise | None:
        """What the partner promises, or None if no CASE of it was admitted."""
        return self.case and self.case.promise

    def say(self, tick: int, message: Message) -> None:
        """Notes a message that this peer sent."""
        if message.kind == CASE:
            self.own_case = message
        elif message.kind == KEYREQ:
            self.asked.append(tick)
        elif message.kind == KEY and self.paid is None:
            self.paid = tick

    def hear_case(self, tick: int, case: Case) -> None:
        """Notes the partner's CASE, if it was admitted."""
        if self.case is None and self.asked[:1] == [tick] and self.own_case and case.terms == self.own_case.terms:
            self.case = case

    def forget(self) -> None:
        """Discards the terms and ciphertexts of both CASEs, but keeps what they promise."""
        self.own_case, self.case = (it and dataclasses.replace(it, terms=None, cipher=b"") for it in (self.own_case, self.case))

    def awaits_key(self, tick: int) -> bool:
        """Whether a KEY that arrives in this tick may be the one that was admitted."""
        return self.case is not None and self.asked[-1] == tick and self.was_paid is None and self.was_cheated is None


class Account:
    """What a peer did and held."""

    def __init__(self, session: Session, party: int, log: Log) -> None:
        self.session, self.party, self.log = session, party, log
        self.reader = Reader(session)
        self.manifests = {manifest for _, manifest in manifests_of(log.findings.get("table", b""))}
        self.digests: dict[Update, bytes] = {}
        # for each evicted party the round of the first notice, and the tick in which the last notice arrived
        self.notices: dict[int, int] = {}
        self.evicted: dict[int, int] = {}
        # the sides of exchanges, in the order in which the peer entered them
        self.sides: dict[Exchange, Side] = {}
        # how updates first arrived: those that are held, and those that arrived too late
        self.held: dict[Update, Arrival] = {}
        self.late: dict[Update, Arrival] = {}
        self.read_sent()
        self.read_taken()
        for side in self.sides.values():
            side.forget()

    def read_sent(self) -> None:
        """Notes what the peer sent."""
        for tick, datagram in self.log.sent:
            message = self.reader.read(datagram)
            if message:
                self.sides.setdefault(message.exchange, Side(message.exchange, message.by_initiator, tick)).say(tick, message)

    def read_taken(self) -> None:
        """Notes what the peer received and admitted."""
        for tick, datagram in self.log.taken:
            match self.reader.read(datagram):
                case Manifest() as manifest if datagram in self.manifests and self.is_timely(manifest.round, tick):
                    self.digests |= manifest.digests
                case Evict() as notice:
                    self.evicted |= dict.fromkeys(notice.parties, tick)
                    self.notices = dict.fromkeys(notice.parties, notice.round) | self.notices
                case Block(receiver=self.party) as sent:
                    self.hear_block(tick, sent)
                case Message(receiver=self.party) as message if message.exchange in self.sides:
                    self.hear(tick, message, self.sides[message.exchange])

    def is_alive(self, number: int, tick: int) -> bool:
        """Whether the updates of a round are alive at a tick. They are played in the first tick in which they aren't."""
        return round_of(tick) < number + self.session.life

    def is_timely(self, number: int, tick: int) -> bool:
        """Whether a manifest of a round may be admitted at a tick."""
        return number <= round_of(tick) + 1 and self.is_alive(number, tick)

    def hear_block(self, tick: int, sent: Block) -> None:
        """Notes a BLOCK, if it has the digest that the table says."""
        if hashlib.sha256(sent.block).digest() == self.digests.get(sent.update):
            self.hold(sent.update, Arrival(tick, 0, content_size(sent.block)))

    def hear(self, tick: int, message: Message, side: Side) -> None:
        """Notes a datagram from the partner."""
        if isinstance(message, Case):
            side.hear_case(tick, message)
        elif isinstance(message, Key) and side.awaits_key(tick) and self.evicted.get(side.partner) != tick:
            self.hear_key(tick, message, side)
        elif message.kind in (RESPONSE, REPLY):
            side.answered = True

    def hear_key(self, tick: int, key: Key, side: Side) -> None:
        """Notes what a KEY that may be the admitted one shows: the updates that it opens, or that the partner cheated."""
        blocks = opened(self.session, side.case, key.key, self.digests)
        if blocks is None:
            side.was_cheated = tick if str(side.partner) in self.log.findings else None
            return
        side.was_paid = tick
        for update, block in blocks.items():
            self.hold(update, Arrival(tick, side.partner, content_size(block), side.exchange))

    def hold(self, update: Update, arrival: Arrival) -> None:
        """Notes that an update arrived, either alive or too late. In both cases only the first arrival counts."""
        into = self.held if self.is_alive(update.round, arrival.tick) else self.late
        into.setdefault(update, arrival)

    @functools.cached_property
    def played(self) -> set[Update]:
        """The updates that were played."""
        return {update for update, it in self.held.items() if it.content and not self.is_alive(update.round, self.log.ticks)}

    @functools.cached_property
    def straight(self) -> set[Update]:
        """The held updates that first arrived from the broadcaster."""
        return {update for update, it in self.held.items() if it.sender == 0}

    @functools.cached_property
    def sides_by_round(self) -> dict[int, list[Side]]:
        """The sides of exchanges, by round."""
        by_round = collections.defaultdict(list)
        for side in self.sides.values():
            by_round[side.exchange.round].append(side)
        return by_round

    @functools.cached_property
    def accusing_rounds(self) -> set[int]:
        """The rounds in which the peer sent evidence to the broadcaster."""
        heads = [(tick, head_of(datagram, self.session)) for tick, datagram in self.log.sent]
        return {round_of(tick) for tick, head in heads if head and head.kind == EVIDENCE}
