"""Reads the datagrams of a session: those of the broadcaster, and those of exchanges with the terms and promises of their CASEs.

A datagram is read if it has the length that its kind and counts give, and its numbers are in range. Its signature isn't checked.
"""
import collections.abc
import dataclasses
import itertools
import struct
import typing
from collections.abc import Iterator

from gossip.formats.files import (
    BLOCK,
    CASE,
    DIVULGE,
    EVICT,
    EVIDENCE,
    KEY,
    KEYREQ,
    MANIFEST,
    QUERY,
    REPLY,
    REQUEST,
    RESPONSE,
    Head,
    Session,
    head_of,
)
from gossip.formats.grammar import DIGEST_SIZE, GRAMMAR, WORD, Layout, Values, window_words

# the receiver that means all peers
EVERYONE = 0xFFFF

# the first messages of an exchange: whether it is a push, and whether the initiator sends them. Other kinds have two fields for this
FIRST_MESSAGES = {REQUEST: (0, 1), RESPONSE: (0, 0), DIVULGE: (0, 1), QUERY: (1, 1), REPLY: (1, 0)}


# all kinds of an exchange
MESSAGES = {*FIRST_MESSAGES, CASE, KEYREQ, KEY}


def number_at(datagram: bytes, at: int, size: int = 4) -> int:
    return int.from_bytes(datagram[at : at + size], "big")


# ---- the contents of datagrams


class Update(typing.NamedTuple):
    """The name of an update, by which updates are ordered."""

    round: int
    index: int


class Window(collections.abc.Set):
    """A set of updates of some rounds in little memory. Bit `width * n + i` is for update i of the nth round after the first."""

    __slots__ = "first", "width", "bits"

    def __init__(self, first: int, width: int, bits: int) -> None:
        self.first, self.width, self.bits = first, width, bits

    def __contains__(self, update: object) -> bool:
        number, index = update
        return number >= self.first and 0 <= index < self.width and self.bits >> self.width * (number - self.first) + index & 1 == 1

    def __iter__(self) -> Iterator[Update]:
        """Yields the updates, in order."""
        rest = self.bits
        while rest:
            behind, index = divmod((rest & -rest).bit_length() - 1, self.width)
            yield Update(self.first + behind, index)
            rest &= rest - 1

    def __len__(self) -> int:
        return self.bits.bit_count()

    def __eq__(self, other: object) -> bool:
        if isinstance(other, Window) and (self.first, self.width) == (other.first, other.width):
            return self.bits == other.bits
        return super().__eq__(other)

    def __sub__(self, other: "Window") -> "Window":
        """Returns the updates that another window of the same rounds doesn't have."""
        return Window(self.first, self.width, self.bits & ~other.bits)


class Exchange(typing.NamedTuple):
    """The name of an exchange."""

    round: int
    push: bool
    initiator: int
    responder: int

    def spelled(self) -> bytes:
        """Returns the encoding of the exchange, in nine bytes."""
        return struct.pack(">IBHH", *self)


class Promise(typing.NamedTuple):
    """What a side of an exchange promises: updates in order, followed by this many junk items."""

    updates: tuple[Update, ...]
    junk: int


@dataclasses.dataclass(frozen=True)
class BalancedTerms:
    """The initiator's nonce, and the history of each side."""

    nonce: bytes
    of_initiator: Window
    of_responder: Window

    def promise(self, by_initiator: bool, cap: int) -> Promise:
        """Returns what a side promises: the first updates that the other lacks, as many as the other promises and at most the cap."""
        lacking = self.of_responder - self.of_initiator, self.of_initiator - self.of_responder
        return Promise(tuple(itertools.islice(lacking[by_initiator], min(cap, *map(len, lacking)))), 0)


@dataclasses.dataclass(frozen=True)
class PushTerms:
    """What is offered and asked for, what of this is wanted and given, and the junk that makes up the difference."""

    young: Window
    aged: Window
    wanted: Window
    given: Window
    junk: int

    def promise(self, by_initiator: bool, _cap: int) -> Promise:
        """Returns what a side promises: the wanted updates if it is the initiator, otherwise the given updates and the junk."""
        return Promise(tuple(self.wanted), 0) if by_initiator else Promise(tuple(self.given), self.junk)


# ---- datagrams


@dataclasses.dataclass(frozen=True)
class Manifest:
    """The digests of a round's updates."""

    round: int
    digests: dict[Update, bytes]


@dataclasses.dataclass(frozen=True)
class Evict:
    """A notice of evicted parties."""

    round: int
    parties: tuple[int, ...]


@dataclasses.dataclass(frozen=True)
class Block:
    """The block of an update, for a peer."""

    receiver: int
    update: Update
    block: bytes


@dataclasses.dataclass(frozen=True)
class Message:
    """A datagram of an exchange, from one side to the other: a REQUEST, RESPONSE, DIVULGE, QUERY, REPLY or KEYREQ."""

    kind: int
    exchange: Exchange
    by_initiator: bool

    @property
    def receiver(self) -> int:
        return self.exchange.responder if self.by_initiator else self.exchange.initiator


@dataclasses.dataclass(frozen=True)
class Case(Message):
    """A CASE whose counts are those of its promise. Its cipher is a view of the datagram, not a copy."""

    terms: BalancedTerms | PushTerms
    promise: Promise
    cipher: memoryview


@dataclasses.dataclass(frozen=True)
class Key(Message):
    key: bytes


class Place(typing.NamedTuple):
    """What all datagrams of exchanges have: the kind, the exchange, and whether the initiator is the sender."""

    kind: int
    exchange: Exchange
    by_initiator: bool


class Reader:
    """Reads the datagrams of a session, by the table of the grammar."""

    def __init__(self, session: Session) -> None:
        self.session, self.layout, self.words = session, Layout(session), window_words(session.version)
        self.signature, self.peers = self.layout.signature, range(1, session.peers + 1)

    def read(self, datagram: bytes) -> Block | Evict | Manifest | Message | None:
        """Returns the datagram as a Manifest, Evict, Block or Message, or None if it isn't the encoding of one."""
        head = head_of(datagram, self.session)
        if not head or head.kind not in GRAMMAR or head.kind == EVIDENCE or len(datagram) != self.layout.length_of(head.kind, datagram):
            return None
        values, end = self.layout.values(head.kind, datagram)
        if not 1 <= values["round"] <= self.session.rounds:
            return None
        call = self.release if head.kind in (MANIFEST, BLOCK, EVICT) else self.message
        return call(head, values, memoryview(datagram)[end:])

    def release(self, head: Head, values: Values, rest: memoryview) -> Block | Evict | Manifest | None:
        """Returns a datagram of the broadcaster, or None if its sender or receiver is wrong."""
        if head.sender != 0 or (head.kind != BLOCK and head.receiver != EVERYONE):
            return None
        number = values["round"]
        if head.kind == BLOCK:
            return Block(head.receiver, Update(number, values["index"]), values["block"])
        if head.kind == EVICT:
            return Evict(number, struct.unpack_from(f">{values['count']}H", rest))
        digests = (bytes(rest[DIGEST_SIZE * at : DIGEST_SIZE * (at + 1)]) for at in range(values["count"]))
        return Manifest(number, {Update(number, at): digest for at, digest in enumerate(digests)})

    def message(self, head: Head, values: Values, rest: memoryview) -> Message | None:
        """Returns a datagram of an exchange, or None if it names no exchange or its counts are wrong."""
        place = self.place(head, values)
        if place and head.kind == CASE:
            return self.case(place, values, rest)
        return place and (Key(*place, values["key"]) if head.kind == KEY else Message(*place))

    def place(self, head: Head, values: Values) -> Place | None:
        """Returns the kind, the exchange and whether the initiator is the sender, or None if the datagram names no exchange."""
        push, by_initiator = FIRST_MESSAGES.get(head.kind) or (values["exchange kind"], 1 - values["role"])
        sender, receiver = head.sender, head.receiver
        if sender == receiver or sender not in self.peers or receiver not in self.peers or push > 1 or by_initiator < 0:
            return None
        sides = (sender, receiver) if by_initiator else (receiver, sender)
        return Place(head.kind, Exchange(values["round"], push == 1, *sides), by_initiator == 1)

    def exchange_of(self, datagram: bytes) -> Exchange | None:
        """Returns the exchange of a datagram, whatever it promises, or None if it belongs to none."""
        head = head_of(datagram, self.session)
        if not head or head.kind not in MESSAGES or len(datagram) != self.layout.length_of(head.kind, datagram):
            return None
        place = self.place(head, self.layout.values(head.kind, datagram)[0])
        return place and place.exchange

    def case(self, place: Place, values: Values, rest: memoryview) -> Case | None:
        """Returns a CASE, or None if its counts aren't those of its promise."""
        terms = self.terms_of(place.exchange, values)
        promise = terms.promise(place.by_initiator, self.session.cap)
        if (len(promise.updates), promise.junk) != (values["updates"], values["junk"]):
            return None
        return Case(*place, terms, promise, rest[: -self.signature])

    def terms_of(self, exchange: Exchange, values: Values) -> BalancedTerms | PushTerms:
        """Returns the terms of a CASE of this exchange."""
        names = ("young", "aged", "wanted", "given") if exchange.push else ("initiator's", "responder's")
        windows = [self.updates_in(exchange.round, values[name]) for name in names]
        return PushTerms(*windows, values["junk by terms"]) if exchange.push else BalancedTerms(values["nonce"], *windows)

    def updates_in(self, number: int, window: bytes) -> Window:
        """Returns the updates of a window of this round."""
        form = f"{self.words * self.session.life}Q"
        bits = int.from_bytes(struct.pack(f"<{form}", *struct.unpack(f">{form}", window)), "little")
        return Window(max(1, number - self.session.life + 1), WORD * self.words, bits)
