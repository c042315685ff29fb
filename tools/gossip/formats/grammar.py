"""The grammar of datagrams as one table: for each kind its name, whether it is signed, and its fields in order.

Everything that reads datagrams uses this table: the scripts, and the dissector that is made for Wireshark.
"""
import dataclasses
import typing
from collections.abc import Iterator

from gossip.formats.files import (
    BLOCK,
    CASE,
    DATAGRAM_HEAD,
    DIVULGE,
    EVICT,
    EVIDENCE,
    KEY,
    KEYREQ,
    MANIFEST,
    QUERY,
    REPLY,
    REQUEST,
    RESPONSE,
    SIGNED,
    UPDATES,
    Malformed,
    Session,
)

# how many bytes an update's block has, a junk item, a digest, and a nonce or a key
BLOCK_SIZE, JUNK_SIZE, DIGEST_SIZE, SECRET_SIZE = 1024, 1280, 32, 32

# how many bytes the public key of one tree has
PUBLIC_KEY_SIZE = 56

# for how many updates a word of a window has bits, and how many bytes it has
WORD, WORD_SIZE = 64, 8

# the levels of a tree by its LMS type, and the chains of a one-time signature by its LM-OTS type
LEVELS = {5: 5, 6: 10, 7: 15}
CHAINS = {1: 265, 2: 133, 3: 67, 4: 34}

# the forms of a field: a number, bytes, a window of the session's size, or a datagram after its length of two bytes
NUMBER, BYTES, WINDOW, DATAGRAM = "number", "bytes", "window", "datagram"
LENGTH_SIZE = 2


@dataclasses.dataclass(frozen=True)
class Field:
    """A field of a datagram. It occurs as often as the field `times` says. If `only` is given, it occurs only in exchanges of this kind."""

    name: str
    form: str
    size: int = 0
    times: str | None = None
    only: int | None = None


@dataclasses.dataclass(frozen=True)
class Kind:
    """A kind of datagrams: its name, and its fields after the head. If it is signed, a signature follows the fields."""

    name: str
    is_signed: bool
    fields: tuple[Field, ...]


ROUND, COUNT = Field("round", NUMBER, 4), Field("count", NUMBER, 1)
SEED = Field("seed", BYTES, SECRET_SIZE)
OF_EXCHANGE = ROUND, Field("exchange kind", NUMBER, 1), Field("role", NUMBER, 1)


def windows(*names: str, only: int | None = None) -> tuple[Field, ...]:
    return tuple(Field(name, WINDOW, only=only) for name in names)


# after the numbers of a CASE: the terms of a balanced exchange or of a push, and what is promised, encrypted
TERMS = (
    Field("nonce", BYTES, SECRET_SIZE, only=0),
    *windows("initiator's", "responder's", only=0),
    *windows("young", "aged", "wanted", "given", only=1),
    Field("junk by terms", NUMBER, 1, only=1),
)
SEALED = Field("sealed updates", BYTES, BLOCK_SIZE, "updates"), Field("sealed junk", BYTES, JUNK_SIZE, "junk")

FIELDS = {
    MANIFEST: (ROUND, COUNT, Field("digests", BYTES, DIGEST_SIZE, "count")),
    BLOCK: (ROUND, Field("index", NUMBER, 1), Field("block", BYTES, BLOCK_SIZE)),
    REQUEST: (ROUND, SEED, Field("commitment", BYTES, DIGEST_SIZE)),
    RESPONSE: (ROUND, *windows("responder's")),
    DIVULGE: (ROUND, Field("nonce", BYTES, SECRET_SIZE), *windows("initiator's")),
    QUERY: (ROUND, SEED, *windows("young", "aged")),
    REPLY: (ROUND, *windows("wanted", "given"), Field("junk", NUMBER, 1)),
    CASE: (*OF_EXCHANGE, Field("updates", NUMBER, 1), Field("junk", NUMBER, 1), *TERMS, *SEALED),
    KEYREQ: OF_EXCHANGE,
    KEY: (*OF_EXCHANGE, Field("key", BYTES, SECRET_SIZE)),
    EVIDENCE: (COUNT, Field("datagrams", DATAGRAM, times="count")),
    EVICT: (ROUND, COUNT, Field("parties", NUMBER, 2, "count")),
}

NAMES = dict(zip(FIELDS, "MANIFEST BLOCK REQUEST RESPONSE DIVULGE QUERY REPLY CASE KEYREQ KEY EVIDENCE EVICT".split()))
GRAMMAR = {kind: Kind(NAMES[kind], kind in SIGNED, fields) for kind, fields in FIELDS.items()}

# the names of the exchange kinds and of the roles
EXCHANGE_KINDS, ROLES = ("balanced", "push"), ("initiator", "responder")

# the head, before the fields
HEAD = (
    Field("magic", BYTES, 2),
    Field("version", NUMBER, 1),
    Field("kind", NUMBER, 1),
    Field("session", BYTES, 8),
    Field("from", NUMBER, 2),
    Field("to", NUMBER, 2),
)


def name_of(kind: int | None) -> str:
    """Returns the name of a kind of datagrams, or "OTHER" if no kind has this number."""
    return NAMES.get(kind, "OTHER")


def signature_size(lms: int, ots: int, top: int | None = None) -> int:
    """Returns how many bytes a signature has: its leaf, both types, a one-time signature and a path.

    A signature of two levels has two of these, with a number before them and the lower public key between them.
    """
    size = 12 + 32 * (1 + CHAINS[ots] + LEVELS[lms])
    return 4 + signature_size(top, ots) + PUBLIC_KEY_SIZE + size if top else size


def window_words(version: int) -> int:
    """Returns how many words a window has for each round."""
    return UPDATES[version] // WORD


def window_size(session: Session) -> int:
    """Returns how many bytes a window of a session has."""
    return WORD_SIZE * window_words(session.version) * session.life


# the numbers and bytes of fields, by their names
Values = dict[str, int | bytes]


@dataclasses.dataclass(frozen=True)
class Span:
    """A field of a datagram, with its position and its size."""

    field: Field
    at: int
    size: int

    def value_in(self, datagram: bytes) -> bytes | int:
        """Returns the number or the bytes of the field in a datagram."""
        value = datagram[self.at : self.at + self.size]
        return int.from_bytes(value, "big") if self.field.form == NUMBER else value


class Places(typing.NamedTuple):
    """The fields with fixed positions, by name, the fields that occur as often as a count says, and where these begin."""

    fixed: dict[str, Span]
    more: list[Field]
    end: int


class Layout:
    """The positions of the fields of a session's datagrams."""

    def __init__(self, session: Session) -> None:
        self.window = window_size(session)
        self.signature = signature_size(session.lms, session.ots, session.top)
        self.table = {(kind, push): self.places(kind, push) for kind in GRAMMAR for push in ((0, 1) if kind == CASE else (None,))}

    def size_of(self, field: Field) -> int:
        """Returns how many bytes one occurrence of a field has."""
        return self.window if field.form == WINDOW else field.size

    def places(self, kind: int, push: int | None) -> Places:
        """Returns the places of a kind's fields, in a CASE those of a balanced exchange or of a push."""
        at, fixed, more = DATAGRAM_HEAD, {}, []
        for field in GRAMMAR[kind].fields:
            if field.only not in (None, push):
                continue
            if field.times:
                more.append(field)
                continue
            fixed[field.name] = Span(field, at, self.size_of(field))
            at += self.size_of(field)
        return Places(fixed, more, at)

    def places_in(self, kind: int, datagram: bytes) -> Places:
        """Returns the places of a datagram's fields. In a CASE they depend on its exchange kind, of which any but 0 means a push."""
        at = DATAGRAM_HEAD + ROUND.size
        return self.table[kind, int(datagram[at : at + 1] > b"\0") if kind == CASE else None]

    def length_of(self, kind: int, datagram: bytes) -> int | None:
        """Returns the length that a datagram of this kind has by its counts, or None if these are missing."""
        fixed, more, end = self.places_in(kind, datagram)
        if more and len(datagram) < end:
            return None
        for field in more:
            for _ in range(fixed[field.times].value_in(datagram)) if field.form == DATAGRAM else ():
                size = datagram[end : end + LENGTH_SIZE]
                if len(size) < LENGTH_SIZE:
                    return None
                end += LENGTH_SIZE + int.from_bytes(size, "big")
            end += field.size * fixed[field.times].value_in(datagram)
        return end + (self.signature if GRAMMAR[kind].is_signed else 0)

    def values(self, kind: int, datagram: bytes) -> tuple[Values, int]:
        """Returns the numbers and bytes of the fields with fixed positions, by name, and where the rest begins."""
        fixed, _, end = self.places_in(kind, datagram)
        return {name: span.value_in(datagram) for name, span in fixed.items()}, end

    def spans(self, kind: int, datagram: bytes) -> Iterator[Span]:
        """Yields all fields of a datagram of this kind in order, and its signature. If its counts give another length, it is refused."""
        if len(datagram) != self.length_of(kind, datagram):
            raise Malformed(f"a {name_of(kind)} has another length than its counts give")
        fixed, more, at = self.places_in(kind, datagram)
        yield from fixed.values()
        for field in more:
            for _ in range(fixed[field.times].value_in(datagram)):
                size = field.size
                if field.form == DATAGRAM:
                    size, at = int.from_bytes(datagram[at : at + LENGTH_SIZE], "big"), at + LENGTH_SIZE
                yield Span(field, at, size)
                at += size
        if GRAMMAR[kind].is_signed:
            yield Span(Field("signature", BYTES, self.signature), at, self.signature)
