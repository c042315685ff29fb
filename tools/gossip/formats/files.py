"""Reads the files and datagrams that docs/FORMATS.md defines. An invalid one is refused with the reason (`Malformed`)."""
import dataclasses
import hashlib
import io
import itertools
import pathlib
import re
import reprlib
import tomllib
import typing
from collections.abc import Callable, Collection, Container, Iterable, Iterator, Mapping, Sequence

from gossip.scripts.console import Failure, counted, listed

# the most bytes of content of an update, and the ticks of a round
CONTENT = 1022
SLOTS = 8

# how many leaves of a key a round uses, and how many leaves a tree of each LMS type has
LEAVES_A_ROUND = 18
LEAVES = {5: 32, 6: 1024, 7: 32_768}

# the LMS type of the lower trees of a key of two levels
LOWER = 5

# how many updates a round has at most in a session of each version
UPDATES = {1: 64, 2: 128, 3: 128}

# the kinds of datagrams, and those that are signed
MANIFEST, BLOCK, REQUEST, RESPONSE, DIVULGE, QUERY, REPLY, CASE, KEYREQ, KEY, EVIDENCE, EVICT = range(1, 13)
SIGNED = {MANIFEST, REQUEST, RESPONSE, QUERY, REPLY, CASE, KEY, EVICT}

# the size of a recording's head
RECORDING_HEAD = 15
# the most bytes of a file that the program reads
LARGEST_FILE = 1 << 30
# the size of a datagram's head, and what every datagram begins with, before the session's version
DATAGRAM_HEAD = 16
MAGIC = b"\xba\x47"


# the numbers of a session or of a key, by name; and the same as given, with the text in place of one that couldn't be read
Numbers = dict[str, int]
Given = dict[str, int | str]


class Malformed(Failure):
    """What was read isn't valid."""


class Head(typing.NamedTuple):
    """What the head of a datagram says after its session."""

    kind: int
    sender: int
    receiver: int


# ---- numbers


@dataclasses.dataclass(frozen=True)
class Number:
    """The range of a number of a session or a key, the number's meaning, and a note on the range."""

    least: int
    most: int
    told: str
    why: str = ""

    def has(self, value: object) -> bool:
        """Whether a value is a number in this range."""
        return type(value) is int and self.least <= value <= self.most

    @property
    def shown(self) -> str:
        """The range, in words."""
        numbers = f"{self.least:,}" if self.least == self.most else f"a whole number of {self.least:,} to {self.most:,}"
        return f"{numbers}{self.why}"


# the ranges that some numbers have instead if signatures have two levels
RANGES_WITH_TOP = {"rounds": (1, 7200), "lms": (LOWER, LOWER), "ots": (3, 4)}
LONGEST = RANGES_WITH_TOP["rounds"][1]

VERSIONS = "the version: a round has up to 64 updates in 1, 128 in 2 and 3; in 3 a party that owes a key isn't served, and losses cost less"

NUMBERS = {
    "version": Number(min(UPDATES), max(UPDATES), VERSIONS),
    "peers": Number(2, 200, "how many peers there are"),
    "top": Number(5, 7, "the LMS type of the upper tree, if signatures have two levels"),
    "rounds": Number(1, 1820, "for how many rounds the stream is sent", f", or to {LONGEST:,} with top"),
    "life": Number(2, 16, "how many rounds an update lives"),
    "cap": Number(1, 16, "how many items an exchange trades at most"),
    "per_round": Number(1, max(UPDATES.values()), "how many updates a round has at most"),
    "fanout": Number(1, 200, "how many peers the broadcaster sends an update to, at most all of them"),
    "port": Number(1024, 65_335, "the broadcaster's port, before those of the peers"),
    "tick_ms": Number(1, 60_000, f"how many milliseconds a tick has; a round has {SLOTS} ticks"),
    "lms": Number(5, 7, "the LMS type"),
    "ots": Number(1, 4, "the LM-OTS type"),
    "party": Number(0, 200, "the party"),
}


def range_of(name: str, numbers: Mapping[str, object]) -> Number:
    """Returns the range of one of these numbers, which may depend on another of them."""
    number = NUMBERS[name]
    if name in RANGES_WITH_TOP and "top" in numbers:
        least, most = RANGES_WITH_TOP[name]
        return dataclasses.replace(number, least=least, most=most, why=" with top")
    if name == "fanout" and NUMBERS["peers"].has(numbers.get("peers")):
        return dataclasses.replace(number, most=numbers["peers"], why=", the number of peers")
    if name == "per_round" and NUMBERS["version"].has(numbers.get("version")):
        return dataclasses.replace(number, most=UPDATES[numbers["version"]], why=f" in version {numbers['version']}")
    return number


def faults_of_number(name: str, numbers: Mapping[str, object], shown: str) -> Iterator[str]:
    """Yields why one of these numbers is refused, if it is. The fault names it by `shown`."""
    number, value = range_of(name, numbers), numbers.get(name)
    if value is None:
        yield f"{shown} is missing"
    elif not number.has(value):
        yield f"{shown} is {reprlib.repr(value)}: it has to be {number.shown}"


def version_for(per_round: int) -> int:
    """Returns the lowest version in which a round may have this many updates."""
    return min(version for version, most in UPDATES.items() if most >= per_round)


def leaves_of(lms: int, top: int | None = None) -> int:
    """Returns how many leaves of a key sign messages: those of its tree, or of the lower trees below the leaves of the upper one."""
    return LEAVES[lms] * (LEAVES[top] if top else 1)


def most_rounds_of(top: int | None) -> int:
    """Returns for how many rounds the stream is sent at most, with this upper tree or with none."""
    return range_of("rounds", {"top": top} if top else {}).most


def tree_for(rounds: int, top: int | None = None) -> str:
    """Returns in words the smallest tree with enough leaves for this many rounds. It is an upper one if there is one, or must be."""
    need = LEAVES_A_ROUND * rounds
    if top or rounds > most_rounds_of(None):
        return f"top {min(each for each in LEAVES if leaves_of(LOWER, each) >= need)}"
    return f"LMS type {min(each for each in LEAVES if leaves_of(each) >= need)}"


def faults_of_leaves(rounds: int, lms: int, top: int | None = None) -> Iterator[str]:
    """Yields why this many rounds are refused with keys of this LMS type, and of this upper tree if there is one."""
    need, have = LEAVES_A_ROUND * rounds, leaves_of(lms, top)
    if need > have:
        tree = f"top {top}" if top else f"LMS type {lms}"
        told = f"{counted(rounds, 'round')} need {need:,} leaves, and a key of {tree} has {have:,}"
        yield f"{told}: take {tree_for(rounds, top)}, or at most {counted(have // LEAVES_A_ROUND, 'round')}"


def faults_of_numbers(numbers: Mapping[str, object], names: Iterable[str], shown: Callable[[str], str] = str) -> Iterator[str]:
    """Yields why numbers are refused, if they are. The names include `rounds` and `lms`, and `top` if signatures have two levels.

    `shown` returns the name that a fault uses for a number.
    """
    faults = {name: [*faults_of_number(name, numbers, shown(name))] for name in names}
    yield from itertools.chain(*faults.values())
    if not any(faults.get(name) for name in ("top", "rounds", "lms")):
        yield from faults_of_leaves(numbers["rounds"], numbers["lms"], numbers.get("top"))


def room_of(rounds: int, per_round: int) -> int:
    """Returns how many bytes a stream may have."""
    return rounds * per_round * CONTENT


@dataclasses.dataclass(frozen=True)
class Room:
    """The numbers of a session that determine how long its stream may be."""

    version: int
    rounds: int
    per_round: int
    lms: int
    top: int | None = None

    def told(self, rounds: int, per_round: int) -> str:
        """Returns these rounds and updates in words, with the version and the tree that they need if the session's are too small."""
        needed = [f"version {version_for(per_round)}"] if per_round > UPDATES[self.version] else []
        needed += [tree_for(rounds, self.top)] if LEAVES_A_ROUND * rounds > leaves_of(self.lms, self.top) else []
        told = f"{counted(rounds, 'round')} of {counted(per_round, 'update')}"
        return f"{told} with {listed(needed)}" if needed else told

    def larger(self, length: int) -> str:
        """Returns in words which numbers have room for a stream of this length: more rounds, more updates a round, or both.

        If nothing else has room, more rounds than a key of one level has leaves for are offered.
        """
        pieces, most_updates = -(-length // CONTENT), NUMBERS["per_round"].most
        fullest = [(-(-pieces // updates), updates) for updates in sorted({UPDATES[self.version], most_updates})]
        ways = [*dict.fromkeys([(-(-pieces // self.per_round), self.per_round), (self.rounds, -(-pieces // self.rounds)), *fullest])]
        for most_rounds in (most_rounds_of(self.top), LONGEST):
            having = [(rounds, updates) for rounds, updates in ways if rounds <= most_rounds and updates <= most_updates]
            if having:
                return f"take {' or '.join(self.told(rounds, updates) for rounds, updates in having[:2])}"
        return f"take a stream of at most {room_of(LONGEST, most_updates):,} bytes, the room of the longest session"

    def faults(self, length: int) -> Iterator[str]:
        """Yields why a stream of this length is refused, if it is."""
        size = room_of(self.rounds, self.per_round)
        if length > size:
            told = f"{counted(self.rounds, 'round')} of {counted(self.per_round, 'update')} have room for {size:,}"
            yield f"the stream has {length:,} bytes, and {told}: {self.larger(length)}"


# ---- texts


def document_of(text: bytes, versions: Collection[int]) -> dict[str, object]:
    """Returns the dictionary of a TOML document. Any version but these is refused."""
    try:
        document = tomllib.loads(text.decode())
    except (ValueError, RecursionError) as error:
        raise Malformed(f"it isn't valid TOML: {error}") from None
    version = document.get("version")
    if version is None:
        raise Malformed("its version is missing")
    if type(version) is not int or version not in versions:
        raise Malformed(f"its version is {reprlib.repr(version)}: it has to be {listed(versions, 'or')}")
    return document


def faults_of_digits(name: str, value: object, count: int) -> Iterator[str]:
    """Yields why a value that should be a text of this many hex digits is refused, if it is."""
    if value is None:
        yield f"{name} is missing"
    elif not isinstance(value, str) or not re.fullmatch(f"[0-9a-fA-F]{{{count}}}", value):
        yield f"{name} isn't a text of {count} hex digits"


def faults_of_public_keys(document: Mapping[str, object], peers: Sequence[Mapping[str, object]]) -> Iterator[str]:
    """Yields why the public keys of a session's text are refused, given valid types. Keys of two levels begin with the number 2."""
    size, front, tree = (120, f"{2:08x}", "top") if "top" in document else (112, "", "lms")
    types, owners = f"{front}{document[tree]:08x}{document['ots']:08x}", {}
    for name, value in [("key", document.get("key")), *((f"peer {number} key", peer.get("key")) for number, peer in enumerate(peers, 1))]:
        faults = [*faults_of_digits(name, value, size)]
        if not faults and not value.startswith(types):
            faults.append(f"{name} isn't of the types {tree} and ots")
        if not faults and owners.setdefault(value.lower(), name) != name:
            faults.append(f"{name} is {owners[value.lower()]} too")
        yield from faults


def faults_of_anchors(peers: Sequence[Mapping[str, object]]) -> Iterator[str]:
    """Yields why the anchors of a session's text are refused, if they are."""
    for number, peer in enumerate(peers, 1):
        yield from faults_of_digits(f"peer {number} anchor", peer.get("anchor"), 64)


def names_in(document: Container[str], names: Iterable[str]) -> list[str]:
    """Returns these names of numbers, without `top` if the document has none."""
    return [name for name in names if name != "top" or name in document]


@dataclasses.dataclass(frozen=True)
class Session:
    """The id and the numbers of a session's text. If signatures have two levels, `top` is the type of the upper tree."""

    version: int
    id: str
    rounds: int
    life: int
    cap: int
    per_round: int
    fanout: int
    port: int
    tick_ms: int
    lms: int
    ots: int
    peers: int
    top: int | None = None

    @classmethod
    def of_text(cls, text: bytes) -> "Session":
        """Reads a session's text. If its numbers are refused, its keys and anchors aren't checked."""
        document = document_of(text, UPDATES)
        peers = document.get("peer")
        if not isinstance(peers, list) or not all(isinstance(peer, dict) for peer in peers):
            raise Malformed("it has no tables [[peer]]")
        numbers = document | {"peers": len(peers)}
        names = names_in(document, [field.name for field in dataclasses.fields(cls) if field.name != "id"])
        faults = [*faults_of_digits("id", document.get("id"), 16), *faults_of_numbers(numbers, names)]
        faults = faults or [*faults_of_public_keys(document, peers), *faults_of_anchors(peers)]
        if faults:
            raise Malformed("; ".join(faults))
        return cls(id=document["id"].lower(), **{name: numbers[name] for name in names})

    @classmethod
    def read(cls, path: pathlib.Path) -> "Session":
        """Reads the file of a session's text."""
        return cls.of_text(path.read_bytes())

    @property
    def parties(self) -> list[int]:
        """The numbers of all parties: the peers, and then the broadcaster."""
        return [*range(1, self.peers + 1), 0]

    @property
    def ends(self) -> int:
        """The last round that a party runs through."""
        return self.rounds + self.life + 1

    @property
    def ticks(self) -> int:
        """How many ticks a party receives."""
        return SLOTS * self.ends

    @property
    def seconds(self) -> float:
        """How long a session runs, in seconds."""
        return self.ticks * self.tick_ms / 1000

    @property
    def room(self) -> int:
        """How many bytes a stream may have."""
        return room_of(self.rounds, self.per_round)

    def faults_of_stream(self, length: int) -> Iterator[str]:
        """Yields why a stream of this length is refused, if it is."""
        return Room(self.version, self.rounds, self.per_round, self.lms, self.top).faults(length)


@dataclasses.dataclass(frozen=True)
class KeyFile:
    """The contents of a key file, without its secret. If the key has two levels, `top` is the type of its upper tree."""

    id: str
    party: int
    rounds: int
    lms: int
    ots: int
    spent: bool
    top: int | None = None

    @classmethod
    def of_text(cls, text: bytes) -> "KeyFile":
        """Reads a key file, whose version is 1 in a session of any version."""
        document = document_of(text, [1])
        names = names_in(document, ["party", "rounds", "lms", "ots", "top"])
        faults = [*faults_of_digits("id", document.get("id"), 16), *faults_of_numbers(document, names)]
        faults += faults_of_digits("secret", document.get("secret"), 64)
        if type(document.get("spent")) is not bool:
            faults.append("spent is neither true nor false")
        if faults:
            raise Malformed("; ".join(faults))
        return cls(document["id"].lower(), spent=document["spent"], **{name: document[name] for name in names})

    def faults(self, session: Session, party: int) -> Iterator[str]:
        """Yields why this isn't the session's key of the party, if it isn't. The public key isn't checked."""
        wanted = {"id": session.id, "party": party} | {name: getattr(session, name) for name in ("rounds", "lms", "ots", "top")}
        others = [name for name, value in wanted.items() if getattr(self, name) != value]
        if others:
            yield f"it has another {listed(others)} than party {party} of the session"


def fingerprint_of(text: bytes) -> str:
    """Returns the SHA-256 of a session's text, which identifies it."""
    return hashlib.sha256(text).hexdigest()


# ---- recordings


def inputs_in(recording: typing.BinaryIO) -> Iterator[tuple[bytes | None, int]]:
    """Yields the inputs of a recording, each a datagram or None for a tick, with the position after it. They are read one by one."""
    at = recording.seek(RECORDING_HEAD)
    while (kind := recording.read(1)) in (b"\x01", b"\x02"):
        if kind == b"\x01":
            at += 1
            yield None, at
            continue
        spelled = recording.read(2)
        size = int.from_bytes(spelled, "big")
        entry = recording.read(size)
        if len(spelled) + len(entry) < 2 + size:
            return
        at += 3 + size
        yield entry, at


def has_end_at(recording: typing.BinaryIO, place: int) -> bool:
    """Whether a recording has its end at a position, and nothing after it."""
    recording.seek(place)
    return recording.read(2) == b"\x00"


def entries_of(recording: bytes) -> tuple[list[bytes | None], bool]:
    """Returns the inputs of a recording, and whether the recording has its end."""
    entries, end, file = [], RECORDING_HEAD, io.BytesIO(recording)
    for entry, end in inputs_in(file):
        entries.append(entry)
    return entries, has_end_at(file, end)


def is_whole(recording: typing.BinaryIO) -> bool:
    """Whether a recording has its end."""
    end = RECORDING_HEAD
    for _, end in inputs_in(recording):
        pass
    return has_end_at(recording, end)


def recording_of(head: bytes, entries: Iterable[bytes | None]) -> bytes:
    """Returns the recording with this head and these inputs, with its end."""
    parts = (b"\x01" if entry is None else b"\x02" + len(entry).to_bytes(2, "big") + entry for entry in entries)
    return b"".join([head, *parts, b"\x00"])


def whole_recording(recording: bytes) -> bytes:
    """Returns a recording up to its last whole entry, with an end."""
    return recording_of(recording[:RECORDING_HEAD], entries_of(recording)[0])


# ---- transcripts, tables, findings, datagrams


class Sent(typing.NamedTuple):
    """A line of a transcript: the number of its input, counted from 1, the receiver and the datagram."""

    number: int
    receiver: int
    datagram: bytes


def transcript_of(printed: str) -> Iterator[Sent]:
    """Yields the lines of a transcript, decoded."""
    return sends_of(printed.splitlines())


def sends_of(lines: Iterable[str]) -> Iterator[Sent]:
    """Yields the lines of a transcript, decoded, one by one as they are read."""
    for place, line in enumerate(lines, 1):
        try:
            number, receiver, digits = line.split(" ")
            told = Sent(int(number), int(receiver), bytes.fromhex(digits))
        except ValueError:
            raise Malformed(f"line {place} of the transcript is none: {reprlib.repr(line)}") from None
        yield told


def manifests_of(table: bytes) -> Iterator[tuple[int, bytes]]:
    """Yields the position and the MANIFEST of each entry of a table file."""
    at = 0
    while at < len(table):
        end = at + 2 + int.from_bytes(table[at : at + 2], "big")
        if end > len(table):
            raise Malformed(f"the table is cut in its entry at {at}")
        yield at, table[at + 2 : end]
        at = end


def parts_of(evidence: bytes) -> list[bytes]:
    """Returns the datagrams of an evidence file."""
    parts, at = [], 1
    for number in range(1, evidence[0] + 1 if evidence else 1):
        size = int.from_bytes(evidence[at : at + 2], "big")
        parts.append(evidence[at + 2 : at + 2 + size])
        if len(evidence) < at + 2 + size:
            raise Malformed(f"the evidence is cut in its datagram {number}")
        at += 2 + size
    if not parts or at != len(evidence):
        raise Malformed("the evidence has no datagram" if not parts else f"bytes follow the evidence at {at}")
    return parts


def finding_of(name: str) -> tuple[int, str] | None:
    """Returns the party whose finding has this name, and `table` or the number of the accused; or None if no finding has such a name."""
    told = re.fullmatch(r"party\.(\d+)\.(table|\d+)", name)
    return (int(told[1]), told[2]) if told else None


def head_of(datagram: bytes, session: Session) -> Head | None:
    """Returns the kind, sender and receiver of a datagram of the session, or None if it is none."""
    if len(datagram) < DATAGRAM_HEAD or datagram[:3] != MAGIC + bytes([session.version]) or datagram[4:12].hex() != session.id:
        return None
    return Head(datagram[3], int.from_bytes(datagram[12:14], "big"), int.from_bytes(datagram[14:16], "big"))
