"""A sender that attacks a session while it runs, and what became of its datagrams, by the files that the parties left.

It sends every party datagrams that are cut, changed, forged, replayed, random or of another session. It has no secret, but sees everything
that peers receive: it reads their recordings as they grow. A seed determines the random choices, and a plan the number of datagrams and of
seconds. Which datagrams there are to choose from depends on the run.
"""
import collections
import dataclasses
import pathlib
import random
import socket
import threading
import time
from collections.abc import Collection, Iterator

from gossip.formats.datagrams import Reader
from gossip.formats.files import (
    BLOCK,
    DATAGRAM_HEAD,
    DIVULGE,
    EVICT,
    EVIDENCE,
    KEYREQ,
    MAGIC,
    Head,
    Session,
    entries_of,
    head_of,
    manifests_of,
)
from gossip.runs.watching import Growing
from gossip.scripts.console import counted
from gossip.sessions.session_folder import LOOPBACK

# the seconds between two looks, the most datagrams that one look sends, and how many of the datagrams seen are kept
LOOK, BURST, SEEN = 0.005, 200, 3000

# the size of the largest datagram, and the bound on the size of a random one
LARGEST, LONGEST_RANDOM = 65_507, 3000

EVERYONE = 0xFFFF

# the kinds that aren't signed: a changed datagram of such a kind may be as valid as the original
UNSIGNED = (BLOCK, DIVULGE, KEYREQ, EVIDENCE)


def cut(draw: random.Random, _session: Session, datagram: bytes, _other: bytes) -> bytes:
    """Returns a proper prefix of the datagram."""
    return datagram[: draw.randrange(len(datagram))]


def flipped(draw: random.Random, _session: Session, datagram: bytes, _other: bytes) -> bytes:
    """Returns the datagram with one bit flipped, or with a few random bytes written over its own."""
    changed = bytearray(datagram)
    at = draw.randrange(len(changed))
    if draw.random() < 0.5:
        changed[at] ^= 1 << draw.randrange(8)
    else:
        some = draw.randbytes(draw.randrange(1, 9))
        changed[at : at + len(some)] = some
    return bytes(changed)


def longer(draw: random.Random, _session: Session, datagram: bytes, _other: bytes) -> bytes:
    """Returns the datagram with random bytes appended."""
    return datagram + draw.randbytes(draw.randrange(1, 40))


def readdressed(draw: random.Random, session: Session, datagram: bytes, _other: bytes) -> bytes:
    """Returns the datagram with its kind, sender, receiver or round replaced."""
    kind, sender, receiver, number = datagram[3], datagram[12:14], datagram[14:16], datagram[16:20]
    parties = [party.to_bytes(2, "big") for party in (*session.parties, EVERYONE)]
    match draw.randrange(4):
        case 0:
            kind = draw.randrange(1, 13)
        case 1:
            sender = draw.choice(parties)
        case 2:
            receiver = draw.choice(parties)
        case 3:
            number = draw.randrange(1, session.rounds + 1).to_bytes(4, "big")
    return datagram[:3] + bytes([kind]) + datagram[4:12] + sender + receiver + number + datagram[20:]


def signed_by_another(_draw: random.Random, session: Session, datagram: bytes, other: bytes) -> bytes:
    """Returns the datagram with the signature of another one."""
    size = Reader(session).signature
    return datagram[:-size] + other[-size:]


def renamed(_draw: random.Random, session: Session, _datagram: bytes, other: bytes) -> bytes:
    """Returns a datagram of another session with the id of this one."""
    return other[:4] + bytes.fromhex(session.id) + other[12:]


def accusing(draw: random.Random, session: Session, datagram: bytes, other: bytes) -> bytes:
    """Returns an EVIDENCE of one or two real datagrams, which proves nothing."""
    both = [datagram, other][: draw.randrange(1, 3)]
    body = bytes([len(both)]) + b"".join(len(it).to_bytes(2, "big") + it for it in both)
    return head(session, EVIDENCE, draw.randrange(1, session.peers + 1), 0) + body


def evicting(draw: random.Random, session: Session, _datagram: bytes, other: bytes) -> bytes:
    """Returns an EVICT of a peer, with the signature of another datagram."""
    parties = draw.randrange(1, session.peers + 1).to_bytes(2, "big")
    number = draw.randrange(1, session.rounds + 1).to_bytes(4, "big")
    return head(session, EVICT, 0, EVERYONE) + number + b"\x01" + parties + other[-Reader(session).signature :]


def asking(draw: random.Random, session: Session, _datagram: bytes, _other: bytes) -> bytes:
    """Returns a KEYREQ for an arbitrary key."""
    sender, receiver = draw.sample(range(1, session.peers + 1), 2)
    number = draw.randrange(1, session.rounds + 1).to_bytes(4, "big")
    return head(session, KEYREQ, sender, receiver) + number + bytes([draw.randrange(2), draw.randrange(2)])


def head(session: Session, kind: int, sender: int, receiver: int) -> bytes:
    """Returns the head of a datagram of the session."""
    front = MAGIC + bytes([session.version, kind]) + bytes.fromhex(session.id)
    return front + sender.to_bytes(2, "big") + receiver.to_bytes(2, "big")


CHANGES = (flipped, flipped, longer, readdressed, signed_by_another)
FORGERIES = (accusing, evicting, asking)

# the ways in which datagrams are made, in the order in which they are reported
WAYS = ("cut", "changed", "forged", "replayed", "random", "of another session")


@dataclasses.dataclass(frozen=True)
class Plan:
    """What an attack sends: how many datagrams in how many seconds, the seed of the choices, and the datagrams of another session."""

    foreign: list[bytes]
    seed: str
    count: int
    seconds: float


class Attack:
    """Attacks a session that is running."""

    def __init__(self, session: Session, begin: int, recordings: list[pathlib.Path], plan: Plan) -> None:
        self.session, self.begin, self.plan = session, begin / 1000, plan
        self.growing, self.draw = [Growing(path) for path in recordings], random.Random(plan.seed)
        # the last datagrams that peers received, all that they received, and the datagrams made here, each with its way
        self.seen: collections.deque[bytes] = collections.deque(maxlen=SEEN)
        self.known: set[bytes] = set()
        self.made: dict[bytes, str] = {}
        # how many datagrams were sent, by way, and how often each copy was sent to a party
        self.sent, self.copies = collections.Counter(), collections.Counter()

    def read(self) -> None:
        """Records the datagrams that peers received, except those that were made here or are too short."""
        for growing in self.growing:
            for entry in growing.more():
                if entry and len(entry) > DATAGRAM_HEAD + 4 and entry not in self.known and entry not in self.made:
                    self.known.add(entry)
                    self.seen.append(entry)

    def next(self) -> tuple[str, bytes]:
        """Returns the way and the bytes of the next datagram."""
        way = self.draw.choice(WAYS)
        if way == "random":
            data = self.draw.randbytes(self.draw.randrange(LONGEST_RANDOM))
            return way, data if self.draw.random() < 0.5 else head(self.session, self.draw.randrange(256), 1, 2) + data
        if way == "of another session":
            return way, self.draw.choice(self.plan.foreign)
        datagram, other = self.draw.choice(self.seen), self.draw.choice(self.seen)
        if way == "replayed":
            return way, datagram
        if way == "forged" and self.draw.random() < 0.3:
            return way, renamed(self.draw, self.session, datagram, self.draw.choice(self.plan.foreign))
        change = cut if way == "cut" else self.draw.choice(CHANGES if way == "changed" else FORGERIES)
        return way, change(self.draw, self.session, datagram, other)[:LARGEST]

    def send_one(self, sender: socket.socket) -> None:
        """Sends a datagram to a random party."""
        way, datagram = self.next()
        party = self.draw.choice(self.session.parties)
        sender.sendto(datagram, (LOOPBACK, self.session.port + party))
        self.sent[way] += 1
        if way == "replayed" or datagram in self.known:
            self.copies[party, datagram] += 1
        else:
            self.made.setdefault(datagram, way)

    def look(self, now: float, sender: socket.socket) -> None:
        """Reads the recordings. Once a peer has received a datagram, sends as many as are due at this time, which is in seconds."""
        self.read()
        if self.seen:
            due = min(self.plan.count, round(self.plan.count * (now - self.begin) / self.plan.seconds)) - self.sent.total()
            for _ in range(min(due, BURST)):
                self.send_one(sender)

    def looks(self, ended: threading.Event) -> None:
        """Looks repeatedly until `ended` is set."""
        with socket.socket(socket.AF_INET, socket.SOCK_DGRAM) as sender:
            while not ended.wait(LOOK):
                self.look(time.time(), sender)


# ---- floods

# how many datagrams a flood sends to each peer before it sends to the next one
FLOOD_BURST = 64

# what floods send: datagrams of zeros of the largest size, or KEYREQs of the session, which are the shortest datagrams
FLOODS = {
    "long": lambda session, party: bytes(LARGEST),
    "short": lambda session, party: head(session, KEYREQ, party % session.peers + 1, party) + bytes([0, 0, 0, 1, 0, 0]),
}


class Flood:
    """Sends datagrams of one kind to all peers of a session, as fast as it can."""

    def __init__(self, session: Session, kind: str) -> None:
        self.targets = [(FLOODS[kind](session, party), (LOOPBACK, session.port + party)) for party in session.parties if party]
        self.sent = 0

    def looks(self, ended: threading.Event) -> None:
        """Sends until `ended` is set."""
        with socket.socket(socket.AF_INET, socket.SOCK_DGRAM) as sender:
            while not ended.is_set():
                for datagram, target in self.targets:
                    for _ in range(FLOOD_BURST):
                        sender.sendto(datagram, target)
                    self.sent += FLOOD_BURST


# ---- the effects of an attack


@dataclasses.dataclass
class Came:
    """What became of the datagrams of one way: how many peers took and answered, and how many are in the parties' findings."""

    taken: int = 0
    answered: int = 0
    found: int = 0
    # the kinds of the datagrams that were answered
    kinds: collections.Counter[int] = dataclasses.field(default_factory=collections.Counter)

    def note(self, head: Head | None, is_answered: bool) -> None:
        """Counts a datagram that a peer took, by its head, which is None if the datagram isn't one of the session."""
        self.taken += 1
        self.answered += is_answered
        self.kinds.update([head.kind if head else 0] if is_answered else [])


def came_of(attack: Attack, party: int, recording: bytes, answered: Collection[int], came: dict[str, Came]) -> None:
    """Adds what a peer received, by its recording and the numbers of the inputs that its replay answers."""
    copies = collections.Counter({datagram: count for (to, datagram), count in attack.copies.items() if to == party})
    first = set()
    for number, entry in enumerate(entries_of(recording)[0], 1):
        way = attack.made.get(entry)
        if way is None and copies[entry] > 0 and entry in first:
            copies[entry] -= 1
            way = "replayed"
        first.add(entry)
        if way is not None:
            came[way].note(head_of(entry, attack.session), number in answered)


def found_of(attack: Attack, findings: dict[str, bytes], came: dict[str, Came]) -> None:
    """Adds the datagrams made by the attacker that are in a party's table or evidence."""
    for name, data in findings.items():
        # an evidence file is a count, and then datagrams as in a table
        for _, datagram in manifests_of(data if name == "table" else data[1:]):
            if datagram in attack.made:
                came[attack.made[datagram]].found += 1


def faults_of(came: dict[str, Came]) -> Iterator[str]:
    """Yields what the attacker achieved against the rules: a datagram that it made was answered, or is in a party's findings."""
    for way, it in came.items():
        # a datagram that isn't signed may be changed into another valid one
        bad = sum(count for kind, count in it.kinds.items() if kind not in UNSIGNED or way not in ("changed", "forged"))
        if bad and way != "replayed":
            yield f"{way}: {counted(bad, 'datagram')} answered"
        if it.found:
            yield f"{way}: {counted(it.found, 'datagram')} in what a party found"


def line_of(way: str, sent: int, came: Came) -> str:
    """Returns a line on what became of the datagrams of one way."""
    return f"{way}: {sent:,} sent, {came.taken:,} taken by peers, {came.answered:,} answered, {came.found:,} in what a party found"
