"""Sessions made by hand for the tests: datagrams with signatures of zeros, and what peers record and send."""
import dataclasses
import hashlib
import io
import struct

from gossip.formats.briefcases import exclusive_or, junk_of, keystream
from gossip.formats.datagrams import Exchange, Update
from gossip.formats.files import BLOCK, CASE, EVICT, KEY, KEYREQ, MANIFEST, QUERY, REPLY, REQUEST, RESPONSE, SLOTS, Session, entries_of
from gossip.reports.replays import log_of

NUMBERS = {"rounds": 6, "life": 3, "cap": 2, "fanout": 1, "port": 21000, "tick_ms": 20, "lms": 5, "ots": 4, "peers": 3}
SESSION = Session(1, "00112233445566aa", per_round=4, **NUMBERS)
# a session of version 2, with as many updates a round as it may have
WIDE = Session(2, "00112233445566aa", per_round=128, **NUMBERS)
# a session with signatures of two levels
LONG = dataclasses.replace(SESSION, top=6)
# the lengths of signatures of these types, by the upper tree
LENGTHS = {None: 1292, 6: 2804}
EVERYONE = 0xFFFF


def first_tick(number):
    return SLOTS * (number - 1) + 1


def signature(session):
    """What stands in the place of a signature in a session."""
    return bytes(LENGTHS[session.top])


def block_with(content):
    """The block of an update with this content."""
    return len(content).to_bytes(2, "big") + content.ljust(1022, b"\0")


def blocks_of(session):
    """A block for each update of a session. All of them differ."""
    return {Update(number, index): block_with(bytes([number, index])) for number in range(1, 7) for index in range(session.per_round)}


# blocks that all differ, and blocks that are all the same
PLAIN, WIDE_PLAIN = blocks_of(SESSION), blocks_of(WIDE)
ZEROS = dict.fromkeys(PLAIN, block_with(bytes(1022)))


# ---- datagrams


def datagram(kind, sender, receiver, body, session=SESSION):
    return b"\xba\x47" + bytes([session.version, kind]) + bytes.fromhex(session.id) + struct.pack(">HH", sender, receiver) + body


def manifest(number, blocks=PLAIN, session=SESSION):
    digests = [hashlib.sha256(block).digest() for update, block in sorted(blocks.items()) if update.round == number]
    return datagram(MANIFEST, 0, EVERYONE, struct.pack(">IB", number, len(digests)) + b"".join(digests) + signature(session), session)


def block(receiver, update, blocks=PLAIN, session=SESSION):
    return datagram(BLOCK, 0, receiver, struct.pack(">IB", *update) + blocks[update], session)


def evict(number, *parties, session=SESSION):
    return datagram(EVICT, 0, EVERYONE, struct.pack(f">IB{len(parties)}H", number, len(parties), *parties) + signature(session), session)


def window(number, updates, session=SESSION):
    """A window of a round, as it's written: by rounds, of each the lowest 64 indices first."""
    words = [0] * session.version * session.life
    for update in updates:
        row = update.round - max(1, number - session.life + 1)
        words[session.version * row + update.index // 64] |= 1 << update.index % 64
    return struct.pack(f">{len(words)}Q", *words)


def table(*manifests):
    return b"".join(struct.pack(">H", len(it)) + it for it in manifests)


def evidence(*datagrams):
    return bytes([len(datagrams)]) + b"".join(struct.pack(">H", len(it)) + it for it in datagrams)


@dataclasses.dataclass
class Trade:
    """An exchange: its terms as they are written, and what the responder and the initiator promise: updates, and a number of junk items."""

    exchange: Exchange
    terms: bytes
    promises: tuple
    blocks: dict
    session: Session

    @classmethod
    def balanced(cls, exchange, histories, promises, blocks=PLAIN, session=SESSION):
        """A balanced exchange, by the histories of the initiator and of the responder."""
        terms = bytes(range(32)) + b"".join(window(exchange.round, history, session) for history in histories)
        return cls(exchange, terms, [(updates, 0) for updates in promises], blocks, session)

    @classmethod
    def push(cls, exchange, windows, junk, blocks=PLAIN, session=SESSION):
        """A push, by its young, aged, wanted and given updates and its junk."""
        terms = b"".join(window(exchange.round, updates, session) for updates in windows) + bytes([junk])
        return cls(exchange, terms, [(windows[3], junk), (windows[2], 0)], blocks, session)

    @property
    def no_updates(self):
        """A window of no updates, as it's written."""
        return window(self.exchange.round, [], self.session)

    def datagram(self, kind, by_initiator, body):
        sides = self.exchange.initiator, self.exchange.responder
        return datagram(kind, *(sides if by_initiator else reversed(sides)), struct.pack(">I", self.exchange.round) + body, self.session)

    def of_case(self, kind, by_initiator, body):
        return self.datagram(kind, by_initiator, bytes([self.exchange.push, not by_initiator]) + body)

    def request(self):
        """The initiator's first message."""
        if self.exchange.push:
            return self.datagram(QUERY, True, bytes(32) + 2 * self.no_updates + signature(self.session))
        return self.datagram(REQUEST, True, bytes(64) + signature(self.session))

    def answer(self):
        """The responder's first message."""
        if self.exchange.push:
            return self.datagram(REPLY, False, 2 * self.no_updates + bytes(1) + signature(self.session))
        return self.datagram(RESPONSE, False, self.no_updates + signature(self.session))

    def briefcase_key(self, by_initiator):
        return hashlib.sha256(b"%d %r" % (by_initiator, self.exchange.spelled())).digest()

    def case(self, by_initiator, terms=None):
        updates, junk = self.promises[by_initiator]
        plain = b"".join(self.blocks[update] for update in updates) + junk_of(self.session, self.exchange, junk)
        sealed = exclusive_or(plain, keystream(self.briefcase_key(by_initiator), len(plain)))
        return self.of_case(CASE, by_initiator, bytes([len(updates), junk]) + (terms or self.terms) + sealed + signature(self.session))

    def key_request(self, by_initiator):
        return self.of_case(KEYREQ, by_initiator, b"")

    def key(self, by_initiator, key=None):
        return self.of_case(KEY, by_initiator, (key or self.briefcase_key(by_initiator)) + signature(self.session))


# ---- logs


def taken(it):
    """The entry of a datagram in a recording."""
    return b"\x02" + struct.pack(">H", len(it)) + it


class Diary:
    """What a peer takes and sends, in the order in which it does."""

    def __init__(self, party, session=SESSION):
        self.party, self.session, self.tick = party, session, 0
        self.entries, self.lines, self.manifests = [], [], []

    def until(self, tick):
        """Ticks up to this tick."""
        self.entries += [b"\x01"] * (tick - self.tick)
        self.tick = tick

    def take(self, *datagrams):
        self.entries += map(taken, datagrams)

    def take_manifest(self, *numbers, blocks=PLAIN):
        """Takes the manifests of these rounds, which are admitted."""
        self.manifests += [manifest(number, blocks, self.session) for number in numbers]
        self.take(*self.manifests[-len(numbers) :])

    def send(self, *datagrams):
        self.lines += [f"{len(self.entries)} {int.from_bytes(it[14:16], 'big')} {it.hex()}" for it in datagrams]

    def trade(self, trade, tick, key_tick=None, case=None, keys=None):
        """An exchange from this tick on, in which the partner's key is asked for up to the tick in which it comes, or as long as it may be.

        Where another CASE or other datagrams are given, they come in place of the partner's CASE and KEY.
        """
        asks = trade.exchange.initiator == self.party
        self.until(tick)
        self.meet(trade, asks)
        self.take(case or trade.case(not asks))
        self.send(trade.key_request(asks))
        self.ask(trade, key_tick or SLOTS * (trade.exchange.round + self.session.life))
        if key_tick:
            self.take(*(keys or [trade.key(not asks)]))

    def meet(self, trade, asks):
        """An exchange up to the peer's own CASE."""
        if asks:
            self.send(trade.request())
            self.take(trade.answer())
            self.send(trade.case(True))
        else:
            self.take(trade.request())
            self.send(trade.answer(), trade.case(False))

    def ask(self, trade, tick):
        """Asks for the key at each tick up to this one."""
        for at in range(self.tick + 1, tick + 1):
            self.until(at)
            self.send(trade.key_request(trade.exchange.initiator == self.party))

    def recording(self):
        return b"BARL\x01" + bytes.fromhex(self.session.id) + struct.pack(">H", self.party) + b"".join(self.entries) + b"\0"

    def log(self, played=b"", cut=None, evidence=None):
        """The log of the recording, or of so many of its bytes, with evidence by the party against which it's kept."""
        recording = self.recording()[:cut]
        inputs = len(entries_of(recording)[0])
        printed = [line for line in self.lines if int(line.split()[0]) <= inputs]
        return log_of(io.BytesIO(recording), printed, played, {"table": table(*self.manifests), **(evidence or {})})
