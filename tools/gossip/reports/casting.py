"""What the broadcaster of a session sent, as its rules and its files determine it: its key, its stream and the manifests that it signed.

Nobody records what it sent. It sends each manifest twice, and in version 3 once more in the next round. It sends each block twice to each
peer of the block's fan-out. If parties are evicted, it sends a notice of them in each round to the peers that aren't. A peer was evicted in
the round before the first notice of it, so what was sent to it in that round isn't known.
"""
import dataclasses
import hashlib
import struct
import tomllib
import typing
from collections.abc import Mapping

from gossip.formats.datagrams import Evict, Manifest, Reader, Update
from gossip.formats.files import BLOCK, CONTENT, MAGIC, SLOTS, Session, manifests_of
from gossip.reports.exchanges import first_tick
from gossip.reports.flows import Flow
from gossip.reports.replays import Logs
from gossip.sessions.session_folder import Folder

# the slots in which manifests and blocks are sent; after how many slots a manifest is sent again, and since which version
MANIFEST_SLOTS, BLOCK_SLOTS = (0, 4), (1, 5)
SLOT_AGAIN, VERSION_AGAIN = SLOTS + 2, 3


def fan_out(session: Session, secret: bytes, update: Update) -> list[int]:
    """Returns the peers to which an update is sent: those with the smallest hashes."""

    def rank(peer: int) -> tuple[bytes, int]:
        return hashlib.sha256(b"FAN1" + bytes.fromhex(session.id) + struct.pack(">IBH", *update, peer) + secret).digest(), peer

    return sorted(range(1, session.peers + 1), key=rank)[: session.fanout]


def block_datagram(session: Session, update: Update, receiver: int, content: bytes) -> bytes:
    """Returns the BLOCK of an update with this content."""
    head = MAGIC + bytes([session.version, BLOCK]) + bytes.fromhex(session.id) + struct.pack(">HHIB", 0, receiver, *update)
    return head + len(content).to_bytes(2, "big") + content.ljust(CONTENT, b"\0")


class Cast(typing.NamedTuple):
    """A datagram that was sent, with its tick and its receiver."""

    tick: int
    receiver: int
    datagram: bytes


class Notice(typing.NamedTuple):
    """The evicted parties that a notice names, and its datagram."""

    parties: tuple[int, ...]
    datagram: bytes


@dataclasses.dataclass(frozen=True)
class Broadcaster:
    """What the broadcaster's files contain: its secret, its stream, the table of its manifests, and the parties that it evicted."""

    secret: bytes
    stream: bytes
    table: bytes
    evicted: set[int]


@dataclasses.dataclass(frozen=True)
class Casts:
    """What the broadcaster sent. `unsure` has the round of each evicted peer from which on it isn't known what was sent to the peer."""

    session: Session
    sent: list[Cast]
    unsure: dict[int, int]

    def is_unsure(self, flow: Flow) -> bool:
        """Whether it is unknown what was sent: the flow is from the broadcaster, in or after the round in which it evicted the peer."""
        number = self.unsure.get(flow.receiver)
        return flow.sender == 0 and number is not None and any(tick >= first_tick(number) for tick in (*flow.sent, *flow.taken))


def notices_of(session: Session, logs: Logs, evicted: set[int]) -> dict[int, Notice]:
    """Returns the notices that peers received and that name only parties that the broadcaster evicted, by round."""
    reader, notices = Reader(session), {}
    for datagram in {datagram for log in logs.values() for _, datagram in log.taken if datagram[3:4] == b"\x0c"}:
        notice = reader.read(datagram)
        if isinstance(notice, Evict) and evicted.issuperset(notice.parties):
            notices[notice.round] = Notice(notice.parties, datagram)
    return notices


def served_in(session: Session, first: dict[int, int], number: int) -> list[int]:
    """Returns the peers that were served in a round. `first` has the first round in which each evicted peer wasn't served."""
    return [peer for peer in range(1, session.peers + 1) if first.get(peer, number + 1) > number]


def casts_of(session: Session, logs: Logs, broadcaster: Broadcaster) -> Casts:
    """Returns what a broadcaster sent, from its own files and the notices that peers received."""
    reader, notices, sent = Reader(session), notices_of(session, logs, broadcaster.evicted), []
    # the BLOCKs that were received, whose bytes are reused
    taken = {datagram: datagram for log in logs.values() for _, datagram in log.taken if datagram[3:4] == bytes([BLOCK])}
    first = dict.fromkeys(broadcaster.evicted, session.rounds + 1)
    for number in sorted(notices, reverse=True):
        first |= dict.fromkeys(notices[number].parties, number)
    for _, datagram in manifests_of(broadcaster.table):
        manifest = reader.read(datagram)
        if not isinstance(manifest, Manifest):
            continue
        start, served = first_tick(manifest.round), served_in(session, first, manifest.round + 1)
        peers = served_in(session, first, manifest.round)
        sent += [Cast(start + slot, peer, datagram) for slot in MANIFEST_SLOTS for peer in peers]
        sent += [Cast(start + SLOT_AGAIN, peer, datagram) for peer in served if session.version >= VERSION_AGAIN]
        if manifest.round in notices:
            sent += [Cast(start, peer, notices[manifest.round].datagram) for peer in peers]
        for update in manifest.digests:
            at = CONTENT * ((update.round - 1) * session.per_round + update.index)
            for peer in set(fan_out(session, broadcaster.secret, update)).intersection(peers):
                block = block_datagram(session, update, peer, broadcaster.stream[at : at + CONTENT])
                sent += [Cast(start + slot, peer, taken.get(block, block)) for slot in BLOCK_SLOTS]
    return Casts(session, sent, {party: number - 1 for party, number in first.items()})


def casts_in(folder: Folder, session: Session, logs: Logs, found: Mapping[str, bytes]) -> Casts | None:
    """Returns what the broadcaster of a folder sent, or None if its key, its stream or its table, which `found` has, can't be read."""
    try:
        secret = bytes.fromhex(tomllib.loads(folder.key(0).read_text("utf-8"))["secret"])
        evicted = {int(name) for name in found if name != "table"}
        return casts_of(session, logs, Broadcaster(secret, folder.stream.read_bytes(), found["table"], evicted))
    except (OSError, ValueError, KeyError):
        return None
