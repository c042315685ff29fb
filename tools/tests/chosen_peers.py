"""Sessions of chosen secrets, whose peers take chosen inputs by replays of the built program, and what is signed in a party's name."""
import dataclasses
import functools
import hashlib
import itertools
import pathlib
import struct
import tempfile
import unittest

import support  # by which the modules of the tools are found
from gossip.formats.files import BLOCK, EVICT, EVIDENCE, MAGIC, MANIFEST, recording_of, sends_of
from gossip.programs import bar
from gossip.programs.bar import PROGRAM, Status, words_of
from gossip.sessions import making
from gossip.sessions.session_folder import Folder, make_key
from made_signatures import Signer

# the secrets of the broadcaster and of two peers
SECRETS = bytes([7]) * 32, bytes([8]) * 32, bytes([9]) * 32

# a session of two peers and ten rounds, whose signatures have two levels, since such keys are made fast
NUMBERS = {"version": 1, "rounds": 10, "life": 4, "cap": 4, "per_round": 8, "fanout": 1, "port": 20_000, "tick_ms": 20, "top": 5, "lms": 5, "ots": 3}

ALL = 0xFFFF


def kinds_of(datagrams):
    return [it[3] for it in datagrams]


def number_of(datagram):
    """The round of a datagram."""
    return struct.unpack_from(">I", datagram, 16)[0]


def of_round(datagrams, number, *kinds):
    """Those of a round, and of these kinds if any are named."""
    return [it for it in datagrams if number_of(it) == number and (not kinds or it[3] in kinds)]


def changed(datagram, at=-1):
    """A datagram with the lowest bit of a byte changed."""
    bytes_ = bytearray(datagram)
    bytes_[at] ^= 1
    return bytes(bytes_)


def block_of(content, length=None):
    """A block with a content, where its length isn't said to be another."""
    return (len(content) if length is None else length).to_bytes(2, "big") + content.ljust(1022, b"\0")


def window(*words):
    """The bytes of a window by its words."""
    return struct.pack(f">{len(words)}Q", *words)


def evidence_of(*datagrams):
    """An evidence file of these datagrams."""
    return bytes([len(datagrams)]) + b"".join(len(it).to_bytes(2, "big") + it for it in datagrams)


def table_of(*manifests):
    """A table file of these manifests."""
    return b"".join(len(it).to_bytes(2, "big") + it for it in manifests)


@dataclasses.dataclass(frozen=True)
class Replayed:
    """What a peer sent, the number of the input, the receiver and the datagram of each, and what it played and found, by what follows the
    name of its findings.
    """

    sends: list
    played: bytes
    found: dict


class Chosen:
    """A session of these numbers in a new folder, with the key files of its parties and what signs for each of them."""

    def __init__(self, path, secrets=SECRETS, **changes):
        self.folder, self.secrets = Folder(path), secrets
        self.folder.path.mkdir()
        numbers = {name: value for name, value in (NUMBERS | changes | {"peers": len(secrets) - 1}).items() if value is not None}
        keys = [make_key(self.folder, PROGRAM, party, support.ID, numbers, secret) for party, secret in enumerate(self.secrets)]
        self.folder.session.write_text(making.text_of(support.ID, numbers, keys), "utf-8")
        self.session = making.Session.read(self.folder.session)

    @functools.lru_cache(maxsize=None)
    def signer(self, party):
        return Signer(self.session, self.secrets[party])

    @property
    def signature_size(self):
        return len(self.signer(0).signature(0, b""))

    def head(self, kind, sender, receiver):
        return MAGIC + bytes([self.session.version, kind]) + bytes.fromhex(self.session.id) + struct.pack(">HH", sender, receiver)

    def front(self, kind, sender, receiver, number):
        """What a datagram of a kind and a round begins with."""
        return self.head(kind, sender, receiver) + number.to_bytes(4, "big")

    def manifest(self, number, blocks):
        """The manifest of a round with these blocks, which the broadcaster signs with the leaf that it has for it."""
        digests = b"".join(hashlib.sha256(block).digest() for block in blocks)
        return self.signer(0).signed(2 * (number - 1), self.front(MANIFEST, 0, ALL, number) + bytes([len(blocks)]) + digests)

    def notice(self, number, *parties):
        """The EVICT of a round that names these parties."""
        named = struct.pack(f">B{len(parties)}H", len(parties), *parties)
        return self.signer(0).signed(2 * number - 1, self.front(EVICT, 0, ALL, number) + named)

    def block(self, update, receiver, block):
        """The BLOCK of an update, by its round and its index."""
        number, index = update
        return self.front(BLOCK, 0, receiver, number) + bytes([index]) + block

    def report(self, sender, evidence):
        """The EVIDENCE of a peer that has an evidence file."""
        return self.head(EVIDENCE, sender, 0) + evidence

    def recording(self, party, entries):
        return recording_of(b"BARL\x01" + bytes.fromhex(self.session.id) + party.to_bytes(2, "big"), entries)

    def replayed(self, party, entries):
        """What a peer does for these inputs, ticks where they are None."""
        room = self.folder.path / f"replay.{party}"
        room.mkdir(exist_ok=True)
        for file in room.iterdir():
            file.unlink()
        recording, played = room / "recording", room / "played"
        recording.write_bytes(self.recording(party, entries))
        files = {"session": self.folder.session, "key": self.folder.key(party), "recording": recording}
        with (room / "transcript").open("w+") as transcript:
            ran = bar.run_words(PROGRAM, words_of("replay", **files, played=played, found=room / "found"), stdout=transcript)
            if ran.status != Status.DONE:
                raise AssertionError(ran.told)
            transcript.seek(0)
            sends = [*sends_of(line.removesuffix("\n") for line in transcript)]
        found = {file.suffix.removeprefix("."): file.read_bytes() for file in room.glob("found.*")}
        return Replayed(sends, played.read_bytes(), found)


class Peer:
    """A peer of a session that takes chosen inputs. All that it takes is replayed at each call, from the first input on."""

    def __init__(self, chosen, number):
        self.chosen, self.number, self.entries, self.ticks = chosen, number, [], 0
        self.played, self.found = b"", {}

    def add(self, entries):
        """Takes these inputs, ticks where they are None, and returns what it sends for each."""
        if not entries:
            return []
        before = len(self.entries)
        self.entries += entries
        replayed = self.chosen.replayed(self.number, self.entries)
        sent = {number: [] for number in range(before + 1, len(self.entries) + 1)}
        for number, receiver, datagram in replayed.sends:
            if datagram[14:16] != receiver.to_bytes(2, "big"):
                raise AssertionError(f"{datagram.hex()} is sent to {receiver}")
            if number in sent:
                sent[number].append(datagram)
        self.played, self.found = replayed.played, replayed.found
        return [*sent.values()]

    def tick(self, until):
        """Ticks up to a tick, and returns what it sends at that one, or nothing where it's past."""
        return [*itertools.chain(*self.each_tick(until)[-1:])]

    def each_tick(self, until):
        """Ticks up to a tick, and returns what it sends at each."""
        count, self.ticks = until - self.ticks, until
        return self.add([None] * count)

    def take(self, *datagrams):
        """Takes datagrams, and returns what it sends for all of them."""
        return [*itertools.chain(*self.add(datagrams))]

    def plays(self, until):
        """Ticks up to a tick, and returns what it plays."""
        before = len(self.played)
        self.tick(until)
        return self.played[before:]

    @property
    def evidence(self):
        """The evidence that it keeps, by the accused."""
        return {int(name): data for name, data in self.found.items() if name != "table"}


def deliver(peers, due, tick):
    """Both peers of a session tick up to a tick, and take what is due to each and what they send each other for it, until nothing is sent.
    Returns all that was sent.
    """
    said, sent = [peer.tick(tick) for peer in peers], []
    while any(due) or any(said):
        sent += itertools.chain(*said)
        due = [[*coming, *(it for it in other if it[14:16] != b"\0\0")] for coming, other in zip(due, reversed(said))]
        said, due = [peer.take(*coming) for peer, coming in zip(peers, due)], [[], []]
    return sent


class ChosenCase(unittest.TestCase):
    """Tests of sessions that are made once for all of them."""

    @classmethod
    def setUpClass(cls):
        room = tempfile.TemporaryDirectory()
        cls.addClassCleanup(room.cleanup)
        cls.room = pathlib.Path(room.name)
        cls.chosen = staticmethod(functools.cache(cls.make))

    @classmethod
    def make(cls, secrets=SECRETS, **changes):
        return Chosen(pathlib.Path(tempfile.mkdtemp(dir=cls.room), "session"), secrets, **changes)
