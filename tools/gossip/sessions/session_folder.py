"""The folder of a session, the arguments of its parties, the time at which it begins, and its ports.

A session's folder has these files:
  session.toml      the session's text
  stream            what is broadcast
  key.P             the key file of party P; party 0 is the broadcaster
  party.P.played, party.P.recording, party.P.table, party.P.Q
                    what party P played, what it took, the manifests that it knew, and its evidence against party Q
  network.json      if the session was disturbed: what the network lost and repeated, how it delayed, and who lied
  session.json      the data of the run
  video.json        if the stream was a video: what can be decoded of it and of what peers played
  timeline.html     the run as a page
"""
import collections
import pathlib
import random
import socket
import tempfile
import time
from collections.abc import Collection

from gossip.formats.files import LEAVES, KeyFile, Malformed, Numbers, Session, finding_of
from gossip.programs.bar import Status, Word, key_words, run_words, spread, words_of
from gossip.scripts.console import Failure, Refusal

LOOPBACK = "127.0.0.1"

# the LMS types with the smallest tree and the largest
SMALLEST, LARGEST = min(LEAVES, key=LEAVES.get), max(LEAVES, key=LEAVES.get)


# what parties found: the bytes of files, by the party and by the part of their names after its number
Findings = dict[int, dict[str, bytes]]


class Folder:
    """A session's folder, with the paths of all that is in it."""

    def __init__(self, path: str | pathlib.Path) -> None:
        self.path = pathlib.Path(path).resolve()
        self.session = self.path / "session.toml"
        self.stream = self.path / "stream"
        self.data = self.path / "session.json"
        self.video = self.path / "video.json"
        self.page = self.path / "timeline.html"
        self.network = self.path / "network.json"
        self.keys = self.path / "key"
        self.results = self.path / "party"

    def key(self, party: int) -> pathlib.Path:
        return self.path / f"key.{party}"

    def played(self, party: int) -> pathlib.Path:
        return self.path / f"party.{party}.played"

    def recording(self, party: int) -> pathlib.Path:
        return self.path / f"party.{party}.recording"

    def findings(self) -> Findings:
        """Returns what each party found: the bytes of its files, by the part of their names after its number."""
        found = collections.defaultdict(dict)
        for file in self.path.glob("party.*"):
            finding = finding_of(file.name)
            if finding:
                party, name = finding
                found[party][name] = file.read_bytes()
        return found


# ---- arguments


def session_words(folder: Folder, program: pathlib.Path, begin: int) -> list[Word]:
    """Returns the program and its arguments for a whole session that begins at this time, in milliseconds of Unix time."""
    files = {"session": folder.session, "keys": folder.keys, "stream": folder.stream}
    return [program, *words_of("session", **files, begin=begin, results=folder.results, program=program)]


def party_words(
    folder: Folder, program: pathlib.Path, party: int, begin: int, results: pathlib.Path | None = None, session: pathlib.Path | None = None
) -> list[Word]:
    """Returns the program and its arguments for one party, as the command `session` has them. Results and text may be elsewhere."""
    own = f"{results or folder.results}.{party}"
    values = {"session": session or folder.session, "key": folder.key(party), "begin": begin, "stream": folder.stream}
    values |= {"played": f"{own}.played", "recording": f"{own}.recording", "found": own}
    return [program, *words_of("peer" if party else "broadcaster", **values)]


# ---- keys, and the time needed to make them


def key_of(folder: Folder, session: Session, party: int) -> KeyFile:
    """Returns the key file of a party. Raises a `Malformed` if it isn't a key of this session."""
    key = KeyFile.of_text(folder.key(party).read_bytes())
    for fault in key.faults(session, party):
        raise Malformed(fault)
    return key


def make_key(folder: Folder, program: pathlib.Path, party: int, session_id: str, numbers: Numbers, secret: bytes) -> str:
    """Makes a key file from a secret, for a session of these numbers. Returns the lines that the session's text has on the party."""
    path = folder.path / f"secret.{party}"
    path.write_bytes(secret)
    try:
        ran = run_words(program, key_words(numbers, party=party, id=session_id, secret=path, key=folder.key(party)))
    finally:
        path.unlink()
    if ran.status != Status.DONE:
        raise Failure(f"the key of party {party} couldn't be made: {ran.told}")
    return ran.printed.decode()


def begin_of(session: Session, program: pathlib.Path, trees: int = 1) -> int:
    """Returns when a session that is started now may begin, in milliseconds of Unix time: after all parties have made their keys' trees.

    The time for that is estimated by making as many keys with the smallest tree, all at once; a larger tree takes longer in proportion to
    its leaves. Of a key of two levels only the upper tree counts. A party may make `trees` trees, one after the other.
    """
    smallest = seconds_of_smallest(program, session.parties, session.id, session.ots, len(session.parties))
    return round(1000 * (time.time() + 1 + 1.5 * smallest * trees * times_longer(session.lms, session.top)))


def times_longer(lms: int, top: int | None) -> float:
    """Returns how many times longer it takes to make a key with this tree, or with this upper one, than one with the smallest tree."""
    return LEAVES[top or lms] / LEAVES[SMALLEST]


def seconds_of_smallest(program: pathlib.Path, parties: Collection[int], session_id: str, ots: int, at_once: int | None = None) -> float:
    """Returns how many seconds these parties' keys take with the smallest tree, `at_once` at a time or one for each processor."""
    with tempfile.TemporaryDirectory() as room:
        folder, started = Folder(room), time.monotonic()
        numbers = {"rounds": 1, "lms": SMALLEST, "ots": ots}
        spread(lambda party: make_key(folder, program, party, session_id, numbers, bytes(32)), parties, at_once=at_once)
        return time.monotonic() - started


def seconds_of_keys(program: pathlib.Path, parties: Collection[int], session_id: str, numbers: Numbers) -> float | None:
    """Estimates how many seconds the keys of these parties take. Returns None if the time is too short to be reported."""
    times = times_longer(numbers["lms"], numbers.get("top"))
    if times < LEAVES[LARGEST] / LEAVES[SMALLEST]:
        return None
    return seconds_of_smallest(program, parties, session_id, numbers["ots"]) * times


# ---- ports


def is_free(port: int) -> bool:
    """Whether a port of the loopback address can be bound."""
    with socket.socket(socket.AF_INET, socket.SOCK_DGRAM) as bound:
        try:
            bound.bind((LOOPBACK, port))
            return True
        except OSError:
            return False


def free_port(parties: int) -> int:
    """Returns the first of as many consecutive free ports as there are parties, below those that the system assigns."""
    for port in random.sample(range(20_000, 32_000 - parties), 100):
        if all(map(is_free, range(port, port + parties))):
            return port
    raise Refusal("no row of free ports was found: name the first of one by --port")
