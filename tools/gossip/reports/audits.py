"""What an audit finds in the recordings of a session's peers: which exchanges there are, and whether each is balanced.

An exchange is balanced if each party whose KEY its partner received has the partner's CASE in its own recording. If the partner has this
party's CASE too, the terms of both have to be equal. The auditor has only public keys. If a recording has no end, it is audited up to its
last complete entry.
"""
import dataclasses
import functools
import pathlib
import re
import tempfile
from collections.abc import Container

from gossip.formats.datagrams import Exchange
from gossip.formats.files import LARGEST_FILE, RECORDING_HEAD, Session, entries_of, head_of, recording_of, whole_recording
from gossip.programs.bar import Status, run
from gossip.scripts.console import counted, listed
from gossip.sessions.session_folder import Folder

EXCHANGE = re.compile(r"exchange (\d+) ([01]) (\d+) (\d+) cases (\d+) (\d+) keys ([01]) ([01])")
UNBALANCED = re.compile(r"unbalanced (\d+) ([01]) (\d+) (\d+)")


@dataclasses.dataclass(frozen=True)
class Entry:
    """An exchange that was audited. By role, the initiator's first: how much the CASE promises, and whether the KEY was received."""

    exchange: Exchange
    cases: tuple[int, ...]
    keys: tuple[bool, ...]

    @property
    def lacks(self) -> list[tuple[int, int]]:
        """Each party that gave its key and has no CASE from its partner, with the partner."""
        sides = self.exchange.initiator, self.exchange.responder
        return [(sides[role], sides[1 - role]) for role in (0, 1) if self.keys[role] and not self.cases[1 - role]]


@dataclasses.dataclass(frozen=True)
class Audit:
    """The result of an audit: how many recordings it had, the exchanges in order, and the first unbalanced one; or why there is none."""

    recordings: int = 0
    entries: tuple[Entry, ...] = ()
    named: Exchange | None = None
    # why there was no audit, and whether that is a failure
    refused: str | None = None
    is_failure: bool = False
    # the parties whose recordings are refused, each with the reason; the audit left them out
    left_out: dict[int, str] = dataclasses.field(default_factory=dict)

    @functools.cached_property
    def unbalanced(self) -> set[Exchange]:
        """The exchanges that the auditor shows to be unbalanced: the first one, and all in which a CASE is missing."""
        lacking = {entry.exchange for entry in self.entries if entry.lacks}
        return lacking | {self.named} if self.named else lacking

    @property
    def cause(self) -> str:
        """The reason why the first unbalanced exchange is unbalanced."""
        lacks = next((entry.lacks for entry in self.entries if entry.exchange == self.named), [])
        told = [f"peer {party} gave its key and has no briefcase of peer {partner}" for party, partner in lacks]
        return listed(told) if told else "the terms of its briefcases differ"

    @property
    def balanced(self) -> str:
        """The exchanges in words, if all of them are balanced."""
        return f"all {counted(len(self.entries), 'exchange')}" if len(self.entries) != 1 else "the one exchange"

    @property
    def line(self) -> str:
        """The result of the audit, in one line."""
        if self.refused:
            return f"the recordings weren't audited: {self.refused}"
        told = "the audit finds no exchange"
        if self.named:
            number, push, initiator, responder = self.named
            told = f"the audit finds exchange {number} {push:d} {initiator} {responder} unbalanced: {self.cause}"
        elif self.entries:
            told = f"the audit finds {self.balanced} balanced"
        without = listed(f"party {party} ({reason})" for party, reason in self.left_out.items()) if self.left_out else ""
        return f"{told}, without {without}" if without else told

    @property
    def failures(self) -> list[str]:
        """What failed, if anything."""
        return [self.line] if self.named or self.is_failure or self.left_out else []


def exchange_of(number: str, push: str, initiator: str, responder: str) -> Exchange:
    return Exchange(int(number), push == "1", int(initiator), int(responder))


def audit_of_text(recordings: int, printed: str, left_out: dict[int, str] | None = None) -> Audit:
    """Returns the audit of `recordings` recordings that the printed lines describe, with the parties that were left out of it."""
    entries, named, last = [], None, None
    for last in printed.splitlines():
        if it := EXCHANGE.fullmatch(last):
            cases, keys = tuple(map(int, it.group(5, 6))), tuple(key == "1" for key in it.group(7, 8))
            entries.append(Entry(exchange_of(*it.group(1, 2, 3, 4)), cases, keys))
        elif it := UNBALANCED.fullmatch(last):
            named = exchange_of(*it.groups())
    if last != "balanced" and not named:
        return Audit(refused=f"the auditor ended with the line {last!r}", is_failure=True)
    return Audit(recordings, tuple(entries), named, left_out=left_out or {})


def place_in(room: str | pathlib.Path, party: int) -> pathlib.Path:
    """Returns the path at which an audit in the folder `room` finds a party's recording."""
    return pathlib.Path(room) / f"R.{party}.recording"


def too_large(path: pathlib.Path) -> str | None:
    """Returns why the program doesn't read a file if the file is too large, else None."""
    size = path.stat().st_size
    return f"it has {size:,} bytes, and files up to {LARGEST_FILE:,} are read" if size > LARGEST_FILE else None


def mend(folder: Folder, party: int, room: str) -> None:
    """Puts a peer's recording where an audit in the folder `room` finds it. If it has no end, it is cut after its last complete entry."""
    place = place_in(room, party)
    recording = b"" if too_large(folder.recording(party)) else folder.recording(party).read_bytes()
    if not recording or entries_of(recording)[1]:
        place.symlink_to(folder.recording(party))
    else:
        place.write_bytes(whole_recording(recording))


def refused_alone(folder: Folder, session: Session, program: pathlib.Path, room: str) -> dict[int, str]:
    """Returns the parties whose recordings are refused if each one is audited alone, with the reasons."""
    refused = {}
    for party in session.parties[:-1]:
        large = too_large(folder.recording(party))
        ran = None if large else run(program, "audit", session=folder.session, results=f"{room}/R", first=party, last=party)
        if large or ran.status in (Status.FILE, Status.INPUT):
            refused[party] = large or ran.told
    return refused


def leave_out(session: Session, left_out: Container[int], room: str) -> None:
    """Removes parties from the recordings of an audit: their own become empty, and the others lose the datagrams from these parties."""
    for party in session.parties[:-1]:
        place = place_in(room, party)
        head, kept = b"BARL\x01" + bytes.fromhex(session.id) + party.to_bytes(2, "big"), []
        if party not in left_out:
            recording = place.read_bytes()
            heads = ((entry, entry and head_of(entry, session)) for entry in entries_of(recording)[0])
            head, kept = recording[:RECORDING_HEAD], [entry for entry, it in heads if not it or it.sender not in left_out]
        place.unlink()
        place.write_bytes(recording_of(head, kept))


def audit_of(folder: Folder, session: Session, program: pathlib.Path) -> Audit:
    """Audits the recordings of all peers of a session, if none is missing. Those that are refused are left out."""
    peers = range(1, session.peers + 1)
    missing = [f"party {party}" for party in peers if not folder.recording(party).is_file()]
    if missing:
        return Audit(refused=f"{listed(missing)} left no recording")
    left_out = {}
    try:
        with tempfile.TemporaryDirectory() as room:
            for party in peers:
                mend(folder, party, room)
            words = {"session": folder.session, "results": f"{room}/R", "first": 1, "last": session.peers}
            ran = run(program, "audit", **words)
            if ran.status in (Status.FILE, Status.INPUT):
                left_out = refused_alone(folder, session, program, room)
                if left_out and len(left_out) < len(peers):
                    leave_out(session, left_out, room)
                    ran = run(program, "audit", **words)
    except OSError as error:
        return Audit(refused=f"{error.filename or 'a recording'} can't be read: {error.strerror}", is_failure=True)
    if ran.status == Status.WORDS:
        return Audit(refused="the program has no command `audit`, as earlier ones have none")
    if ran.status not in (Status.DONE, Status.NO_FAULT):
        return Audit(refused=ran.told, is_failure=True)
    return audit_of_text(session.peers - len(left_out), ran.printed.decode(errors="replace"), left_out)
