"""Whether somebody flooded a party's port, from what its recording has between two ticks and from what its receive buffer lost. Also how
many datagrams were received on this machine that don't belong to a session.

The real link takes a limited number of datagrams and bytes between two ticks, and drops the rest until the next tick is due. The program
doesn't report what the link drops, but the system counts what all programs received.
"""
import collections
import dataclasses
import itertools
from collections.abc import Iterable, Iterator, Mapping

from gossip.formats.files import Session, head_of, inputs_in
from gossip.reports.replays import Logs
from gossip.reports.run_data import Run
from gossip.scripts.console import counted, listed
from gossip.sessions.session_folder import Folder

# how many datagrams and bytes the program's link takes between two ticks at most, and how many bytes a datagram has at most
MOST_DATAGRAMS, MOST_BYTES, LARGEST = 16_384, 8 << 20, 65_507

# more datagrams than other programs of a quiet machine receive while a session runs, for example when they look up names
CLEAR = 1_000


def most_of(session: Session, party: int) -> int:
    """Returns how many datagrams the parties of a session send to one party at most. A peer is sent blocks, requests of all peers, and
    repeats of exchanges that are alive, in each tick. The broadcaster is sent evidence in each round.
    """
    if party == 0:
        return session.ends * session.peers**2
    return session.ticks * (session.per_round + 2 * session.peers + 12 * session.life)


def recorded_by(folder: Folder, party: int) -> Iterator[bytes | None]:
    """Yields the inputs of a party's recording as they are read, each a datagram, or None for a tick."""
    with folder.recording(party).open("rb") as recording:
        yield from (entry for entry, _ in inputs_in(recording))


def full_ticks(entries: Iterable[bytes | None]) -> int:
    """Returns how many ticks a recording has before which there was no room for another datagram."""
    full = count = size = 0
    for entry in itertools.chain(entries, [None]):
        if entry is None:
            full += count == MOST_DATAGRAMS or size > MOST_BYTES - LARGEST
            count = size = 0
        else:
            count, size = count + 1, size + len(entry)
    return full


def full_ticks_of(taken: Iterable[tuple[int, bytes]]) -> int:
    """Returns the same number for what a peer received, each datagram with the tick before it."""
    return sum(full_ticks([datagram for _, datagram in behind]) for _, behind in itertools.groupby(taken, key=lambda it: it[0]))


@dataclasses.dataclass(frozen=True)
class Flood:
    """The signs of a flood: how many ticks were full, how many datagrams a receive buffer lost, and how many were recorded though no party
    sent them.
    """

    full: int
    lost: int
    strange: int = 0

    @property
    def told(self) -> str:
        """A description of these signs."""
        parts = [f"{counted(self.full, 'tick')} had no room for more datagrams"] if self.full else []
        parts += [f"its receive buffer lost {counted(self.lost, 'datagram')}"] if self.lost else []
        parts += [f"it took {counted(self.strange, 'datagram')} that no party sent"] if self.strange else []
        return listed(parts)


def strange_of(run: Run) -> collections.Counter[int]:
    """Returns how many datagrams each party received that weren't sent, or not as often, from the data of an undisturbed run."""
    strange = collections.Counter()
    for row in run.losses:
        strange[row.receiver] += row.unsent + row.copies
    return +strange


def outside_of(folder: Folder, session: Session, logs: Logs, taken: int | None) -> int | None:
    """Returns how many of the datagrams received on this machine don't belong to a session: no recording has them, and they aren't what
    peers sent to the broadcaster. Returns None if it isn't known how many were received.

    The broadcaster is sent only evidence. If a peer has no log, the most that it may send is subtracted.
    """
    if taken is None:
        return None
    recorded = 0
    for party in session.parties[:-1]:
        try:
            recorded += sum(entry is not None for entry in recorded_by(folder, party))
        except OSError:
            recorded += most_of(session, party)
    heads = (head_of(datagram, session) for log in logs.values() for _, datagram in log.sent)
    reports = sum(head is not None and head.receiver == 0 for head in heads)
    unknown = session.ends * session.peers * (session.peers - len(logs))
    return max(0, taken - recorded - reports - unknown)


def floods_of(folder: Folder, session: Session, drops: dict[int, int], strange: Mapping[int, int] | None = None) -> dict[int, Flood]:
    """Returns the signs of floods, by party. A party was flooded if a tick of its recording is full, or if its buffer lost more than the
    session's parties send it. It was also flooded if many of the datagrams that it received were sent by none of them.
    """
    floods, strange = {}, strange or {}
    for party in session.parties:
        full, lost, more = 0, drops.get(party, 0), strange.get(party, 0)
        try:
            full = full_ticks(recorded_by(folder, party)) if party else 0
        except OSError:
            pass
        if full or lost > most_of(session, party) or more > CLEAR:
            floods[party] = Flood(full, lost, more)
    return floods


def flood_lines(floods: dict[int, Flood]) -> Iterator[str]:
    """Yields a line for each party that was flooded."""
    for party, flood in sorted(floods.items()):
        rest = "; the rest was dropped" if flood.full or flood.lost else ""
        yield f"party {party} was flooded from outside the session: {flood.told}{rest}"


def outside_told(outside: int | None) -> str | None:
    """Returns a line on the datagrams that don't belong to a session, or None if they are few."""
    if not outside or outside <= CLEAR:
        return None
    taken = f"{counted(outside, 'datagram')} that no recording has were taken on this machine while the session ran"
    return f"{taken}: links dropped them, or other programs took them"


def size_faults(folder: Folder, session: Session) -> Iterator[str]:
    """Yields a fault for each recording too large for its ticks. Each datagram has three bytes more in it, and each tick has one."""
    most = session.ticks * (MOST_BYTES + 3 * MOST_DATAGRAMS + 1) + MOST_BYTES
    for party in session.parties[:-1]:
        size = folder.recording(party).stat().st_size
        if size > most:
            yield f"the recording of party {party} has {size:,} bytes, more than {most:,}"
