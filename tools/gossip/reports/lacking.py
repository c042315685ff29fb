"""Which updates peers lacked when they were due, and why, as far as this is known.

The update was of the last round, which isn't traded, or the peer's receive buffer lost datagrams, or the update didn't arrive in time.

Peers that were stopped or lied, and those without a replay, aren't counted.
"""
import collections
import dataclasses
from collections.abc import Iterator

from gossip.reports.run_data import Run
from gossip.scripts.console import counted, listed


@dataclasses.dataclass(frozen=True)
class Lacking:
    """How many updates peers lacked: those of the last round, others at peers whose receive buffers ran over, and all others."""

    last: int = 0
    dropped: int = 0
    others: int = 0

    @property
    def total(self) -> int:
        return self.last + self.dropped + self.others


def lacking(run: Run, drops: dict[int, int]) -> Lacking:
    """Returns what peers lacked, from the data of a run and the number of datagrams that each party's receive buffer lost."""
    last, played = run.session["rounds"], collections.Counter()
    played.update((row.peer, row.round == last) for row in run.updates if row.played)
    streamed = collections.Counter(row.round == last for row in run.releases if row.bytes != 0)
    count = collections.Counter()
    for peer in run.peers:
        if peer.refused or peer.lies or not peer.whole:
            continue
        count["last"] += streamed[True] - played[peer.peer, True]
        count["dropped" if drops.get(peer.peer) else "others"] += streamed[False] - played[peer.peer, False]
    return Lacking(**count)


def lines_of(run: Run, drops: dict[int, int]) -> Iterator[str]:
    """Yields a line on what peers lacked, if they lacked anything."""
    lacks, peers = lacking(run, drops), run.session["peers"]
    told = []
    if lacks.last:
        remedy = f"let the stream end a round earlier, or take --fanout {peers}"
        told.append(f"{counted(lacks.last, 'update')} of the last round, whose updates can't be traded ({remedy})")
    if lacks.dropped:
        told.append(f"{counted(lacks.dropped, 'update')} where a receive buffer ran over and lost datagrams")
    if lacks.others:
        told.append(f"{counted(lacks.others, 'update')} that didn't come in time")
    if told:
        yield f"peers lacked {listed(told)}"
