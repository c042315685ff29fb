"""The largest sizes of a session's datagrams, the packets that these need on a network, and how often a datagram is lost.

The sizes are exact, by the table of the grammar and the session's numbers. A datagram over UDP has a header of 8 bytes, and each packet one
of 20. Each packet but a datagram's last carries a multiple of 8 bytes of it. A datagram is lost if one of its packets is.
"""
import dataclasses
from collections.abc import Mapping

from gossip.formats.files import CASE, EVICT, EVIDENCE, MANIFEST, NUMBERS, Session
from gossip.formats.grammar import DATAGRAM, GRAMMAR, LENGTH_SIZE, Layout
from gossip.scripts.console import counted

PACKET_HEAD, UDP_HEAD, UNIT = 20, 8, 8

# the exchange kinds of a CASE
BALANCED, PUSH = 0, 1


def most_times(session: Session, kind: int, push: int | None) -> dict[str, int]:
    """Returns the counts with which a datagram is largest. A balanced exchange trades updates, and a push is paid in junk."""
    if kind == CASE:
        return {"updates": 0 if push else session.cap, "junk": session.cap if push else 0}
    return {"count": {MANIFEST: session.per_round, EVICT: session.peers, EVIDENCE: 2}.get(kind, 0)}


def evidence_size(end: int, sizes: Mapping[tuple[int, int | None], int]) -> int:
    """Returns the most bytes of an EVIDENCE whose datagrams begin at `end`. There are two, of one exchange; only a liar makes two CASEs."""
    signed = [size for (kind, _), size in sizes.items() if GRAMMAR[kind].is_signed and kind not in (MANIFEST, EVICT)]
    return end + 2 * (LENGTH_SIZE + max(signed))


def largest_sizes(session: Session) -> dict[tuple[int, int | None], int]:
    """Returns how many bytes a datagram has at most, by its kind, and for a CASE also by its exchange kind."""
    layout, sizes = Layout(session), {}
    for (kind, push), (_, more, end) in layout.table.items():
        times = most_times(session, kind, push)
        if kind == EVIDENCE:
            sizes[kind, push] = evidence_size(end, sizes)
        else:
            body = sum(times[field.times] * field.size for field in more if field.form != DATAGRAM)
            sizes[kind, push] = end + body + (layout.signature if GRAMMAR[kind].is_signed else 0)
    return sizes


def packets_of(size: int, mtu: int) -> int:
    """Returns how many packets of at most `mtu` bytes a datagram of this size needs."""
    room = mtu - PACKET_HEAD
    rest = max(0, size + UDP_HEAD - room)
    return 1 - -rest // (room // UNIT * UNIT)


def lost_of(packets: int, percent: float) -> float:
    """Returns the percentage of datagrams that are lost if each has this many packets, and this percentage of packets is lost."""
    return 100 * (1 - (1 - percent / 100) ** packets)


def highest_cap(session: Session, mtu: int) -> int:
    """Returns the highest cap with which each CASE fits in one packet, or 0."""
    caps = range(NUMBERS["cap"].most, 0, -1)
    return next((cap for cap in caps if packets_of(case_size(dataclasses.replace(session, cap=cap)), mtu) == 1), 0)


def case_size(session: Session) -> int:
    """Returns how many bytes a CASE has at most."""
    sizes = largest_sizes(session)
    return max(sizes[CASE, kind] for kind in (BALANCED, PUSH))


def line_of(session: Session, mtu: int, loss: float = 0) -> str:
    """Returns a line on how large a CASE is at most, and what that means on a network."""
    size = case_size(session)
    packets = packets_of(size, mtu)
    told = f"a CASE has up to {size:,} bytes, {counted(packets, 'packet')} of at most {mtu:,} bytes"
    return f"{told}; {lost_of(packets, loss):.1f}% of those are lost with {loss:g}% of packets" if loss else told
