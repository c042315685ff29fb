"""A forger, who asks peers for their keys in their partners' names. This is possible because KEYREQs aren't signed.

A peer is asked as soon as it has sent its CASE of an exchange and received its partner's. It is asked again at the beginning of each later
round, up to the second one after the round of the exchange. What the forger sends is never lost.
"""
import dataclasses
import struct

from gossip.formats.files import CASE, KEYREQ, MAGIC, Session, head_of

# for how many rounds after its own round an exchange is asked about
ROUNDS = 2


@dataclasses.dataclass(frozen=True)
class Side:
    """A side of an exchange: its round, the codes of its kind and role, the peer on this side and the peer on the other."""

    round: int
    kind: int
    role: int
    peer: int
    partner: int

    @property
    def other(self) -> "Side":
        return Side(self.round, self.kind, 1 - self.role, self.partner, self.peer)


class Forger:
    """A forger: what it knows about the CASEs of a session, and what it sends."""

    def __init__(self, session: Session) -> None:
        self.session = session
        # the sides whose CASEs were sent, and those whose CASEs arrived; and those in whose names it asks, each with the last round
        self.said: set[Side] = set()
        self.came: set[Side] = set()
        self.due: dict[Side, int] = {}

    def side_of(self, datagram: bytes) -> Side | None:
        """Returns the side of a CASE's sender, or None for any other datagram."""
        head = head_of(datagram, self.session)
        if head is None or head.kind != CASE or len(datagram) < 22:
            return None
        return Side(*struct.unpack_from(">IBB", datagram, 16), head.sender, head.receiver)

    def hear(self, datagram: bytes) -> list[tuple[int, bytes]]:
        """Notes a datagram that a party sent, and returns what to send in response: each KEYREQ with its receiver."""
        side = self.side_of(datagram)
        if side is None:
            return []
        self.said.add(side)
        return self.asks(side.other)

    def see(self, datagram: bytes) -> list[tuple[int, bytes]]:
        """Notes a datagram that arrived at its receiver, and returns what to send in response."""
        side = self.side_of(datagram)
        if side is None:
            return []
        self.came.add(side)
        return self.asks(side)

    def asks(self, side: Side) -> list[tuple[int, bytes]]:
        """Returns the first KEYREQ in the name of a side, once its CASE has arrived and the other side has sent its own."""
        if side not in self.came or side.other not in self.said or side in self.due:
            return []
        self.due[side] = side.round + ROUNDS
        return [self.asked(side)]

    def asks_in(self, number: int) -> list[tuple[int, bytes]]:
        """Returns what to send at the beginning of a round."""
        return [self.asked(side) for side, last in self.due.items() if number <= last]

    def asked(self, side: Side) -> tuple[int, bytes]:
        """Returns a KEYREQ in the name of this side's peer, and its receiver, the peer on the other side."""
        head = MAGIC + bytes([self.session.version, KEYREQ]) + bytes.fromhex(self.session.id)
        return side.partner, head + struct.pack(">HHIBB", side.peer, side.partner, side.round, side.kind, side.role)
