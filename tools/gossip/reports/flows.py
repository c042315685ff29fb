"""Equal datagrams from one party to another, and which of them were lost.

Two datagrams are equal if their bytes, senders and receivers are equal. If equal datagrams were received fewer times than they were sent,
those count as lost after which none was received within a tick.
"""
import dataclasses


@dataclasses.dataclass(frozen=True, slots=True)
class Flow:
    """The ticks in which equal datagrams from one party to another were sent and received."""

    sender: int | None
    receiver: int | None
    kind: str
    size: int
    sent: list[int] = dataclasses.field(default_factory=list)
    taken: list[int] = dataclasses.field(default_factory=list)

    @property
    def lost(self) -> list[int]:
        """The ticks in which the lost datagrams were sent."""
        return lost_of(self.sent, self.taken)


def lost_of(sent: list[int], taken: list[int]) -> list[int]:
    """Returns the ticks in which lost datagrams were sent, given the ticks in which equal ones were sent and received."""
    lost, at, spare = [], 0, len(sent) - len(taken)
    for tick in sent:
        if spare > 0 and (at == len(taken) or taken[at] > tick + 1):
            lost.append(tick)
            spare -= 1
        else:
            at += 1
    return lost
