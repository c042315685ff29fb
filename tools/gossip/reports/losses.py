"""What parties sent each other compared with what was received: what was lost, repeated or never sent, and the bytes of each kind."""
import collections

from gossip.formats.files import Session, head_of
from gossip.formats.grammar import name_of
from gossip.reports.casting import Casts
from gossip.reports.exchanges import round_of
from gossip.reports.flows import Flow
from gossip.reports.replays import Logs
from gossip.reports.run_data import LossRow, TrafficRow


def flows_of(session: Session, logs: Logs, casts: Casts | None) -> list[Flow]:
    """Returns all flows of a session, from the logs of its peers and what the broadcaster sent, if that is known.

    If a received datagram has no header of the session, its sender is None.
    """
    flows: dict[tuple[int | None, int | None, bytes], Flow] = {}

    def flow_of(sender: int | None, receiver: int | None, datagram: bytes, kind: int | None) -> Flow:
        place = sender, receiver, datagram
        if place not in flows:
            flows[place] = Flow(sender, receiver, name_of(kind), len(datagram))
        return flows[place]

    for party, tick, datagram in ((party, tick, datagram) for party, log in logs.items() for tick, datagram in log.sent):
        kind, _, receiver = head_of(datagram, session) or (None, None, None)
        flow_of(party, receiver, datagram, kind).sent.append(tick)
    for tick, receiver, datagram in casts.sent if casts else ():
        flow_of(0, receiver, datagram, head_of(datagram, session)[0]).sent.append(tick)
    for party, log in logs.items():
        for tick, datagram in log.taken:
            kind, sender, _ = head_of(datagram, session) or (None, None, None)
            flow_of(sender, party, datagram, kind).taken.append(tick)
    return list(flows.values())


class Losses:
    """Counts what happened to all datagrams of a session."""

    def __init__(self, session: Session, logs: Logs, casts: Casts | None) -> None:
        self.senders, self.receivers = {*logs, *([0] if casts else [])}, {*logs}
        self.pairs: dict[tuple[int, int, str], LossRow] = {}
        self.traffic: dict[tuple[int, str], TrafficRow] = {}
        self.lost_by_round, self.lost_by_peer = collections.Counter(), collections.Counter()
        for flow in flows_of(session, logs, casts):
            is_sure = not (casts and casts.is_unsure(flow))
            self.count(flow, is_sure)
            if is_sure and flow.receiver in self.receivers and flow.sender in self.senders:
                self.compare(flow)

    def count(self, flow: Flow, is_sure: bool) -> None:
        """Counts the datagrams and bytes of a flow: those received, and if `is_sure`, those sent."""
        for party, side, ticks in ((flow.sender, "sent", flow.sent if is_sure else ()), (flow.receiver, "taken", flow.taken)):
            if ticks:
                counts = {side: len(ticks), f"bytes_{side}": flow.size * len(ticks), f"{side}_again": len(ticks) - 1}
                self.add(party, flow.kind, counts)

    def add(self, party: int, kind: str, counts: dict[str, int]) -> None:
        """Adds to the counts of a party's datagrams of a kind."""
        row = self.traffic.setdefault((party, kind), TrafficRow(party, kind))
        for name, more in counts.items():
            setattr(row, name, getattr(row, name) + more)

    def compare(self, flow: Flow) -> None:
        """Counts the datagrams of a flow that were lost, received more often than sent, or never sent."""
        lost, sent, taken = flow.lost, len(flow.sent), len(flow.taken)
        pair = flow.sender, flow.receiver, flow.kind
        row = self.pairs.setdefault(pair, LossRow(*pair))
        row.sent += sent
        row.taken += taken
        row.lost += len(lost)
        row.copies += max(0, taken - sent) if sent else 0
        row.unsent += 0 if sent else taken
        self.lost_by_round.update((flow.receiver, round_of(tick)) for tick in lost)
        self.lost_by_peer[flow.receiver] += len(lost)
        self.add(flow.sender, flow.kind, {"known": sent, "lost": len(lost)})

    def rows(self) -> list[LossRow]:
        """Returns a row for each pair and kind with datagrams that were lost, received more often than sent, or never sent."""
        rows = [self.pairs[pair] for pair in sorted(self.pairs)]
        return [row for row in rows if row.lost or row.copies or row.unsent]

    def traffic_rows(self) -> list[TrafficRow]:
        return [self.traffic[place] for place in sorted(self.traffic)]
