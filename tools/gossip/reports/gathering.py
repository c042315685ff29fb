"""Gathers the data of a run of a session, from the logs of its peers, what the auditor and the judge say, and the files of its folder.

Every run leaves what this needs, whether it is live or simulated.
"""
import collections
import dataclasses
import pathlib
import re
from collections.abc import Container, Iterator, Sequence

from gossip.formats.datagrams import Exchange, Promise, Reader, Update
from gossip.formats.files import CONTENT, SLOTS, Malformed, Session, head_of, parts_of
from gossip.formats.grammar import EXCHANGE_KINDS, name_of
from gossip.programs.bar import run, spread
from gossip.reports.audits import Audit
from gossip.reports.casting import Casts, casts_in
from gossip.reports.exchanges import Account, Arrival, Side, round_of
from gossip.reports.flooding import full_ticks_of
from gossip.reports.losses import Losses
from gossip.reports.replays import Logs
from gossip.reports.run_data import (
    BALANCED_WAY,
    BLOCK_WAY,
    PUSH_WAY,
    EvictionRow,
    EvidenceRow,
    ExchangeName,
    ExchangeRow,
    PeerRow,
    ReleaseRow,
    RoundRow,
    Run,
    SideRow,
    UpdateRow,
)
from gossip.scripts.console import Count
from gossip.sessions.session_folder import Findings, Folder

VERDICT = re.compile(r"party (\d+) fault (F\d+)")


# what the judge says about evidence, by the keeper and the accused
Verdicts = dict[tuple[int, int], str]


def way_of(arrival: Arrival) -> str:
    """Returns the way in which an update arrived."""
    return BLOCK_WAY if arrival.exchange is None else PUSH_WAY if arrival.exchange.push else BALANCED_WAY


def name_in_rows(exchange: Exchange) -> ExchangeName:
    """Returns the name of an exchange in the form that rows have."""
    return ExchangeName(exchange.round, EXCHANGE_KINDS[exchange.push], exchange.initiator, exchange.responder)


def size_of(promise: Promise | None) -> int:
    return len(promise.updates) + promise.junk if promise else 0


# ---- rows


def side_row(party: int, side: Side) -> SideRow:
    """Returns the row of a peer's side of an exchange."""
    gives, gets = side.gives, side.gets
    return SideRow(
        party,
        **name_in_rows(side.exchange)._asdict(),
        answered=side.answered,
        promised=size_of(gives),
        received=size_of(gets),
        opened=size_of(gives) if side.paid is not None else 0,
        gives=list(gives.updates) if gives else [],
        gives_junk=gives.junk if gives else 0,
        gets=list(gets.updates) if gets else [],
        gets_junk=gets.junk if gets else 0,
        since=side.since,
        key_asked=len(side.asked),
        key_given=side.paid,
        key_got=side.was_paid,
        wrong_key=side.was_cheated,
    )


def update_row(account: Account, update: Update, arrival: Arrival, in_time: bool) -> UpdateRow:
    """Returns the row of an update that arrived at a peer."""
    return UpdateRow(
        account.party,
        update.round,
        update.index,
        tick=arrival.tick,
        sender=arrival.sender,
        way=way_of(arrival),
        in_time=in_time,
        played=update in account.played,
        bytes=arrival.content,
    )


def update_rows(account: Account) -> Iterator[UpdateRow]:
    """Yields the updates that arrived at a peer: first those that arrived in time, then those that arrived only too late."""
    late = {update: it for update, it in account.late.items() if update not in account.held}
    for in_time, arrivals in ((True, account.held), (False, late)):
        yield from (update_row(account, update, it, in_time) for update, it in sorted(arrivals.items()))


def round_rows(account: Account, released: collections.Counter[int], losses: Losses) -> Iterator[RoundRow]:
    """Yields what a peer did in each round in which it had a tick."""
    came = collections.Counter(round_of(arrival.tick) for arrival in account.held.values())
    played = collections.Counter(update.round + account.session.life for update in account.played)
    for number in range(1, (account.log.ticks + SLOTS - 1) // SLOTS + 1):
        sides = account.sides_by_round.get(number, [])
        yield RoundRow(
            account.party,
            number,
            due=released[number - account.session.life],
            played=played[number],
            came=came[number],
            started=sum(side.asks for side in sides),
            answered=sum(not side.asks for side in sides),
            traded=sum(map(is_complete, sides)),
            lost=losses.lost_by_round[account.party, number],
            accuses=number in account.accusing_rounds,
        )


def is_complete(side: Side) -> bool:
    """Whether a peer gave its key and got its partner's."""
    return side.paid is not None and side.was_paid is not None


def gap_of(rounds: list[RoundRow]) -> int:
    """Returns the largest number of rounds in a row in which a peer didn't play all that was due. Rounds with nothing due are skipped."""
    longest = now = 0
    for row in rounds:
        if row.due:
            now = now + 1 if row.played < row.due else 0
            longest = max(longest, now)
    return longest


def peer_row(account: Account, rounds: list[RoundRow], losses: Losses) -> PeerRow:
    """Returns the row of a peer's totals."""
    log, sides = account.log, account.sides.values()
    ways = collections.Counter(way_of(account.held[update]) for update in account.played)
    return PeerRow(
        account.party,
        ticks=log.ticks,
        whole=log.whole,
        bytes_played=len(log.played),
        played=len(account.played),
        played_by_block=ways[BLOCK_WAY],
        played_by_balanced=ways[BALANCED_WAY],
        played_by_push=ways[PUSH_WAY],
        blocks=len(account.straight),
        late=len(account.late.keys() - account.held.keys()),
        gap=gap_of(rounds),
        started=sum(side.asks for side in sides),
        answered=sum(not side.asks for side in sides),
        traded=sum(map(is_complete, sides)),
        keys_given=sum(side.paid is not None for side in sides),
        keys_got=sum(side.was_paid is not None for side in sides),
        wrong_keys=sum(side.was_cheated is not None for side in sides),
        sent=len(log.sent),
        bytes_sent=sum(len(datagram) for _, datagram in log.sent),
        taken=len(log.taken),
        bytes_taken=sum(len(datagram) for _, datagram in log.taken),
        lost=losses.lost_by_peer[account.party],
        full=full_ticks_of(log.taken),
    )


def release_rows(accounts: list[Account]) -> list[ReleaseRow]:
    """Returns the rows of the stream's updates, according to the manifests that peers admitted."""
    contents = {update: arrival.content for account in accounts for update, arrival in account.held.items()}
    straight = collections.Counter(update for account in accounts for update in account.straight)
    released = sorted(set().union(*(account.digests for account in accounts)))
    return [ReleaseRow(*update, contents.get(update), straight[update]) for update in released]


def exchange_rows(accounts: list[Account], audit: Audit | None, evidence: list[EvidenceRow]) -> Iterator[ExchangeRow]:
    """Yields the rows of the exchanges in which a peer sent something, in order."""
    sides = collections.defaultdict(list)
    for account in accounts:
        for side in account.sides.values():
            sides[side.exchange].append(side)
    audited = {entry.exchange for entry in audit.entries} if audit else set()
    kept = collections.Counter(row.exchange for row in evidence)
    for exchange in sorted(sides):
        found = "unbalanced" if audit and exchange in audit.unbalanced else "balanced" if exchange in audited else None
        name = name_in_rows(exchange)
        complete = all(map(is_complete, sides[exchange]))
        yield ExchangeRow(**name._asdict(), complete=complete, audit=found, evidence=kept[name])


# ---- evidence and evictions


def judged(folder: Folder, program: pathlib.Path, found: Findings) -> Verdicts:
    """Returns what the judge says about each evidence file of a folder, under the table of the party that keeps it."""
    pairs = [(party, name) for party, names in sorted(found.items()) for name in sorted(names) if name != "table"]

    def judge(pair: tuple[int, str]) -> str:
        party, name = pair
        own = f"{folder.results}.{party}"
        ran = run(program, "judge", session=folder.session, table=f"{own}.table", evidence=f"{own}.{name}")
        return ran.printed.decode(errors="replace").strip() or ran.told

    return {(party, int(name)): said for (party, name), said in zip(pairs, spread(judge, pairs))}


def evidence_row(reader: Reader, keeper: int, accused: int, evidence: bytes, said: str | None) -> EvidenceRow:
    """Returns the row of evidence that a party keeps against another. `said` is what the judge says about it."""
    try:
        parts = parts_of(evidence)
    except Malformed:
        parts = []
    heads = [head_of(part, reader.session) for part in parts]
    exchange = next(filter(None, map(reader.exchange_of, parts)), None)
    verdict = VERDICT.fullmatch(said or "")
    return EvidenceRow(
        keeper,
        accused,
        fault=verdict[2] if verdict else None,
        verdict=said,
        datagrams=[name_of(head.kind if head else None) for head in heads],
        **(name_in_rows(exchange)._asdict() if exchange else {}),
    )


def evidence_rows(session: Session, found: Findings, verdicts: Verdicts) -> Iterator[EvidenceRow]:
    """Yields the rows of the evidence that parties keep."""
    reader = Reader(session)
    for keeper, names in sorted(found.items()):
        for accused in sorted(int(name) for name in names if name != "table"):
            yield evidence_row(reader, keeper, accused, names[str(accused)], verdicts.get((keeper, accused)))


def eviction_rows(accounts: list[Account], evidence: list[EvidenceRow]) -> Iterator[EvictionRow]:
    """Yields the parties against which the broadcaster keeps evidence. If there are none, yields those that a notice names."""
    faults = {row.accused: row.fault for row in evidence if row.keeper == 0}
    notices = [notice for account in accounts for notice in account.notices.items()]
    parties = faults or dict.fromkeys(sorted({party for party, _ in notices}))
    for party in sorted(parties):
        rounds = [number for named, number in notices if named == party]
        yield EvictionRow(party, fault=faults.get(party), round=min(rounds, default=None), told=len(rounds))


# ---- the run


def audit_of_run(audit: Audit | None) -> dict[str, object] | None:
    """Returns what the auditor said, in the form that `Run` has."""
    if audit is None:
        return None
    named = list(name_in_rows(audit.named)) if audit.named else None
    cause = audit.cause if audit.named else None
    told = {"line": audit.line, "refused": audit.refused, "recordings": audit.recordings, "exchanges": len(audit.entries)}
    return told | {"unbalanced": len(audit.unbalanced), "named": named, "cause": cause}


def accounts_of(session: Session, logs: Logs, count: Count) -> list[Account]:
    """Returns what peers did and held, from their logs. If this needs much time, lines report how many are gathered."""
    accounts = []
    for party, log in sorted(logs.items()):
        accounts.append(Account(session, party, log))
        count.tell_late(len(accounts))
    return accounts


@dataclasses.dataclass(frozen=True)
class Known:
    """What is known about a run besides the logs of its peers.

    `casts` is what the broadcaster sent. `found` has the findings by party; if it is None, those of the logs are used. `refused` has by
    peer why there is no replay. `differ` has what differs, each with its peer, and `statuses` the exit statuses by party. `outside` is how
    many datagrams were received that don't belong to the session.
    """

    audit: Audit | None = None
    casts: Casts | None = None
    found: Findings | None = None
    verdicts: Verdicts = dataclasses.field(default_factory=dict)
    refused: dict[int, str] = dataclasses.field(default_factory=dict)
    differ: Sequence[tuple[int, str]] = ()
    statuses: dict[int, int] = dataclasses.field(default_factory=dict)
    liars: Container[int] = ()
    outside: int | None = None

    def peer_row(self, peer: int) -> PeerRow:
        """Returns the row of a peer without a log."""
        return PeerRow(peer, refused=self.refused.get(peer, "it left no recording"))

    def tell(self, row: PeerRow) -> None:
        """Adds to the row of a peer what isn't in its log."""
        row.status, row.lies = self.statuses.get(row.peer), row.peer in self.liars
        row.differs = [told for party, told in self.differ if party == row.peer]


def run_of(session: Session, logs: Logs, known: Known = Known()) -> Run:
    """Returns the data of a run, from the logs of its peers and what else is known about it."""
    found = known.found if known.found is not None else {party: log.findings for party, log in logs.items()}
    # a step for each log, and a last one for what was lost
    count = Count("gathered", len(logs) + 1)
    accounts = accounts_of(session, logs, count)
    losses, releases = Losses(session, logs, known.casts), release_rows(accounts)
    count.tell_late(count.total)
    released = collections.Counter(row.round for row in releases)
    evidence = [*evidence_rows(session, found, known.verdicts)]
    rounds = {account.party: [*round_rows(account, released, losses)] for account in accounts}
    peers = {peer: known.peer_row(peer) for peer in range(1, session.peers + 1)}
    peers |= {account.party: peer_row(account, rounds[account.party], losses) for account in accounts}
    for row in peers.values():
        known.tell(row)
    return Run(
        session=vars(session) | {"ends": session.ends, "ticks": session.ticks},
        stream=sum(CONTENT if row.bytes is None else row.bytes for row in releases),
        casts=known.casts is not None,
        replays={"replayed": len(logs), "agree": sum(not row.differs for row in peers.values() if not row.refused)},
        audit=audit_of_run(known.audit),
        peers=[*peers.values()],
        rounds=[row for rows in rounds.values() for row in rows],
        releases=releases,
        updates=[row for account in accounts for row in update_rows(account)],
        exchanges=[*exchange_rows(accounts, known.audit, evidence)],
        sides=[side_row(account.party, side) for account in accounts for side in account.sides.values()],
        evictions=[*eviction_rows(accounts, evidence)],
        evidence=evidence,
        losses=losses.rows(),
        traffic=losses.traffic_rows(),
        outside=known.outside,
    )


def gathered(folder: Folder, session: Session, program: pathlib.Path, logs: Logs, known: Known) -> Run:
    """Returns the data of a folder's run. Adds to what is known what its broadcaster sent, the findings and the verdicts."""
    found = folder.findings()
    casts, verdicts = casts_in(folder, session, logs, found.get(0, {})), judged(folder, program, found)
    return run_of(session, logs, dataclasses.replace(known, casts=casts, found=found, verdicts=verdicts))
