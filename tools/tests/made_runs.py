"""The data of runs that are made up, of any numbers of peers and rounds, in which as much is traded as may be."""
import dataclasses
import itertools
import random

from gossip.reports.exchanges import first_tick
from gossip.reports.run_data import ExchangeName, ExchangeRow, PeerRow, ReleaseRow, RoundRow, Run, SideRow, TrafficRow, UpdateRow
from made_sessions import SESSION

WAYS = ("block", "balanced", "push")


def numbers_of(peers, rounds, per_round):
    session = dataclasses.replace(SESSION, peers=peers, rounds=rounds, per_round=per_round, life=6, cap=8, fanout=3)
    return vars(session) | {"ends": session.ends, "ticks": session.ticks}


def sides_of(draw, peers, number):
    """The exchanges of a round: each peer starts a balanced one and a push, both sides of which trade."""
    for kind in WAYS[1:]:
        for peer in range(1, peers + 1):
            partner = draw.choice([it for it in range(1, peers + 1) if it != peer])
            tick = first_tick(number)
            updates = [[max(1, number - 1), at] for at in range(draw.randint(1, 4))]
            name = ExchangeName(number, kind, peer, partner)
            for own in (peer, partner):
                yield SideRow(
                    own,
                    **name._asdict(),
                    answered=True,
                    promised=len(updates),
                    received=len(updates),
                    opened=len(updates),
                    gives=updates,
                    gives_junk=0,
                    gets=updates,
                    gets_junk=0,
                    since=tick,
                    key_asked=1,
                    key_given=tick + 2,
                    key_got=tick + 2,
                    wrong_key=None,
                )


def updates_of(draw, peer, releases, peers, ends):
    """The updates that came to a peer, most of them in time."""
    for release in releases:
        way = draw.choice(WAYS)
        sender = 0 if way == "block" else peer % peers + 1
        if draw.random() < 0.95:
            tick = first_tick(release.round) + draw.randint(1, 40)
            name = {"round": release.round, "index": release.index}
            yield UpdateRow(peer, **name, tick=tick, sender=sender, way=way, in_time=True, played=True, bytes=1022)


def busy_run(peers, rounds, per_round=8, seed=1):
    """A run of so many peers over so many rounds."""
    draw, numbers = random.Random(seed), numbers_of(peers, rounds, per_round)
    names = itertools.product(range(1, rounds + 1), range(per_round))
    releases = [ReleaseRow(number, index, bytes=1022, straight=3) for number, index in names]
    sides = [side for number in range(1, rounds + 1) for side in sides_of(draw, peers, number)]
    sides.sort(key=lambda side: side.peer)
    named = [side.exchange._asdict() for side in sides if side.asks]
    exchanges = [ExchangeRow(**name, complete=True, audit="balanced", evidence=0) for name in named]
    updates, rows, totals = [], [], []
    for peer in range(1, peers + 1):
        came = [*updates_of(draw, peer, releases, peers, numbers["ends"])]
        updates += came
        played = {number: sum(row.round == number for row in came) for number in range(1, rounds + 1)}
        for number in range(1, numbers["ends"] + 1):
            due = number - numbers["life"]
            row = RoundRow(
                peer,
                number,
                due=per_round if 1 <= due <= rounds else 0,
                played=played.get(due, 0),
                came=per_round,
                started=2,
                answered=2,
                traded=4,
                lost=draw.randint(0, 3),
                accuses=False,
            )
            rows.append(row)
        ways = [sum(row.way == way for row in came) for way in WAYS]
        total = PeerRow(peer, 0, ticks=numbers["ticks"], whole=True, bytes_played=1022 * len(came), played=len(came))
        total.played_by_block, total.played_by_balanced, total.played_by_push = ways
        total.started = total.answered = 2 * rounds
        totals.append(total)
    sent = {"sent": 100, "bytes_sent": 200_000, "sent_again": 5, "known": 100, "lost": 5}
    traffic = [TrafficRow(peer, "CASE", **sent, taken=95, bytes_taken=190_000) for peer in range(1, peers + 1)]
    audit = {"line": "", "refused": None, "recordings": peers, "exchanges": len(exchanges), "unbalanced": 0, "named": None, "cause": None}
    return Run(
        session=numbers,
        stream=1022 * len(releases),
        casts=True,
        replays={"replayed": peers, "agree": peers},
        audit=audit,
        peers=totals,
        rounds=rows,
        releases=releases,
        updates=updates,
        exchanges=exchanges,
        sides=sides,
        evictions=[],
        evidence=[],
        losses=[],
        traffic=traffic,
    )
