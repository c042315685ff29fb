"""What a run was, as data: session.json against an independent count of the recordings, and against what the page shows."""
import collections
import dataclasses
import json
import pathlib
import struct
import sys
import unittest

sys.path.insert(0, str(pathlib.Path(__file__).resolve().parent.parent))

import made_sessions as made
from made_runs import busy_run
from made_sessions import PLAIN, SESSION, Diary, Trade, first_tick
from test_timeline import Page

from gossip.drawings import timeline
from gossip.formats.datagrams import Exchange, Update
from gossip.formats.files import KEY, KEYREQ, SLOTS, Malformed
from gossip.formats.grammar import NAMES
from gossip.reports import casting, flows
from gossip.reports.gathering import Known, run_of
from gossip.reports.run_data import TABLES, Run

FIRST, SECOND, THIRD, FOURTH = (Update(1, index) for index in range(4))
TRADE = Trade.balanced(Exchange(2, False, 1, 2), [[FIRST, FOURTH], [SECOND, THIRD, FOURTH]], [[SECOND, THIRD], [FIRST]])
UNEVEN = Trade.balanced(Exchange(2, False, 1, 2), [[FIRST, FOURTH], [SECOND, THIRD, FOURTH]], [[SECOND], [FIRST]])
PUSH = Trade.push(Exchange(3, True, 3, 1), [[Update(3, 0)], [], [Update(3, 0)], []], 1)
LAST_TICK = SLOTS * SESSION.ends


def diaries():
    """What three peers take and send: peers 1 and 2 trade, peer 3 pushes an update to peer 1, and one block comes too late."""
    one, two, three = (Diary(party) for party in (1, 2, 3))
    for diary, updates in ((one, [FIRST, FOURTH]), (two, [SECOND, THIRD, FOURTH]), (three, [SECOND])):
        diary.until(1)
        diary.take_manifest(1, 2)
        diary.until(2)
        diary.take(*(made.block(diary.party, update) for update in updates))
    two.take(made.block(2, FOURTH))
    for diary in (one, two):
        diary.trade(UNEVEN, 9, key_tick=10)
        diary.send(UNEVEN.key(diary is one))
    for diary in (one, three):
        diary.until(first_tick(3))
        diary.take_manifest(3)
    three.take(made.block(3, Update(3, 0)))
    for diary in (one, three):
        diary.trade(PUSH, first_tick(3) + 1, key_tick=first_tick(3) + 2)
        diary.send(PUSH.key(diary is three))
    two.until(first_tick(4))
    two.take(made.block(2, FIRST), made.evict(4, 3))
    for diary in (one, two, three):
        diary.until(LAST_TICK)
    one.send(made.datagram(KEYREQ, 1, 2, struct.pack(">IBB", 6, 0, 0)))
    return [one, two, three]


def played_by(*updates):
    return b"".join(PLAIN[update][2 : 2 + 2] for update in updates)


PLAYED = {1: played_by(FIRST, SECOND, FOURTH, Update(3, 0)), 2: played_by(FIRST, SECOND, THIRD, FOURTH), 3: played_by(SECOND, Update(3, 0))}


def small_run():
    """The recordings of the three peers by party, and what the run was."""
    written = {diary.party: diary for diary in diaries()}
    logs = {party: diary.log(played=PLAYED[party]) for party, diary in written.items()}
    return {party: diary.recording() for party, diary in written.items()}, run_of(SESSION, logs)


class Count:
    """What a recording has, counted by its bytes alone."""

    def __init__(self, recording, life=SESSION.life):
        self.ticks, self.kinds, self.bytes, self.blocks, self.late, seen, at = 0, collections.Counter(), 0, set(), set(), set(), 15
        self.again = 0
        while recording[at]:
            if recording[at] == 1:
                self.ticks, at = self.ticks + 1, at + 1
                continue
            size = recording[at + 1] * 256 + recording[at + 2]
            datagram, at = recording[at + 3 : at + 3 + size], at + 3 + size
            self.again += datagram in seen
            seen.add(datagram)
            self.kinds[datagram[3]] += 1
            self.bytes += size
            if datagram[3] == 2:
                number, index = struct.unpack(">IB", datagram[16:21])
                (self.blocks if self.ticks <= 8 * (number + life - 1) else self.late).add((number, index))


class Agreement(unittest.TestCase):
    def test_the_data_is_an_independent_count_of_the_recordings(self):
        recordings, run = small_run()
        for peer in run.peers:
            count = Count(recordings[peer.peer])
            self.assertEqual((peer.ticks, peer.taken, peer.bytes_taken), (count.ticks, sum(count.kinds.values()), count.bytes))
            traffic = [row for row in run.traffic if row.party == peer.peer]
            kinds = {row.kind: row.taken for row in traffic if row.taken}
            self.assertEqual(kinds, {NAMES[kind]: number for kind, number in count.kinds.items()})
            self.assertEqual(sum(row.taken_again for row in traffic), count.again)
            own = [row for row in run.updates if row.peer == peer.peer and row.sender == 0]
            self.assertEqual({(row.round, row.index) for row in own if row.in_time}, count.blocks)
            self.assertEqual({(row.round, row.index) for row in run.updates if row.peer == peer.peer and not row.in_time}, set())
            self.assertEqual((peer.blocks, peer.keys_got), (len(count.blocks), count.kinds[KEY]))
            self.assertEqual(peer.bytes_played, len(PLAYED[peer.peer]))
            self.assertEqual(2 * peer.played, peer.bytes_played)

    def test_an_update_that_came_too_late_alone(self):
        diary = Diary(1)
        diary.until(1)
        diary.take_manifest(1)
        diary.until(first_tick(4))
        diary.take(made.block(1, FIRST))
        diary.until(LAST_TICK)
        run, count = run_of(SESSION, {1: diary.log()}), Count(diary.recording())
        came = [(row.round, row.index, row.in_time, row.played) for row in run.updates]
        self.assertEqual(came, [(*update, False, False) for update in count.late])
        self.assertEqual((run.peers[0].late, run.peers[0].played), (1, 0))

    def test_totals_are_sums_of_rows(self):
        for run in (small_run()[1], busy_run(5, 6)):
            for peer in run.peers:
                rounds = [row for row in run.rounds if row.peer == peer.peer]
                self.assertEqual(sum(row.played for row in rounds), peer.played)
                self.assertEqual(sum(row.came for row in rounds) if run.losses else peer.played, peer.played)
                self.assertEqual(peer.played_by_block + peer.played_by_balanced + peer.played_by_push, peer.played)

    def test_what_each_update_came_by(self):
        _, run = small_run()
        ways = {(row.peer, row.round, row.index): (row.tick, row.sender, row.way) for row in run.updates}
        self.assertEqual(ways[1, *SECOND], (10, 2, "balanced"))
        self.assertEqual(ways[2, *FIRST], (10, 1, "balanced"))
        self.assertEqual(ways[1, 3, 0], (first_tick(3) + 2, 3, "push"))
        self.assertEqual(ways[3, *SECOND], (2, 0, "block"))

    def test_sides_and_exchanges(self):
        _, run = small_run()
        exchanges = [(row.round, row.kind, row.initiator, row.responder, row.complete) for row in run.exchanges]
        self.assertEqual(exchanges[:2], [(2, "balanced", 1, 2, True), (3, "push", 3, 1, True)])
        side = next(row for row in run.sides if row.peer == 1 and row.kind == "push")
        self.assertEqual((side.promised, side.received, side.opened), (1, 1, 1))
        self.assertEqual((side.gives, side.gives_junk, side.gets), ([], 1, [Update(3, 0)]))
        self.assertEqual((side.since, side.key_got, side.key_given, side.wrong_key), (18, 19, 19, None))

    def test_the_page_has_the_same_numbers(self):
        logs = {diary.party: diary.log(played=PLAYED[diary.party]) for diary in diaries()}
        page, run = Page(logs), run_of(SESSION, logs)
        names = {"bytes played": "bytes_played", "played, by pushes": "played_by_push", "datagrams taken": "taken"}
        names |= {"bytes taken": "bytes_taken", "keys got that open well": "keys_got"}
        names |= {"lost on the way to it": "lost", "longest gap in rounds": "gap"}
        for line, peer in zip(page.table, run.peers, strict=True):
            self.assertEqual({name: line[name] for name in names}, {name: f"{getattr(peer, field):,}" for name, field in names.items()})
        for line in page.tables["datagrams by kind"]:
            rows = [row for row in run.traffic if row.kind == line["kind"]]
            self.assertEqual([line["sent"], line["lost"]], [f"{sum(getattr(row, name) for row in rows):,}" for name in ("sent", "lost")])

    def test_evictions(self):
        _, run = small_run()
        self.assertEqual([(row.party, row.fault, row.round, row.told) for row in run.evictions], [(3, None, 4, 1)])
        logs = {diary.party: diary.log() for diary in diaries()}
        found = {0: {"table": b"", "3": made.evidence(TRADE.case(True))}}
        run = run_of(SESSION, logs, Known(found=found, verdicts={(0, 3): "party 3 fault F2"}))
        self.assertEqual([(row.party, row.fault, row.round, row.told) for row in run.evictions], [(3, "F2", 4, 1)])
        (row,) = run.evidence
        self.assertEqual((row.keeper, row.accused, row.fault, row.datagrams), (0, 3, "F2", ["CASE"]))
        self.assertEqual((row.round, row.kind, row.initiator, row.responder), (2, "balanced", 1, 2))


class Files(unittest.TestCase):
    def test_what_is_written_is_read_again(self):
        for run in (small_run()[1], busy_run(4, 3)):
            text = run.to_json()
            self.assertEqual(json.loads(text), json.loads(json.dumps(run.document())))
            self.assertEqual(Run.of_json(text).to_json(), text)
            self.assertEqual(len(text.splitlines()), 1 + sum(1 + max(1, len(getattr(run, name))) for name in TABLES))

    def test_what_is_none_is_refused(self):
        for text in ("", "[]", "{}", '{"format": "bar session 2"}', small_run()[1].to_json().replace('"rows"', '"lines"')):
            with self.assertRaises(Malformed):
                Run.of_json(text)

    def test_a_page_of_forty_peers_and_fifty_rounds_has_less_than_a_megabyte(self):
        self.assertLess(len(timeline.page(busy_run(40, 50)).encode()), 1_000_000)


class Losses(unittest.TestCase):
    def test_which_of_equal_datagrams_are_lost(self):
        for sent, taken, lost in (
            ([1], [], [1]),
            ([1, 9], [9], [1]),
            ([1, 9], [2], [9]),
            ([1, 1], [1], [1]),
            ([1, 9, 17], [10], [1, 17]),
            ([1], [1, 1], []),
            ([1, 2], [7], [1]),
            ([], [3], []),
        ):
            self.assertEqual(flows.lost_of(sent, taken), lost)

    def test_losses_are_an_independent_count_of_transcripts_and_recordings(self):
        _, run = small_run()
        sent, taken = collections.Counter(), collections.Counter()
        for diary in diaries():
            sent.update((diary.party, int(line.split()[1]), line.split()[2]) for line in diary.lines)
            datagrams = [entry[3:] for entry in diary.entries if entry[:1] == b"\2"]
            taken.update((it[13], diary.party, it.hex()) for it in datagrams)
        lost, unsent = sent - taken, taken - sent
        self.assertTrue(lost)
        for name, counts in (("lost", lost), ("unsent", unsent)):
            told = collections.Counter()
            for (sender, receiver, digits), count in counts.items():
                told[sender, receiver, int(digits[6:8], 16)] += count
            kinds = {name: number for number, name in NAMES.items()}
            rows = {(row.sender, row.receiver, kinds[row.kind]): getattr(row, name) for row in run.losses if getattr(row, name)}
            self.assertEqual(rows, {place: count for place, count in told.items() if place[0]})
        self.assertEqual(sum(row.lost for row in run.rounds), sum(row.lost for row in run.losses))
        self.assertEqual(sum(row.lost for row in run.peers), sum(row.lost for row in run.traffic))

    def test_what_comes_more_often_and_what_nobody_sent(self):
        sent, other = made.datagram(KEYREQ, 1, 2, struct.pack(">IBB", 1, 0, 0)), made.datagram(KEYREQ, 1, 2, struct.pack(">IBB", 2, 0, 0))
        one, two = Diary(1), Diary(2)
        one.until(1)
        one.send(sent)
        two.take(sent, sent, other, b"strange")
        run = run_of(SESSION, {1: one.log(), 2: two.log()})
        (row,) = run.losses
        self.assertEqual((row.sent, row.taken, row.lost, row.copies, row.unsent), (1, 3, 0, 1, 1))
        self.assertEqual([(row.kind, row.taken) for row in run.traffic if row.party == 2], [("KEYREQ", 3), ("OTHER", 1)])


class Casts(unittest.TestCase):
    SECRET, STREAM = bytes(range(32)), bytes(1022 * 4) + b"second round"

    def casts(self, logs, evicted=()):
        blocks = {Update(1, index): made.block_with(bytes(1022)) for index in range(4)} | {Update(2, 0): made.block_with(b"second round")}
        table = made.table(made.manifest(1, blocks), made.manifest(2, blocks), made.manifest(6, {}))
        return casting.casts_of(SESSION, logs, casting.Broadcaster(self.SECRET, self.STREAM, table, set(evicted))), blocks

    def test_what_a_broadcaster_sends(self):
        casts, blocks = self.casts({})
        manifests = [(tick, receiver) for tick, receiver, it in casts.sent if it == made.manifest(2, blocks)]
        self.assertEqual(sorted(manifests), [(tick, peer) for tick in (9, 13) for peer in (1, 2, 3)])
        update = Update(2, 0)
        (peer,) = casting.fan_out(SESSION, self.SECRET, update)
        sent = [(tick, receiver) for tick, receiver, it in casts.sent if it == made.block(peer, update, blocks)]
        self.assertEqual(sent, [(10, peer), (14, peer)])
        self.assertEqual(len(casts.sent), 3 * 6 + 5 * 2)

    def test_manifests_are_sent_again_in_version_3(self):
        session = dataclasses.replace(SESSION, version=3)
        manifests = [it[:2] + b"\x03" + it[3:] for it in (made.manifest(1, {}), made.manifest(2, {}))]
        casts = casting.casts_of(session, {}, casting.Broadcaster(self.SECRET, b"", made.table(*manifests), set()))
        self.assertEqual(sorted({tick for tick, _, _ in casts.sent}), [1, 5, 9, 11, 13, 19])
        self.assertEqual(len(casts.sent), 3 * 6)

    def test_what_is_sent_to_a_peer_that_is_evicted(self):
        diary = Diary(1)
        diary.take(made.evict(2, 3), made.evict(1, 2))
        casts, _ = self.casts({1: diary.log()}, [3])
        self.assertEqual(sum(it == made.evict(2, 3) for _, _, it in casts.sent), 2)
        self.assertFalse([tick for tick, receiver, _ in casts.sent if receiver == 3 and tick >= first_tick(2)])
        self.assertNotIn(made.evict(1, 2), [it for _, _, it in casts.sent])
        flow = flows.Flow(0, 3, "MANIFEST", 1, [1], [1])
        self.assertTrue(casts.is_unsure(flow))
        self.assertFalse(casts.is_unsure(flows.Flow(0, 2, "MANIFEST", 1, [1], [1])))


if __name__ == "__main__":
    unittest.main()
