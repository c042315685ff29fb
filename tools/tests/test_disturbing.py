"""Live sessions that are disturbed, by a program that stands for `bar`, and what is told of peers that lie."""
import json
import types
import unittest
from unittest import mock

from support import RoomCase, fake_program, lines_of

from gossip.formats.datagrams import Exchange
from gossip.networks.disturbances import Network
from gossip.reports import lies
from gossip.reports.audits import Audit, Entry
from gossip.reports.run_data import EvictionRow, EvidenceRow, Run
from gossip.runs import disturbed, runner
from gossip.runs.parties import Way
from gossip.sessions import session_folder


def evidence(keeper, accused, fault="F1"):
    return EvidenceRow(keeper, accused, fault, None, [])


def side(peer, partner, given, got, promised=1):
    return types.SimpleNamespace(peer=peer, partner=partner, key_given=given, key_got=got, promised=promised)


def run_with(evictions=(), kept=(), sides=()):
    return types.SimpleNamespace(evictions=[*evictions], evidence=[*kept], sides=[*sides])


class Liars(unittest.TestCase):
    def test_a_liar_that_was_evicted(self):
        run = run_with([EvictionRow(5, "F1", 3, 4)], [evidence(0, 5), evidence(2, 5), evidence(1, 5)])
        told = "was evicted for a bad opening, told to 4 peers from round 3 on: evidence of it is kept by peer 1 and peer 2"
        self.assertEqual(lies.line_of(run, 5, "key"), f"peer 5, which lied (key), {told}")
        self.assertEqual([*lies.faults_of(run, {5: "key"})], [])

    def test_an_eviction_that_nobody_was_told(self):
        run = run_with([EvictionRow(5, None, None, 0)])
        self.assertIn("for a fault that can't be told, told to nobody: no peer keeps evidence of it", lies.line_of(run, 5, "key"))

    def test_a_liar_that_showed_nothing(self):
        self.assertEqual(lies.line_of(run_with(), 5, "key"), "peer 5, which lied (key), wasn't evicted: no peer keeps evidence of it")
        self.assertEqual([*lies.faults_of(run_with(), {5: "key"})], [])

    def test_evidence_that_came_to_nothing(self):
        told = [*lies.faults_of(run_with(kept=[evidence(2, 5)]), {5: "key"})]
        self.assertEqual(told, ["peer 5 lied and wasn't evicted, though peer 2 kept evidence"])

    def test_honest_peers_that_are_accused(self):
        run = run_with([EvictionRow(3, "F1", 3, 4), EvictionRow(5, "F1", 3, 4)], [evidence(2, 4)])
        self.assertEqual([*lies.faults_of(run, {5: "key"})], ["there is evidence against peer 3 and peer 4, who didn't lie"])

    def test_what_was_unfair(self):
        sides = [side(1, 5, 9, None, 3), side(1, 2, 9, 9), side(2, 1, 9, None), side(3, 5, None, None), side(5, 1, 9, None)]
        lines = [*lies.lines_of_shorted(run_with(sides=sides), {5: "key"})]
        self.assertEqual(lines, [
            "unfair: of 3 keys that honest peers gave, 2 brought them none that opens well, 1 of these among themselves",
            "liars had 3 items for nothing: of peer 1 1 time",
        ])
        self.assertEqual(len([*lies.lines_of_shorted(run_with(sides=sides[1:3]), {5: "key"})]), 1)

    def test_an_exchange_with_a_liar_may_be_unbalanced(self):
        with_liar, honest = Exchange(1, False, 1, 5), Exchange(2, False, 1, 2)
        entries = tuple(Entry(it, (1, 0), (1, 1)) for it in (with_liar, honest))
        audit = Audit(5, entries[:1], with_liar)
        self.assertEqual(lies.audit_failures(audit, {5: "leaf"}), [])
        self.assertEqual(lies.audit_failures(audit, {}), [audit.line])
        both = Audit(5, entries, with_liar)
        self.assertEqual(lies.audit_failures(both, {5: "leaf"}), [both.line])


class Ways(unittest.TestCase):
    def test_liars_and_texts(self):
        with mock.patch("gossip.runs.disturbed.built", return_value="party"):
            ways = disturbed.ways_of(Network(liars={2: "key"}), {0: "text 0", 2: "text 2"})
        self.assertEqual(ways, {0: Way(session="text 0"), 2: Way(program=("party", "udp", "key"), session="text 2")})
        folder = session_folder.Folder("/f")
        words = ways[2].words(folder, "bar", 2, 7)
        self.assertEqual(words[:6], ["party", "udp", "key", "peer", "--session", "text 2"])
        self.assertEqual(ways[0].words(folder, "bar", 0, 7)[:4], ["bar", "broadcaster", "--session", "text 0"])

    def test_nothing_is_built_where_nobody_lies(self):
        with mock.patch("gossip.runs.disturbed.built", side_effect=AssertionError):
            self.assertEqual(disturbed.ways_of(Network(loss=5), {}), {})


class Sessions(RoomCase):
    def run_over(self, network, **ways):
        """Runs a session of two peers over a network: its folder, its outcome and the lines that were printed."""
        program = fake_program(self.room, live=True, **ways)
        folder, session = self.make_session(program)
        with mock.patch("gossip.runs.disturbed.built", return_value=program):
            outcome, out, _ = lines_of(lambda: runner.run_session(folder, session, program, network=network))
        return folder, outcome, out

    def test_a_session_behind_a_relay(self):
        folder, outcome, lines = self.run_over(Network(repeat=100, delay=5, seed="x"))
        self.assertEqual(lines[0], "the network repeats 100%, delays by up to 5 ms, seed x")
        told = json.loads(folder.network.read_text())
        self.assertEqual([pair[:2] for pair in told["pairs"]], [[1, 2], [2, 1]])
        sent = sum(pair[2] for pair in told["pairs"])
        self.assertIn(f"{sent} datagrams went over the network: 0 lost, {sent} repeated", lines)
        self.assertIn("all 2 replays agree", " ".join(lines))
        self.assertEqual(outcome.status, 0, outcome.lines)
        # twice what was sent came, but for what came behind the last ticks
        self.assertGreater(folder.recording(1).read_bytes().count(b"\xba\x47\x01\x09"), told["pairs"][1][2])

    def test_a_liar_without_a_relay(self):
        folder, outcome, lines = self.run_over(Network(seed="x", liars={2: "key"}))
        self.assertIn("all 1 replays agree", " ".join(lines))
        self.assertIn("peer 2, which lied (key), wasn't evicted: no peer keeps evidence of it", lines)
        self.assertEqual(outcome.status, 0, outcome.lines)
        row = next(row for row in Run.of_json(folder.data.read_text()).peers if row.peer == 2)
        self.assertEqual((row.lies, row.refused), (True, "it lied (key), so its recording isn't replayed"))


if __name__ == "__main__":
    unittest.main()
