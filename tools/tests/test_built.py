"""The built program in small sessions, and its ranges. These tests are skipped where it isn't built."""
import csv
import itertools
import json
import pathlib
import re
import tempfile
import tomllib
import unittest

from support import NUMBERS, ROOT, RoomCase, bound, lines_of, need_program, run_script
from test_data import Count

from gossip.formats import files
from gossip.networks.disturbances import LIES, Network
from gossip.programs import bar, builds
from gossip.programs.bar import PROGRAM, Status
from gossip.reports.debts import debts_of
from gossip.reports.run_data import Run
from gossip.runs import runner, simulation
from gossip.sessions import making

EXAMPLE = ROOT / "examples/evidence"

# by what a liar is evicted
FAULT_OF = {
    "key": "a bad opening",
    "case": "a bad opening",
    "answers": "an identity twice",
    "partner": "a wrong partner",
    "leaf": "a leaf twice",
}


def setUpModule():
    """Says that these tests are skipped, where they are."""
    need_program("the tests of the built program")


class Sessions(RoomCase):
    def run_session(self, folder, session, kill=None):
        """Runs a session: its exit status and its last line, and the lines before it."""
        outcome, out, _ = lines_of(lambda: runner.run_session(folder, session, PROGRAM, kill))
        return outcome.status, outcome.lines[-1], out

    def check_data(self, folder):
        """What session.json says of each peer is an independent count of its recording, and what it left."""
        run = Run.of_json(folder.data.read_text())
        for peer in run.peers:
            count = Count(folder.recording(peer.peer).read_bytes(), run.session["life"])
            self.assertEqual((peer.ticks, peer.taken, peer.bytes_taken), (count.ticks, sum(count.kinds.values()), count.bytes))
            came = {(row.round, row.index) for row in run.updates if row.peer == peer.peer and row.in_time}
            self.assertLessEqual(count.blocks, came)
            self.assertEqual(peer.bytes_played, folder.played(peer.peer).stat().st_size)
        self.assertTrue(run.casts)
        self.assertEqual([row for row in run.losses if row.unsent or row.copies], [])

    def test_a_session_is_run_once(self):
        folder, session = self.make_session(PROGRAM)
        status, last, out = self.run_session(folder, session)
        self.assertEqual((status, last), (0, f"OK: all parties ended with status 0, all replays agree, page {folder.page}"))
        self.assertEqual(sorted(line[:16] for line in out[:3]), ["party 0 status 0", "party 1 status 0", "party 2 status 0"])
        self.assertIn("spent, since the session was run: all keys", self.reasons_of(lambda: runner.accept(folder))[0])

    def test_a_session_of_version_2(self):
        self.stream.write_bytes(bytes(70 * 1022))
        folder, session = self.make_session(PROGRAM, version=2, per_round=128)
        status, last, _ = self.run_session(folder, session)
        self.assertEqual((status, last), (0, f"OK: all parties ended with status 0, all replays agree, page {folder.page}"))
        self.check_data(folder)

    def test_a_session_of_two_levels(self):
        folder, session = self.make_session(PROGRAM, top=5, rounds=2)
        status, last, _ = self.run_session(folder, session)
        self.assertEqual((status, last), (0, f"OK: all parties ended with status 0, all replays agree, page {folder.page}"))
        self.check_data(folder)

    def test_a_peer_is_killed(self):
        folder, session = self.make_session(PROGRAM, life=4)
        status, last, out = self.run_session(folder, session, 2)
        self.assertEqual((status, last.partition(",")[0]), (0, "OK: party 2 was killed"))
        self.assertTrue(out[1].startswith("party 2 status 137"), out)

    def test_a_port_is_taken(self):
        folder, session = self.make_session(PROGRAM)
        with bound(session.port + 2):
            status, last, _ = self.run_session(folder, session)
        self.assertEqual((status, last), (1, f"FAILED: party 2 status 6: port {session.port + 2} is taken"))


class Measures(RoomCase):
    """What the scripts measure that compare two programs, here of the program with itself. The numbers differ from run to run."""

    def test_what_datagrams_cost(self):
        self.stream.write_bytes(bytes(3 * 4 * 1022))
        folder, session = self.make_session(PROGRAM, rounds=4, per_round=4, lms=6)
        outcome, _, _ = lines_of(lambda: runner.run_session(folder, session, PROGRAM))
        self.assertEqual(outcome.status, 0, outcome.lines)
        numbers = self.room / "numbers.csv"
        words = ["--count", 30, "--times", 1, "--before", PROGRAM, "--csv", numbers]
        status, out, err = run_script("measure-replay", folder.path, *words)
        self.assertEqual((status, out[-1]), (0, "OK: replays of up to 30 datagrams were measured"), err)
        kinds = [re.split("[,:]", line)[0] for line in out[:-1]]
        again = ["block again", "key again", "query again", "divulge again"]
        self.assertEqual(kinds[:-1], ["a hash", *["memory without an input"] * 3, "repeated", "forged", "verified", "early", *again])
        self.assertRegex(kinds[-1], "^request of round [1-4]$")
        told = ", 30 datagrams, each: before -?[0-9.]+ ms, now -?[0-9.]+ ms, (ratio [0-9.]+|no ratio)"
        # on a machine that is busy no KEY may have come
        self.assertGreaterEqual(sum(bool(re.search(told, line)) for line in out), 4, out)
        with open(numbers) as file:
            rows = [*csv.DictReader(file)]
        self.assertEqual([row["program"] for row in rows[:2]], ["before", "now"])
        self.assertEqual({row["measure"] for row in rows[:8]}, {"hash", "resident", "own", "data"})

    def test_a_flood(self):
        numbers = self.room / "numbers.json"
        words = ["--peers", 2, "--rounds", 1, "--tick-ms", 20, "--flood", 50, "--before", PROGRAM, "--json", numbers]
        status, out, err = run_script("benchmark-session", *words)
        self.assertEqual((status, out[-1]), (0, "OK: 1 session measured"), err)
        told = "peer 1 was sent a REQUEST 50 times more and took [0-9]+ of these, [0-9]+ a second; it "
        self.assertEqual(sum(bool(re.match(told, line)) for line in out), 2, out)
        rows = json.loads(numbers.read_text())
        self.assertEqual([(row["program"], row["party"]) for row in rows], [(name, party) for name in ("before", "now") for party in (1, 2, 0)])
        self.assertTrue(all(row["sent"] > 0 and row["wall"] > 0 for row in rows))
        self.assertRegex(out[-2], "^2 peers together, before the first tick: before .*; from it on: before [0-9.]+ s, now [0-9.]+ s, ")


class Ranges(unittest.TestCase):
    """The program takes and refuses the same numbers of a session as the scripts."""

    def status_of(self, text):
        """The status of a verdict in a session of this text."""
        with tempfile.NamedTemporaryFile() as session:
            session.write(text)
            session.flush()
            ran = bar.run(PROGRAM, "judge", session=session.name, table=EXAMPLE / "table", evidence=EXAMPLE / "bad-opening")
        return ran.status

    def is_session(self, text):
        try:
            return bool(files.Session.of_text(text))
        except files.Malformed:
            return False

    def test_numbers(self):
        text = (EXAMPLE / "session.toml").read_bytes()
        document = tomllib.loads(text.decode())
        names = ["rounds", "life", "cap", "per_round", "fanout", "port", "tick_ms", "lms", "ots"]
        bounds = {name: (files.NUMBERS[name].least, files.NUMBERS[name].most) for name in names}
        others = [3, 4, 56, 57, 64, 65]
        tries = [(name, value) for name, (least, most) in bounds.items() for value in {least - 1, least, most, most + 1, *others}]
        for version, (name, value) in itertools.product((1, 2, 3), tries):
            changed = text.replace(f"\n{name} = {document[name]}\n".encode(), f"\n{name} = {value}\n".encode())
            changed = changed.replace(b"version = 1\n", b"version = %d\n" % version)
            with self.subTest(version=version, name=name, value=value):
                self.assertEqual(self.status_of(changed) != Status.SESSION, self.is_session(changed))

    def test_numbers_with_two_levels(self):
        with tempfile.TemporaryDirectory() as room:
            wanted = making.Wanted(pathlib.Path(room) / "session", EXAMPLE / "table", NUMBERS | {"top": 5})
            folder, _ = lines_of(lambda: making.make(wanted, PROGRAM))[0]
            text = folder.session.read_bytes()
        tries = [("top", value) for value in (0, 4, 5, 6, 8)] + [("lms", value) for value in (4, 5, 6)]
        tries += [("ots", value) for value in (2, 3, 4)] + [("rounds", value) for value in (0, 56, 57, 1820, 1821, 7200, 7201)]
        for top, (name, value) in itertools.product((b"5", b"6", b"7"), tries):
            changed = text.replace(b"top = 5", b"top = " + top).replace(b'key = "0000000200000005', b'key = "000000020000000' + top)
            changed = re.sub(rb"\n%s = \d+" % name.encode(), b"\n%s = %d" % (name.encode(), value), changed)
            with self.subTest(top=top, name=name, value=value):
                self.assertEqual(self.status_of(changed) != Status.SESSION, self.is_session(changed))

    def test_keys(self):
        text = (EXAMPLE / "session.toml").read_bytes()
        first, second, third, _ = re.findall(b'\nkey = "(.*)"', text)
        changes = [(first, other) for other in (first.upper(), first[:-1], b"g" + first[1:], b"00000005" + first[8:])]
        changes += [(third, second), (third, second.upper()), (b"anchor", b"other")]
        changes += [*((b"version = 1", b"version = %d" % version) for version in (0, 2, 3, 4)), (b"[[peer]]", b"[peer]")]
        for old, new in changes:
            with self.subTest(old=old, new=new):
                changed = text.replace(old, new)
                self.assertEqual(self.status_of(changed) != Status.SESSION, self.is_session(changed))

    def test_numbers_of_peers(self):
        """The public keys are made up: of the session's types, and all different."""
        numbers, *_ = (EXAMPLE / "session.toml").read_text("utf-8").partition("\n[[peer]]\n")
        types = re.search('\nkey = "(.{16})', numbers)[1]
        for peers in (2, 3, 40, 200, 201):
            tables = (f'\n[[peer]]\nkey = "{types}{peer:096x}"\nanchor = "{peer:064x}"\n' for peer in range(1, peers + 1))
            text = "".join([numbers, "\n", *tables]).encode()
            with self.subTest(peers=peers):
                self.assertEqual((self.status_of(text) != Status.SESSION, self.is_session(text)), (peers <= 200,) * 2)

    def test_an_example_is_judged(self):
        self.assertEqual(self.status_of((EXAMPLE / "session.toml").read_bytes()), Status.DONE)


class Disturbed(RoomCase):
    """Sessions that are simulated or disturbed. They are skipped if the program bar_party isn't built."""

    def setUp(self):
        super().setUp()
        if not builds.PARTY.path.exists():
            self.skipTest("the program bar_party isn't built: tools/simulate-session builds it")

    def made(self, name, **numbers):
        """A session of four peers, whose stream fills all rounds but the last."""
        more = {"peers": 4, "rounds": 4, "per_round": 8, "lms": 6, "ots": 2} | numbers
        self.stream.write_bytes(bytes(at * 7 % 251 for at in range((more["rounds"] - 1) * 8 * 1022)))
        wanted = making.Wanted(self.room / name, self.stream, NUMBERS | more, "00ff")
        return lines_of(lambda: making.make(wanted, PROGRAM))[0]

    def simulated(self, name, network, **numbers):
        """Simulates a session, which takes no port: its folder, its outcome and the lines that were printed."""
        folder, session = self.made(name, port=20_000, **numbers)

        def simulate():
            return runner.outcome_of_run(folder, session, PROGRAM, simulation.simulate(folder, session, network))

        outcome, out, _ = lines_of(simulate)
        return folder, outcome, out

    def test_each_lie_is_shown_and_its_liar_evicted(self):
        self.assertEqual({*LIES} - {*FAULT_OF}, {"keys"})
        for lie in FAULT_OF:
            with self.subTest(lie=lie):
                folder, outcome, out = self.simulated(lie, Network(seed="x", liars={4: lie}))
                self.assertEqual(outcome.status, 0, [*out, *outcome.lines])
                self.assertIn(f"peer 4, which lied ({lie}), was evicted for {FAULT_OF[lie]}, told to", " ".join(out))
                self.assertEqual([row.party for row in Run.of_json(folder.data.read_text()).evictions], [4])

    def test_who_gives_no_key_is_not_served(self):
        """In version 3 alone it's owed keys, which cost it what it plays, and no evidence is kept of it."""
        played = {}
        for version in (2, 3):
            numbers = {"version": version, "rounds": 10, "life": 4}
            folder, outcome, out = self.simulated(f"v{version}", Network(seed="x", liars={4: "keys"}), **numbers)
            self.assertEqual(outcome.status, 0, [*out, *outcome.lines])
            self.assertIn("peer 4, which lied (keys), wasn't evicted: no peer keeps evidence of it", out)
            run = Run.of_json(folder.data.read_text())
            played[version], debts = folder.played(4).stat().st_size, debts_of(run)
            self.assertEqual((debts[0] > 0, debts[1]), (version == 3, 0))
        self.assertLess(played[3], played[2])

    def test_losses_are_the_same_each_time(self):
        network = Network(10, 10, 60, "x")
        one, two = (self.simulated(name, network) for name in ("one", "two"))
        self.assertEqual((one[1].status, two[1].status), (0, 0), [*one[2], *one[1].lines])
        for name in ("party.1.recording", "party.2.played", "party.0.table", "network.json", "session.json"):
            self.assertEqual((one[0].path / name).read_bytes(), (two[0].path / name).read_bytes(), name)

    def test_a_live_session_behind_a_relay_with_a_liar(self):
        folder, session = self.made("live", rounds=3)
        network = Network(5, 5, 10, "x", {4: "key"})
        outcome, out, _ = lines_of(lambda: runner.run_session(folder, session, PROGRAM, network=network))
        self.assertEqual(outcome.status, 0, [*out, *outcome.lines])
        self.assertIn("all 3 replays agree", " ".join(out))


if __name__ == "__main__":
    unittest.main()
