"""Sessions that are simulated, by a program that stands for bar_party."""
import unittest
from unittest import mock

from support import RoomCase, fake_program, lines_of

from gossip.formats.files import entries_of
from gossip.networks.disturbances import Network
from gossip.programs.bar import Status
from gossip.runs import simulation


class SimulationCase(RoomCase):
    def simulated(self, name="session", network=Network(seed="x"), **ways):
        """Simulates a session of two peers: its folder and how it ended."""
        self.room.joinpath(name).mkdir()
        program = fake_program(self.room / name, **ways)
        self.stream = self.room / "stream"
        folder, session = self.make_in(name, program)
        with mock.patch("gossip.runs.simulation.built", return_value=program):
            (ran, _, _) = lines_of(lambda: simulation.simulate(folder, session, network))
        return folder, ran

    def make_in(self, name, program):
        """Makes a session of two peers in a folder of this name."""
        room, self.room = self.room, self.room / name
        try:
            return self.make_session(program)
        finally:
            self.room = room

    def taken(self, folder, party):
        return entries_of(folder.recording(party).read_bytes())[0]


class Runs(SimulationCase):
    def test_all_parties_end_and_take_what_was_sent(self):
        folder, ran = self.simulated()
        self.assertEqual(ran.statuses, {0: 0, 1: 0, 2: 0})
        self.assertEqual(ran.status, Status.DONE)
        # 32 ticks, in each of which both peers send each other a datagram, which comes before the next tick; that of the last one is late
        for party in (1, 2):
            self.assertEqual([entry is None for entry in self.taken(folder, party)], [True, False] * 31 + [True])
        self.assertEqual(ran.fates.sent, {(1, 2): 32, (2, 1): 32})

    def test_the_same_seed_gives_the_same_run(self):
        network = Network(30, 30, 45, "y")
        one, two = (self.simulated(name, network) for name in ("one", "two"))
        for party in (1, 2):
            self.assertEqual(one[0].recording(party).read_bytes(), two[0].recording(party).read_bytes())
        other = self.simulated("other", Network(30, 30, 45, "z"))
        self.assertNotEqual(one[0].recording(1).read_bytes(), other[0].recording(1).read_bytes())
        self.assertEqual(one[1].fates.text(), two[1].fates.text())

    def test_what_is_lost_isnt_taken(self):
        folder, ran = self.simulated(network=Network(loss=100, seed="x"))
        self.assertEqual(self.taken(folder, 1), [None] * 32)
        self.assertEqual(ran.fates.lost.total(), 64)

    def test_what_is_delayed_comes_ticks_later(self):
        folder, _ = self.simulated(network=Network(delay=60, seed="x"))
        entries = self.taken(folder, 1)
        self.assertEqual(entries.count(None), 32)
        # a tick has 20 ms, so a datagram of the first tick may come three ticks later
        self.assertNotEqual([entry is None for entry in entries[:8]], [True, False] * 4)

    def test_more_than_a_pipe_holds(self):
        folder, ran = self.simulated(size=60_000, network=Network(repeat=100, delay=400, seed="x"))
        self.assertEqual(ran.status, Status.DONE)
        self.assertGreater(folder.recording(1).stat().st_size, 1 << 20)

    def test_a_liar(self):
        folder, ran = self.simulated(network=Network(seed="x", liars={2: "key"}))
        self.assertEqual(ran.fates.sent, {(1, 2): 32, (2, 2): 32})
        self.assertEqual(len(self.taken(folder, 1)), 32)

    def test_a_party_that_ends_at_once(self):
        folder, session = self.make_session(fake_program(self.room))
        folder.key(2).write_text("")
        with mock.patch("gossip.runs.simulation.built", return_value=self.room / "bar"):
            (ran, _, _) = lines_of(lambda: simulation.simulate(folder, session, Network(seed="x")))
        self.assertEqual(ran.statuses, {0: 0, 1: 0, 2: 1})
        self.assertEqual(ran.status, Status.CHILD)
        self.assertFalse(folder.recording(2).exists())


class Entries(unittest.TestCase):
    def party(self, told):
        """A party that told these bytes."""
        party = simulation.Party.__new__(simulation.Party)
        party.told, party.printed, party.owes, party.sent = bytearray(), b"", 3, []
        for at in range(len(told)):
            party.told += told[at : at + 1]
            del party.told[: party.taken()]
        return party

    def test_entries_that_come_byte_by_byte(self):
        party = self.party(b"\1\2\0\7\0\3abc\1\2\0\1\0\0ticks 3\n")
        self.assertEqual((party.owes, party.take_sent(), party.take_sent()), (1, [(7, b"abc"), (1, b"")], []))
        self.assertEqual(party.printed, b"ticks 3\n")

    def test_an_entry_that_isnt_whole(self):
        party = self.party(b"\2\0\7\0\3ab")
        self.assertEqual((party.take_sent(), bytes(party.told)), ([], b"\2\0\7\0\3ab"))


if __name__ == "__main__":
    unittest.main()
