"""Logs of peers, and what replays, files and transcripts don't agree in."""
import io
import unittest

from support import ID, RoomCase, datagram, fake_program, lines_of

from gossip.formats.files import CASE, KEY, Malformed, Session, recording_of
from gossip.reports import replays
from gossip.reports.replays import Log

SESSION = Session(1, ID, 2, 2, 1, 1, 1, 20_000, 20, 5, 3, 3)
ONE, OTHER = datagram(CASE, 1, 2, b"one"), datagram(KEY, 1, 2, b"other")


def log(sent=(), taken=(), played=b"", whole=True, findings=None):
    return Log(whole, 8, [(1, it) for it in taken], [(1, it) for it in sent], played, findings or {})


class Unsent(unittest.TestCase):
    def unsent(self, logs):
        return [*replays.unsent(SESSION, logs)]

    def test_a_repeated_datagram_was_sent(self):
        self.assertEqual(self.unsent({1: log(sent=[ONE]), 2: log(taken=[ONE, ONE, ONE])}), [])

    def test_a_datagram_that_the_sender_has_not(self):
        self.assertEqual(self.unsent({1: log(sent=[ONE]), 2: log(taken=[ONE, OTHER, OTHER])}), [(2, 1, 1)])

    def test_a_sender_without_a_log(self):
        self.assertEqual(self.unsent({2: log(taken=[ONE])}), [])

    def test_what_is_not_of_another_peer(self):
        strange = [*(datagram(CASE, sender, 2) for sender in (0, 2, 7)), datagram(CASE, 1, 2, session_id="00" * 8), b"", b"junk"]
        self.assertEqual(self.unsent({1: log(), 2: log(taken=strange)}), [])

    def test_counts_of_datagrams_between_peers(self):
        logs = {1: log(sent=[ONE, datagram(CASE, 1, 0)]), 2: log(taken=[ONE, ONE, datagram(CASE, 0, 2), b"junk"])}
        self.assertEqual(replays.between_peers(SESSION, logs), (1, 2))


class Files(RoomCase):
    def differences(self, played, own):
        path = self.room / "party.1.played"
        path.write_bytes(played)
        return [*replays.played_differences(path, own)]

    def test_what_was_played(self):
        self.assertEqual(self.differences(b"abc", log(played=b"abc")), [])
        told = "the replay plays 3 bytes, the peer played 2, and they differ"
        self.assertEqual(self.differences(b"ab", log(played=b"abc")), [told])
        self.assertEqual(self.differences(b"ac", log(played=b"abc", whole=False)), [told])

    def test_a_peer_that_was_stopped_played_a_front(self):
        self.assertEqual(self.differences(b"ab", log(played=b"abc", whole=False)), [])

    def test_what_was_played_is_missing(self):
        self.assertEqual([*replays.played_differences(self.room / "none", log())], ["what it played is missing"])

    def test_what_was_found(self):
        own = log(findings={"table": b"t", "3": b"e"})
        self.assertEqual([*replays.found_differences({"table": b"t", "3": b"e"}, own)], [])
        self.assertEqual([*replays.found_differences({"table": b"u"}, own)], ["the replay finds other things: 3, table"])
        self.assertEqual([*replays.found_differences({}, log(findings={"table": b"t"}, whole=False))], [])


class Logs(RoomCase):
    recording = recording_of(b"BARL\x01" + bytes.fromhex(ID) + b"\x00\x02", [None, ONE, None, None, OTHER])

    def test_ticks_of_what_was_taken_and_sent(self):
        read = replays.log_of(io.BytesIO(self.recording), ["1 2 aa", f"5 0 {ONE.hex()}"], b"played", {"table": b""})
        self.assertEqual((read.whole, read.ticks, read.taken), (True, 3, [(1, ONE), (3, OTHER)]))
        self.assertEqual((read.sent, read.played, read.findings), ([(1, b"\xaa"), (3, ONE)], b"played", {"table": b""}))

    def test_equal_datagrams_are_kept_once(self):
        pool = {}
        taken = replays.log_of(io.BytesIO(recording_of(bytes(15), [None, ONE, bytes(ONE), ONE])), [], b"", {}, pool).taken
        sent = replays.log_of(io.BytesIO(recording_of(bytes(15), [None])), [f"1 2 {ONE.hex()}"], b"", {}, pool).sent
        self.assertEqual({id(it) for _, it in (*taken, *sent)}, {id(pool[ONE])})

    def test_a_number_of_no_input(self):
        for number in (0, 6):
            with self.assertRaises(Malformed):
                replays.log_of(io.BytesIO(self.recording), [f"{number} 2 aa"], b"", {})

    def test_a_replay(self):
        program = fake_program(self.room, sent={"2": [ONE.hex()]})
        folder, session = self.make_session(program)
        for end, whole in ((None, True), (-1, False), (-3, False)):
            folder.recording(2).write_bytes(self.recording[:end])
            answer = replays.replay(folder, program, 2)
            self.assertEqual((answer.whole, answer.sent, answer.played), (whole, [(1, ONE)], b"played"))
        self.assertEqual((answer.taken, answer.findings), ([(1, ONE)], {"table": b""}))

    def test_a_replay_that_is_refused(self):
        folder, _ = self.make_session(fake_program(self.room))
        folder.recording(2).write_bytes(self.recording)
        program = fake_program(self.room, status={"replay": 8}, said="bar: it fails\n")
        answer, _, progress = lines_of(lambda: replays.replays_of(folder, program, [2]))
        self.assertEqual(answer, ({}, {2: "its replay is refused: status 8: an input is refused (bar: it fails)"}))
        self.assertEqual(progress, ["replays: 1 of 1"])


if __name__ == "__main__":
    unittest.main()
