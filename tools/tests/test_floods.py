"""What is told of floods, and audits that go on without a recording that is refused."""
import dataclasses
import pathlib
import socket
import threading
import unittest
from unittest import mock

from support import RoomCase, datagram, fake_program

from gossip.attacks import attacker
from gossip.formats.files import EVIDENCE, KEY, KEYREQ, entries_of, recording_of
from gossip.programs.bar import Ran
from gossip.reports import audits, flooding
from gossip.reports.flooding import CLEAR, MOST_DATAGRAMS, Flood
from gossip.reports.gathering import run_of
from gossip.reports.replays import Log
from gossip.runs import runner, watching
from gossip.runs.disturbed import Ended
from gossip.sessions.session_folder import LOOPBACK

SHORT = datagram(KEYREQ, 1, 2, bytes(6))


class Floods(RoomCase):
    def setUp(self):
        super().setUp()
        self.folder, self.session = self.make_session(fake_program(self.room))
        for party in (1, 2):
            self.record(party, [None, SHORT])

    def record(self, party, entries):
        head = b"BARL\x01" + bytes.fromhex(self.session.id) + bytes([0, party])
        self.folder.recording(party).write_bytes(recording_of(head, entries))

    def test_ticks_that_are_full(self):
        self.assertEqual(flooding.full_ticks([None, SHORT, None]), 0)
        self.assertEqual(flooding.full_ticks([*[SHORT] * MOST_DATAGRAMS, None, *[SHORT] * (MOST_DATAGRAMS - 1), None]), 1)
        self.assertEqual(flooding.full_ticks([None, *[bytes(65_507)] * 128]), 1)
        taken = [*[(1, SHORT)] * MOST_DATAGRAMS, (2, SHORT), *[(4, SHORT)] * MOST_DATAGRAMS]
        self.assertEqual(flooding.full_ticks_of(taken), 2)

    def test_a_loss_is_no_flood_and_a_great_loss_is(self):
        most = flooding.most_of(self.session, 2)
        self.assertEqual(flooding.floods_of(self.folder, self.session, {2: most}), {})
        floods = flooding.floods_of(self.folder, self.session, {1: 3, 2: most + 1})
        self.assertEqual(floods, {2: Flood(0, most + 1)})
        told = f"party 2 was flooded from outside the session: its receive buffer lost {most + 1:,} datagrams; the rest was dropped"
        self.assertEqual([*flooding.flood_lines(floods)], [told])
        lost = "party 1: its receive buffer ran over, 3 datagrams were lost"
        self.assertEqual([*runner.lost_lines({1: 3})], [f"{lost}; a longer tick (--tick-ms) helps"])
        # no longer tick is advised where a flood was seen
        self.assertEqual([*runner.lost_lines({1: 3, 2: most + 1}, floods)], [lost])
        self.assertEqual([*runner.lost_lines({1: 3}, strange=True)], [lost])

    def test_small_receive_buffers_of_many_peers(self):
        file = self.room / "net" / "core" / "rmem_default"
        file.parent.mkdir(parents=True)
        file.write_text("212992\n", "ascii")
        told = "51 peers: bursts may run over their receive buffers, of 212,992 bytes each; "
        told += "`sysctl -w net.core.rmem_default=4194304` makes them larger"
        self.assertEqual([*runner.buffer_lines(51, file)], [told])
        self.assertEqual([*runner.buffer_lines(50, file)], [])
        file.write_text("4194304\n", "ascii")
        self.assertEqual([*runner.buffer_lines(51, file)], [])
        self.assertEqual([*runner.buffer_lines(51, self.room / "none")], [])

    def test_a_recording_with_a_full_tick_is_one(self):
        self.record(1, [None, *[SHORT] * MOST_DATAGRAMS])
        self.assertEqual(flooding.floods_of(self.folder, self.session, {}), {1: Flood(1, 0)})
        self.assertEqual([*flooding.size_faults(self.folder, self.session)], [])

    def run_of(self, taken, sent=()):
        """A run in which peer 1 took datagrams of peer 2, and this one sent some."""
        logs = {1: Log(True, 1, [(1, datagram) for datagram in taken], [], b"", {})}
        logs[2] = Log(True, 1, [], [(1, datagram) for datagram in sent], b"", {})
        return run_of(self.session, logs), logs

    def test_many_datagrams_that_nobody_sent_are_a_flood(self):
        key = datagram(KEYREQ, 2, 1, bytes(6), self.session.id)
        run, _ = self.run_of([key] * 3, [key])
        self.assertEqual(flooding.strange_of(run), {1: 2})
        self.assertEqual(flooding.strange_of(self.run_of([key], [key])[0]), {})
        self.assertEqual(flooding.floods_of(self.folder, self.session, {}, {1: CLEAR}), {})
        floods = flooding.floods_of(self.folder, self.session, {1: 4}, {1: CLEAR + 1})
        self.assertEqual(floods, {1: Flood(0, 4, CLEAR + 1)})
        told = "its receive buffer lost 4 datagrams and it took 1,001 datagrams that no party sent; the rest was dropped"
        self.assertEqual([*flooding.flood_lines(floods)], [f"party 1 was flooded from outside the session: {told}"])
        told = "it took 1,001 datagrams that no party sent"
        lines = [*flooding.flood_lines({2: Flood(0, 0, CLEAR + 1)})]
        self.assertEqual(lines, [f"party 2 was flooded from outside the session: {told}"])

    def test_what_no_recording_has_came_from_outside(self):
        report = datagram(EVIDENCE, 2, 0, bytes(20), self.session.id)
        run, logs = self.run_of([], [report])
        # a datagram in each recording, and one to the broadcaster
        self.assertEqual(flooding.outside_of(self.folder, self.session, logs, 3), 0)
        self.assertEqual(flooding.outside_of(self.folder, self.session, logs, 5), 2)
        self.assertIsNone(flooding.outside_of(self.folder, self.session, logs, None))
        # a peer without a log may have sent the broadcaster as much as it may
        most = self.session.ends * self.session.peers
        self.assertEqual(flooding.outside_of(self.folder, self.session, {2: logs[2]}, 5 + most), 2)
        self.assertIsNone(flooding.outside_told(CLEAR))
        lines = [*runner.outside_lines(self.folder, self.session, Ended({}, 0, {1: 7}), dataclasses.replace(run, outside=1234))]
        told = "1,234 datagrams that no recording has were taken on this machine while the session ran"
        lost = "party 1: its receive buffer ran over, 7 datagrams were lost"
        self.assertEqual(lines, [lost, f"{told}: links dropped them, or other programs took them"])

    def test_the_system_counts_what_is_taken(self):
        text = "Ip: A B\nIp: 1 2\nUdp: InDatagrams NoPorts\nUdp: 15 3\nUdpLite: InDatagrams\nUdpLite: 0\n"
        self.assertEqual(watching.taken_of(text), 15)
        with mock.patch("gossip.runs.watching.COUNTS", self.room / "none"):
            self.assertIsNone(watching.count_taken())
            watch, ended = watching.Watch(self.session, 0), threading.Event()
        ended.set()
        watch.looks(ended)
        self.assertIsNone(watch.taken)

    def test_a_flood_comes_to_all_peers(self):
        with socket.socket(socket.AF_INET, socket.SOCK_DGRAM) as taker:
            taker.bind((LOOPBACK, self.session.port + 1))
            taker.settimeout(10)
            flood, ended = attacker.Flood(self.session, "short"), threading.Event()
            thread = threading.Thread(target=flood.looks, args=(ended,))
            thread.start()
            taken = taker.recv(1 << 16)
            ended.set()
            thread.join()
        self.assertEqual((len(taken), taken[3], taken[12:16]), (22, KEYREQ, b"\0\2\0\1"))
        self.assertGreater(flood.sent, 0)

    def test_an_audit_goes_on_without_a_recording_that_is_refused(self):
        key = datagram(KEY, 2, 1, bytes(40), self.session.id)
        self.record(1, [None, SHORT, key])
        self.record(2, [None, SHORT])
        ways = [Ran(8, b"", b"bar: input refused: recording BadHead\n"), Ran(0, b"balanced\n", b"")]
        asked = []

        def run(_program, _command, **values):
            asked.append((values["first"], values["last"]))
            recordings = [pathlib.Path(f"{values['results']}.{party}.recording").read_bytes() for party in (1, 2)]
            self.left = [entries_of(recording)[0] for recording in recordings]
            return ways[0] if len(asked) in (1, 3) else ways[1]

        with mock.patch("gossip.reports.audits.run", run):
            audit = audits.audit_of(self.folder, self.session, "bar")
        self.assertEqual(asked, [(1, 2), (1, 1), (2, 2), (1, 2)])
        self.assertEqual(self.left, [[None, SHORT], []])
        told = "the audit finds no exchange, without party 2 (status 8: an input is refused (bar: input refused: recording BadHead))"
        self.assertEqual((audit.line, audit.failures, audit.recordings), (told, [told], 1))

    def test_a_recording_that_is_too_large_is_not_read(self):
        with mock.patch("gossip.reports.audits.LARGEST_FILE", 10):
            told = audits.too_large(self.folder.recording(1))
        self.assertEqual(told, "it has 42 bytes, and files up to 10 are read")


if __name__ == "__main__":
    unittest.main()
