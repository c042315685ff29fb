"""What is told of a session by the time, and what receive buffers lose."""
import dataclasses
import os
import subprocess
import sys
import time
import unittest
from unittest import mock

from support import ID, RoomCase, bound, lines_of

from gossip.runs import runner, watching
import made_sessions
from gossip.formats.datagrams import Exchange
from gossip.formats.files import RECORDING_HEAD, Session, recording_of
from gossip.sessions.session_folder import LOOPBACK
from made_sessions import Trade

SESSION = Session(1, ID, 10, 6, 1, 1, 1, 26_144, 50, 6, 3, 2)
PORTS = watching.ports_of(SESSION)

# the text of /proc/net/udp: ports 26143 to 26147 of the loopback address, and 26145 of another
SOCKETS = """  sl  local_address rem_address   st tx_queue rx_queue tr tm->when retrnsmt   uid  timeout inode ref pointer drops
  100: 0100007F:661F 00000000:0000 07 00000000:00000000 00:00000000 00000000     0        0 11 2 0000000000000000 9
  101: 0100007F:6620 00000000:0000 07 00000000:00000000 00:00000000 00000000     0        0 12 2 0000000000000000 0
  102: 0100007F:6621 00000000:0000 07 00000000:00034000 00:00000000 00000000     0        0 13 2 0000000000000000 31
  103: 0200007F:6622 00000000:0000 07 00000000:00000000 00:00000000 00000000     0        0 14 2 0000000000000000 7
  104: 0100007F:6623 00000000:0000 07 00000000:00000000 00:00000000 00000000     0        0 15 2 0000000000000000 8
"""


class Clocks(unittest.TestCase):
    def lines(self, *times):
        """The lines of a session that begins at 100 s, at these times. A round has 0.4 s."""
        clock = watching.Clock(SESSION, 100_000)
        return [line for line in map(clock.line, times) if line]

    def test_the_wait_for_the_start(self):
        self.assertEqual(self.lines(96.5, 97, 99.9), ["the session begins in 4 s"])
        self.assertEqual(self.lines(70, 75, 80.5), ["the session begins in 30 s", "the session begins in 20 s"])

    def test_rounds_a_second_apart(self):
        self.assertEqual(self.lines(99, 100, 100.1, 100.5, 101, 101.9), ["the session begins in 1 s", "round 1 of 17", "round 3 of 17"])

    def test_one_line_a_round(self):
        slow = watching.Clock(Session(1, ID, 10, 6, 1, 1, 1, 26_144, 1000, 6, 3, 2), 0)
        lines = [slow.line(second) for second in range(24)]
        self.assertEqual([line for line in lines if line], ["round 1 of 17", "round 2 of 17", "round 3 of 17"])

    def test_the_wait_before_long_rounds(self):
        slow = watching.Clock(Session(1, ID, 10, 6, 1, 1, 1, 26_144, 60_000, 6, 3, 2), 100_000)
        lines = [slow.line(second) for second in range(75, 110, 5)]
        self.assertEqual(lines[::2], ["the session begins in 25 s", "the session begins in 15 s", "the session begins in 5 s", None])
        self.assertEqual(lines[1::2], [None, None, "round 1 of 17"])

    def test_nothing_behind_the_end(self):
        self.assertEqual(self.lines(106.5, 106.9, 108), ["round 17 of 17"])


class Drops(unittest.TestCase):
    def test_drops_by_party(self):
        self.assertEqual(watching.drops_of(SOCKETS, PORTS), {0: 0, 1: 31})

    def test_no_sockets(self):
        self.assertEqual(watching.drops_of(SOCKETS.splitlines()[0], PORTS), {})
        self.assertEqual(watching.drops_of("", PORTS), {})

    def test_lines_of_what_was_lost(self):
        told = "its receive buffer ran over, {} lost; a longer tick (--tick-ms) helps"
        wanted = ["party 0: " + told.format("1 datagram was"), "party 2: " + told.format("31 datagrams were")]
        self.assertEqual([*runner.lost_lines({2: 31, 1: 0, 0: 1})], wanted)


class Watches(RoomCase):
    def look(self, watch, now, text):
        """One look at which /proc/net/udp has this text."""
        path = self.room / "udp"
        path.write_text(text)
        with mock.patch.object(watching, "SOCKETS", path):
            return lines_of(lambda: watch.look(now))[2]

    def test_the_last_value_of_each_party_is_kept(self):
        watch = watching.Watch(SESSION, 100_000)
        self.assertEqual(self.look(watch, 100, SOCKETS), ["round 1 of 17"])
        self.look(watch, 100.1, SOCKETS.replace(" 31\n", " 32\n"))
        self.look(watch, 100.2, SOCKETS.splitlines()[0])
        self.assertEqual(watch.drops, {0: 0, 1: 32})

    def test_a_table_of_sockets_that_is_missing_or_strange(self):
        watch = watching.Watch(SESSION, 100_000)
        self.look(watch, 100, SOCKETS.replace(" 31\n", " x\n"))
        with mock.patch.object(watching, "SOCKETS", self.room / "none"):
            lines_of(lambda: watch.look(100))
        self.assertEqual(watch.drops, {})

    def test_the_victim_is_killed_in_the_middle(self):
        words = [sys.executable, "-c", "import time; time.sleep(60)", f"victim of {os.getpid()}"]
        with subprocess.Popen(words) as process:
            self.addCleanup(process.kill)
            while watching.find_process(words) is None:
                time.sleep(0.01)
            watch = watching.Watch(SESSION, 100_000, words)
            self.look(watch, 101.9, "")
            self.assertIsNone(process.poll())
            self.look(watch, 102, "")
            self.assertEqual(process.wait(timeout=10), -9)

    def test_a_victim_that_is_not_there(self):
        words = ["bar", f"nobody of {os.getpid()}"]
        watch = watching.Watch(SESSION, 0, words)
        self.look(watch, 2, "")
        self.assertEqual(watch.victim, words)


class Sender:
    """A socket that notes what is sent by it."""

    def __init__(self):
        self.sent = []

    def sendto(self, sent, to):
        self.sent.append((sent, to))


class Floods(RoomCase):
    """A flood of a peer whose recording grows. The session begins at 100 s, and a tick has 0.02 s."""

    asked = Trade.balanced(Exchange(1, False, 2, 1), [[], []], [[], []]).request()
    other = Trade.balanced(Exchange(1, False, 1, 2), [[], []], [[], []]).request()

    def setUp(self):
        super().setUp()
        self.path, self.sender = self.room / "recording", Sender()
        self.flood = watching.Flood(made_sessions.SESSION, 100_000, 1, self.path, 10)

    def write(self, *entries, cut=None):
        """Writes inputs to the recording, or so many of their bytes."""
        if not self.path.exists():
            self.path.write_bytes(bytes(RECORDING_HEAD))
        written = recording_of(b"", entries)[:-1]
        with open(self.path, "ab") as file:
            file.write(written[:cut])
        return written[cut:] if cut else b""

    def look(self, now):
        """How many were sent at a look."""
        before = len(self.sender.sent)
        self.flood.look(now, self.sender)
        return len(self.sender.sent) - before

    def test_a_recording_that_grows(self):
        growing = watching.Growing(self.path)
        self.assertEqual(growing.more(), [])
        rest = self.write(None, b"one", b"two", cut=8)
        self.assertEqual((growing.more(), growing.more()), ([None, b"one"], []))
        with open(self.path, "ab") as file:
            file.write(rest + b"\x00")
        self.assertEqual((growing.more(), growing.more()), ([b"two"], []))

    def test_the_first_request_is_sent_again(self):
        self.assertEqual(self.look(99), 0)
        self.write(None, self.other, b"junk")
        self.assertEqual(self.look(100.01), 0)
        self.write(self.asked, self.other)
        self.assertEqual([self.look(100.01 + after) for after in (0, 0.19, 0.55, 2, 3)], [0, 2, 4, 4, 0])
        self.assertEqual(set(self.sender.sent), {(self.asked, (LOOPBACK, made_sessions.SESSION.port + 1))})

    def test_what_the_peer_takes(self):
        self.write(None, self.asked)
        self.look(100.01)
        self.write(self.asked, None, self.asked)
        self.look(100.51)
        self.write(self.asked)
        self.look(102.01)
        self.assertEqual((self.flood.taken, self.flood.ticks, self.flood.sent), (3, 2, 10))
        told = "peer 1 was sent a REQUEST 10 times more and took 3 of these, 2 a second; it did not keep its ticks: it took 2 of 80, "
        self.assertTrue(self.flood.line().startswith(told), self.flood.line())

    def test_ticks_that_are_late(self):
        ticks = made_sessions.SESSION.ticks
        self.write(None)
        self.look(100.015)
        self.assertEqual(self.flood.late, 0)
        self.look(100.03)
        self.assertAlmostEqual(self.flood.late, 0.01)
        self.write(self.asked, *[None] * (ticks - 2))
        self.look(100.1)
        self.assertFalse(self.flood.kept)
        self.write(None)
        self.look(200)
        self.assertTrue(self.flood.kept)
        self.assertAlmostEqual(self.flood.late, 0.01)
        self.assertTrue(self.flood.line().endswith(f"; it kept its ticks: it took {ticks} of {ticks}, at most 10 ms late"))

    def test_a_tick_that_came_when_the_next_was_due(self):
        self.write(None)
        self.look(100.045)
        self.write(*[None] * (made_sessions.SESSION.ticks - 1))
        self.look(100.05)
        self.assertFalse(self.flood.kept)

    def test_no_request(self):
        self.write(None, self.other)
        self.look(100.1)
        self.assertEqual(self.flood.line(), "peer 1 took no REQUEST, so none was sent again")

    def test_a_flood_beside_a_session(self):
        with bound(0) as taken:
            self.flood.session = dataclasses.replace(made_sessions.SESSION, port=taken.getsockname()[1] - 1)
            with watching.watched(self.flood):
                self.write(None, self.asked)
                taken.settimeout(20)
                self.assertEqual([taken.recv(65_536) for _ in range(10)], [self.asked] * 10)
                self.write(self.asked, self.asked)
        self.assertEqual((self.flood.sent, self.flood.taken), (10, 2))


if __name__ == "__main__":
    unittest.main()
