"""Lines that tell how far a script is, by a clock that is set."""
import unittest
from unittest import mock

from support import RoomCase, fake_program, lines_of

from gossip.programs import bar
from gossip.scripts import console
from gossip.scripts.console import Count
from gossip.sessions import session_folder


class Counts(unittest.TestCase):
    def lines(self, *steps, **numbers):
        """The lines of a count of 6 at these seconds, each with what is done then, or with None where nothing more is."""
        now = 100.0

        def call():
            nonlocal now
            count = Count("keys", 6, **numbers)
            for seconds, done in steps:
                now = 100.0 + seconds
                count.tell(done) if done else count.wait()

        with mock.patch("gossip.scripts.console.time.monotonic", lambda: now):
            return lines_of(call)[2]

    def test_short_counts_have_no_estimate(self):
        self.assertEqual(self.lines((0.1, 1), (0.5, 2), (1.2, 3), (2, 6)), ["keys: 1 of 6", "keys: 3 of 6", "keys: 6 of 6"])

    def test_what_is_left_by_what_is_done(self):
        wanted = ["keys: 2 of 6 after 10 seconds, some 20 seconds more", "keys: 6 of 6"]
        self.assertEqual(self.lines((10, 2), (30, 6)), wanted)
        self.assertEqual(self.lines((10, 1), at_once=3), ["keys: 1 of 6 after 10 seconds, some 10 seconds more"])
        self.assertEqual(self.lines((10, 4), at_once=6), ["keys: 4 of 6 after 10 seconds, some 1 second more"])

    def test_silence_is_broken(self):
        told = [f"keys: none of 6 after {seconds} seconds" for seconds in (10, 21)]
        told.append("keys: 1 of 6 after 22 seconds, some 110 seconds more")
        self.assertEqual(self.lines((9, None), (10, None), (19, None), (21, None), (22, 1), (31, None)), told)

    def test_what_is_left_as_it_is_known_before(self):
        told = ["keys: none of 6 after 10 seconds, some 50 seconds more", "keys: none of 6 after 70 seconds, some 1 second more"]
        self.assertEqual(self.lines((10, None), (70, None), seconds=60), told)

    def test_only_late_counts(self):
        now = 0.0
        with mock.patch("gossip.scripts.console.time.monotonic", lambda: now):
            count = Count("gathered", 2)
            self.assertEqual(lines_of(lambda: count.tell_late(1))[2], [])
            now = 6.0
            self.assertEqual(lines_of(lambda: count.tell_late(1))[2], ["gathered: 1 of 2 after 6 seconds, some 6 seconds more"])


class Silences(RoomCase):
    def test_calls_that_take_long_are_told(self):
        with mock.patch("gossip.scripts.console.SILENCE", 0.3), mock.patch("gossip.scripts.console.LONG", 0):
            call = lambda seconds: bar.run_words("sleep", [seconds])
            _, _, lines = lines_of(lambda: bar.spread(call, ["1"], "sleeps", seconds=9))
        self.assertEqual((lines[0], lines[-1]), ("sleeps: none of 1 after 0 seconds, some 9 seconds more", "sleeps: 1 of 1"))

    def test_how_long_keys_take(self):
        program, numbers = fake_program(self.room), {"lms": 7, "ots": 3}
        measured = mock.patch("gossip.sessions.session_folder.seconds_of_smallest", lambda *words: 0.25)
        with measured:
            self.assertEqual(session_folder.seconds_of_keys(program, range(3), "00" * 8, numbers), 256)
            self.assertEqual(session_folder.seconds_of_keys(program, range(3), "00" * 8, {"lms": 5, "top": 7, "ots": 3}), 256)
            self.assertIsNone(session_folder.seconds_of_keys(program, range(3), "00" * 8, {"lms": 6, "ots": 3}))
        self.assertGreater(session_folder.seconds_of_smallest(program, range(3), "00" * 8, 3), 0)
        self.assertEqual(console.counted(1, "second"), "1 second")


if __name__ == "__main__":
    unittest.main()
