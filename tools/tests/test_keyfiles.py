"""What is required of key files: what a run may leave of one, and a program that stands for `bar` and keeps none of it."""
import unittest

from support import RoomCase, fake_program, lines_of, run_script

from gossip.sessions.session_folder import free_port
from gossip.trouble import keyfiles
from gossip.trouble.keyfiles import Left

FRESH, SPENT = b"lms = 5\nspent = false\n", b"lms = 5\nspent = true\n"


class Keys(unittest.TestCase):
    def test_what_may_be_left(self):
        for left in (Left(FRESH, FRESH, False), Left(FRESH, SPENT, False), Left(FRESH, SPENT, True)):
            self.assertEqual([*left.faults()], [])
        self.assertEqual([Left(FRESH, key, False).is_spent for key in (FRESH, SPENT)], [False, True])

    def test_what_may_not(self):
        for key in (b"", SPENT[:9]):
            told = f"its key file has {len(key)} bytes, which are neither the fresh nor the spent key"
            self.assertEqual([*Left(FRESH, key, False).faults()], [told])
        self.assertEqual([*Left(FRESH, FRESH, True).faults()], ["its key is fresh, and it began its recording"])


class Benches(RoomCase):
    def setUp(self):
        super().setUp()
        self.program = fake_program(self.room, live=True)
        self.bench = lines_of(lambda: keyfiles.Bench(self.room, self.program, free_port(3)))[0]

    def test_a_program_that_writes_over_keys(self):
        faults = [*keyfiles.over_faults(self.bench)]
        self.assertTrue(any(fault.startswith("keygen over a key: status 0") for fault in faults), faults)
        self.assertIn("keygen writes over a key", faults)

    def test_a_program_that_makes_files_for_all(self):
        faults = [*keyfiles.mode_faults(self.bench, 0o022)]
        self.assertIn("under the mask 022 made has the mode 644", faults)

    def test_a_peer_that_is_killed_at_once(self):
        self.assertEqual(keyfiles.killed_faults(self.bench, 0, False), (False, []))


class Script(RoomCase):
    def test_what_is_refused(self):
        status, out, err = run_script("try-keys", "--kills", 0, "--bar", self.room / "none")
        self.assertEqual((status, out, err), (2, [], ["REFUSED: --kills is 0: take 1 or more"]))
        status, _, err = run_script("try-keys", "--bar", self.room / "none")
        self.assertIn("REFUSED: there is no program at", err[-1])


if __name__ == "__main__":
    unittest.main()
