"""A forger, who asks for keys in the names of partners."""
import struct
import unittest

import support  # noqa: F401 (the path of the tools)
import made_sessions as made
from made_sessions import SESSION

from gossip.formats.files import CASE, KEY, KEYREQ
from gossip.networks.forging import Forger

BALANCED, INITIATOR, RESPONDER = 0, 0, 1


def case(number, role, sender, receiver, kind=CASE):
    return made.datagram(kind, sender, receiver, struct.pack(">IBB", number, BALANCED, role))


class Forging(unittest.TestCase):
    def setUp(self):
        self.forger = Forger(SESSION)
        self.one, self.two = case(6, INITIATOR, 1, 2), case(6, RESPONDER, 2, 1)
        # the KEYREQ to peer 1, which has said its CASE and taken peer 2's, in the name of peer 2
        self.wanted = [(1, made.datagram(KEYREQ, 2, 1, struct.pack(">IBB", 6, BALANCED, RESPONDER)))]

    def test_who_has_both_briefcases_is_asked(self):
        self.assertEqual([self.forger.hear(self.one), self.forger.hear(self.two)], [[], []])
        self.assertEqual(self.forger.see(self.two), self.wanted)
        self.assertEqual(self.forger.see(self.two), [])

    def test_one_that_answers_a_briefcase_by_its_own(self):
        self.assertEqual([self.forger.hear(self.two), self.forger.see(self.two)], [[], []])
        self.assertEqual(self.forger.hear(self.one), self.wanted)

    def test_it_asks_in_two_rounds_more(self):
        for datagram in (self.one, self.two):
            self.forger.hear(datagram)
        self.forger.see(self.two)
        self.assertEqual([self.forger.asks_in(number) for number in (7, 8, 9)], [self.wanted, self.wanted, []])

    def test_nothing_else_counts(self):
        for datagram in (b"strange", case(6, RESPONDER, 2, 1, KEY), self.one[:18]):
            self.assertEqual([self.forger.hear(datagram), self.forger.see(datagram)], [[], []])


if __name__ == "__main__":
    unittest.main()
