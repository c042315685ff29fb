"""Debts: which key was owed in which rounds."""
import unittest
from types import SimpleNamespace

import support  # noqa: F401 (the path of the tools)
from gossip.reports.exchanges import first_tick

from gossip.reports import debts
from gossip.reports.debts import Debt, debt_of

SESSION = {"version": 3, "life": 4, "ticks": 200}


def side(given, got=None, wrong=None):
    """A side of an exchange of round 6, with the ticks of its keys."""
    return SimpleNamespace(round=6, key_given=given, key_got=got, wrong_key=wrong)


class Debts(unittest.TestCase):
    def check(self, wanted, *ticks, **numbers):
        self.assertEqual(debt_of(SESSION | numbers, side(*ticks)), wanted)

    def test_what_is_owed(self):
        self.check(Debt(8, 10, False), 42)
        self.check(Debt(9, 10, False), first_tick(9))
        self.check(Debt(8, 9, True), 42, first_tick(9) + 1)
        self.check(Debt(8, 8, True), 42, None, first_tick(8))
        self.check(Debt(8, 9, False), 42, ticks=72)

    def test_what_isnt(self):
        self.check(None, 42, version=2)
        self.check(None, None, 43)
        self.check(None, 42, first_tick(8) - 1)
        self.check(None, first_tick(9), first_tick(9) - 3)
        self.check(None, 42, ticks=56)

    def test_debts_of_a_run(self):
        run = SimpleNamespace(session=SESSION, sides=[side(42), side(42, 43), side(42, 70)])
        self.assertEqual(debts.debts_of(run), (2, 1))

    def test_in_words(self):
        self.assertEqual(Debt(8, 8, True).told, "was owed the key in round 8")
        self.assertEqual(Debt(8, 10, False).told, "was owed the key in the rounds 8 to 10, and didn't get it")


if __name__ == "__main__":
    unittest.main()
