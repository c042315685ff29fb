"""What an audit finds, by the lines that it prints, and what the page of a session shows of it."""
import unittest

from test_timeline import EXCHANGE, FIRST, FOURTH, LAST_TICK, ME, PARTNER, TRADE, Page, diary_of

from gossip.formats.datagrams import Exchange
from gossip.reports import audits

OTHER = Exchange(3, True, 2, 1)
BALANCED = "exchange 2 0 1 2 cases 1 1 keys 1 1"


def audited(*lines):
    return audits.audit_of_text(2, "\n".join(lines))


class Lines(unittest.TestCase):
    def test_all_are_balanced(self):
        audit = audited(BALANCED, "exchange 3 1 2 1 cases 0 4 keys 1 0", "balanced")
        self.assertEqual([entry.exchange for entry in audit.entries], [EXCHANGE[0], OTHER])
        self.assertEqual([(entry.cases, entry.keys) for entry in audit.entries], [((1, 1), (True, True)), ((0, 4), (True, False))])
        self.assertEqual((audit.line, audit.unbalanced, audit.failures), ("the audit finds all 2 exchanges balanced", set(), []))

    def test_what_an_exchange_lacks(self):
        told = "the audit finds exchange 3 1 2 1 unbalanced: "
        for cases, keys, cause in (
            ("0 4", "1 1", "peer 1 gave its key and has no briefcase of peer 2"),
            ("4 0", "1 1", "peer 2 gave its key and has no briefcase of peer 1"),
            ("0 0", "1 1", "peer 2 gave its key and has no briefcase of peer 1 and peer 1 gave its key and has no briefcase of peer 2"),
            ("4 4", "1 0", "the terms of its briefcases differ"),
        ):
            audit = audited(BALANCED, f"exchange 3 1 2 1 cases {cases} keys {keys}", "unbalanced 3 1 2 1")
            self.assertEqual((audit.line, audit.unbalanced, audit.failures), (told + cause, {OTHER}, [told + cause]))

    def test_exchanges_behind_the_first_that_is_unbalanced(self):
        audit = audited("exchange 2 0 1 2 cases 1 1 keys 1 1", "exchange 3 1 2 1 cases 0 1 keys 1 1", "unbalanced 2 0 1 2")
        self.assertEqual(audit.unbalanced, {EXCHANGE[0], OTHER})

    def test_a_key_that_was_not_given_lacks_nothing(self):
        audit = audited("exchange 2 0 1 2 cases 1 0 keys 0 1", "balanced")
        self.assertEqual((audit.entries[0].lacks, audit.unbalanced), ([], set()))

    def test_lines_that_have_no_end(self):
        for lines in ([], [BALANCED]):
            audit = audited(*lines)
            self.assertEqual(audit.line, f"the recordings weren't audited: the auditor ended with the line {lines[0] if lines else None!r}")
            self.assertEqual(audit.failures, [audit.line])


class Pages(unittest.TestCase):
    def page(self, audit):
        diary = diary_of(ME, FIRST, FOURTH)
        diary.trade(TRADE, 9, key_tick=11)
        diary.until(LAST_TICK)
        return Page({ME: diary.log()}, audit=audit)

    def test_an_exchange_that_is_unbalanced_is_marked(self):
        page = self.page(audited("exchange 2 0 1 2 cases 0 1 keys 1 1", "unbalanced 2 0 1 2"))
        (told,) = page.words("balanced asks traded unbalanced")
        self.assertEqual(told.rpartition(", ")[2], "unbalanced by the audit")
        told = "read the 2 recordings and found the balanced exchange of round 2 that peer 1 started with peer 2 unbalanced: peer 2 gave"
        self.assertIn(f"{told} its key and has no briefcase of peer 1.", "".join(page.body.itertext()))

    def test_exchanges_that_are_balanced_are_not_marked(self):
        for audit in (audited(BALANCED, "balanced"), audited("exchange 3 1 2 1 cases 0 1 keys 1 1", "unbalanced 3 1 2 1"), None):
            page = self.page(audit)
            self.assertEqual(len(page.words("balanced asks traded")), 1)
            self.assertEqual("An auditor" in "".join(page.body.itertext()), audit is not None)

    def test_what_was_not_audited(self):
        page = self.page(audits.Audit(refused=f"party {PARTNER} left no recording"))
        self.assertIn("The recordings weren’t audited: party 2 left no recording.", "".join(page.body.itertext()))


if __name__ == "__main__":
    unittest.main()
