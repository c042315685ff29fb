import pathlib
import sys
import unittest

sys.path.insert(0, str(pathlib.Path(__file__).resolve().parent.parent))

import made_sessions as made
from gossip.formats.datagrams import Exchange, Update
from gossip.reports.exchanges import Account, Arrival
from made_sessions import LONG, PLAIN, SESSION, WIDE, WIDE_PLAIN, Diary, Trade, first_tick

ME, PARTNER = 1, 2
FIRST, SECOND, THIRD, FOURTH = (Update(1, index) for index in range(4))
# an exchange in which the peer gives the first update of round 1 and gets the second
BALANCED = Trade.balanced(Exchange(2, False, ME, PARTNER), [[FIRST], [SECOND, THIRD]], [[SECOND], [FIRST]])
# pushes in which it gets a fresh update and gives a junk item, and gets an old update and a junk item for two fresh ones
FRESH, OLD = [Update(3, 0), Update(3, 1)], [THIRD]
PUSH_IN = Trade.push(Exchange(3, True, PARTNER, ME), [FRESH, OLD, FRESH[:1], []], 1)
PUSH_OUT = Trade.push(Exchange(3, True, ME, PARTNER), [FRESH, OLD, FRESH, OLD], 1)
WRONG_KEY = BALANCED.key(False, bytes(32))


def diary_with(*updates):
    """The diary of a peer that takes the manifests of rounds 1 and 2 in tick 1, and these updates in tick 2."""
    diary = Diary(ME)
    diary.until(1)
    diary.take_manifest(1, 2)
    diary.until(2)
    diary.take(*(made.block(ME, update) for update in updates))
    return diary


def diary_of_round_3(*updates):
    """The diary of a peer that takes these updates of round 3 with their manifest in its first tick."""
    diary = diary_with()
    diary.until(first_tick(3))
    diary.take_manifest(3)
    diary.take(*(made.block(ME, update) for update in updates))
    return diary


def account_of(diary, **log):
    return Account(SESSION, ME, diary.log(**log))


class Blocks(unittest.TestCase):
    def test_a_block_is_held_from_its_tick_on(self):
        account = account_of(diary_with(FIRST))
        self.assertEqual(account.held, {FIRST: Arrival(2, 0, 2)})
        self.assertEqual(account.straight, {FIRST})

    def test_a_block_before_its_manifest_is_not_held(self):
        diary = Diary(ME)
        diary.take(made.block(ME, FIRST))
        diary.until(1)
        diary.take_manifest(1)
        self.assertEqual(account_of(diary).held, {})
        diary.take(made.block(ME, FIRST))
        self.assertEqual(account_of(diary).held, {FIRST: Arrival(1, 0, 2)})

    def test_a_manifest_that_the_table_lacks_counts_for_nothing(self):
        diary = diary_with(FIRST)
        diary.manifests.clear()
        self.assertEqual(account_of(diary).held, {})

    def test_a_manifest_counts_from_a_round_before_its_own_on(self):
        diary = Diary(ME)
        diary.until(first_tick(2) - 1)
        diary.take_manifest(3)
        diary.take(made.block(ME, FRESH[0]))
        self.assertEqual(account_of(diary).held, {})
        diary.until(first_tick(2))
        diary.take(made.manifest(3), made.block(ME, FRESH[0]))
        self.assertEqual(account_of(diary).held, {FRESH[0]: Arrival(first_tick(2), 0, 2)})

    def test_a_block_with_another_digest_or_receiver_is_not_held(self):
        diary = diary_with()
        other = made.block(ME, FIRST, {FIRST: PLAIN[SECOND]})
        diary.take(made.block(PARTNER, FIRST), other, made.block(ME, FIRST)[:-1] + b"\1", made.block(ME, FIRST)[:-1])
        self.assertEqual(account_of(diary).held, {})

    def test_a_block_in_the_tick_of_the_deadline_is_not_held(self):
        for tick, held in ((first_tick(4), set()), (first_tick(4) - 1, {FIRST})):
            diary = diary_with()
            diary.until(tick)
            diary.take(made.block(ME, FIRST))
            self.assertEqual(set(account_of(diary).held), held, tick)

    def test_what_is_held_is_played_at_the_deadline(self):
        diary = diary_with(FIRST)
        for tick, played in ((first_tick(4) - 1, set()), (first_tick(4), {FIRST})):
            diary.until(tick)
            self.assertEqual(account_of(diary).played, played, tick)

    def test_a_block_without_content_or_with_a_bad_length_is_held_and_plays_nothing(self):
        blocks = PLAIN | {FIRST: made.block_with(b""), SECOND: (1023).to_bytes(2, "big") + bytes(1022), THIRD: made.block_with(bytes(1022))}
        diary = Diary(ME)
        diary.take_manifest(1, blocks=blocks)
        diary.take(*(made.block(ME, update, blocks) for update in (FIRST, SECOND, THIRD)))
        diary.until(first_tick(4))
        account = account_of(diary)
        self.assertEqual(account.held, {FIRST: Arrival(0, 0, 0), SECOND: Arrival(0, 0, 0), THIRD: Arrival(0, 0, 1022)})
        self.assertEqual(account.played, {THIRD})


class Exchanges(unittest.TestCase):
    def test_a_key_adds_what_was_promised(self):
        diary = diary_with(FIRST)
        diary.trade(BALANCED, 9, key_tick=11)
        account = account_of(diary)
        self.assertEqual(account.held, {FIRST: Arrival(2, 0, 2), SECOND: Arrival(11, PARTNER, 2, BALANCED.exchange)})
        (side,) = account.sides.values()
        self.assertEqual((side.asks, side.partner, side.answered, side.paid, side.was_paid), (True, PARTNER, True, None, 11))
        self.assertEqual((side.gives.updates, side.gets.updates), ((FIRST,), (SECOND,)))

    def test_a_responder_gets_what_the_initiator_promised(self):
        trade = Trade.balanced(Exchange(2, False, PARTNER, ME), [[SECOND, THIRD, FOURTH], [FIRST]], [[FIRST], [SECOND]])
        diary = diary_with(FIRST)
        diary.trade(trade, 9, key_tick=9)
        self.assertEqual(account_of(diary).held, {FIRST: Arrival(2, 0, 2), SECOND: Arrival(9, PARTNER, 2, trade.exchange)})

    def test_no_more_than_the_cap_is_traded(self):
        theirs = [Update(2, 0), FOURTH, THIRD, SECOND]
        ours = [FIRST, Update(2, 1), Update(2, 2)]
        trade = Trade.balanced(Exchange(2, False, ME, PARTNER), [ours, theirs], [[SECOND, THIRD], [FIRST, Update(2, 1)]])
        diary = diary_with(*ours)
        diary.trade(trade, 9, key_tick=9)
        self.assertEqual(set(account_of(diary).held), {*ours, SECOND, THIRD})

    def test_without_a_key_nothing_is_held(self):
        diary = diary_with(FIRST)
        diary.trade(BALANCED, 9)
        account = account_of(diary)
        (side,) = account.sides.values()
        self.assertEqual(set(account.held), {FIRST})
        self.assertEqual((side.gets.updates, side.was_paid, side.was_cheated), ((SECOND,), None, None))

    def test_a_key_in_the_tick_of_the_deadline_comes_too_late(self):
        for tick, held in ((first_tick(4), {FIRST}), (first_tick(4) - 1, {FIRST, SECOND})):
            diary = diary_with(FIRST)
            diary.trade(BALANCED, 9, key_tick=tick)
            diary.until(first_tick(4))
            account = account_of(diary)
            (side,) = account.sides.values()
            self.assertEqual((set(account.held), account.played, side.was_paid), (held, held, tick))

    def test_an_own_key_counts_from_its_first_tick_on(self):
        diary = diary_with(FIRST)
        diary.trade(BALANCED, 9, key_tick=9)
        for tick in (10, 12):
            diary.until(tick)
            diary.send(BALANCED.key(True))
        (side,) = account_of(diary).sides.values()
        self.assertEqual((side.paid, side.was_paid), (10, 9))

    def test_what_comes_both_ways_counts_by_what_comes_first(self):
        diary = diary_with(FIRST)
        diary.trade(BALANCED, 9, key_tick=9)
        diary.take(made.block(ME, SECOND))
        self.assertEqual(account_of(diary).held[SECOND], Arrival(9, PARTNER, 2, BALANCED.exchange))
        diary = diary_with(FIRST)
        diary.trade(BALANCED, 9, key_tick=10, keys=[made.block(ME, SECOND), BALANCED.key(False)])
        account = account_of(diary)
        self.assertEqual(account.held[SECOND], Arrival(10, 0, 2))
        self.assertEqual(account.straight, {FIRST, SECOND})


class WrongKeys(unittest.TestCase):
    def setUp(self):
        self.evidence = {str(PARTNER): made.evidence(BALANCED.case(False), WRONG_KEY)}

    def check(self, diary, held, was_paid, was_cheated, **log):
        account = account_of(diary, **log)
        (side,) = account.sides.values()
        self.assertEqual((set(account.held), side.was_paid, side.was_cheated), (held, was_paid, was_cheated))

    def test_a_wrong_key_adds_nothing(self):
        diary = diary_with(FIRST)
        diary.trade(BALANCED, 9, key_tick=10, keys=[WRONG_KEY])
        self.check(diary, {FIRST}, None, 10, evidence=self.evidence)

    def test_a_wrong_key_adds_nothing_where_there_is_evidence_of_something_else(self):
        diary = diary_with(FIRST)
        diary.trade(BALANCED, 9, key_tick=10, keys=[WRONG_KEY])
        self.check(diary, {FIRST}, None, 10, evidence={str(PARTNER): made.evidence(BALANCED.answer())})

    def test_a_right_key_after_a_wrong_one_is_not_admitted(self):
        diary = diary_with(FIRST)
        diary.trade(BALANCED, 9, key_tick=10, keys=[WRONG_KEY, BALANCED.key(False)])
        self.check(diary, {FIRST}, None, 10, evidence=self.evidence)

    def test_a_wrong_key_without_evidence_was_forged(self):
        diary = diary_with(FIRST)
        diary.trade(BALANCED, 9, key_tick=10, keys=[WRONG_KEY, BALANCED.key(False)])
        self.check(diary, {FIRST, SECOND}, 10, None)

    def test_a_wrong_key_after_a_right_one_changes_nothing(self):
        diary = diary_with(FIRST)
        diary.trade(BALANCED, 9, key_tick=10)
        diary.take(WRONG_KEY)
        self.check(diary, {FIRST, SECOND}, 10, None, evidence=self.evidence)

    def test_a_key_after_which_the_peer_still_asks_was_not_admitted(self):
        diary = diary_with(FIRST)
        diary.trade(BALANCED, 9, key_tick=10)
        diary.ask(BALANCED, 12)
        self.check(diary, {FIRST}, None, None)

    def test_a_key_behind_the_notice_of_an_eviction_is_not_admitted(self):
        diary = diary_with(FIRST)
        diary.trade(BALANCED, 9, key_tick=10, keys=[made.evict(2, 3, PARTNER), BALANCED.key(False)])
        self.check(diary, {FIRST}, None, None)


class Cases(unittest.TestCase):
    def held_after(self, *entries):
        """What is held after the peer said its CASE and took these datagrams, and asked for the key in that tick."""
        diary = diary_with(FIRST)
        diary.until(9)
        diary.send(BALANCED.request(), BALANCED.case(True))
        diary.take(*entries)
        diary.send(BALANCED.key_request(True))
        diary.take(BALANCED.key(False))
        return set(account_of(diary).held)

    def test_a_case_needs_the_terms_of_the_own_one(self):
        other = Trade.balanced(BALANCED.exchange, [[FIRST], [SECOND]], [[SECOND], [FIRST]])
        self.assertEqual(self.held_after(BALANCED.case(False)), {FIRST, SECOND})
        self.assertEqual(self.held_after(other.case(False)), {FIRST})
        self.assertEqual(self.held_after(other.case(False), BALANCED.case(False)), {FIRST, SECOND})

    def test_a_case_needs_the_counts_of_its_promise(self):
        counts = bytearray(BALANCED.case(False))
        counts[23] = 1
        self.assertEqual(self.held_after(bytes(counts)), {FIRST})

    def test_of_two_cases_of_the_same_terms_the_first_counts(self):
        other = Trade.balanced(BALANCED.exchange, [[FIRST], [SECOND, THIRD]], [[SECOND], [FIRST]], blocks=made.ZEROS)
        self.assertEqual(self.held_after(other.case(False), BALANCED.case(False)), {FIRST})
        self.assertEqual(self.held_after(BALANCED.case(False), other.case(False)), {FIRST, SECOND})

    def test_a_case_counts_only_in_an_exchange_of_the_peer(self):
        diary = diary_with(FIRST)
        diary.until(9)
        diary.take(BALANCED.case(False), BALANCED.key(False))
        account = account_of(diary)
        self.assertEqual((set(account.held), account.sides), ({FIRST}, {}))

    def test_a_case_that_the_peer_did_not_answer_was_not_admitted(self):
        diary = diary_with(FIRST)
        diary.until(9)
        diary.send(BALANCED.request(), BALANCED.case(True))
        diary.take(BALANCED.case(False), BALANCED.key(False))
        self.assertEqual(set(account_of(diary).held), {FIRST})

    def test_a_case_in_a_tick_before_the_peer_asked_was_not_admitted(self):
        forged = Trade.balanced(BALANCED.exchange, [[FIRST], [SECOND, THIRD]], [[SECOND], [FIRST]], blocks=made.ZEROS)
        diary = diary_with(FIRST)
        diary.until(9)
        diary.send(BALANCED.request(), BALANCED.case(True))
        diary.take(forged.case(False))
        diary.until(10)
        diary.take(BALANCED.case(False))
        diary.send(BALANCED.key_request(True))
        diary.take(BALANCED.key(False))
        self.assertEqual(set(account_of(diary).held), {FIRST, SECOND})

    def test_a_case_after_its_key_opens_nothing(self):
        self.assertEqual(self.held_after(BALANCED.key(False)), {FIRST})


class Pushes(unittest.TestCase):
    def test_an_initiator_gets_an_old_update_and_junk(self):
        diary = diary_of_round_3(*FRESH)
        diary.trade(PUSH_OUT, 18, key_tick=19)
        account = account_of(diary)
        self.assertEqual(account.held, dict.fromkeys(FRESH, Arrival(17, 0, 2)) | {THIRD: Arrival(19, PARTNER, 2, PUSH_OUT.exchange)})
        (side,) = account.sides.values()
        self.assertEqual((side.asks, side.gives, side.gets), (True, (tuple(FRESH), 0), ((THIRD,), 1)))

    def test_a_responder_gets_a_fresh_update_for_junk(self):
        diary = diary_of_round_3()
        diary.trade(PUSH_IN, 18, key_tick=19)
        account = account_of(diary)
        self.assertEqual(account.held, {FRESH[0]: Arrival(19, PARTNER, 2, PUSH_IN.exchange)})
        (side,) = account.sides.values()
        self.assertEqual((side.asks, side.gives, side.gets), (False, ((), 1), ((FRESH[0],), 0)))

    def test_updates_beside_wrong_junk_are_not_held(self):
        case = bytearray(PUSH_OUT.case(False))
        case[-len(made.signature(SESSION)) - 1] ^= 1
        diary = diary_of_round_3(*FRESH)
        diary.trade(PUSH_OUT, 18, key_tick=19, case=bytes(case))
        account = account_of(diary, evidence={str(PARTNER): made.evidence(case, PUSH_OUT.key(False))})
        (side,) = account.sides.values()
        self.assertEqual((set(account.held), side.was_cheated), (set(FRESH), 19))


class Wide(unittest.TestCase):
    """Exchanges of a session of version 2."""

    OURS, THEIRS = [Update(1, 64), Update(2, 127)], [Update(1, 127), Update(2, 65)]

    def diary(self, *updates, session=WIDE):
        """The diary of a peer that takes the manifests of rounds 1 and 2 in tick 1, and these updates in tick 2."""
        diary = Diary(ME, session)
        diary.until(1)
        diary.take_manifest(1, 2, blocks=WIDE_PLAIN)
        diary.until(2)
        diary.take(*(made.block(ME, update, WIDE_PLAIN, session) for update in updates))
        return diary

    def account_of(self, diary):
        return Account(WIDE, ME, diary.log())

    def test_a_balanced_exchange_of_indices_above_63(self):
        trade = Trade.balanced(Exchange(2, False, ME, PARTNER), [self.OURS, self.THEIRS], [self.THEIRS, self.OURS], WIDE_PLAIN, WIDE)
        diary = self.diary(*self.OURS)
        diary.trade(trade, 9, key_tick=11)
        account = self.account_of(diary)
        traded = dict.fromkeys(self.THEIRS, Arrival(11, PARTNER, 2, trade.exchange))
        self.assertEqual(account.held, dict.fromkeys(self.OURS, Arrival(2, 0, 2)) | traded)
        (side,) = account.sides.values()
        self.assertEqual((side.gives.updates, side.gets.updates), (tuple(self.OURS), tuple(self.THEIRS)))
        diary.until(first_tick(5))
        self.assertEqual(self.account_of(diary).played, {*self.OURS, *self.THEIRS})

    def test_a_push_of_indices_above_63(self):
        trade = Trade.push(Exchange(2, True, PARTNER, ME), [self.THEIRS, self.OURS[:1], self.THEIRS, self.OURS[:1]], 1, WIDE_PLAIN, WIDE)
        diary = self.diary(*self.OURS)
        diary.trade(trade, 9, key_tick=10)
        account = self.account_of(diary)
        self.assertEqual({update for update, it in account.held.items() if it.sender == PARTNER}, {*self.THEIRS})
        (side,) = account.sides.values()
        self.assertEqual((side.asks, side.gives, side.gets), (False, (tuple(self.OURS[:1]), 1), (tuple(self.THEIRS), 0)))

    def test_datagrams_of_version_1_count_for_nothing(self):
        trade = Trade.balanced(Exchange(2, False, ME, PARTNER), [[FIRST], [SECOND]], [[SECOND], [FIRST]])
        diary = self.diary(FIRST, session=SESSION)
        diary.trade(trade, 9, key_tick=10)
        self.assertEqual((self.account_of(diary).held, self.account_of(diary).sides), ({}, {}))


class Long(unittest.TestCase):
    def test_an_exchange_with_signatures_of_two_levels(self):
        trade = Trade.balanced(Exchange(2, False, ME, PARTNER), [[FIRST], [SECOND]], [[SECOND], [FIRST]], session=LONG)
        diary = Diary(ME, LONG)
        diary.until(1)
        diary.take_manifest(1)
        diary.take(made.block(ME, FIRST, session=LONG))
        diary.trade(trade, 9, key_tick=11)
        held = {FIRST: Arrival(1, 0, 2), SECOND: Arrival(11, PARTNER, 2, trade.exchange)}
        self.assertEqual(Account(LONG, ME, diary.log()).held, held)
        self.assertEqual(Account(SESSION, ME, diary.log()).held, {})


class CutRecordings(unittest.TestCase):
    def test_what_a_cut_recording_has_whole_counts(self):
        diary = diary_with(FIRST)
        diary.trade(BALANCED, 9, key_tick=11)
        diary.until(first_tick(4))
        block_entry, key_entry = (diary.entries.index(made.taken(it)) for it in (made.block(ME, FIRST), BALANCED.key(False)))
        end = 15
        for at, entry in enumerate(diary.entries):
            held = {update for update, entry_at in ((FIRST, block_entry), (SECOND, key_entry)) if entry_at < at}
            with self.subTest(entry=at):
                for cut in {end, end + len(entry) // 2, end + len(entry) - 1}:
                    account = account_of(diary, cut=cut)
                    self.assertEqual((set(account.held), account.played), (held, set()))
            end += len(entry)
        self.assertEqual(account_of(diary, cut=end).played, {FIRST, SECOND})
