"""Sessions of version 3, and of 1 and 2, worked out by hand: what two peers send for chosen inputs. These tests are skipped where the program
isn't built.

What peers take is chosen here, and replayed. Updates are named by round and index.
"""
import functools
import unittest

from support import need_program

from gossip.formats.files import CASE, CONTENT, DIVULGE, KEY, KEYREQ, QUERY, REPLY, REQUEST, RESPONSE
from chosen_peers import ChosenCase, Peer, block_of, kinds_of, of_round

# what the two peers hold before the balanced exchange of round 6, and before the push
FIRST, SECOND = ((3, 0), (3, 2), (5, 1), (5, 3)), ((3, 2), (4, 7))
YOUNG = ((5, 0), (5, 1))

ROUNDS, PER_ROUND = 20, 8


def setUpModule():
    """Says that these tests are skipped, where they are."""
    need_program("the tests of version 3")


def block(update):
    number, index = update
    return block_of(bytes((number * PER_ROUND + index + at) * 7 % 251 for at in range(CONTENT)))


@functools.cache
def manifest(chosen, number):
    """The manifest of a round of this stream."""
    return chosen.manifest(number, [block((number, index)) for index in range(PER_ROUND)])


class Listener(Peer):
    """A peer of a session that takes chosen inputs of the stream."""

    def know(self, rounds, updates):
        """Takes the manifests of rounds, and the blocks of updates."""
        blocks = (self.chosen.block(update, self.number, block(update)) for update in updates)
        self.take(*(manifest(self.chosen, number) for number in rounds), *blocks)


class Exchange:
    """The exchange of round 6 that `asking` starts with `asked`, up to where both have said their first messages."""

    def __init__(self, asking, asked, kind):
        self.asking, self.asked, self.kind = asking, asked, kind
        for peer in (asking, asked):
            peer.tick(40)
        self.balanced = kind == REQUEST
        holdings = (FIRST, SECOND) if self.balanced else (YOUNG, ())
        for peer, updates in zip((asking, asked), holdings):
            peer.know((3, 4, 5), updates)
        request = of_round(asking.tick(41), 6, kind)
        asked.tick(41)
        self.answer = asked.take(*request)

    def cases(self):
        """Both CASEs, the DIVULGE having been taken."""
        if self.balanced:
            divulge, first = self.asking.take(*self.answer)
            return first, *self.asked.take(divulge)
        reply, second = self.answer
        return *self.asking.take(reply), second

    def keys(self):
        """Both CASEs are taken, and both KEYs are asked for and given: these KEYs, which nobody has taken."""
        first, second = self.cases()
        asks = self.asked.take(first), self.asking.take(second)
        return self.asking.take(*asks[0])[0], self.asked.take(*asks[1])[0]


class Third(ChosenCase):
    """Version 3, and for each row versions 1 and 2, in which nobody owes anything and nothing more is said again."""

    def exchange(self, version=3, kind=REQUEST, asking=1):
        chosen = self.chosen(version=version, rounds=ROUNDS)
        peers = Listener(chosen, asking), Listener(chosen, 3 - asking)
        return Exchange(*peers, kind)

    def in_debt(self, **words):
        """An exchange in which peer 2 has taken the KEY of peer 1, and peer 1 has none: the peers, and the KEY of peer 2."""
        exchange = self.exchange(**words)
        keys = exchange.keys()
        self.assertEqual(kinds_of(keys), [KEY, KEY])
        one, two = sorted((exchange.asking, exchange.asked), key=lambda peer: peer.number)
        own, theirs = keys if exchange.asking is one else reversed(keys)
        self.assertEqual(two.take(own), [])
        return one, two, theirs

    # ---- who owes a key isn't served

    def check_debt(self, version, **words):
        one, two, key = self.in_debt(version=version, **words)
        serves = version < 3
        # in round 7 nothing is owed
        asked = of_round(one.tick(49), 7, REQUEST)
        self.assertEqual(len(asked), 1)
        theirs = of_round(two.tick(49), 7, REQUEST)
        answer = one.take(*theirs)
        self.assertEqual(kinds_of(answer), [RESPONSE])
        for peer, updates in (one, ()), (two, ((7, 0),)):
            peer.tick(56)
            peer.know((7,), updates)
        sent, others = one.tick(57), two.tick(57)
        self.assertEqual((len(of_round(sent, 6, KEYREQ)), of_round(sent, 7, REQUEST)), (1, asked))
        self.assertEqual(len(of_round(sent, 8, REQUEST)), int(serves))
        request, query = of_round(others, 8, REQUEST, QUERY)
        self.assertEqual(kinds_of(one.take(request)), [RESPONSE] * serves)
        self.assertEqual(kinds_of(one.take(query)), [REPLY, CASE] * serves)
        # what was admitted before the debt began is answered, up to a round after its own
        self.assertEqual(one.take(*theirs), answer)
        return one, two, key, request, theirs

    def test_a_debtor_is_not_served(self):
        for words in ({}, {"asking": 2}, {"kind": QUERY}, {"kind": QUERY, "asking": 2}):
            with self.subTest(**words):
                one, two, key, request, theirs = self.check_debt(3, **words)
                # the debt is over: the same request is admitted now, and the own one isn't said any more in this round
                self.assertEqual(one.take(key), [])
                self.assertEqual(kinds_of(one.take(request)), [RESPONSE])
                self.assertEqual(of_round(one.tick(64), 8, REQUEST), [])
                # in round 9 the request of round 7 isn't answered again, and the own one is said as ever
                self.assertEqual(len(of_round(one.tick(65), 9, REQUEST)), 1)
                self.assertEqual(kinds_of(one.take(*theirs)), [])

    def test_a_debt_ends_with_its_exchange(self):
        one, two, key = self.in_debt()
        self.assertEqual(of_round(one.tick(73), 10, REQUEST), [])
        theirs = of_round(two.tick(73), 10, REQUEST)
        self.assertEqual((len(theirs), one.take(*theirs)), (1, []))
        self.assertEqual(len(of_round(one.tick(80), 6, KEYREQ)), 1)
        sent = one.tick(81)
        self.assertEqual((len(of_round(sent, 11, REQUEST)), of_round(sent, 6, KEYREQ)), (1, []))
        self.assertEqual(kinds_of(one.take(*of_round(two.tick(81), 11, REQUEST))), [RESPONSE])
        self.assertEqual(one.take(key), [])

    def test_nothing_is_owed_in_versions_1_and_2(self):
        for version in (1, 2):
            self.check_debt(version)
            one, two, _ = self.in_debt(version=version)
            self.assertEqual(len(of_round(one.tick(73), 10, REQUEST)), 1)
            self.assertEqual(kinds_of(one.take(*of_round(two.tick(73), 10, REQUEST))), [RESPONSE])

    def test_a_key_that_is_not_given_brings_no_debt(self):
        exchange = self.exchange()
        one, two = exchange.asking, exchange.asked
        first, second = exchange.cases()
        one.take(second)
        (asks,) = two.take(first)
        two.tick(56)
        two.know((7,), ((7, 0),))
        one.tick(56)
        one.know((7,), ())
        sent, others = one.tick(57), two.tick(57)
        self.assertEqual(len(of_round(sent, 8, REQUEST)), 1)
        self.assertEqual(kinds_of(of_round(sent, 6)), [CASE, KEYREQ])
        request, query = of_round(others, 8, REQUEST, QUERY)
        answer = one.take(request)
        self.assertEqual(kinds_of(answer), [RESPONSE])
        given = one.take(asks)
        self.assertEqual(kinds_of(given), [KEY])
        self.assertEqual((one.take(query), one.take(request), one.take(asks)), ([], answer, given))

    # ---- briefcases are said again

    def check_lost(self, exchange, first_is_lost):
        """One CASE is lost. What both say of the exchange at the next tick, and the answers to it."""
        first, second = exchange.cases()
        if first_is_lost:
            exchange.asking.take(second)
        else:
            exchange.asked.take(first)
        return [of_round(peer.tick(42), 6, DIVULGE, CASE, KEYREQ) for peer in (exchange.asking, exchange.asked)], (first, second)

    def close(self, exchange, whole, other):
        """The keys are given by the answers to what the side that has both briefcases said, and then nothing is said any more."""
        asks, key = other.take(*whole)
        self.assertEqual(kinds_of((asks, key)), [KEYREQ, KEY])
        back = [it for datagram in (asks, key) for it in (exchange.asking if other is exchange.asked else exchange.asked).take(datagram)]
        self.assertEqual(kinds_of(back), [KEY])
        self.assertEqual(other.take(*back), [])
        for peer in (exchange.asking, exchange.asked):
            self.assertEqual(of_round(peer.tick(43), 6, DIVULGE, CASE, KEYREQ), [])

    def test_a_lost_briefcase_of_a_balanced_exchange(self):
        exchange = self.exchange()
        (mine, theirs), cases = self.check_lost(exchange, True)
        self.assertEqual((kinds_of(mine), mine[0], theirs), ([CASE, KEYREQ], cases[0], [cases[1]]))
        self.close(exchange, mine, exchange.asked)
        exchange = self.exchange()
        (mine, theirs), cases = self.check_lost(exchange, False)
        self.assertEqual((kinds_of(mine), kinds_of(theirs), theirs[0]), ([DIVULGE, CASE], [CASE, KEYREQ], cases[1]))
        self.close(exchange, theirs, exchange.asking)

    def test_a_lost_briefcase_of_a_push(self):
        for first_is_lost in (True, False):
            exchange = self.exchange(kind=QUERY)
            said, cases = self.check_lost(exchange, first_is_lost)
            whole, other = said if first_is_lost else reversed(said)
            self.assertEqual((kinds_of(whole), kinds_of(other)), ([CASE, KEYREQ], [CASE]))
            self.close(exchange, whole, exchange.asked if first_is_lost else exchange.asking)

    def test_how_long_a_briefcase_is_said_again(self):
        exchange = self.exchange()
        first, second = exchange.cases()
        one = exchange.asking
        one.take(second)
        said = of_round(one.tick(42), 6, DIVULGE, CASE, KEYREQ)
        self.assertEqual((kinds_of(said), said[0]), ([CASE, KEYREQ], first))
        for tick, wanted in (43, said), (64, said), (65, said[1:]), (80, said[1:]), (81, []):
            self.assertEqual(of_round(one.tick(tick), 6, DIVULGE, CASE, KEYREQ), wanted)

    def test_a_key_ends_it(self):
        exchange = self.exchange()
        first, second = exchange.cases()
        one, two = exchange.asking, exchange.asked
        asks, (their_asks,) = one.take(second), two.take(first)
        given, (key,) = None, two.take(*asks)
        one.tick(42)
        given = one.take(their_asks)
        self.assertEqual(kinds_of(given), [KEY])
        for tick in (43, 80):
            self.assertEqual(of_round(one.tick(tick), 6, DIVULGE, CASE, KEYREQ), asks)
        exchange = self.exchange()
        first, second = exchange.cases()
        one = exchange.asking
        one.take(second, key)
        self.assertEqual(of_round(one.tick(42), 6, DIVULGE, CASE, KEYREQ), [])
        self.assertEqual(one.take(their_asks), given)

    def test_briefcases_stay_lost_in_versions_1_and_2(self):
        for version in (1, 2):
            exchange = self.exchange(version=version)
            (mine, theirs), _ = self.check_lost(exchange, True)
            self.assertEqual((kinds_of(mine), kinds_of(theirs)), ([KEYREQ], [CASE]))
            self.assertEqual(exchange.asked.take(*mine), [])
            exchange = self.exchange(version=version)
            (mine, theirs), cases = self.check_lost(exchange, False)
            self.assertEqual((kinds_of(mine), kinds_of(theirs)), ([DIVULGE, CASE], [KEYREQ]))
            self.assertEqual(exchange.asking.take(*theirs), [])
            self.assertEqual(exchange.asked.take(*mine), [cases[1]])

    # ---- manifests are said again

    def test_a_late_manifest(self):
        chosen = self.chosen(version=3, rounds=ROUNDS)
        one, two = Listener(chosen, 1), Listener(chosen, 2)
        for peer in (one, two):
            peer.tick(40)
        one.know((3, 4), ((3, 0), (3, 2)))
        two.know((3, 4, 5), ((3, 2), (4, 7), (5, 1)))
        request = of_round(one.tick(41), 6, REQUEST)
        two.tick(41)
        answer = two.take(*request)
        self.assertEqual((kinds_of(answer), one.take(*answer)), ([RESPONSE], []))
        one.tick(43)
        self.assertEqual(one.take(manifest(chosen, 5)), [])
        self.assertEqual(of_round(one.tick(44), 6, REQUEST), request)
        self.assertEqual(two.take(*request), answer)
        self.assertEqual(kinds_of(one.take(*answer)), [DIVULGE, CASE])
        self.assertEqual(two.take(manifest(chosen, 5)), [])


if __name__ == "__main__":
    unittest.main()
