"""Whole peers, by replays of the built program: what they hold, send, play and report for chosen inputs, worked out by hand from the rules.
These tests are skipped where it isn't built.

An update has its round and its index as content. Datagrams that no honest party says are signed here.
"""
import unittest

from support import need_program

from gossip.formats.files import CASE, DIVULGE, KEY, KEYREQ, QUERY, REPLY, REQUEST, RESPONSE
from chosen_peers import ChosenCase, Peer, block_of, changed, deliver, evidence_of, number_of, of_round, table_of, window

# the secrets of the broadcaster and of five peers; in one round peer 5 is chosen by the peers 1, 2 and 3, and peer 4 chooses peer 3
FIVE = tuple(bytes([it]) * 32 for it in (7, 8, 9, 14, 10, 11))


def setUpModule():
    """Says that these tests are skipped, where they are."""
    need_program("the tests of whole peers")


def content(number, index):
    return bytes([ord("0") + number, ord("a") + index])


def block(number, index):
    return block_of(content(number, index))


class Peers(ChosenCase):
    def pair(self, **numbers):
        chosen = self.chosen(**numbers)
        return chosen, Peer(chosen, 1), Peer(chosen, 2)

    def know(self, peers, number, count, held):
        """Both peers take the manifest of a round of so many updates, and each the blocks of some of them, for which they send nothing."""
        chosen = peers[0].chosen
        manifest = chosen.manifest(number, [block(number, index) for index in range(count)])
        for peer, indexes in zip(peers, held):
            blocks = [chosen.block((number, index), peer.number, block(number, index)) for index in indexes]
            self.assertEqual(peer.take(manifest, *blocks), [])

    def check_sent(self, sent, to, *kinds):
        """These kinds are sent, each with its length, to this party alone."""
        self.assertEqual([(it[3], len(it)) for it in sent], [*kinds])
        self.assertEqual({int.from_bytes(it[14:16], "big") for it in sent}, {to} if kinds else set())

    def in_turn(self, peers, first, *rows):
        """What is sent in an exchange, from its first datagram on. Of each row a peer takes a datagram, by its place among those that were
        sent, and sends these kinds, each with its length.
        """
        sent = [first]
        for number, place, *kinds in rows:
            answer = peers[number - 1].take(sent[place])
            self.check_sent(answer, 3 - number, *kinds)
            sent += answer
        return sent

    def check_shown(self, peer, datagram, evidence, accused):
        """A datagram that shows a fault is reported at once, to the broadcaster, and kept; and not again when it comes again."""
        self.assertEqual(peer.take(datagram), [peer.chosen.report(peer.number, evidence)])
        self.assertEqual(peer.evidence, {accused: evidence})
        self.assertEqual(peer.take(datagram), [])

    # ---- the stream

    def test_a_block_is_held_once_its_manifest_is_there(self):
        chosen, one, two = self.pair(rounds=1)
        hi, ho, long = block_of(b"hi"), block_of(b"ho"), block_of(b"no", 1023)
        first, other = chosen.manifest(1, [hi, long]), chosen.manifest(1, [ho, long])
        early = chosen.block((1, 0), 2, hi)
        self.assertEqual(two.take(early, changed(first)), [])
        self.assertEqual(two.found, {"table": b""})
        # of two manifests of a round the first counts
        for manifest in (first, other):
            self.assertEqual(two.take(manifest), [])
            self.assertEqual(two.found, {"table": table_of(first)})
        # there is nothing to offer yet
        self.check_sent(two.tick(1), 1, (REQUEST, 84 + chosen.signature_size))
        self.assertEqual(two.take(chosen.block((1, 0), 2, ho), early, early, chosen.block((1, 1), 2, long)), [])
        (response,) = two.take(*one.tick(1))
        self.assertEqual(response[:52], chosen.front(RESPONSE, 2, 1, 1) + window(3, 0, 0, 0))
        self.assertEqual([two.plays(until) for until in (32, 33, 48)], [b"", b"hi", b""])

    def test_what_is_played_of_other_orders(self):
        """Of each row the inputs before the first tick of round 5, at which the updates of round 1 are played, and what is played then."""
        chosen, *_ = self.pair(rounds=1)
        hi, ho, long = block_of(b"hi"), block_of(b"ho"), block_of(b"no", 1023)
        manifest, other = chosen.manifest(1, [hi]), chosen.manifest(1, [ho, long])
        early, other_block, long_block = (chosen.block((1, at), 2, it) for at, it in ((0, hi), (0, ho), (1, long)))
        for entries, played, table in (
            ([manifest, early], b"hi", manifest),
            ([changed(manifest), early], b"", b""),
            ([manifest, other, early, other_block], b"hi", manifest),
            ([other, manifest, early, other_block], b"ho", other),
            ([early, manifest], b"", manifest),
            ([early, manifest, early], b"hi", manifest),
            ([early, manifest, early, early], b"hi", manifest),
            ([other, other_block, long_block], b"ho", other),
        ):
            with self.subTest(entries=[it[:24].hex() for it in entries]):
                replayed = chosen.replayed(2, [None, *entries, *[None] * 32])
                self.assertEqual((replayed.played, replayed.found), (played, {"table": table_of(*filter(None, [table]))}))
                # the request of round 1 is sent at each tick of the rounds 1 and 2
                self.assertEqual([(number, to) for number, to, _ in replayed.sends if number == 1], [(1, 1)])
                self.assertEqual(len(replayed.sends), 16)
                self.assertEqual({datagram[:20] for *_, datagram in replayed.sends}, {chosen.front(REQUEST, 2, 1, 1)})
        for entries in ([None, manifest, early, *[None] * 31], [None, manifest, *[None] * 32, early], []):
            self.assertEqual(chosen.replayed(2, entries).played, b"")
        self.assertEqual(chosen.replayed(2, []).sends, [])

    def test_a_spent_key_replays(self):
        chosen, _, two = self.pair(rounds=1, life=5)
        key = chosen.folder.key(2)
        key.write_text(key.read_text().replace("false", "true"))
        hi = block_of(b"hi")
        self.assertEqual(two.take(chosen.manifest(1, [hi]), chosen.block((1, 0), 2, hi)), [])
        self.assertEqual(two.plays(41), b"hi")

    # ---- exchanges

    def test_nothing_is_traded_where_both_hold_the_same(self):
        chosen, one, two = self.pair()
        self.know((one, two), 1, 8, [[0], [0]])
        asked, request = of_round(one.tick(1), 1, REQUEST), of_round(two.tick(1), 1, REQUEST)
        (response,) = one.take(*request)
        self.check_sent([response], 2, (RESPONSE, 52 + chosen.signature_size))
        self.assertEqual(response[20:52], window(1, 0, 0, 0))
        self.assertEqual(two.take(response), [])
        # who has an answer asks no more, and no briefcase is sent
        later = [it for sent in two.each_tick(17) for it in sent]
        self.assertEqual(of_round(later, 1, REQUEST, DIVULGE, CASE), [])
        # who has none asks again, up to the end of the next round
        asks = [of_round(sent, 1, REQUEST, DIVULGE, CASE) for sent in one.each_tick(17)]
        self.assertEqual(asks, [asked] * 15 + [[]])

    def test_young_updates_are_pushed_for_old_ones_and_junk(self):
        """Peer 1 holds an update of three rounds ago and two of the last round; peer 2 holds another old one and a young one, or none."""
        chosen, one, two = self.pair()
        size = chosen.signature_size
        replied, keyed, asked = (REPLY, 85 + size), (KEY, 54 + size), (KEYREQ, 22)
        for number, held, terms, cases, played in (
            (6, [1], window(0, 0, 1, 0) + window(2, 0, 0, 0) + b"\0", (1_177, 1_177), (b"3a3b5a5b", b"3b5a5b")),
            (10, [], window(0, 0, 3, 0) + window(0, 0, 0, 0) + b"\2", (2_713, 2_201), (b"7a9a9b", b"9a9b")),
        ):
            begin = 8 * (number - 1) + 1
            for peer in (one, two):
                peer.tick(begin - 1)
            self.know((one, two), number - 3, 2, [[0], held])
            self.know((one, two), number - 1, 2, [[0, 1], held])
            two.tick(begin)
            (query,) = of_round(one.tick(begin), number, QUERY)
            first, second = ((CASE, it + size) for it in cases)
            rows = (2, 0, replied, first), (1, 1, second), (1, 2, asked), (2, 4), (2, 3, asked), (2, 4, keyed), (1, 5, keyed), (1, 6), (2, 7)
            sent = self.in_turn((one, two), query, *rows)
            self.assertEqual(query[52:116], window(0, 0, 3, 0) + window(2, 0, 0, 0))
            self.assertEqual(sent[1][20:85], terms)
            self.assertEqual((one.plays(begin + 31), two.plays(begin + 31)), played)

    def test_no_more_updates_are_traded_than_the_cap(self):
        chosen, one, two = self.pair(life=16, cap=16, per_round=32)
        size = chosen.signature_size
        for peer in (one, two):
            peer.tick(8)
        self.know((one, two), 1, 20, [range(20), []])
        self.know((one, two), 2, 20, [[], range(20)])
        one.tick(9)
        (request,) = of_round(two.tick(9), 2, REQUEST)
        case, asked, keyed = (CASE, 24 + 32 + 2 * 8 * 16 + 16 * 1024 + size), (KEYREQ, 22), (KEY, 54 + size)
        rows = (1, 0, (RESPONSE, 148 + size)), (2, 1, (DIVULGE, 180), case), (1, 2, case), (1, 3, asked), (2, 4, asked), (1, 6, keyed), (2, 5, keyed)
        sent = self.in_turn((one, two), request, *rows)
        # so many updates are promised, and no junk
        self.assertEqual([it[22:24] for it in sent if it[3] == CASE], [b"\x10\0"] * 2)

    def test_two_requests_of_a_round_are_answered(self):
        chosen = self.chosen(FIVE, rounds=1)
        fifth = Peer(chosen, 5)
        fifth.tick(1)
        asks = {number: Peer(chosen, number).tick(1) for number in (1, 2, 3, 4)}
        self.assertEqual({number: [it[:20] for it in sent] for number, sent in asks.items()}, {
            number: [chosen.front(REQUEST, number, partner, 1)] for number, partner in {1: 5, 2: 5, 3: 5, 4: 3}.items()
        })
        # what peer 4 asks another is nothing to peer 5
        self.assertEqual((fifth.take(*asks[4]), fifth.evidence), ([], {}))
        for number in (1, 2):
            self.assertEqual([it[:20] for it in fifth.take(*asks[number])], [chosen.front(RESPONSE, 5, number, 1)])
        self.assertEqual(fifth.take(*asks[3]), [])

    def test_more_than_64_updates_a_round_are_traded_in_version_2(self):
        """Of a round of 70 updates each goes to one peer, so both play more than half by their trades; with more rounds all."""
        chosen, *peers = self.pair(version=2, per_round=128, cap=16)
        blocks = [block_of(bytes([index]) * 1022) for index in range(70)]
        streams = [[chosen.block((1, at), peer.number, it) for at, it in enumerate(blocks) if at % 2 == peer.number % 2] for peer in peers]
        deliver(peers, [[chosen.manifest(1, blocks), *stream] for stream in streams], 1)
        for tick in (9, 17, 25):
            deliver(peers, [[], []], tick)
        for peer in peers:
            played = peer.plays(33)
            self.assertGreater(len(played), 35 * 1022)
            self.assertEqual(peer.evidence, {})
            self.assertEqual([*played[::1022]], sorted({*played}))

    def test_nothing_is_played_where_nothing_is_delivered(self):
        chosen = self.chosen(FIVE)
        for number in range(1, 6):
            peer = Peer(chosen, number)
            self.assertEqual(len(peer.tick(1)), 1)
            peer.tick(120)
            self.assertEqual((peer.played, peer.found), (b"", {"table": b""}))

    def test_a_peer_with_one_update_asks(self):
        """How often it asks in each round while nobody answers, up to the first tick of round 5. It has something to offer in round 2."""
        chosen = self.chosen()
        hi = block_of(b"hi")
        replayed = chosen.replayed(2, [None, chosen.manifest(1, [hi]), chosen.block((1, 0), 2, hi), *[None] * 32])
        asked = [(datagram[3], number_of(datagram)) for *_, datagram in replayed.sends]
        wanted = {(REQUEST, 1): 16, (REQUEST, 2): 16, (REQUEST, 3): 16, (REQUEST, 4): 9, (REQUEST, 5): 1, (QUERY, 2): 16}
        self.assertEqual({it: asked.count(it) for it in asked}, wanted)
        self.assertEqual(replayed.played, b"hi")

    # ---- who is reported

    def test_a_request_to_another_than_the_partner_is_reported(self):
        """It is at once, and at the last slot of each round. What others report isn't for a peer."""
        chosen = self.chosen(FIVE, rounds=1)
        fifth, (request,) = Peer(chosen, 5), Peer(chosen, 4).tick(1)
        fifth.tick(1)
        stray = chosen.signer(4).signed(0, request[:15] + b"\5" + request[16:84])
        evidence = evidence_of(stray)
        report = chosen.report(5, evidence)
        self.check_shown(fifth, stray, evidence, 4)
        self.assertEqual([sent.count(report) for sent in fifth.each_tick(16)], [0] * 6 + [1] + [0] * 7 + [1])
        self.assertEqual(fifth.take(report), [])

    def trade_without_keys(self, chosen):
        """Both briefcases of the balanced exchange of round 6 that peer 2 begins, and both peers."""
        one, two = Peer(chosen, 1), Peer(chosen, 2)
        for peer in (one, two):
            peer.tick(40)
        for number, held in ((3, ([2], [0, 2])), (4, ([7], [])), (5, ([], [1, 3]))):
            self.know((one, two), number, 8, held)
        one.tick(41)
        size = chosen.signature_size
        case, rows = (CASE, 1_144 + size), [(1, 0, (RESPONSE, 52 + size))]
        rows += [(2, 1, (DIVULGE, 84), case), (1, 2, case), (2, 4, (KEYREQ, 22))]
        return one, two, self.in_turn((one, two), *of_round(two.tick(41), 6, REQUEST), *rows)

    def test_a_key_that_opens_badly_is_reported_with_its_briefcase(self):
        chosen = self.chosen()
        _, two, sent = self.trade_without_keys(chosen)
        key = chosen.signer(1).signed(0, chosen.front(KEY, 1, 2, 6) + b"\0\1" + bytes(32))
        self.check_shown(two, key, evidence_of(sent[4], key), 1)

    def test_a_leaf_that_signed_in_two_exchanges_is_reported(self):
        """The exchange of round 1 is given up in round 6, and that of round 6 isn't in round 7."""
        chosen, one, two = self.pair()

        def by_leaf_0(number, tick):
            (request,) = of_round(two.tick(tick), number, REQUEST)
            return chosen.signer(2).signed(0, request[:84])

        first = of_round(two.tick(1), 1, REQUEST)
        one.tick(1)
        one.take(*first)
        one.tick(41)
        second = by_leaf_0(6, 42)
        one.take(second)
        self.assertEqual(one.evidence, {})
        one.tick(49)
        third = by_leaf_0(7, 51)
        evidence = evidence_of(second, third)
        report = chosen.report(1, evidence)
        self.assertEqual([one.take(third).count(report) for _ in range(2)], [1, 0])
        self.assertEqual(one.evidence, {2: evidence})

    def test_nothing_is_sent_to_an_evicted_party(self):
        chosen, one, _ = self.pair()
        for sent in one.each_tick(8):
            self.assertEqual([it[:20] for it in sent], [chosen.front(REQUEST, 1, 2, 1)])
        self.assertEqual(one.take(chosen.notice(1, 2)), [])
        self.assertEqual(one.each_tick(16), [[]] * 8)

    # ---- debts

    def test_who_owes_a_key_is_not_served_and_still_accused(self):
        """In version 3 both say the KEY of their exchange of round 4, and neither hears the other's."""
        chosen, one, two = self.pair(version=3)
        peers, size = (one, two), chosen.signature_size
        for peer in peers:
            peer.tick(24)
        self.know(peers, 1, 8, [[0], []])
        self.know(peers, 2, 8, [[], [0]])
        two.tick(25)
        (request,) = of_round(one.tick(25), 4, REQUEST)
        case, asked, keyed = (CASE, 1_208 + size), (KEYREQ, 22), (KEY, 54 + size)
        rows = (2, 0, (RESPONSE, 84 + size)), (1, 1, (DIVULGE, 116), case), (2, 2, case), (1, 4, asked), (2, 3, asked), (1, 6, keyed), (2, 5, keyed)
        sent = self.in_turn(peers, request, *rows)
        # in round 6 each asks for the key, and again for an exchange of round 5, but for none of round 6
        asks = []
        for peer in peers:
            peer.tick(40)
            said = peer.tick(41)
            self.check_sent(said, 3 - peer.number, asked, (REQUEST, 84 + size))
            self.assertEqual([it[16:20] for it in said], [b"\0\0\0\4", b"\0\0\0\5"])
            asks.append(said[1])
        other_seed = chosen.signer(1).signed(0, changed(asks[0][:84], 20))
        self.check_shown(two, other_seed, evidence_of(other_seed), 1)
        # a KEY pays the debt, even one that opens badly
        self.assertEqual(one.take(asks[1]), [])
        key = chosen.signer(2).signed(0, chosen.front(KEY, 2, 1, 4) + b"\0\1" + bytes(32))
        self.check_shown(one, key, evidence_of(sent[4], key), 2)
        self.assertEqual([it[:20] for it in one.take(asks[1])], [chosen.front(RESPONSE, 1, 2, 5)])


if __name__ == "__main__":
    unittest.main()
