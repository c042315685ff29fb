import dataclasses
import pathlib
import sys
import unittest

sys.path.insert(0, str(pathlib.Path(__file__).resolve().parent.parent))

import made_sessions as made
from gossip.formats.briefcases import keystream, opened
from gossip.formats.datagrams import BalancedTerms, Exchange, Promise, PushTerms, Reader, Update, Window
from gossip.formats.files import KEY, KEYREQ, QUERY, REPLY, REQUEST, RESPONSE
from gossip.formats.grammar import signature_size
from made_sessions import LONG, PLAIN, SESSION, WIDE, WIDE_PLAIN, Trade

BALANCED = Trade.balanced(Exchange(4, False, 2, 3), [[Update(2, 0), Update(3, 1)], [Update(4, 3)]], [[Update(4, 3)], [Update(2, 0)]])
PUSH_WINDOWS = [[Update(4, 0), Update(4, 1)], [Update(2, 2), Update(3, 3)], [Update(4, 1)], []]
PUSH = Trade.push(Exchange(4, True, 2, 3), PUSH_WINDOWS, 1)
DATAGRAMS = [made.manifest(1), made.evict(2, 1, 3), made.block(3, Update(5, 1))]
DATAGRAMS += [message() for trade in (BALANCED, PUSH) for message in (trade.request, trade.answer)]
DATAGRAMS += [part(side) for trade in (BALANCED, PUSH) for part in (trade.case, trade.key_request, trade.key) for side in (False, True)]

# exchanges of a session of version 2, of updates in both words of a round
LOW, HIGH = [Update(2, 0), Update(2, 63), Update(4, 64)], [Update(3, 65), Update(4, 127)]
WIDE_BALANCED = Trade.balanced(Exchange(4, False, 2, 3), [LOW, HIGH], [HIGH, LOW[:2]], WIDE_PLAIN, WIDE)
WIDE_PUSH = Trade.push(Exchange(4, True, 2, 3), [[Update(4, 63), Update(4, 64)], HIGH[:1], [Update(4, 64)], HIGH[:1]], 0, WIDE_PLAIN, WIDE)
WIDE_DATAGRAMS = [made.manifest(1, WIDE_PLAIN, WIDE), made.evict(2, 1, 3, session=WIDE), made.block(3, Update(5, 127), WIDE_PLAIN, WIDE)]
WIDE_DATAGRAMS += [message() for trade in (WIDE_BALANCED, WIDE_PUSH) for message in (trade.request, trade.answer)]
WIDE_DATAGRAMS += [part(True) for trade in (WIDE_BALANCED, WIDE_PUSH) for part in (trade.case, trade.key_request, trade.key)]


def changed(datagram, **bytes_at):
    """The datagram with other bytes at some places, as `at_20`."""
    other = bytearray(datagram)
    for place, byte in bytes_at.items():
        other[int(place.removeprefix("at_"))] = byte
    return bytes(other)


class Reading(unittest.TestCase):
    def setUp(self):
        self.reader = Reader(SESSION)

    def test_datagrams_of_the_broadcaster(self):
        manifest = self.reader.read(made.manifest(3))
        self.assertEqual((manifest.round, list(manifest.digests)), (3, [Update(3, index) for index in range(4)]))
        self.assertEqual(self.reader.read(made.evict(2, 1, 3)).parties, (1, 3))
        block = self.reader.read(made.block(3, Update(5, 1)))
        self.assertEqual((block.receiver, block.update, block.block), (3, Update(5, 1), PLAIN[Update(5, 1)]))

    def test_messages_of_exchanges(self):
        kinds = {True: (REQUEST, RESPONSE), False: (QUERY, REPLY)}
        for trade in (BALANCED, PUSH):
            told = [self.reader.read(it) for it in (trade.request(), trade.answer(), trade.key_request(True), trade.key(False))]
            self.assertEqual([it.exchange for it in told], [trade.exchange] * 4)
            self.assertEqual([it.kind for it in told], [*kinds[trade is BALANCED], KEYREQ, KEY])
            self.assertEqual([(it.by_initiator, it.receiver) for it in told], [(True, 3), (False, 2), (True, 3), (False, 2)])
            self.assertEqual(told[3].key, trade.briefcase_key(False))

    def test_terms_and_promises(self):
        cases = [self.reader.read(trade.case(side)) for trade in (BALANCED, PUSH) for side in (True, False)]
        histories = frozenset({Update(2, 0), Update(3, 1)}), frozenset({Update(4, 3)})
        terms = [BalancedTerms(bytes(range(32)), *histories), PushTerms(*map(frozenset, PUSH_WINDOWS), 1)]
        self.assertEqual([case.terms for case in cases], [terms[0], terms[0], terms[1], terms[1]])
        promised = [Promise((Update(2, 0),), 0), Promise((Update(4, 3),), 0), Promise((Update(4, 1),), 0), Promise((), 1)]
        self.assertEqual([case.promise for case in cases], promised)
        self.assertEqual([len(case.cipher) for case in cases], [1024, 1024, 1024, 1280])

    def test_a_datagram_of_another_length_is_not_read(self):
        for datagram in DATAGRAMS:
            self.assertIsNotNone(self.reader.read(datagram))
            read = [cut for cut in range(len(datagram)) if self.reader.read(datagram[:cut])]
            self.assertEqual((read, self.reader.read(datagram + b"\0")), ([], None))

    def test_a_datagram_with_a_number_out_of_range_is_not_read(self):
        case, key = BALANCED.case(True), PUSH.key(False)
        for datagram in DATAGRAMS:
            heads = [changed(datagram, at_0=0), changed(datagram, at_2=2), changed(datagram, at_3=13), changed(datagram, at_5=0)]
            rounds = [changed(datagram, at_19=0), changed(datagram, at_19=SESSION.rounds + 1)]
            self.assertEqual([self.reader.read(it) for it in heads + rounds], [None] * 6)
        numbers = [changed(key, at_20=2), changed(key, at_21=2), changed(case, at_22=0)[:-1024]]
        parties = [changed(key, at_13=0), changed(key, at_15=4), changed(key, at_13=2), changed(made.manifest(1), at_13=1)]
        parties += [changed(made.evict(2, 1), at_15=1), changed(made.block(3, Update(5, 1)), at_13=1)]
        self.assertEqual([self.reader.read(it) for it in numbers + parties], [None] * 9)


class Versions(unittest.TestCase):
    def test_a_datagram_is_of_the_session_of_its_version_alone(self):
        readers = {1: Reader(SESSION), 2: Reader(WIDE)}
        for version, datagrams in ((1, DATAGRAMS), (2, WIDE_DATAGRAMS)):
            for datagram in datagrams:
                self.assertIsNotNone(readers[version].read(datagram))
                self.assertIsNone(readers[3 - version].read(datagram))
                self.assertIsNone(readers[version].read(changed(datagram, at_2=3 - version)))

    def test_lengths_of_version_2(self):
        lengths = {len(datagram) for datagram in WIDE_DATAGRAMS if datagram[3] not in (KEY, KEYREQ)}
        window, signature = 48, len(made.signature(WIDE))
        told = {21 + 32 * 128 + signature, 21 + 4 + signature, 1045, 84 + signature, 20 + window + signature}
        told |= {52 + 2 * window + signature, 21 + 2 * window + signature}
        told |= {24 + 32 + 2 * window + 2 * 1024 + signature, 24 + 4 * window + 1 + 1024 + signature}
        self.assertEqual(lengths, told)

    def test_windows_of_both_widths(self):
        for session, words in ((SESSION, 1), (WIDE, 2)):
            reader, size = Reader(session), 8 * words * session.life
            self.assertEqual(reader.layout.window, size)
            for place in range(64 * words * session.life):
                word, bit = divmod(place, 64)
                written = bytes(8 * word) + (1 << bit).to_bytes(8, "big") + bytes(size - 8 * word - 8)
                update = Update(4 + place // (64 * words), place % (64 * words))
                self.assertEqual(reader.updates_in(6, written), {update})

    def test_a_window_is_a_set(self):
        window = Window(4, 64, 1 << 2 | 1 << 63 | 1 << 64 + 5)
        updates = [Update(4, 2), Update(4, 63), Update(5, 5)]
        self.assertEqual(([*window], len(window)), (updates, 3))
        self.assertEqual((window == frozenset(updates), window == Window(4, 64, 0), window == Window(3, 64, window.bits)), (True, False, False))
        self.assertTrue(all(update in window for update in updates))
        strangers = Update(4, 1), Update(3, 2), Update(4, 64 + 64 + 2), Update(6, 5)
        self.assertFalse(any(update in window for update in strangers))
        self.assertEqual([*(window - Window(4, 64, 1 << 63))], [updates[0], updates[2]])

    def test_the_cipher_of_a_case_is_no_copy(self):
        datagram = BALANCED.case(True)
        self.assertIs(Reader(SESSION).read(datagram).cipher.obj, datagram)

    def test_the_window_of_an_early_round_begins_with_round_1(self):
        for session, words in ((SESSION, 1), (WIDE, 2)):
            written = bytes(8 * words - 1) + b"\1" + bytes(8 * words * (session.life - 1))
            self.assertEqual(Reader(session).updates_in(2, written), {Update(1, 64 * words - 64)})

    def test_terms_and_promises_of_indices_above_63(self):
        cases = [Reader(WIDE).read(trade.case(side)) for trade in (WIDE_BALANCED, WIDE_PUSH) for side in (True, False)]
        promised = [(LOW[0], LOW[1]), tuple(HIGH), (Update(4, 64),), (Update(3, 65),)]
        self.assertEqual([case.promise for case in cases], [Promise(updates, 0) for updates in promised])
        self.assertEqual(cases[0].terms, BalancedTerms(bytes(range(32)), frozenset(LOW), frozenset(HIGH)))


class Levels(unittest.TestCase):
    """Sessions with signatures of two levels."""

    def test_lengths_of_signatures(self):
        self.assertEqual([signature_size(6, 4), signature_size(5, 4), signature_size(5, 4, 6)], [1452, 1292, 2804])
        self.assertEqual(len(dataclasses.replace(BALANCED, session=LONG).request()), 2888)

    def test_a_datagram_is_of_a_session_with_the_same_levels_alone(self):
        trades = [dataclasses.replace(trade, session=LONG) for trade in (BALANCED, PUSH)]
        datagrams = [made.manifest(1, session=LONG), made.evict(2, 1, 3, session=LONG)]
        datagrams += [message() for trade in trades for message in (trade.request, trade.answer)]
        datagrams += [part(side) for trade in trades for part in (trade.case, trade.key) for side in (False, True)]
        for datagram in datagrams:
            self.assertIsNotNone(Reader(LONG).read(datagram))
            self.assertIsNone(Reader(SESSION).read(datagram))
        self.assertEqual([len(Reader(LONG).read(trades[1].case(side)).cipher) for side in (True, False)], [1024, 1280])


class Briefcases(unittest.TestCase):
    def test_the_keystream_is_that_of_chacha20(self):
        # the first two blocks under a key of zeros
        known = "76b8e0ada0f13d90405d6ae55386bd28bdd219b8a08ded1aa836efcc8b770dc7"
        known += "da41597c5157488d7724e03fb8d84a376a43b8f41518a11cc387b669b2ee6586"
        known += "9f07e7be5551387a98ba977c732d080dcb0f29a048e3656912c6533e32ee7aed"
        known += "29b721769ce64e43d57133b074d839d531ed1f28510afb45ace10a1f4b794d6f"
        for size in (0, 1, 63, 64, 65, 128):
            self.assertEqual(keystream(bytes(32), size), bytes.fromhex(known)[:size])

    def test_a_key_opens_its_own_case(self):
        reader = Reader(SESSION)
        digests = {update: digest for number in range(1, 7) for update, digest in reader.read(made.manifest(number)).digests.items()}
        for trade in (BALANCED, PUSH):
            for side in (False, True):
                case, promised = reader.read(trade.case(side)), trade.promises[side][0]
                blocks = {update: PLAIN[update] for update in promised}
                self.assertEqual(opened(SESSION, case, trade.briefcase_key(side), digests), blocks)
                self.assertIsNone(opened(SESSION, case, trade.briefcase_key(not side), digests))
                self.assertEqual(opened(SESSION, case, trade.briefcase_key(side), {}), None if promised else {})
