"""What an attacker makes of the datagrams that it sees, and what is told of what came of them."""
import collections
import random
import unittest
from unittest import mock

from support import RoomCase

from gossip.attacks import attacker
import made_sessions as made
from gossip.formats.datagrams import Exchange, Reader, Update
from gossip.formats.files import EVICT, KEYREQ, RECORDING_HEAD, REQUEST, Head, head_of, recording_of
from made_sessions import SESSION, Trade

TRADE = Trade.balanced(Exchange(2, False, 1, 2), [[Update(1, 0)], [Update(1, 1)]], [[Update(1, 1)], [Update(1, 0)]])
REQUESTED, KEY_ASKED = TRADE.request(), TRADE.key_request(True)
FOREIGN = [bytes(REQUESTED[:4] + b"otherone" + REQUESTED[12:])]


class Changes(unittest.TestCase):
    def changed(self, change, times=50, datagram=REQUESTED):
        draw = random.Random(7)
        return [change(draw, SESSION, datagram, TRADE.answer()) for _ in range(times)]

    def test_what_is_cut_is_a_front(self):
        self.assertTrue(all(REQUESTED.startswith(it) and len(it) < len(REQUESTED) for it in self.changed(attacker.cut)))

    def test_what_is_changed_is_another(self):
        for change in (attacker.flipped, attacker.longer):
            self.assertNotIn(REQUESTED, self.changed(change))
        both = self.changed(attacker.readdressed)
        self.assertTrue(all(it[20:] == REQUESTED[20:] and len(it) == len(REQUESTED) for it in both))
        self.assertGreater(len({it[3] for it in both}), 1)
        size = Reader(SESSION).signature
        changed = attacker.signed_by_another(None, SESSION, REQUESTED, bytes(range(256)) * 8)
        self.assertEqual((changed[:-size], changed[-size:]), (REQUESTED[:-size], (bytes(range(256)) * 8)[-size:]))

    def test_what_is_forged_is_spelled_well(self):
        reader = Reader(SESSION)
        for datagram in self.changed(attacker.evicting):
            self.assertEqual(head_of(datagram, SESSION).kind, EVICT)
            self.assertEqual(len(reader.read(datagram).parties), 1)
        kinds = {reader.read(datagram).kind for datagram in self.changed(attacker.asking)}
        self.assertEqual(kinds, {KEYREQ})
        for datagram in self.changed(attacker.accusing):
            count, parts = datagram[16], datagram[17:]
            sizes = []
            while parts:
                sizes.append(int.from_bytes(parts[:2], "big"))
                parts = parts[2 + sizes[-1] :]
            self.assertEqual((count, sizes), (len(sizes), [len(REQUESTED), len(TRADE.answer())][: len(sizes)]))
        self.assertEqual(attacker.renamed(None, SESSION, b"", FOREIGN[0]), REQUESTED)


class Attacks(RoomCase):
    def attack(self, seed="a", count=300, seconds=1):
        """An attack on a session in which peer 1 took a REQUEST and a KEYREQ."""
        self.recording = self.room / "recording"
        front = b"BARL\x01" + bytes.fromhex(SESSION.id) + b"\0\1"
        self.recording.write_bytes(recording_of(front, [None, REQUESTED, KEY_ASKED, b"short"]))
        return attacker.Attack(SESSION, 5000, [self.recording], attacker.Plan(FOREIGN, seed, count, seconds))

    def sent_at(self, attack, *times):
        """What an attack sends in looks at these times."""
        sender = mock.Mock()
        for now in times:
            attack.look(now, sender)
        return [call.args for call in sender.sendto.call_args_list]

    def test_so_many_are_sent_in_so_many_seconds(self):
        attack = self.attack()
        self.assertEqual(len(self.sent_at(attack, 4.5)), 0)
        self.assertEqual(len(self.sent_at(attack, 5.5)), 150)
        self.assertEqual(len(self.sent_at(attack, 5.6)), 30)
        self.assertEqual(len(self.sent_at(attack, 9, 9, 10)), 120)
        self.assertEqual(attack.sent.total(), 300)
        self.assertEqual(set(attack.sent), set(attacker.WAYS))
        self.assertEqual(len(self.sent_at(self.attack(count=9999), 9)), attacker.BURST)

    def test_nothing_is_sent_before_something_came(self):
        attack = self.attack()
        self.recording.write_bytes(bytes(RECORDING_HEAD))
        self.assertEqual(self.sent_at(attack, 6), [])

    def test_choices_come_from_the_seed(self):
        one, same, other = (self.sent_at(self.attack(seed), 5.5) for seed in "aab")
        self.assertEqual(one, same)
        self.assertNotEqual(one, other)
        self.assertEqual({port for _, (_, port) in one}, {SESSION.port + party for party in SESSION.parties})

    def test_what_was_seen_is_real_and_the_rest_is_made(self):
        attack = self.attack()
        sent = [datagram for datagram, _ in self.sent_at(attack, 5.5)]
        self.assertEqual(attack.known, {REQUESTED, KEY_ASKED})
        self.assertFalse(attack.known & attack.made.keys())
        self.assertEqual(set(sent), attack.made.keys() | {datagram for _, datagram in attack.copies})
        self.assertEqual(attack.copies.total() + sum(it in attack.made for it in sent), 150)
        # what was made isn't taken for a real one when it comes
        self.recording.write_bytes(recording_of(self.recording.read_bytes()[:15], [None, REQUESTED, KEY_ASKED, b"short", *attack.made]))
        self.sent_at(attack, 5.5)
        self.assertEqual(attack.known, {REQUESTED, KEY_ASKED})


class Ends(unittest.TestCase):
    def setUp(self):
        self.attack = mock.Mock(session=SESSION, made={REQUESTED[:-1]: "cut", KEY_ASKED: "forged"})
        self.attack.copies = collections.Counter({(1, REQUESTED): 1, (2, REQUESTED): 5})
        self.came = {way: attacker.Came() for way in attacker.WAYS}

    def test_what_peers_took_and_answered(self):
        recording = recording_of(bytes(15), [None, REQUESTED, REQUESTED, REQUESTED, KEY_ASKED, None, REQUESTED[:-1]])
        attacker.came_of(self.attack, 1, recording, {2, 3, 5, 6}, self.came)
        told = {way: (it.taken, it.answered) for way, it in self.came.items() if it.taken}
        self.assertEqual(told, {"cut": (1, 0), "forged": (1, 1), "replayed": (1, 1)})
        self.assertEqual([*attacker.faults_of(self.came)], [])
        line = "forged: 3 sent, 1 taken by peers, 1 answered, 0 in what a party found"
        self.assertEqual(attacker.line_of("forged", 3, self.came["forged"]), line)

    def test_what_must_not_be_answered(self):
        self.came["cut"].note(Head(KEYREQ, 1, 2), True)
        self.came["random"].note(None, True)
        self.came["changed"].note(Head(REQUEST, 1, 2), True)
        self.came["changed"].note(Head(KEYREQ, 1, 2), True)
        self.came["replayed"].note(Head(REQUEST, 1, 2), True)
        told = ["cut: 1 datagram answered", "changed: 1 datagram answered", "random: 1 datagram answered"]
        self.assertEqual([*attacker.faults_of(self.came)], told)

    def test_what_must_not_be_found(self):
        real = made.table(REQUESTED)
        attacker.found_of(self.attack, {"table": real, "2": made.evidence(REQUESTED)}, self.came)
        self.assertEqual([*attacker.faults_of(self.came)], [])
        attacker.found_of(self.attack, {"table": made.table(REQUESTED, REQUESTED[:-1]), "2": made.evidence(KEY_ASKED)}, self.came)
        told = ["cut: 1 datagram in what a party found", "forged: 1 datagram in what a party found"]
        self.assertEqual([*attacker.faults_of(self.came)], told)


if __name__ == "__main__":
    unittest.main()
