"""What anybody can make of a datagram without a key of the session: a peer that gets it before the datagram itself sends, plays and finds
what it does without. These tests are skipped where the program isn't built.
"""
import unittest

from support import need_program

from gossip.formats.files import CASE, DATAGRAM_HEAD, EVIDENCE, KEY, KEYREQ, MANIFEST, REQUEST, SIGNED
from chosen_peers import ChosenCase, Peer, block_of, changed, deliver, evidence_of, number_of

# the kinds that a session sends where nobody accuses
KINDS = {*range(MANIFEST, EVIDENCE)}

# the keys of the sessions, of one level and of two
ONE, TWO = {"top": None, "lms": 6, "ots": 2}, {"top": 5, "lms": 5, "ots": 3}

ROUNDS, PER_ROUND = 3, 8


def setUpModule():
    """Says that these tests are skipped, where they are."""
    need_program("the tests of hostile datagrams")


def tag_of(datagram):
    """The kind of a datagram, with that of its exchange where there are two."""
    return datagram[3], datagram[20] if datagram[3] in (CASE, KEYREQ, KEY) else None


def forms_of(datagram):
    """A datagram cut at each length, with a byte behind it, with each byte of its header changed, and with its signature changed."""
    yield from (datagram[:size] for size in range(len(datagram)))
    yield datagram + b"\0"
    yield from (changed(datagram, at) for at in range(DATAGRAM_HEAD))
    if datagram[3] in SIGNED:
        yield changed(datagram)


class Course:
    """A session of two peers: at the first tick of each round the broadcaster's datagrams come, and all that both send for them."""

    def __init__(self, chosen):
        self.chosen, self.peers, self.sent = chosen, [Peer(chosen, 1), Peer(chosen, 2)], []
        for number in range(1, ROUNDS + 1):
            self.sent += deliver(self.peers, self.stream_of(number), 8 * (number - 1) + 1)
        for peer in self.peers:
            peer.tick(chosen.session.ticks)

    def stream_of(self, number):
        """What the broadcaster sends each peer in a round."""
        blocks = [block_of(bytes([number, index])) for index in range(PER_ROUND)]
        manifest = self.chosen.manifest(number, blocks)
        return [
            [manifest, *(self.chosen.block((number, at), peer.number, block) for at, block in enumerate(blocks) if at % 2 == peer.number % 2)]
            for peer in self.peers
        ]

    def late(self, number, tick):
        """The REQUEST of two rounds ago to a peer, at the first tick of a round."""
        asked = [it for it in self.sent if it[3] == REQUEST and it[15] == number and 8 * number_of(it) + 9 == tick]
        return asked[:1]

    def others(self, number):
        """All that anybody can make of an EVICT, and an EVIDENCE with all that can be made of it."""
        evidence = self.chosen.report(3 - number, evidence_of(next(it for it in self.sent if it[3] == REQUEST)))
        return [*forms_of(self.chosen.notice(2, 3 - number)), *forms_of(evidence), evidence]

    def made_of(self, datagram):
        """What comes before a datagram: all that anybody can make of it, of a CASE with the signatures of the others too."""
        size = self.chosen.signature_size
        signed = [datagram[:-size] + it[-size:] for it in self.sent if it[3] == CASE and it != datagram] if datagram[3] == CASE else []
        return [*forms_of(datagram), *signed]

    def disturbed(self, peer):
        """The inputs of a peer among what anybody can make of them, each with its number among those of the peer, or None."""
        tick, seen, own = 0, set(), {tag_of(it): it for it in self.sent if it[13] == peer.number}
        for number, entry in enumerate(peer.entries, 1):
            if entry is not None and tag_of(entry) not in seen:
                seen.add(tag_of(entry))
                yield from ((it, None) for it in self.made_of(entry))
            yield entry, number
            if entry is None:
                tick += 1
                yield from ((it, None) for it in self.late(peer.number, tick))
                yield from ((it, None) for it in (self.others(peer.number) if tick == 12 else ()))
                # what it sent itself comes back
                yield from ((it, None) for it in (own.values() if tick == 8 * ROUNDS else ()))


class Hostile(ChosenCase):
    def check_undisturbed(self, course, peer):
        entries, numbers = zip(*course.disturbed(peer))
        alone, among = course.chosen.replayed(peer.number, peer.entries), course.chosen.replayed(peer.number, entries)
        self.assertGreater(len(entries), 10_000)
        self.assertEqual({it[3] for it in peer.entries if it}, KINDS)
        self.assertEqual([(numbers[at - 1], to, datagram) for at, to, datagram in among.sends], alone.sends)
        self.assertEqual((among.played, among.found), (alone.played, alone.found))
        self.assertEqual([*alone.found], ["table"])
        self.assertNotEqual(alone.played, b"")

    def test_what_anybody_can_make_of_a_datagram_changes_nothing(self):
        for version, levels in (1, ONE), (2, ONE), (1, TWO), (2, TWO), (3, TWO):
            course = Course(self.chosen(version=version, rounds=ROUNDS, **levels))
            for peer in course.peers:
                with self.subTest(version=version, levels=levels, peer=peer.number):
                    self.check_undisturbed(course, peer)


if __name__ == "__main__":
    unittest.main()
