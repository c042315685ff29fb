"""How large datagrams are at most, and in how many packets they go."""
import dataclasses
import unittest

from support import ID, ROOT

from gossip.formats import packet_sizes
from gossip.formats.files import BLOCK, CASE, EVIDENCE, KEY, MANIFEST, QUERY, REQUEST, Session, entries_of, head_of
from gossip.formats.grammar import signature_size

SESSION = Session(1, ID, 10, 6, 8, 8, 3, 26_144, 50, 6, 3, 5)


class Sizes(unittest.TestCase):
    def test_sizes_by_the_formats(self):
        """The formulas of docs/FORMATS.md, with a signature of 2,508 bytes and windows of 48."""
        signature, window = 2508, 48
        self.assertEqual(signature_size(6, 3), signature)
        sizes = packet_sizes.largest_sizes(SESSION)
        self.assertEqual(sizes[MANIFEST, None], 21 + 32 * 8 + signature)
        self.assertEqual(sizes[BLOCK, None], 1045)
        self.assertEqual(sizes[REQUEST, None], 84 + signature)
        self.assertEqual(sizes[QUERY, None], 52 + 2 * window + signature)
        self.assertEqual(sizes[CASE, 0], 24 + 32 + 2 * window + 1024 * 8 + signature)
        self.assertEqual(sizes[CASE, 1], 24 + 4 * window + 1 + 1280 * 8 + signature)
        self.assertEqual(sizes[KEY, None], 54 + signature)
        self.assertEqual(sizes[EVIDENCE, None], 17 + 2 * (2 + sizes[CASE, 1]))

    def test_a_case_with_the_highest_cap(self):
        self.assertEqual(packet_sizes.case_size(dataclasses.replace(SESSION, cap=16)), 23_205)

    def test_no_recorded_datagram_is_larger(self):
        room = ROOT / "examples/first-path/one-block"
        session = Session.read(room / "session.toml")
        sizes, entries = packet_sizes.largest_sizes(session), entries_of((room / "recording").read_bytes())[0]
        most = {}
        for datagram in filter(None, entries):
            kind = head_of(datagram, session).kind
            place = kind, min(datagram[20], 1) if kind == CASE else None
            most[place] = max(len(datagram), most.get(place, 0))
            self.assertLessEqual(len(datagram), sizes[place])
        for kind in (BLOCK, REQUEST, KEY):
            if (kind, None) in most:
                self.assertEqual(most[kind, None], sizes[kind, None])


class Packets(unittest.TestCase):
    def test_how_many_packets(self):
        for size, packets in ((1, 1), (1472, 1), (1473, 2), (2952, 2), (2953, 3), (23_205, 16), (65_507, 45)):
            self.assertEqual(packet_sizes.packets_of(size, 1500), packets, size)

    def test_packets_that_are_no_multiple_of_eight(self):
        # of 576 bytes each packet but the last has 552 of a datagram and its head, and the last one 556
        for size, packets in ((548, 1), (549, 2), (552 + 556 - 8, 2), (552 + 556 - 7, 3)):
            self.assertEqual(packet_sizes.packets_of(size, 576), packets, size)

    def test_how_many_datagrams_are_lost(self):
        self.assertAlmostEqual(packet_sizes.lost_of(16, 1), 14.854, places=3)
        self.assertEqual((packet_sizes.lost_of(16, 0), packet_sizes.lost_of(3, 100)), (0, 100))

    def test_the_highest_cap_in_one_packet(self):
        self.assertEqual(packet_sizes.highest_cap(SESSION, 1500), 0)
        self.assertEqual(packet_sizes.highest_cap(SESSION, 9000), 4)
        self.assertEqual(packet_sizes.highest_cap(SESSION, 65_535), 16)

    def test_what_is_told(self):
        self.assertEqual(packet_sizes.line_of(SESSION, 1500), "a CASE has up to 12,965 bytes, 9 packets of at most 1,500 bytes")
        told = "a CASE has up to 12,965 bytes, 9 packets of at most 1,500 bytes; 37.0% of those are lost with 5% of packets"
        self.assertEqual(packet_sizes.line_of(SESSION, 1500, 5), told)


if __name__ == "__main__":
    unittest.main()
