"""The words for a network, and what becomes of datagrams by them."""
import argparse
import json
import unittest

import support  # noqa: F401, by which the modules of the tools are found

from gossip.formats.files import Session
from gossip.networks import disturbances

SESSION = Session(1, support.ID, 10, 6, 1, 1, 1, 26_144, 50, 6, 3, 5)


def words(*given):
    """The words that a script takes."""
    parser = argparse.ArgumentParser()
    disturbances.take_network(parser)
    return parser.parse_args(given)


def faults(*given):
    return [*disturbances.faults_of_network(words(*given), SESSION)]


class Words(unittest.TestCase):
    def test_a_network_and_liars(self):
        network = disturbances.network_of(words("--loss", "5", "--delay", "20", "--seed", "s", "--liar", "5:key", "--liar", "2:leaf"))
        self.assertEqual(network, disturbances.Network(5, 0, 20, "s", {5: "key", 2: "leaf"}))
        self.assertFalse(network.is_plain)
        self.assertEqual(network.told, "the network loses 5%, delays by up to 20 ms, seed s")

    def test_no_words(self):
        network = disturbances.network_of(words())
        self.assertTrue(network.is_plain)
        self.assertEqual(len(network.seed), 8)
        self.assertIn("delivers each datagram once", network.told)

    def test_what_is_refused(self):
        self.assertEqual(faults("--loss", "5", "--liar", "5:key", "--liar", "1:partner"), [])
        self.assertEqual(faults("--loss", "101", "--repeat", "-1"), [
            "--loss is 101: take 0 to 100 of a hundred datagrams", "--repeat is -1: take 0 to 100 of a hundred datagrams"
        ])
        self.assertEqual(faults("--delay", "60001"), ["--delay is 60001: take 0 to 60,000 milliseconds"])
        for word in ("5", "key:5", "5:lies", ":key", "²:key"):
            self.assertIn(f"--liar {word} is none: take P:LIE", faults("--liar", word)[0])
        self.assertEqual(faults("--liar", "6:key"), ["--liar 6:key names no peer: take one of 1 to 5"])
        self.assertEqual(faults("--liar", "0:key"), ["--liar 0:key names no peer: take one of 1 to 5"])
        self.assertEqual(faults("--liar", "2:key", "--liar", "2:leaf"), ["--liar names peer 2 more than once"])

    def test_no_other_partner_among_two(self):
        two = Session(1, support.ID, 10, 6, 1, 1, 1, 26_144, 50, 6, 3, 2)
        told = [*disturbances.faults_of_network(words("--liar", "2:partner"), two)]
        self.assertEqual(told, ["--liar 2:partner: among two peers there is no other partner"])


class OfDatagrams(unittest.TestCase):
    def drawn(self, count, *others, **network):
        """What becomes of so many datagrams from 1 to 2, before each of which these pairs send one."""
        fates = disturbances.Fates(disturbances.Network(**network))
        delays = []
        for _ in range(count):
            for pair in others:
                fates.delays(*pair)
            delays.append(fates.delays(1, 2))
        return fates, delays

    def test_a_plain_network_delivers_all_at_once(self):
        fates, delays = self.drawn(5)
        self.assertEqual(delays, [[0]] * 5)
        self.assertEqual(fates.line, "5 datagrams went over the network: 0 lost, 0 repeated")

    def test_what_is_drawn_depends_on_the_pair_and_the_seed_alone(self):
        way = {"loss": 30, "repeat": 30, "delay": 9, "seed": "a"}
        _, delays = self.drawn(50, **way)
        self.assertEqual(self.drawn(50, (2, 1), (0, 2), **way)[1], delays)
        self.assertNotEqual(self.drawn(50, **way | {"seed": "b"})[1], delays)

    def test_shares(self):
        fates, delays = self.drawn(4000, loss=25, repeat=50, delay=3, seed="x")
        lost, twice = (sum(len(each) == count for each in delays) for count in (0, 2))
        self.assertEqual((fates.lost.total(), fates.repeated.total(), fates.sent.total()), (lost, twice, 4000))
        self.assertAlmostEqual(lost / 4000, 0.25, delta=0.03)
        self.assertAlmostEqual(twice / (4000 - lost), 0.5, delta=0.03)
        self.assertEqual({delay for each in delays for delay in each}, {0, 1, 2, 3})

    def test_all_and_nothing_is_lost(self):
        self.assertEqual(self.drawn(20, loss=100, seed="x")[1], [[]] * 20)
        self.assertEqual(self.drawn(20, repeat=100, seed="x")[1], [[0, 0]] * 20)

    def test_what_is_left_as_a_file(self):
        fates, _ = self.drawn(1, (2, 1), loss=100, seed="x", liars={3: "key"})
        told = json.loads(fates.text())
        self.assertEqual(told["liars"], {"3": "key"})
        self.assertEqual(told["pairs"], [[1, 2, 1, 1, 0], [2, 1, 1, 1, 0]])
        self.assertEqual((told["loss"], told["seed"]), (100, "x"))


if __name__ == "__main__":
    unittest.main()
