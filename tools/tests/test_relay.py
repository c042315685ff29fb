"""The ports of a relay, the texts that parties read, and what it hands on."""
import dataclasses
import resource
import threading
import unittest
from unittest import mock

from support import ID, RoomCase, bound

from gossip.formats.files import Session
from gossip.networks import relaying
from gossip.networks.disturbances import Fates, Network
from gossip.networks.relaying import Layout, Relay
from gossip.scripts.console import Refusal
from gossip.sessions.session_folder import LOOPBACK, Folder, free_port

SESSION = Session(1, ID, 10, 6, 1, 1, 1, 26_144, 50, 6, 3, 2)


class Ports(unittest.TestCase):
    def test_each_party_has_a_row_of_ports(self):
        layout = Layout(20_000, 3)
        self.assertEqual([layout.base(party) for party in range(3)], [20_000, 20_003, 20_006])
        self.assertEqual([layout.own(party) for party in range(3)], [20_000, 20_004, 20_008])

    def test_the_relay_has_all_ports_but_the_parties_own(self):
        layout = Layout(20_000, 3)
        self.assertEqual({*layout.relayed, *map(layout.own, range(3))}, {*range(20_000, 20_009)})
        self.assertEqual(len(layout.relayed), 6)

    def test_what_a_party_sends_comes_to_the_port_of_its_pair(self):
        layout = Layout(20_000, 6)
        for sender in range(6):
            for receiver in {*range(6)} - {sender}:
                self.assertEqual(layout.relayed[layout.base(sender) + receiver], (sender, receiver))

    def test_too_many_peers(self):
        with mock.patch("gossip.networks.relaying.free_port", return_value=20_000), mock.patch("gossip.networks.relaying.take_files"):
            self.assertEqual(relaying.layout_for(dataclasses.replace(SESSION, peers=108)).parties, 109)
            with self.assertRaisesRegex(Refusal, "109 peers have too many: take at most 108"):
                relaying.layout_for(dataclasses.replace(SESSION, peers=109))

    def test_more_files_than_the_system_allows(self):
        with mock.patch.object(resource, "getrlimit", return_value=(64, 100)), mock.patch.object(resource, "setrlimit") as raised:
            relaying.take_files(100)
            raised.assert_called_once_with(resource.RLIMIT_NOFILE, (100, 100))
            with self.assertRaisesRegex(Refusal, "101 files would be open, and the system allows 100"):
                relaying.take_files(101)


class Texts(RoomCase):
    def test_the_port_alone_is_another(self):
        text = "version = 1\nport = 24000\ntick_ms = 50\n[[peer]]\nkey = \"port = 24000\"\n"
        self.assertEqual(relaying.with_port(text, 7), text.replace("port = 24000\nt", "port = 7\nt"))

    def test_a_text_without_a_port(self):
        with self.assertRaisesRegex(Refusal, "no line of its own for its port"):
            relaying.with_port("version = 1", 7)

    def test_a_text_for_each_party(self):
        (self.room / "session.toml").write_text("port = 24000\n")
        paths = relaying.write_texts(Folder(self.room), SESSION, Layout(20_000, 3), self.room)
        self.assertEqual({party: path.read_text() for party, path in paths.items()},
            {0: "port = 20000\n", 1: "port = 20003\n", 2: "port = 20006\n"})


class HandingOn(unittest.TestCase):
    def setUp(self):
        self.layout = Layout(free_port(9), 3)

    def relay(self, **network):
        relay = Relay(self.layout, Fates(Network(seed="x", **network)))
        self.addCleanup(relay.close)
        return relay

    def test_what_is_due_when(self):
        relay = self.relay()
        with mock.patch.object(relay.fates, "delays", side_effect=[[30], [10, 20], [], [10]]):
            for at, pair in enumerate([(1, 2), (2, 1), (1, 0), (0, 1)]):
                relay.take(100, pair, bytes([at]))
        self.assertAlmostEqual(relay.pause(100), 0.01)
        self.assertEqual(list(relay.due(100)), [])
        self.assertEqual(list(relay.due(100.015)), [(1, b"\1"), (1, b"\3")])
        self.assertEqual(list(relay.due(101)), [(1, b"\1"), (2, b"\0")])
        self.assertEqual(relay.pause(101), relaying.WAIT)

    def test_datagrams_between_parties(self):
        relay, ended = self.relay(repeat=100), threading.Event()
        with bound(self.layout.own(1)) as one, bound(self.layout.own(2)) as two:
            looking = threading.Thread(target=relay.looks, args=(ended,))
            looking.start()
            two.settimeout(10)
            one.sendto(b"from 1", (LOOPBACK, self.layout.base(1) + 2))
            self.assertEqual([two.recv(100), two.recv(100)], [b"from 1"] * 2)
            ended.set()
            looking.join()
        self.assertEqual(relay.fates.repeated, {(1, 2): 1})
        self.assertEqual(relay.sender.fileno(), -1)

    def test_ports_that_are_taken(self):
        with bound(self.layout.base(1) + 2):
            with self.assertRaisesRegex(Refusal, "can't have its ports: Address already in use"):
                Relay(self.layout, Fates(Network()))


if __name__ == "__main__":
    unittest.main()
