"""The text of hosts: what it tells, and what is refused of it."""
import unittest

from support import ID, RoomCase

from gossip.formats.files import Session
from gossip.networks import host_text
from gossip.scripts.console import Refusal

SESSION = Session(1, ID, 10, 6, 1, 1, 1, 26_144, 50, 6, 3, 3)


def table(name='"one"', address='"192.0.2.10"', parties="[0, 1]", *more):
    """The text of a host."""
    return "\n".join(["[[host]]", f"name = {name}", f"address = {address}", f"parties = {parties}", *more, ""])


ONE, TWO = table(), table('"two"', '"192.0.2.11"', "[3, 2]")


class Texts(unittest.TestCase):
    def refused(self, text):
        with self.assertRaises(Refusal) as refusal:
            host_text.hosts_of_text(text, SESSION)
        return [*refusal.exception.args]

    def test_hosts(self):
        hosts = host_text.hosts_of_text(ONE + TWO, SESSION)
        self.assertEqual(hosts[0], host_text.Host("one", "192.0.2.10", (0, 1), "192.0.2.10"))
        self.assertEqual(hosts[1], host_text.Host("two", "192.0.2.11", (2, 3), "192.0.2.11"))

    def test_ranges_and_an_address_of_its_own(self):
        text = table(parties="[0]") + table('"two"', '"192.0.2.11"', '["1-3"]', 'listen = "10.0.0.5"')
        host = host_text.hosts_of_text(text, SESSION)[1]
        self.assertEqual((host.parties, host.address, host.listen), ((1, 2, 3), "192.0.2.11", "10.0.0.5"))

    def test_texts_that_are_none(self):
        self.assertIn("isn't valid TOML", self.refused("[[host")[0])
        for text in ("", "host = 1", "host = [1]", "[host]\nname = 'one'"):
            self.assertIn("has no tables [[host]]", self.refused(text)[0])
        self.assertEqual(self.refused("port = 1\n" + ONE + TWO), ["the text of hosts has the key 'port': it has tables [[host]] alone"])

    def test_keys(self):
        told = ["host number 1 has no name: give it one", "host number 1 has no address: give it one"]
        self.assertEqual(self.refused("[[host]]\nparties = [0, 1]\n" + TWO), told)
        self.assertEqual(self.refused("[[host]]\nname = 'one'\naddress = '192.0.2.10'\n" + TWO), ["host one has no parties: give it one"])
        told = "host one has the key 'adress': a host has name, address, parties and listen"
        self.assertEqual(self.refused(table('"one"', '"192.0.2.10"', "[0, 1]", "adress = 1") + TWO), [told])

    def test_names(self):
        for name in ('""', '"a b"', '"../one"', '"-one"', "1", f'"{"a" * 33}"'):
            with self.subTest(name=name):
                self.assertIn("host number 1 has the name ", self.refused(table(name) + TWO)[0])
        self.assertEqual(self.refused(ONE + table('"One"', '"192.0.2.11"', "[3, 2]")), ["2 hosts have the name one: give each its own"])

    def test_addresses(self):
        for address in ('"192.0.2"', '"host.example"', '"::1"', "1", '""'):
            with self.subTest(address=address):
                self.assertIn("give an IPv4 address", self.refused(table(address=address) + TWO)[0])
        for address in ("127.0.0.1", "0.0.0.0", "224.0.0.1", "255.255.255.255"):
            told = f"host one has the address {address}: give one at which other machines reach it"
            self.assertEqual(self.refused(table(address=f'"{address}"') + TWO), [told])
        told = "host one has the listen 127.0.0.1: give one at which other machines reach it"
        self.assertEqual(self.refused(table('"one"', '"192.0.2.10"', "[0, 1]", 'listen = "127.0.0.1"') + TWO), [told])
        told = "2 hosts have the address 192.0.2.10: give each its own"
        self.assertEqual(self.refused(ONE + table('"two"', '"192.0.2.10"', "[3, 2]")), [told])

    def test_lists_of_parties(self):
        for parties in ("1", '"1"', "[true]", "[1.0]", '["1-"]', '["a"]', "[[1]]"):
            with self.subTest(parties=parties):
                self.assertIn("give a list of numbers", self.refused(table(parties=parties) + TWO)[0])
        for parties in ("[]", '["3-1"]'):
            self.assertEqual(self.refused(table(parties=parties) + TWO), ["host one has no party: give it one, or leave it out"])

    def test_a_party_twice(self):
        self.assertEqual(self.refused(table(parties="[0, 1, 2]") + TWO), ["party 2 is on one and two: it has one key, which signs on one host alone"])
        self.assertEqual(self.refused(table(parties="[0, 1, 0]") + TWO), ["party 0 is on one and one: it has one key, which signs on one host alone"])

    def test_a_party_nowhere(self):
        self.assertEqual(self.refused(table(parties="[0]") + TWO), ["no host has party 1: give each party to a host"])
        self.assertEqual(self.refused(table(parties="[1]") + TWO), ["no host has party 0: give each party to a host"])

    def test_a_party_that_is_none(self):
        for party in ("4", "-1"):
            told = f"host one has party {party}, and the session has the parties 0 to 3"
            self.assertEqual(self.refused(table(parties=f"[0, 1, {party}]") + TWO), [told])

    def test_one_host(self):
        told = "there is 1 host: name two or more, or run the session by tools/run-session"
        self.assertEqual(self.refused(table(parties='["0-3"]')), [told])

    def test_all_faults_are_told(self):
        self.assertEqual(len(self.refused(table('"a b"', '"here"', "[]") + table('"two"', "1", "1"))), 5)
        self.assertEqual(len(self.refused(table(parties="[0, 9]") + table('"one"', '"192.0.2.10"', "[3]"))), 4)


class Files(RoomCase):
    def test_a_file_that_cannot_be_read(self):
        told = f"{self.room / 'none'} can't be read: No such file or directory"
        self.assertEqual(self.reasons_of(lambda: host_text.read_hosts(self.room / "none", SESSION)), (told,))
        path = self.room / "hosts.toml"
        path.write_bytes(b"\xff")
        self.assertIn("hosts.toml can't be read: ", self.reasons_of(lambda: host_text.read_hosts(path, SESSION))[0])

    def test_a_file_that_can(self):
        path = self.room / "hosts.toml"
        path.write_text(ONE + TWO)
        self.assertEqual([host.name for host in host_text.read_hosts(path, SESSION)], ["one", "two"])


if __name__ == "__main__":
    unittest.main()
