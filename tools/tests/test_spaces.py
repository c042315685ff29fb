"""Sessions over several hosts, which are network namespaces of this machine."""
import contextlib
import os
import pathlib
import shutil
import signal
import subprocess
import sys
import tempfile
import unittest
from unittest import mock

from support import ID, RoomCase, fake_program, lines_of, run_script

from gossip.formats.files import Session
from gossip.networks import forwarding, spans
from gossip.networks.host_text import Host
from gossip.programs.bar import PROGRAM
from gossip.runs import namespaces
from gossip.runs.namespaces import Wire
from gossip.scripts.console import Failure, Refusal
from gossip.sessions.session_folder import Folder

SESSION = Session(1, ID, 10, 6, 1, 1, 1, 24_000, 50, 6, 3, 2)
HOSTS = [Host("one", "192.0.2.10", (0, 1), "192.0.2.10"), Host("two", "198.51.100.20", (2,), "198.51.100.20")]

TEXT = """[[host]]
name = "one"
address = "192.0.2.10"
parties = [0, 1]

[[host]]
name = "two"
address = "198.51.100.20"
parties = [2]
"""


def allows_namespaces():
    """Whether this system lets this process make network namespaces and join them."""
    if os.geteuid() != 0 or not shutil.which("ip"):
        return False
    try:
        with namespaces.laid_out(HOSTS, Wire()):
            return True
    except (Refusal, Failure):
        return False


class Words(unittest.TestCase):
    def test_what_a_wire_does(self):
        self.assertEqual(Wire().told, "takes up to 1,500 bytes a packet")
        self.assertEqual(Wire(2.5, 20, 9000).told, "loses 2.5% of packets, delays each by 20 ms, takes up to 9,000 bytes a packet")

    def test_what_refuses_a_wire(self):
        self.assertEqual([*Wire(100, 60_000, 576).faults()], [])
        told = ["--loss is -1: take 0 to 100 of a hundred packets", "--delay is 60001: take 0 to 60,000 milliseconds"]
        self.assertEqual([*Wire(-1, 60_001, 65_536).faults()], [*told, "--mtu is 65536: take 576 to 65,535 bytes"])

    def test_which_programs_are_needed(self):
        self.assertEqual(namespaces.programs_for("socat", Wire()), ["ip", "socat"])
        self.assertEqual(namespaces.programs_for("nftables", Wire()), ["ip", "nft"])
        self.assertEqual(namespaces.programs_for("socat", Wire(1, 1)), ["ip", "socat", "nft", "tc"])

    def test_programs_that_are_missing(self):
        with mock.patch("shutil.which", return_value=None), mock.patch("os.geteuid", return_value=1000):
            faults = [*namespaces.faults_of_system("socat", Wire(1, 1))]
        packages = {"ip": "iproute2", "socat": "socat", "nft": "nftables", "tc": "iproute2"}
        told = [f"there is no {name}: install the package {package}" for name, package in packages.items()]
        self.assertEqual(faults, [*told, "network namespaces are made by root alone: run --try as root"])
        with mock.patch("shutil.which", return_value="/bin/it"), mock.patch("os.geteuid", return_value=0):
            self.assertEqual([*namespaces.faults_of_system("socat", Wire(1, 1))], [])

    def test_the_commands_that_lay_out_namespaces(self):
        spaces = namespaces.Spaces(HOSTS)
        hub, two = spaces.hub, spaces.of_host["two"]
        lines = [" ".join(words) for words in namespaces.commands_of(spaces, HOSTS, Wire(mtu=9000))]
        self.assertEqual(lines[:2], [f"ip netns add {hub}", f"ip netns add {spaces.of_host['one']}"])
        self.assertEqual(lines[3], f"ip -n {hub} link add hub type bridge")
        self.assertIn(f"ip link add eth0 mtu 9000 netns {two} type veth peer name h1 mtu 9000 netns {hub}", lines)
        self.assertIn(f"ip -n {two} addr add 198.51.100.20/32 dev eth0", lines)
        self.assertIn(f"ip -n {two} route add 192.0.2.10/32 dev eth0 src 198.51.100.20", lines)
        self.assertEqual(len(lines), 17)

    def test_delays(self):
        spaces = namespaces.Spaces(HOSTS)
        lines = [" ".join(words) for words in namespaces.commands_of(spaces, HOSTS, Wire(delay=20))]
        told = [f"tc -n {space} qdisc add dev eth0 root netem delay 20ms limit 100000" for space in spaces.of_host.values()]
        self.assertEqual([line for line in lines if line.startswith("tc")], told)

    def test_losses(self):
        self.assertIn("        numgen random mod 1000000 < 25000 counter name lost drop\n", namespaces.loss_table(Wire(2.5)))
        self.assertIn("        numgen random mod 1000000 < 1 counter name lost drop\n", namespaces.loss_table(Wire(0.00001)))
        self.assertIn("accept\n        counter name lost drop\n", namespaces.loss_table(Wire(100)))
        text = "table bridge wire {\n\tcounter passed {\n\t\tpackets 12 bytes 3\n\t}\n\tcounter lost {\n\t\tpackets 4 bytes 1\n\t}\n}\n"
        self.assertEqual(namespaces.counts_in(text), {"passed": 12, "lost": 4})

    def test_statuses(self):
        self.assertEqual(namespaces.statuses_in("party 1 status 0\nparty 0 status 143\nparty status 1\n"), {1: 0, 0: 143})

    def test_what_sockets_lost(self):
        head = "  sl  local_address rem_address   st tx_queue rx_queue tr tm->when retrnsmt   uid  timeout inode ref pointer drops\n"
        line = "  1: {}:{:04X} 00000000:0000 07 00000000:00000000 00:00000000 00000000 0 0 1 2 0 {}\n"
        text = head + line.format("0100007F", 24_001, 5) + line.format("0A0200C0", 24_001, 7) + line.format("0100007F", 24_002, 0)
        self.assertEqual([*namespaces.ports_in(text)], [(24_001, 5), (24_001, 7), (24_002, 0)])
        watch = namespaces.SpanWatch(SESSION, 0, [])
        with tempfile.NamedTemporaryFile("w") as file:
            file.write(text)
            file.flush()
            watch.places = [pathlib.Path(file.name)] * 2
            self.assertEqual(watch.drops_now(), {0: 0, 1: 24, 2: 0})


# takes one datagram at a port of the loopback address, and says how long it is and whose front it has
TAKE = """
import socket, sys, time
taken = socket.socket(socket.AF_INET, socket.SOCK_DGRAM)
taken.bind(("127.0.0.1", int(sys.argv[1])))
taken.settimeout(float(sys.argv[2]))
print("bound", flush=True)
try:
    data = taken.recv(65535)
    print(len(data), data[:3].decode())
    print(time.time())
except TimeoutError:
    print("nothing")
"""

# sends datagrams from one port of the loopback address to another, all at once
SEND = """
import socket, sys, time
sender = socket.socket(socket.AF_INET, socket.SOCK_DGRAM)
sender.bind(("127.0.0.1", int(sys.argv[1])))
print(time.time())
sender.sendto(sys.argv[3].encode() * (int(sys.argv[4]) // 3), ("127.0.0.1", int(sys.argv[2])))
"""


@unittest.skipUnless(allows_namespaces(), "this system has no network namespaces for this user, or no iproute2")
class Live(RoomCase):
    """What is written for two hosts forwards datagrams between them."""

    def laid_out(self, by, wire=Wire()):
        """The namespaces of two hosts that forward to each other."""
        program = [name for name in namespaces.programs_for(by, wire) if not shutil.which(name)]
        if program:
            self.skipTest(f"there is no {program[0]}: install the package {namespaces.PACKAGES[program[0]]}")
        (self.room / "session").mkdir()
        folder = Folder(self.room / "session")
        for name in ("session.toml", "stream", "key.0", "key.1", "key.2"):
            (folder.path / name).write_text(name)
        stack = self.enterContext(contextlib.ExitStack())
        spaces = stack.enter_context(namespaces.laid_out(HOSTS, wire))
        span = spans.Span(folder, SESSION, fake_program(self.room), HOSTS, by)
        spans.spread(span)
        sockets = 3 if by == "socat" else 0
        self.forwarding = {}
        for name, place in span.places.items():
            (process, _, _) = lines_of(lambda: namespaces.start_forwarding(stack, spaces.of_host[name], place, sockets))
            self.forwarding[name] = process
        return spaces

    def carried(self, spaces, sender, receiver, size=9, seconds=10):
        """What a party takes that another one is to send so many bytes."""
        host = {party: spaces.of_host[host.name] for host in HOSTS for party in host.parties}
        words = namespaces.inside(host[receiver], sys.executable, "-c", TAKE, 24_000 + receiver, seconds)
        with subprocess.Popen(words, stdout=subprocess.PIPE, text=True) as process:
            self.assertEqual(process.stdout.readline(), "bound\n")
            words = sys.executable, "-c", SEND, 24_000 + sender, 24_000 + receiver, f"{sender}>{receiver}", size
            began = subprocess.run(namespaces.inside(host[sender], *words), check=True, capture_output=True, text=True).stdout
            told, _, ended = process.communicate()[0].strip().partition("\n")
            self.seconds = float(ended) - float(began) if ended else None
            return told

    def carries_all(self, by):
        spaces = self.laid_out(by)
        for sender, receiver, size in ((0, 2, 23_205), (2, 1, 65_505), (1, 2, 9), (2, 0, 1_500), (0, 1, 30_000)):
            with self.subTest(sender=sender, receiver=receiver):
                self.assertEqual(self.carried(spaces, sender, receiver, size), f"{size} {sender}>{receiver}")

    def test_socat_carries_datagrams_of_any_length(self):
        self.carries_all("socat")

    def test_nftables_carries_datagrams_of_any_length(self):
        self.carries_all("nftables")

    def test_packets_are_lost(self):
        spaces = self.laid_out("socat", Wire(loss=100))
        self.assertEqual(self.carried(spaces, 0, 2, 3_000, seconds=0.5), "nothing")
        self.assertRegex(namespaces.loss_line(spaces), r"^3 packets went between the hosts: 3 lost$")

    def test_packets_are_delayed(self):
        try:
            spaces = self.laid_out("socat", Wire(delay=500))
        except Refusal as refusal:
            self.assertIn("--delay needs a kernel with netem", str(refusal))
            self.skipTest(str(refusal))
        self.assertEqual(self.carried(spaces, 0, 2), "9 0>2")
        self.assertTrue(0.5 <= self.seconds < 10)

    def test_nobody_reaches_the_loopback_address_from_outside(self):
        spaces = self.laid_out("nftables")
        one, two = spaces.of_host["one"], spaces.of_host["two"]
        mac = namespaces.system(["ip", "-n", one, "-br", "link", "show", "eth0"]).split()[2]
        # to host two the loopback address is that of host one
        namespaces.system(namespaces.inside(two, "nft", "flush", "ruleset"))
        routes = "del local 127.0.0.0/8 dev lo table local", "del local 127.0.0.1 dev lo table local"
        for route in (*routes, "add 127.0.0.1/32 dev eth0 src 198.51.100.20"):
            namespaces.system(["ip", "-n", two, "route", *route.split()])
        namespaces.system(["ip", "-n", two, "neigh", "add", "127.0.0.1", "lladdr", mac, "dev", "eth0"])
        self.assertEqual(self.strayed(one, two, 0.5), "nothing")
        namespaces.system(namespaces.inside(one, "nft", "flush", "chain", "ip", f"bar_{ID}", "guard"))
        self.assertEqual(self.strayed(one, two, 10), "9 2>1")

    def strayed(self, one, two, seconds):
        """What a program on host one takes that host two sends to the loopback address."""
        words = namespaces.inside(one, sys.executable, "-c", TAKE, 9_999, seconds)
        with subprocess.Popen(words, stdout=subprocess.PIPE, text=True) as process:
            self.assertEqual(process.stdout.readline(), "bound\n")
            words = SEND.replace('sender.bind(("127.0.0.1"', 'sender.bind(("198.51.100.20"')
            subprocess.run(namespaces.inside(two, sys.executable, "-c", words, 0, 9_999, "2>1", 9), check=True, capture_output=True)
            return process.communicate()[0].partition("\n")[0]

    def test_packets_that_are_larger(self):
        spaces = self.laid_out("socat", Wire(loss=100, mtu=9000))
        self.assertEqual(self.carried(spaces, 0, 2, 3_000, seconds=0.5), "nothing")
        self.assertRegex(namespaces.loss_line(spaces), r"^1 packet went between the hosts: 1 lost$")

    def test_nothing_is_left(self):
        spaces = self.laid_out("socat")
        self.doCleanups()
        self.assertFalse({*spaces.names} & {*namespaces.system(["ip", "netns", "list"]).split()})

    def test_forwarding_that_ends(self):
        with namespaces.laid_out(HOSTS, Wire()) as spaces, contextlib.ExitStack() as stack:
            script = self.room / "forward.sh"
            script.write_text("#!/bin/sh\necho why\nexit 1\n")
            script.chmod(0o700)
            with self.assertRaisesRegex(Failure, "the forwarding of host .* ended: why"):
                namespaces.start_forwarding(stack, spaces.of_host["one"], self.room, 0)

    def test_what_the_system_does_not_allow_is_refused(self):
        with self.assertRaisesRegex(Refusal, "the system doesn't allow what the trial needs: `ip -n "):
            with namespaces.laid_out([*HOSTS, Host("three", "no address", (), "")], Wire()):
                pass

    def test_tables_are_there_until_they_are_stopped(self):
        spaces = self.laid_out("nftables")
        space = spaces.of_host["one"]
        self.assertIn(f"table ip bar_{ID}", namespaces.system(namespaces.inside(space, "nft", "list", "tables")))
        self.assertEqual(self.route_localnet(space), "1")
        process = self.forwarding["one"]
        process.send_signal(signal.SIGTERM)
        self.assertEqual(process.wait(10), 0)
        self.assertEqual(namespaces.system(namespaces.inside(space, "nft", "list", "tables")), "")
        self.assertEqual(self.route_localnet(space), "0")

    def route_localnet(self, space):
        return namespaces.system(namespaces.inside(space, "cat", forwarding.ROUTE_LOCALNET)).strip()


@unittest.skipUnless(PROGRAM.exists(), f"there is no program at {PROGRAM}")
@unittest.skipUnless(allows_namespaces(), "this system has no network namespaces for this user, or no iproute2")
class Trials(RoomCase):
    """A whole session over two hosts."""

    def try_session(self, by, *words):
        for name in namespaces.programs_for(by, Wire()):
            if not shutil.which(name):
                self.skipTest(f"there is no {name}: install the package {namespaces.PACKAGES[name]}")
        hosts, folder = self.room / "hosts.toml", self.room / "session"
        hosts.write_text(TEXT)
        numbers = "--peers", 2, "--rounds", 2, "--life", 2, "--fanout", 1, "--lms", 6, "--tick-ms", 100
        self.assertEqual(run_script("make-session", folder, "--stream", self.stream, *numbers)[0], 0)
        return folder, run_script("span-session", folder, "--hosts", hosts, "--try", "--by", by, *words)

    def tries(self, by):
        folder, (status, out, err) = self.try_session(by)
        self.assertEqual((status, out[-1][:14]), (0, "OK: all partie"), [*out, *err])
        self.assertIn("all 2 replays agree", out[-2])
        self.assertEqual((folder / "party.1.played").read_bytes(), self.stream.read_bytes())
        self.assertEqual((folder / "party.2.played").read_bytes(), self.stream.read_bytes())
        self.assertTrue((folder / "timeline.html").exists())
        self.assertFalse((folder / "hosts").exists())

    def test_by_socat(self):
        self.tries("socat")

    def test_by_nftables(self):
        self.tries("nftables")


if __name__ == "__main__":
    unittest.main()
