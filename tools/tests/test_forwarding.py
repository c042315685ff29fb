"""What forwards datagrams between hosts, as text."""
import os
import pathlib
import shutil
import signal
import subprocess
import tempfile
import unittest

from support import ID, RoomCase, has_ended, wait_for

from gossip.formats.files import Session
from gossip.networks import forwarding
from gossip.networks.host_text import Host

SESSION = Session(1, ID, 10, 6, 1, 1, 1, 24_000, 50, 6, 3, 4)
ONE = Host("one", "192.0.2.10", (0, 1), "192.0.2.10")
TWO = Host("two", "192.0.2.11", (2, 4), "10.0.0.5")
THREE = Host("three", "192.0.2.12", (3,), "192.0.2.12")
HOSTS = [ONE, TWO, THREE]

UNIT = f"""[Unit]
Description=Datagrams of session {ID} to party 2 at 192.0.2.11
PartOf=bar-{ID}.target
Wants=network-online.target
After=network-online.target

[Service]
ExecStart=/usr/bin/socat -b 65507 -u UDP4-RECV:24002,bind=127.0.0.1,rcvbuf=4194304 UDP4-SENDTO:192.0.2.11:24002
DynamicUser=yes
SuccessExitStatus=143
Restart=always
RestartSec=1
"""

TABLE = f"""# what forwards datagrams of session {ID} on host two
table ip bar_{ID}
delete table ip bar_{ID}
table ip bar_{ID} {{
    chain guard {{
        type filter hook prerouting priority raw; policy accept;
        iifname != "lo" ip daddr 127.0.0.0/8 drop
    }}
    chain out {{
        type nat hook output priority -100; policy accept;
        ip daddr 127.0.0.1 udp dport {{ 24000, 24001 }} dnat to 192.0.2.10
        ip daddr 127.0.0.1 udp dport {{ 24003 }} dnat to 192.0.2.12
    }}
    chain in {{
        type nat hook prerouting priority dstnat; policy accept;
        ip daddr 10.0.0.5 ip saddr {{ 192.0.2.10, 192.0.2.12 }} udp dport {{ 24002, 24004 }} dnat to 127.0.0.1
    }}
    chain leave {{
        type nat hook postrouting priority srcnat; policy accept;
        ip saddr 127.0.0.1 ip daddr {{ 192.0.2.10, 192.0.2.12 }} udp dport {{ 24000, 24001, 24003 }} snat to 10.0.0.5
    }}
}}
"""


def ways(host):
    return {way.party: way for way in forwarding.ways_of(SESSION, HOSTS, host)}


class Ways(unittest.TestCase):
    def test_each_party_has_one_way_on_each_host(self):
        for host in HOSTS:
            self.assertEqual([*ways(host)], [0, 1, 2, 4, 3])
            self.assertEqual({party for party, way in ways(host).items() if not way.is_out}, {*host.parties})
            self.assertTrue(all(way.port == 24_000 + party for party, way in ways(host).items()))

    def test_where_ways_go(self):
        self.assertEqual((ways(ONE)[2].listen, ways(ONE)[2].to), ("127.0.0.1", "192.0.2.11"))
        self.assertEqual((ways(ONE)[1].listen, ways(ONE)[1].to), ("192.0.2.10", "127.0.0.1"))

    def test_a_host_listens_at_its_own_address(self):
        self.assertEqual((ways(TWO)[2].listen, ways(TWO)[2].to), ("10.0.0.5", "127.0.0.1"))
        self.assertEqual(ways(TWO)[0].listen, "127.0.0.1")


class Texts(unittest.TestCase):
    def test_a_unit(self):
        self.assertEqual(forwarding.unit_of(SESSION, ways(ONE)[2]), UNIT)
        inward = forwarding.unit_of(SESSION, ways(TWO)[2])
        self.assertIn(f"Description=Datagrams of session {ID} for party 2, which come to 10.0.0.5\n", inward)
        self.assertIn(" UDP4-RECV:24002,bind=10.0.0.5,rcvbuf=4194304 UDP4-SENDTO:127.0.0.1:24002\n", inward)

    def test_the_units_of_a_host(self):
        files = forwarding.files_of(SESSION, HOSTS, TWO, forwarding.SOCAT)
        names = [f"bar-{ID}-{name}.service" for name in ("to-0", "to-1", "for-2", "for-4", "to-3")]
        self.assertEqual([*files], [*names, f"bar-{ID}.target"])
        wants = f"[Unit]\nDescription=What forwards datagrams of session {ID}\nWants={' '.join(names)}\n"
        self.assertEqual(files[f"bar-{ID}.target"], wants)

    @unittest.skipUnless(shutil.which("systemd-analyze") and shutil.which(forwarding.SOCAT_PATH), "there is no systemd or no socat")
    def test_systemd_takes_the_units(self):
        with tempfile.TemporaryDirectory() as room:
            for name, text in forwarding.files_of(SESSION, HOSTS, TWO, forwarding.SOCAT).items():
                pathlib.Path(room, name).write_text(text)
            ran = subprocess.run(["systemd-analyze", "verify", *pathlib.Path(room).iterdir()], capture_output=True, text=True)
            self.assertEqual((ran.returncode, ran.stderr), (0, ""))

    def test_the_table_of_a_host(self):
        self.maxDiff = None
        self.assertEqual(forwarding.files_of(SESSION, HOSTS, TWO, forwarding.NFTABLES), {f"bar-{ID}.nft": TABLE})

    def test_scripts_are_scripts(self):
        for by in forwarding.PROGRAMS:
            text = forwarding.script_of(SESSION, HOSTS, TWO, by)
            self.assertTrue(text.startswith(f"#!/bin/sh\n# Forwards datagrams of session {ID} on host two by {by}, until it is stopped.\n"))
            self.assertIn('echo "forwarding between party 2 and party 4 at 10.0.0.5 and 192.0.2.10 and 192.0.2.12"\n', text)
            self.assertEqual(subprocess.run(["sh", "-n"], input=text, text=True).returncode, 0)


class Scripts(RoomCase):
    """The script that forwards by socat, with a program in its place."""

    def script(self, program):
        """The script of a host, which looks for its program and units here."""
        (self.room / "forward").mkdir()
        files = forwarding.files_of(SESSION, HOSTS, TWO, forwarding.SOCAT)
        for name, text in files.items():
            (self.room / "forward" / name).write_text(text.replace(forwarding.SOCAT_PATH, str(program)))
        path = self.room / "forward.sh"
        path.write_text(forwarding.script_of(SESSION, HOSTS, TWO, forwarding.SOCAT).replace(forwarding.SOCAT_PATH, str(program)))
        return path

    def test_all_units_are_started_and_ended(self):
        program = self.room / "socat"
        program.write_text(f'#!/bin/sh\necho "$@" > {self.room}/words.$$\nexec sleep 60\n')
        program.chmod(0o700)
        with subprocess.Popen(["sh", self.script(program)], stdout=subprocess.PIPE, text=True) as process:
            self.assertEqual(process.stdout.readline()[:11], "forwarding ")
            self.assertTrue(wait_for(lambda: len([path for path in self.room.glob("words.*") if path.read_text()]) == 5))
            started = {int(path.suffix[1:]): path.read_text() for path in self.room.glob("words.*")}
            process.send_signal(signal.SIGTERM)
            self.assertEqual(process.wait(), 0)
        told = sorted(" ".join(forwarding.socat_words(way)[1:]) for way in ways(TWO).values())
        self.assertEqual(sorted(text.strip() for text in started.values()), told)
        self.assertTrue(all(map(has_ended, started)))

    def test_all_are_ended_where_one_fails(self):
        program = self.room / "socat"
        program.write_text(f'#!/bin/sh\necho $$ > {self.room}/started.$$\ncase "$4" in *24003*) exit 1 ;; esac\nexec sleep 60\n')
        program.chmod(0o700)
        ran = subprocess.run(["sh", self.script(program)], capture_output=True, text=True, timeout=30)
        self.assertEqual((ran.returncode, ran.stdout, ran.stderr), (1, "", "FAILED: a socat ended, so nothing is forwarded\n"))
        started = [path.suffix[1:] for path in self.room.glob("started.*")]
        self.assertEqual(len(started), 5)
        self.assertTrue(all(map(has_ended, started)))

    def test_no_socat(self):
        ran = subprocess.run(["sh", self.script(self.room / "none")], capture_output=True, text=True)
        self.assertEqual((ran.returncode, ran.stdout), (2, ""))
        self.assertEqual(ran.stderr, f"REFUSED: there is no {self.room}/none: install the package socat\n")

    def test_no_nftables(self):
        (self.room / "forward").mkdir()
        path = self.room / "forward.sh"
        path.write_text(forwarding.script_of(SESSION, HOSTS, TWO, forwarding.NFTABLES))
        tools = self.room / "tools"
        tools.mkdir()
        for name in ("sh", "dirname"):
            os.symlink(next(place / name for place in map(pathlib.Path, ("/bin", "/usr/bin")) if (place / name).exists()), tools / name)
        ran = subprocess.run([tools / "sh", path], env={"PATH": str(tools)}, capture_output=True, text=True)
        self.assertEqual((ran.returncode, ran.stderr), (2, "REFUSED: there is no nft: install the package nftables\n"))


if __name__ == "__main__":
    unittest.main()
