"""Broadcasters and peers that run alone, each a process of its own: what they send to their ports, in order, what they say of their runs and
what becomes of their keys. These tests are skipped where the program isn't built.
"""
import contextlib
import itertools
import select
import socket
import subprocess
import time
import tomllib
import unittest

from support import bound, need_program

from gossip.formats.files import BLOCK, MANIFEST, REQUEST
from gossip.programs.bar import PROGRAM, Status, run_words
from gossip.sessions.session_folder import free_port, party_words
from chosen_peers import ChosenCase, block_of, number_of, table_of

# the secret of a broadcaster, and those of seven peers
RISING = bytes(range(32)), *(bytes([it]) * 32 for it in range(8, 15))

# longer than a datagram is
SIZE = 1 << 16


def setUpModule():
    """Says that these tests are skipped, where they are."""
    need_program("the tests of broadcasters")


def drained(sockets, process):
    """What came to each socket until a process ended, in order."""
    came, ended = {it: [] for it in sockets}, False
    while True:
        ended = process.poll() is not None
        ready = select.select(sockets, [], [], 0.02)[0]
        for it in ready:
            came[it].append(it.recv(SIZE))
        if ended and not ready:
            return [*came.values()]


class Casters(ChosenCase):
    def free(self, secrets=None, **numbers):
        """A session whose ports are free."""
        more = {"secrets": secrets} if secrets else {}
        return self.make(**more, port=free_port(8), tick_ms=10, **numbers)

    def run_party(self, chosen, party, stream=b""):
        """Runs a party: its status, what it printed, and what came to the ports of all peers, or for a peer to those of the others."""
        chosen.folder.stream.write_bytes(stream)
        ports = [chosen.session.port + it for it in range(chosen.session.peers + 1) if it != party]
        with contextlib.ExitStack() as stack:
            sockets = [stack.enter_context(bound(port)) for port in ports]
            for it in sockets:
                it.setsockopt(socket.SOL_SOCKET, socket.SO_RCVBUF, 1 << 22)
            words = party_words(chosen.folder, PROGRAM, party, int(time.time() * 1000) + 100)
            process = stack.enter_context(subprocess.Popen(words, stdout=subprocess.PIPE, text=True))
            came = drained(sockets, process)
            return process.returncode, process.stdout.read(), came

    def check_spent(self, chosen, party):
        """The key of a party is spent, and else as it was. It is refused before the port is bound, which is taken here."""
        wanted = {"party": party, "secret": chosen.secrets[party].hex(), "spent": True, "version": 1, "id": chosen.session.id}
        wanted |= {name: getattr(chosen.session, name) for name in ("rounds", "lms", "ots", "top")}
        self.assertEqual(tomllib.loads(chosen.folder.key(party).read_text("utf-8")), wanted)
        with bound(chosen.session.port + party):
            _, *words = party_words(chosen.folder, PROGRAM, party, 0)
            ran = run_words(PROGRAM, words)
        self.assertEqual((ran.status, ran.said), (Status.KEY, b"bar: key refused: Spent\n"))

    # ---- broadcasters

    def test_manifests_are_said_twice_and_in_version_3_again_in_the_next_round(self):
        """Of each version how many rounds there are, and the summary. Round 1 has two updates, of which each goes to one peer twice."""
        blocks = [block_of(bytes([7]) * 1022), block_of(b"\7")]
        for version, rounds, summary in (1, 10, "ticks 120 sent 44\n"), (2, 20, "ticks 200 sent 84\n"), (3, 20, "ticks 200 sent 124\n"):
            with self.subTest(version=version):
                chosen = self.free(version=version, rounds=rounds)
                status, printed, came = self.run_party(chosen, 0, bytes([7]) * 1023)
                self.assertEqual((status, printed), (Status.DONE, summary))
                manifests = [chosen.manifest(number, blocks if number == 1 else []) for number in range(1, rounds + 1)]
                said = [[it, before, it] if version == 3 else [it, it] for before, it in itertools.pairwise(manifests)]
                wanted = [manifests[0]] * 2 + [*itertools.chain(*said)] + manifests[-1:] * (version == 3)
                for datagrams in came:
                    self.assertEqual([it for it in datagrams if it[3] == MANIFEST], wanted)
                sent = [it for datagrams in came for it in datagrams if it[3] == BLOCK]
                receivers = [int.from_bytes(it[14:16], "big") for it in sent]
                self.assertCountEqual(sent, [chosen.block((1, it[20]), to, blocks[it[20]]) for it, to in zip(sent, receivers)])
                self.assertEqual(sorted(it[20] for it in sent), [0, 0, 1, 1])
                self.assertEqual(sum(map(len, came)), int(summary.split()[-1]))
                # the blocks of a round come after each of its manifests
                first = next(datagrams for datagrams in came if sent[0] in datagrams)
                self.assertEqual([it[3] for it in first if number_of(it) == 1][:2], [MANIFEST, BLOCK])
                self.assertEqual((chosen.folder.path / "party.0.table").read_bytes(), table_of(*manifests))
                self.check_spent(chosen, 0)

    def test_blocks_go_to_the_least_ranks(self):
        """The order of the peers by their ranks comes from Python's hashlib: 6, 2, 5 first for one block, and 3, 5, 4 for the other."""
        chosen = self.free(RISING, rounds=1, fanout=3)
        status, _, came = self.run_party(chosen, 0, bytes([7]) * 1023)
        self.assertEqual(status, Status.DONE)
        receivers = {index: [peer for peer, sent in enumerate(came, 1) for it in sent if it[3] == BLOCK and it[20] == index] for index in (0, 1)}
        self.assertEqual(receivers, {0: [2, 2, 5, 5, 6, 6], 1: [3, 3, 4, 4, 5, 5]})
        ends = {(it[20], it[21:24], it[-1:]) for sent in came for it in sent if it[3] == BLOCK}
        self.assertEqual(ends, {(0, b"\3\xfe\7", b"\7"), (1, b"\0\1\7", b"\0")})

    def test_an_empty_stream(self):
        chosen = self.free(rounds=1)
        status, printed, came = self.run_party(chosen, 0)
        self.assertEqual((status, printed), (Status.DONE, "ticks 48 sent 4\n"))
        self.assertEqual(came, [[chosen.manifest(1, [])] * 2] * 2)

    def test_a_stream_that_is_too_long_spends_no_key(self):
        chosen = self.free()
        key = chosen.folder.key(0).read_bytes()
        _, *words = party_words(chosen.folder, PROGRAM, 0, 0)
        # the port is taken, so that nothing begins that isn't refused
        refused = (Status.INPUT, b"bar: input refused: stream have 81761 room 81760\n", True)
        with bound(chosen.session.port):
            for length, told in (81_761, refused), (81_760, (Status.LINK, b"bar: link failed\n", False)):
                chosen.folder.stream.write_bytes(bytes(length))
                ran = run_words(PROGRAM, words)
                self.assertEqual((ran.status, ran.said, chosen.folder.key(0).read_bytes() == key), told)

    # ---- peers

    def test_a_peer_alone_asks_in_vain(self):
        """It asks sixteen times in each round, and plays nothing."""
        chosen = self.free()
        status, printed, (to_broadcaster, came) = self.run_party(chosen, 2)
        self.assertEqual((status, printed), (Status.DONE, "ticks 120 sent 160 played 0\n"))
        self.assertEqual((to_broadcaster, len(came)), ([], 160))
        fronts = [chosen.front(REQUEST, 2, 1, number) for number in range(1, 11)]
        self.assertEqual({front: sum(it.startswith(front) for it in came) for front in fronts}, dict.fromkeys(fronts, 16))
        self.assertEqual(chosen.folder.recording(2).read_bytes(), chosen.recording(2, [None] * 120))
        self.assertEqual(chosen.folder.played(2).read_bytes(), b"")
        self.check_spent(chosen, 2)


if __name__ == "__main__":
    unittest.main()
