"""Verdicts, table files, proof files and audits by the built program, of datagrams that are signed here: worked by hand from docs/FORMATS.md
and docs/PROTOCOL.md. These tests are skipped where it isn't built.
"""
import unittest

from support import need_program

from gossip.formats.files import CASE, KEY, REQUEST, RESPONSE
from gossip.programs import bar
from gossip.programs.bar import PROGRAM, Status
from chosen_peers import ChosenCase, Peer, block_of, changed, evidence_of, table_of, window

# the two histories of the exchange of round 6: each side has two updates, of which the other lacks one or more
HISTORIES = window(5, 0, 10, 0) + window(4, 0x80, 0, 0)

MALFORMED = evidence_of(b"\x09")

CONSISTENT, UNKNOWN, NOT_SIGNED = "no fault: Consistent", "no fault: UnknownUpdate", "no fault: NotSigned"


def setUpModule():
    """Says that these tests are skipped, where they are."""
    need_program("the tests of verdicts")


class Verdicts(ChosenCase):
    def setUp(self):
        self.session = self.chosen()

    # ---- datagrams

    def request(self, number, leaf, commitment=0, seed=bytes(32)):
        """A REQUEST of peer 1 to peer 2, whose seed is none of peer 1's where none is given."""
        message = self.session.front(REQUEST, 1, 2, number) + seed + bytes([commitment]) * 32
        return self.session.signer(1).signed(leaf, message)

    def response(self, updates, leaf):
        """The RESPONSE of peer 1 to peer 2 in round 6, with updates of the first round of its window."""
        return self.session.signer(1).signed(leaf, self.session.front(RESPONSE, 1, 2, 6) + window(updates, 0, 0, 0))

    def case(self, leaf, sender=1, role=1):
        """The CASE of the balanced exchange of round 6 of a peer in a role. It promises one update, and its cipher is all zeros."""
        front = self.session.front(CASE, sender, 3 - sender, 6) + bytes([0, role, 1, 0])
        return self.session.signer(sender).signed(leaf, front + bytes(32) + HISTORIES + bytes(1024))

    def key(self, leaf, sender=1, role=1):
        """A KEY of zeros of that exchange."""
        front = self.session.front(KEY, sender, 3 - sender, 6) + bytes([0, role])
        return self.session.signer(sender).signed(leaf, front + bytes(32))

    def manifests(self, *rounds):
        """Manifests of eight digests that no block has."""
        return [self.session.manifest(number, [block_of(bytes([number, at])) for at in range(8)]) for number in rounds]

    # ---- commands

    def run_command(self, command, files, **numbers):
        """How a command ended over files of this content: its status, what it printed and what it said."""
        room = self.session.folder.path
        for name, content in files.items():
            (room / name).write_bytes(content)
        paths = {name: room / name for name in files}
        ran = bar.run(PROGRAM, command, session=self.session.folder.session, **paths, **numbers)
        return ran.status, ran.printed.decode(), ran.said.decode()

    def judge(self, table, evidence):
        return self.run_command("judge", {"table": table, "evidence": evidence})

    def check_lines(self, rows):
        """Of each row the table, the datagrams of the evidence and the line."""
        for at, (table, datagrams, line) in enumerate(rows):
            with self.subTest(row=at):
                status = Status.NO_FAULT if line.startswith("no") else Status.DONE
                self.assertEqual(self.judge(table, evidence_of(*datagrams)), (status, f"{line}\n", ""))

    # ---- verdicts

    def test_faults_of_one_datagram_and_of_two(self):
        first = self.request(1, 0)
        self.check_lines([
            (b"", [first], "party 1 fault F3"),
            (b"", [first, self.request(1, 0, 1)], "party 1 fault F4"),
            (b"", [first, self.request(1, 3, 1)], "party 1 fault F4"),
            (b"", [first, self.request(2, 0)], "party 1 fault F7"),
            (b"", [first, self.request(2, 18)], CONSISTENT),
        ])

    def test_a_key_that_opens_its_briefcase_badly(self):
        full = table_of(*self.manifests(4))
        case, key = self.case(103), self.key(104)
        self.check_lines([
            (full, [case, key], "party 1 fault F1"),
            (full, [key, case], "party 1 fault F1"),
            (b"", [case, key], UNKNOWN),
            (full, [case, self.key(92, role=0)], CONSISTENT),
            (full, [case, changed(key)], NOT_SIGNED),
            (full, [case], CONSISTENT),
        ])

    def test_a_leaf_that_signed_two_messages(self):
        (request,) = Peer(self.session, 1).tick(1)
        full = table_of(*self.manifests(4))
        response, later, other = self.response(0, 0), self.response(0, 6), self.response(1, 6)
        self.check_lines([
            (b"", [request, response], "party 1 fault F7"),
            (b"", [response, request], "party 1 fault F7"),
            (b"", [request, later], CONSISTENT),
            (b"", [later, other], "party 1 fault F4"),
            (full, [self.case(103), self.key(103)], "party 1 fault F7"),
        ])

    def test_a_request_to_another_than_the_partner(self):
        self.session = self.chosen(tuple(bytes([it]) * 32 for it in (7, 8, 9, 14, 10, 11)), rounds=1)
        (right,) = Peer(self.session, 4).tick(1)
        sign = self.session.signer(4).signed
        wrong, again = sign(0, right[:15] + b"\5" + right[16:84]), sign(0, right[:52] + bytes([1]) * 32)
        self.assertEqual(right[14:16], b"\0\3")
        self.check_lines([
            (b"", [wrong], "party 4 fault F3"),
            (b"", [right], CONSISTENT),
            (b"", [changed(wrong)], NOT_SIGNED),
            (b"", [wrong[:100]], "no fault: Malformed"),
            (b"", [right, again], "party 4 fault F4"),
            (b"", [right, right], CONSISTENT),
        ])

    # ---- tables

    def test_a_table_is_refused_at_its_first_bad_entry(self):
        one, two, three, four = self.manifests(1, 2, 3, 4)
        size = 2 + len(one)
        for manifests, more, place in (
            ([], b"", None),
            ([three], b"", None),
            ([one, three], b"", None),
            ([changed(one), three], b"", 0),
            ([one, changed(three)], b"", size),
            ([two, two], b"", size),
            ([two, one], b"", size),
            ([one], table_of(two)[:-1], size),
            ([one], b"\0", size),
            ([one], b"\0\0", size),
            ([one, two, three], table_of(changed(four)), 3 * size),
        ):
            with self.subTest(manifests=len(manifests), place=place):
                wanted = (Status.NO_FAULT, "no fault: Malformed\n", "")
                refused = (Status.INPUT, "", f"bar: input refused: table at {place}\n")
                self.assertEqual(self.judge(table_of(*manifests) + more, MALFORMED), wanted if place is None else refused)

    def test_a_manifest_of_a_round_that_the_session_lacks(self):
        two, last, beyond = self.manifests(2, 10, 11)
        refused = (Status.INPUT, "", f"bar: input refused: table at {2 + len(two)}\n")
        self.assertEqual(self.judge(table_of(two, last), MALFORMED)[0], Status.NO_FAULT)
        self.assertEqual(self.judge(table_of(two, beyond), MALFORMED), refused)

    # ---- proof files

    def test_what_is_packed_is_verified(self):
        """Of evidence that needs a manifest, and of evidence that needs none; each proof file is refused where its last byte is cut."""
        table = self.manifests(3, 4, 5)
        two, one = evidence_of(self.case(103), self.key(104)), evidence_of(self.request(1, 0))
        for evidence, manifests, line in (two, [table[1]], "party 1 fault F1\n"), (one, [], "party 1 fault F3\n"):
            wanted = b"BARP\1" + bytes([len(manifests)]) + table_of(*manifests) + evidence
            proof = self.session.folder.path / "proof"
            told = (Status.DONE, f"packed {len(wanted)} bytes\n", "")
            self.assertEqual(self.run_command("pack", {"table": table_of(*table), "evidence": evidence}, proof=proof), told)
            self.assertEqual(proof.read_bytes(), wanted)
            proof.unlink()
            self.assertEqual(self.run_command("verify", {"proof": wanted}), (Status.DONE, line, ""))
            refused = (Status.INPUT, "", "bar: input refused: proof evidence\n")
            self.assertEqual(self.run_command("verify", {"proof": wanted[:-1]}), refused)
            proof.unlink()

    def test_what_is_not_packed(self):
        proof = self.session.folder.path / "none"
        for table, evidence, told in (
            (b"", MALFORMED, (Status.NO_FAULT, "no fault: Malformed\n", "")),
            (b"\0", b"", (Status.INPUT, "", "bar: input refused: table at 0\n")),
            (b"", b"", (Status.INPUT, "", "bar: input refused: evidence\n")),
        ):
            self.assertEqual(self.run_command("pack", {"table": table, "evidence": evidence}, proof=proof), told)
            self.assertFalse(proof.exists())

    def test_proof_files_that_are_refused(self):
        for proof, told in (
            (b"BARP\1\0\1\0\1\x09", (Status.NO_FAULT, "no fault: Malformed\n", "")),
            (b"BARP\2\0", (Status.INPUT, "", "bar: input refused: proof BadHead\n")),
            (b"BARP\1\1\0", (Status.INPUT, "", "bar: input refused: proof manifest at 6\n")),
            (b"BARP\1\0", (Status.INPUT, "", "bar: input refused: proof evidence\n")),
        ):
            with self.subTest(proof=proof):
                self.assertEqual(self.run_command("verify", {"proof": proof}), told)

    # ---- audits

    def test_one_exchange_is_told_and_balanced(self):
        """Peer 1 began the balanced exchange of round 6. Of each row the recording of peer 1, the parties and how the audit ends."""
        one = [self.case(1, 1, 0), self.key(2, 1, 0)]
        two = [self.case(1, 2, 1), self.key(2, 2, 1)]
        whole, empty = self.session.recording(1, two), self.session.recording(1, [])
        cut = empty[:-1]
        (self.session.folder.path / "r.2.recording").write_bytes(self.session.recording(2, one))
        unbalanced = "exchange 6 0 1 2 cases 1 0 keys 1 0\nunbalanced 6 0 1 2\n"
        parties = Status.INPUT, "", "bar: input refused: parties\n"
        for recording, first, last, told in (
            (whole, 1, 2, (Status.DONE, "exchange 6 0 1 2 cases 1 1 keys 1 1\nbalanced\n", "")),
            (empty, 1, 2, (Status.NO_FAULT, unbalanced, "")),
            (cut, 2, 2, (Status.DONE, "balanced\n", "")),
            (cut, 1, 2, (Status.INPUT, "", "bar: input refused: recording NoEnd\n")),
            (cut, 0, 2, parties),
            (cut, 2, 1, parties),
            (cut, 1, 3, parties),
            (whole, 1, 201, (Status.WORDS, "", "bar: usage\n")),
        ):
            with self.subTest(first=first, last=last, size=len(recording)):
                (self.session.folder.path / "r.1.recording").write_bytes(recording)
                self.assertEqual(self.run_command("audit", {}, results=self.session.folder.path / "r", first=first, last=last), told)


if __name__ == "__main__":
    unittest.main()
