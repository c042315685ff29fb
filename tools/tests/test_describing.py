"""What tools/show tells of files and of the datagrams in them."""
import hashlib
import json
import pathlib
import shutil
import struct
import sys
import unittest

sys.path.insert(0, str(pathlib.Path(__file__).resolve().parent.parent))

import made_sessions as made
from made_sessions import LONG, SESSION, WIDE, WIDE_PLAIN, Diary, Trade
from support import ROOT, RoomCase, run_script

from gossip.formats import describing
from gossip.formats.datagrams import Exchange, Update
from gossip.formats.files import DIVULGE, EVIDENCE, Malformed

FIRST, SECOND, THIRD = (Update(1, index) for index in range(3))
BALANCED = Trade.balanced(Exchange(2, False, 1, 2), [[FIRST], [SECOND, THIRD]], [[SECOND], [FIRST]])
PUSH = Trade.push(Exchange(3, True, 2, 1), [[Update(3, 0), Update(3, 1)], [THIRD], [Update(3, 1)], []], 1)
EXAMPLE = ROOT / "examples"


def told(datagram, session=SESSION):
    return describing.Datagrams(session).line(datagram)


class Lines(unittest.TestCase):
    def test_each_kind(self):
        divulge = made.datagram(DIVULGE, 1, 2, struct.pack(">I", 2) + bytes(32) + made.window(2, [FIRST]))
        evidence = made.datagram(EVIDENCE, 1, 0, made.evidence(BALANCED.case(False), BALANCED.key(False)))
        for datagram, line in (
            (made.manifest(2), "MANIFEST from 0, round 2, 4 updates"),
            (made.block(3, Update(5, 1)), "BLOCK from 0, round 5, index 1"),
            (made.evict(4, 1, 3), "EVICT from 0, round 4, 1 and 3 evicted"),
            (BALANCED.request(), "REQUEST from 1, round 2, balanced"),
            (BALANCED.answer(), "RESPONSE from 2, round 2, balanced, a history of 0 updates"),
            (divulge, "DIVULGE from 1, round 2, balanced, a history of 1 update"),
            (PUSH.request(), "QUERY from 2, round 3, push, offers 0 updates and asks for 0 updates"),
            (PUSH.answer(), "REPLY from 1, round 3, push, wants 0 updates and gives 0 updates"),
            (BALANCED.case(True), "CASE from 1, round 2, balanced, 1 update"),
            (PUSH.case(False), "CASE from 1, round 3, push, 0 updates and 1 junk item"),
            (BALANCED.key_request(True), "KEYREQ from 1, round 2, balanced, of the initiator"),
            (PUSH.key(False), "KEY from 1, round 3, push, of the responder"),
            (evidence, "EVIDENCE from 1, CASE from 2, round 2, balanced, 1 update and KEY from 2, round 2, balanced, of the responder"),
        ):
            self.assertEqual(told(datagram), line)

    def test_sessions_of_version_2_and_of_two_levels(self):
        last, other = Update(1, 127), Update(1, 3)
        wide = Trade.balanced(Exchange(2, False, 1, 2), [[last], [other]], [[other], [last]], WIDE_PLAIN, WIDE)
        self.assertEqual(told(wide.case(False), WIDE), "CASE from 2, round 2, balanced, 1 update")
        self.assertEqual(told(made.manifest(2, session=LONG), LONG), "MANIFEST from 0, round 2, 4 updates")
        self.assertEqual(told(made.manifest(2, session=LONG)).rpartition(": ")[2], "BadLength")

    def test_the_first_fault_is_told(self):
        key, block = BALANCED.key(False), made.block(3, Update(5, 1))
        for datagram, fault in (
            (key[:15], "Short"),
            (b"\0" + key[1:], "BadMagic"),
            (key[:2] + b"\2" + key[3:], "BadVersion"),
            (key[:3] + b"\0" + key[4:], "BadKind"),
            (key[:4] + b"\7" + key[5:], "BadSession"),
            (key[:-1], "BadLength"),
            (made.manifest(2)[:20], "BadLength"),
            (key, None),
            (key[:12] + b"\0\0" + key[14:], "BadField"),
            (key[:12] + b"\0\1\0\1" + key[16:], "BadField"),
            (key[:16] + b"\0\0\0\0" + key[20:], "BadField"),
            (key[:16] + b"\0\0\0\7" + key[20:], "BadField"),
            (key[:21] + b"\2" + key[22:], "BadField"),
            (block[:20] + b"\4" + block[21:], "BadField"),
            (made.evict(4, 3, 1), "BadField"),
            (made.evict(4, 4), "BadField"),
            (made.datagram(EVIDENCE, 1, 0, b"\0"), "BadField"),
            (made.datagram(EVIDENCE, 1, 0, b"\1\0\0"), "BadField"),
            (made.datagram(DIVULGE, 1, 2, struct.pack(">I", 1) + bytes(32) + made.window(1, [Update(2, 0)])), "BadField"),
        ):
            self.assertEqual(describing.Datagrams(SESSION).fault(datagram), fault)

    def test_data(self):
        data = describing.Datagrams(SESSION).data(BALANCED.case(False))
        self.assertEqual([data[name] for name in ("kind", "from", "to", "bytes")], ["CASE", 2, 1, len(BALANCED.case(False))])
        fields = data["fields"]
        self.assertEqual([fields[name] for name in ("round", "updates")], [2, 1])
        self.assertEqual((fields["initiator's"], fields["responder's"]), ([FIRST], [SECOND, THIRD]))
        self.assertEqual((fields["nonce"], fields["sealed updates"]), (bytes(range(32)).hex(), [{"bytes": 1024}]))
        self.assertEqual(describing.Datagrams(SESSION).data(b"junk"), {"bytes": 4, "fault": "Short"})


class Files(unittest.TestCase):
    DATAGRAMS = describing.Datagrams(SESSION)

    def lines(self, data):
        form = describing.form_of(data)
        told_ = describing.FORMS[form](data, self.DATAGRAMS)
        return form, told_.what, [line for line, _ in told_.lines]

    def test_a_recording(self):
        diary = Diary(2)
        diary.take(BALANCED.request())
        diary.until(2)
        diary.take(b"junk", BALANCED.case(True))
        lines = ["<- REQUEST from 1, round 2, balanced", "tick 1: round 1, slot 0", "tick 2: round 1, slot 1"]
        lines += ["<- 4 bytes that are no datagram of the session: Short", "<- CASE from 1, round 2, balanced, 1 update"]
        self.assertEqual(self.lines(diary.recording()), ("recording", "a recording of party 2, whole", lines))
        what = "a recording of party 2, up to its last whole entry, since it has no end"
        self.assertEqual(self.lines(diary.recording()[:-3]), ("recording", what, lines[:-1]))
        data = [it for _, it in describing.recording_told(diary.recording(), self.DATAGRAMS).lines]
        self.assertEqual(data[2], {"input": 3, "tick": 2, "round": 1, "slot": 1})
        self.assertEqual((data[4]["input"], data[4]["behind tick"], data[4]["datagram"]["kind"]), (5, 2, "CASE"))

    def test_ticks_without_datagrams_are_one_line(self):
        diary = Diary(2)
        diary.until(3)
        diary.take(b"junk")
        diary.until(5)
        diary.take(b"junk")
        diary.until(17)
        told_ = describing.recording_told(diary.recording(), self.DATAGRAMS)
        junk = "<- 4 bytes that are no datagram of the session: Short"
        lines = ["ticks 1 to 2: round 1, and nothing was taken", "tick 3: round 1, slot 2", junk]
        lines += ["tick 4: round 1, slot 3", "tick 5: round 1, slot 4", junk, "ticks 6 to 17: rounds 1 to 3, and nothing was taken"]
        self.assertEqual(told_.shown, lines)
        self.assertEqual(len(told_.lines), 19)

    def test_a_transcript(self):
        diary = Diary(2)
        diary.until(1)
        diary.send(BALANCED.answer(), BALANCED.key(False))
        text = "\n".join(diary.lines).encode()
        lines = ["-> RESPONSE to 1, round 2, balanced, a history of 0 updates, at input 1"]
        lines += ["-> KEY to 1, round 2, balanced, of the responder, at input 1"]
        self.assertEqual(self.lines(text), ("transcript", "a transcript", lines))

    def test_tables_evidence_and_proofs(self):
        manifests = ["MANIFEST from 0, round 1, 4 updates", "MANIFEST from 0, round 3, 4 updates"]
        table = made.table(made.manifest(1), made.manifest(3))
        self.assertEqual(self.lines(table), ("table", "a table of manifests", manifests))
        evidence = made.evidence(BALANCED.case(True), BALANCED.key(True))
        parts = ["CASE from 1 to 2, round 2, balanced, 1 update", "KEY from 1 to 2, round 2, balanced, of the initiator"]
        self.assertEqual(self.lines(evidence), ("evidence", "evidence", parts))
        self.assertEqual(self.lines(b"BARP\1\2" + table + evidence), ("proof", "a proof", manifests + parts))

    def test_what_is_cut_or_none_is_refused(self):
        table, evidence = made.table(made.manifest(1)), made.evidence(BALANCED.key(True))
        heads = b"BARL\2" + bytes(12), b"BARP\1\0", b"1 2 abc", b"\xff"
        for data in (table[:-1], evidence[:-1], evidence + b"\0", b"\3" + evidence, b"words", *heads):
            with self.assertRaises(Malformed):
                self.lines(data)


class Script(RoomCase):
    def test_an_example_in_lines_and_as_data(self):
        path = EXAMPLE / "evidence/bad-opening"
        status, out, _ = run_script("show", path)
        lines = ["CASE from 3 to 2, round 2, balanced, 1 update", "KEY from 3 to 2, round 2, balanced, of the responder"]
        lines.append("OK: evidence: 2 lines")
        self.assertEqual((status, out), (0, lines))
        status, out, err = run_script("show", path, "--json")
        self.assertEqual((status, err), (0, lines[-1:]))
        self.assertEqual([line["datagram"]["kind"] for line in json.loads("\n".join(out))["lines"]], ["CASE", "KEY"])

    def test_a_key_without_its_secret(self):
        path = EXAMPLE / "first-path/one-block/key.toml"
        secret = path.read_text().partition('secret = "')[2][:64]
        for words in ([], ["--json"]):
            status, out, err = run_script("show", path, *words)
            self.assertEqual(status, 0)
            self.assertEqual(len(secret), 64)
            self.assertNotIn(secret, "\n".join(out + err))

    def test_the_fingerprint_of_a_text(self):
        path = EXAMPLE / "evidence/session.toml"
        status, out, err = run_script("show", path)
        self.assertEqual((status, out[-2]), (0, f"SHA-256 = {hashlib.sha256(path.read_bytes()).hexdigest()}"), err)

    def test_what_is_refused(self):
        status, _, err = run_script("show", self.room / "none")
        self.assertEqual((status, err), (2, [f"REFUSED: {self.room}/none can't be read: No such file or directory; name a file"]))
        (self.room / "table").write_bytes(made.table(made.manifest(1)))
        status, _, err = run_script("show", self.room / "table")
        told = f"REFUSED: {self.room}/session.toml can't be read: No such file or directory; name the session's text by --session"
        self.assertEqual((status, err), (2, [told]))
        shutil.copy(EXAMPLE / "evidence/session.toml", self.room / "session.toml")
        (self.room / "proof").write_bytes(b"BARP")
        status, _, err = run_script("show", self.room / "proof")
        self.assertEqual((status, err), (2, [f"REFUSED: {self.room}/proof can't be shown: it has no head of a proof file"]))


if __name__ == "__main__":
    unittest.main()
