"""Captures of a session: their packets by themselves, and by tshark with the dissector, skipped where there is no tshark."""
import collections
import io
import pathlib
import shutil
import struct
import subprocess
import sys
import unittest

sys.path.insert(0, str(pathlib.Path(__file__).resolve().parent.parent))

import made_sessions as made
from made_sessions import LONG, SESSION, WIDE, WIDE_PLAIN, Diary, Trade
from support import ROOT, RoomCase, run_script
from test_data import small_run

from gossip.formats import captures, dissector
from gossip.formats.datagrams import Exchange, Update
from gossip.formats.files import EVIDENCE, Malformed, entries_of
from gossip.formats.grammar import GRAMMAR

TSHARK = shutil.which("tshark")


def packets_in(capture):
    """The packets of a capture, each with its time in microseconds."""
    at, found = 24, []
    while at < len(capture):
        seconds, rest, size, whole = struct.unpack_from("<IIII", capture, at)
        assert size == whole
        found.append((1_000_000 * seconds + rest, capture[at + 16 : at + 16 + size]))
        at += 16 + size
    return found


def captured(recordings, session=SESSION, begin=0):
    file = io.BytesIO()
    return captures.write_capture(file, session, recordings, begin), file.getvalue()


class Packets(unittest.TestCase):
    def test_each_datagram_stands_once_with_its_ports_and_its_time(self):
        diary = Diary(2)
        diary.until(3)
        diary.take(made.manifest(1), b"strange")
        diary.until(4)
        diary.take(made.block(2, Update(1, 0)))
        count, capture = captured({2: diary.recording()}, begin=1_000)
        tick, packets = 1000 * SESSION.tick_ms, packets_in(capture)
        self.assertEqual((count, struct.unpack_from("<IHH", capture), capture[20]), (3, (0xA1B2C3D4, 2, 4), 101))
        times = 2 * tick + tick // 3, 2 * tick + 2 * tick // 3, 3 * tick + tick // 2
        self.assertEqual([time for time, _ in packets], [1_000_000 + time for time in times])
        self.assertEqual([struct.unpack_from(">HH", it, 20) for _, it in packets], [(21000, 21002), (0, 21002), (21000, 21002)])
        self.assertEqual([it[28:] for _, it in packets], [made.manifest(1), b"strange", made.block(2, Update(1, 0))])

    def test_heads_have_right_lengths_and_checksums(self):
        _, capture = captured(small_run()[0])
        for _, packet in packets_in(capture):
            self.assertEqual(struct.unpack_from(">H", packet, 2)[0], len(packet))
            self.assertEqual(struct.unpack_from(">H", packet, 24)[0], len(packet) - 20)
            total = sum(struct.unpack(">10H", packet[:20]))
            self.assertEqual((total & 0xFFFF) + (total >> 16), 0xFFFF)

    def test_packets_stand_in_the_order_of_time(self):
        times = [time for time, _ in packets_in(captured(small_run()[0])[1])]
        self.assertEqual(times, sorted(times))

    def test_a_recording_of_another_session_is_refused(self):
        with self.assertRaises(Malformed):
            captured({1: b"BARL\1" + bytes(11)})


class Script(RoomCase):
    def test_a_session_is_exported(self):
        (self.room / "session.toml").write_bytes((ROOT / "examples/first-path/one-block/session.toml").read_bytes())
        recording = (ROOT / "examples/first-path/one-block/recording").read_bytes()
        (self.room / "party.1.recording").write_bytes(recording)
        status, out, err = run_script("export-pcap", self.room, self.room / "f.pcap", "--dissector", self.room / "bar.lua")
        packets = packets_in((self.room / "f.pcap").read_bytes())
        self.assertEqual((status, out), (0, [f"OK: {len(packets)} packets of 1 peer in {self.room}/f.pcap"]), err)
        self.assertEqual([it[28:] for _, it in packets], [it for it in entries_of(recording)[0] if it is not None])
        self.assertIn('Proto("bar", ', (self.room / "bar.lua").read_text())

    def test_what_is_refused(self):
        status, _, err = run_script("export-pcap", self.room, self.room / "f.pcap")
        self.assertEqual(status, 2, err)
        (self.room / "session.toml").write_bytes((ROOT / "examples/first-path/one-block/session.toml").read_bytes())
        status, _, err = run_script("export-pcap", self.room, self.room / "f.pcap")
        self.assertEqual((status, err), (2, [f"REFUSED: {self.room} has no recording: name the folder of a session that was run"]))
        shutil.copy(ROOT / "examples/first-path/one-block/recording", self.room / "party.1.recording")
        (self.room / "f.pcap").write_text("another file")
        status, _, err = run_script("export-pcap", self.room, self.room / "f.pcap")
        told = f"REFUSED: {self.room}/f.pcap is there and isn't a capture: name another file, or move it away"
        self.assertEqual((status, err, (self.room / "f.pcap").read_text()), (2, [told], "another file"))
        status, _, err = run_script("export-pcap", self.room, self.room / "new.pcap", "--begin", 10**16)
        self.assertEqual((status, (self.room / "new.pcap").exists()), (2, False), err)
        (self.room / "party.1.recording").write_bytes(b"another file")
        status, _, err = run_script("export-pcap", self.room, self.room / "new.pcap")
        self.assertEqual((status, (self.room / "new.pcap").exists()), (2, False), err)


def trade_in(session, blocks):
    """A balanced exchange in a session of these blocks, of an update for another."""
    one, other = Update(1, 1), Update(1, 3)
    return Trade.balanced(Exchange(2, False, 1, 2), [[one], [other]], [[other], [one]], blocks, session)


@unittest.skipUnless(TSHARK, "there is no tshark")
class Dissector(RoomCase):
    def read(self, session, recordings, *fields):
        """What tshark reads of these fields, of each packet."""
        (self.room / "f.pcap").write_bytes(captured(recordings, session)[1])
        (self.room / "bar.lua").write_text(dissector.dissector_of(session))
        words = [TSHARK, "-r", self.room / "f.pcap", "-X", f"lua_script:{self.room}/bar.lua", "-T", "fields"]
        ran = subprocess.run([*words, *(word for field in fields for word in ("-e", field))], capture_output=True, text=True, timeout=60)
        self.assertNotIn("Lua", ran.stderr)
        return [line.split("\t") for line in ran.stdout.splitlines()]

    def test_it_reads_what_the_recordings_have(self):
        recordings, _ = small_run()
        read = self.read(SESSION, recordings, "bar.kind", "bar.from", "udp.dstport", "bar.round", "bar.cut")
        taken = [(party, it) for party, recording in recordings.items() for it in entries_of(recording)[0] if it is not None]
        told = [(str(it[3]), str(it[13]), str(SESSION.port + party), str(int.from_bytes(it[16:20], "big")), "") for party, it in taken]
        self.assertEqual(collections.Counter(map(tuple, read)), collections.Counter(told))
        self.assertGreater(len({kind for kind, *_ in told}), 5)

    def test_sessions_of_version_2_and_of_two_levels(self):
        for session, blocks in ((WIDE, WIDE_PLAIN), (LONG, made.PLAIN)):
            trade, diary = trade_in(session, blocks), Diary(1, session)
            diary.take(made.manifest(1, blocks, session), trade.request(), trade.case(False), trade.key(False), trade.key(False) + b"\0")
            read = self.read(session, {1: diary.recording()}, "bar.kind", "bar.updates", "bar.nonce", "bar.cut")
            kinds = ["1", "3", "8", "10", "10"]
            self.assertEqual([line[0] for line in read], kinds)
            self.assertEqual(read[2][1:3], ["1", bytes(range(32)).hex()])
            # the signature's length is the session's, which the dissector doesn't know
            self.assertEqual([line[3] if len(line) > 3 else "" for line in read], [""] * 5)

    def test_evidence_and_what_is_cut(self):
        case = trade_in(SESSION, made.PLAIN)
        evidence = made.datagram(EVIDENCE, 1, 0, made.evidence(case.case(True), b"no datagram of the session"))
        diary = Diary(1)
        diary.take(evidence, case.case(True)[:90], made.datagram(9, 1, 2, bytes(7)))
        read = self.read(SESSION, {1: diary.recording()}, "bar.kind", "_ws.malformed", "_ws.expert.message")
        self.assertEqual([line[0] for line in read], ["11,8", "8", "9"])
        cut = "another length than its counts give"
        self.assertEqual([cut in line[-1] for line in read], [False, True, True])


class Source(unittest.TestCase):
    def test_it_has_each_field_of_the_grammar(self):
        text = dissector.dissector_of(SESSION)
        for kind in GRAMMAR.values():
            self.assertIn(f'["name"] = "{kind.name}", ["signed"] = {str(kind.is_signed).lower()}', text)
            for field in kind.fields:
                self.assertIn(f'"{dissector.abbreviation(field.name)}"', text)


if __name__ == "__main__":
    unittest.main()
