"""The parsers of the tools, on the examples and on what is made up or cut."""
import dataclasses
import io
import itertools
import re
import tomllib
import unittest

from support import ID, ROOT, datagram

from gossip.formats import files
from gossip.formats.files import KeyFile, Malformed, Session

EXAMPLE = ROOT / "examples/first-path/one-block"
SESSION = (EXAMPLE / "session.toml").read_bytes()
KEY = (EXAMPLE / "key.toml").read_bytes()
RECORDING = (EXAMPLE / "recording").read_bytes()
# the example's session, with keys of two levels
LONG = SESSION.replace(b"lms = 6", b"top = 5\nlms = 5").replace(b'key = "00000006', b'key = "0000000200000005')


class Texts(unittest.TestCase):
    def fault_of(self, reader, text):
        with self.assertRaises(Malformed) as fault:
            reader(text)
        return str(fault.exception)

    def test_session_of_the_example(self):
        session = Session.of_text(SESSION)
        self.assertEqual((session.id, session.rounds, session.life, session.peers), ("cf560a3b8df7f16f", 10, 4, 2))
        self.assertEqual((session.parties, session.ends, session.seconds, session.room), ([1, 2, 0], 15, 2.4, 10 * 8 * 1022))

    def test_digits_of_both_cases(self):
        self.assertEqual(Session.of_text(SESSION.replace(b"cf560a3b8df7f16f", b"CF560A3B8DF7F16F")).id, "cf560a3b8df7f16f")

    def test_sessions_of_all_versions(self):
        for version, most in ((1, 64), (2, 128), (3, 128)):
            text = SESSION.replace(b"version = 1", b"version = %d" % version)
            session = Session.of_text(text.replace(b"per_round = 8", b"per_round = %d" % most))
            self.assertEqual((session.version, session.per_round, session.room), (version, most, 10 * most * 1022))
            fault = self.fault_of(Session.of_text, text.replace(b"per_round = 8", b"per_round = %d" % (most + 1)))
            self.assertEqual(fault, f"per_round is {most + 1}: it has to be a whole number of 1 to {most} in version {version}")

    def test_versions_that_are_none(self):
        told = {"0": "0", "4": "4", "true": "True", "1.0": "1.0", '"2"': "'2'", "[1]": "[1]"}
        for version, shown in told.items():
            fault = self.fault_of(Session.of_text, SESSION.replace(b"version = 1", f"version = {version}".encode()))
            self.assertEqual(fault, f"its version is {shown}: it has to be 1, 2 or 3")
        self.assertEqual(self.fault_of(Session.of_text, SESSION.replace(b"version = 1", b"")), "its version is missing")

    def test_a_key_file_has_version_1(self):
        self.assertEqual(self.fault_of(KeyFile.of_text, KEY.replace(b"version = 1", b"version = 2")), "its version is 2: it has to be 1")

    def test_each_number_out_of_its_range(self):
        names = ["rounds", "life", "cap", "per_round", "fanout", "port", "tick_ms", "lms", "ots"]
        bounds = {name: (files.NUMBERS[name].least, files.NUMBERS[name].most) for name in names}
        for name, value in ((name, value) for name in names for value in (bounds[name][0] - 1, bounds[name][1] + 1, "true", "1.0", '"1"')):
            with self.subTest(name=name, value=value):
                fault = self.fault_of(Session.of_text, self.changed(name, f"{name} = {value}\n"))
                self.assertTrue(fault.startswith(f"{name} is "), fault)

    def changed(self, name, line):
        """The example's text with another line for a number."""
        return SESSION.replace(f"{name} = {tomllib.loads(SESSION.decode())[name]}\n".encode(), line.encode())

    def test_each_number_missing(self):
        for name in ("rounds", "life", "cap", "per_round", "fanout", "port", "tick_ms", "lms", "ots"):
            self.assertEqual(self.fault_of(Session.of_text, self.changed(name, "")), f"{name} is missing")

    def test_bounds_of_ranges_are_taken(self):
        names = ["life", "cap", "port", "tick_ms"]
        bounds = {name: (files.NUMBERS[name].least, files.NUMBERS[name].most) for name in names}
        for name, value in ((name, value) for name in names for value in bounds[name]):
            self.assertEqual(getattr(Session.of_text(self.changed(name, f"{name} = {value}\n")), name), value)

    def test_fanout_above_the_number_of_peers(self):
        fault = self.fault_of(Session.of_text, SESSION.replace(b"fanout = 2", b"fanout = 3"))
        self.assertEqual(fault, "fanout is 3: it has to be a whole number of 1 to 2, the number of peers")

    def test_too_few_leaves(self):
        fault = self.fault_of(Session.of_text, SESSION.replace(b"rounds = 10", b"rounds = 57"))
        wanted = "57 rounds need 1,026 leaves, and a key of LMS type 6 has 1,024: take LMS type 7, or at most 56 rounds"
        self.assertEqual(fault, wanted)
        self.assertEqual(Session.of_text(SESSION.replace(b"rounds = 10", b"rounds = 56")).rounds, 56)

    def test_all_faults_are_told(self):
        text = SESSION.replace(b"cap = 4", b"cap = 0").replace(b"life = 4", b"life = 1").replace(b'id = "cf', b'id = "xy')
        self.assertEqual(len(self.fault_of(Session.of_text, text).split("; ")), 3)

    def test_keys_of_a_session(self):
        fault = self.fault_of(Session.of_text, SESSION.replace(b'anchor = "26', b'anchor = "2'))
        self.assertEqual(fault, "peer 1 anchor isn't a text of 64 hex digits")
        fault = self.fault_of(Session.of_text, SESSION.replace(b'\nkey = "', b'\nkey = "z', 1))
        self.assertEqual(fault, "key isn't a text of 112 hex digits")

    def test_keys_of_other_types_or_parties(self):
        fault = self.fault_of(Session.of_text, SESSION.replace(b"lms = 6", b"lms = 7"))
        self.assertEqual(fault, "; ".join(f"{name} isn't of the types lms and ots" for name in ("key", "peer 1 key", "peer 2 key")))
        head, first, second = SESSION.split(b"\n[[peer]]\n")
        fault = self.fault_of(Session.of_text, b"\n[[peer]]\n".join([head, second, second]))
        self.assertEqual(fault, "peer 2 key is peer 1 key too")

    def test_session_of_two_levels(self):
        session = Session.of_text(LONG)
        self.assertEqual((session.top, session.lms, session.rounds, Session.of_text(SESSION).top), (5, 5, 10, None))
        changes = {b"top = 5": b"top = 4", b"lms = 5": b"lms = 6", b"ots = 4": b"ots = 2", b"rounds = 10": b"rounds = 7201"}
        ranges = ["top is 4: it has to be a whole number of 5 to 7", "lms is 6: it has to be 5 with top"]
        ranges += ["ots is 2: it has to be a whole number of 3 to 4 with top"]
        ranges += ["rounds is 7201: it has to be a whole number of 1 to 7,200 with top"]
        self.assertEqual([self.fault_of(Session.of_text, LONG.replace(*change)) for change in changes.items()], ranges)

    def test_too_few_leaves_of_two_levels(self):
        fault = self.fault_of(Session.of_text, LONG.replace(b"rounds = 10", b"rounds = 57"))
        self.assertEqual(fault, "57 rounds need 1,026 leaves, and a key of top 5 has 1,024: take top 6, or at most 56 rounds")
        for top, rounds in ((5, 56), (6, 1820), (7, 7200)):
            text = re.sub(b'key = "0{7}20{7}5', b'key = "00000002%08x' % top, LONG.replace(b"top = 5", b"top = %d" % top))
            self.assertEqual(Session.of_text(text.replace(b"rounds = 10", b"rounds = %d" % rounds)).rounds, rounds)
        fault = self.fault_of(Session.of_text, text.replace(b"top = 7", b"top = 6").replace(b"rounds = 10", b"rounds = 1821"))
        self.assertTrue(fault.startswith("1,821 rounds need 32,778 leaves, and a key of top 6 has 32,768: take top 7"), fault)

    def test_keys_of_two_levels(self):
        fault = self.fault_of(Session.of_text, SESSION.replace(b"lms = 6", b"lms = 5\ntop = 5"))
        self.assertTrue(fault.startswith("key isn't a text of 120 hex digits"), fault)
        for old, new in ((b"0000000200000005", b"0000000100000005"), (b"0000000200000005", b"0000000200000006")):
            fault = self.fault_of(Session.of_text, LONG.replace(old, new))
            self.assertTrue(fault.startswith("key isn't of the types top and ots"), fault)

    def test_key_file_of_two_levels(self):
        key = KeyFile.of_text(KEY.replace(b"lms = 6", b"lms = 5").replace(b"ots = 4\n", b"ots = 4\ntop = 5\n"))
        self.assertEqual((key.top, [*key.faults(Session.of_text(LONG), 1)]), (5, []))
        other = dataclasses.replace(Session.of_text(LONG), top=None)
        self.assertEqual([*key.faults(other, 1)], ["it has another top than party 1 of the session"])

    def test_what_is_no_text(self):
        texts = [b"\xff", b"version = ", b"x = [" * 2000, b"version = 2", b"version = true", b"", b"version = 1\npeer = 1"]
        for text, reader in itertools.product(texts, (Session.of_text, KeyFile.of_text)):
            with self.subTest(text=text[:20], reader=reader.__qualname__):
                self.fault_of(reader, text)

    def test_session_cut_at_every_byte(self):
        whole = Session.of_text(SESSION)
        for end in range(len(SESSION) - 2):
            with self.assertRaises(Malformed):
                Session.of_text(SESSION[:end])
        self.assertEqual(Session.of_text(SESSION.rstrip()), whole)

    def test_key_file_of_the_example(self):
        self.assertEqual(KeyFile.of_text(KEY), KeyFile("cf560a3b8df7f16f", 1, 10, 6, 4, False))
        self.assertTrue(KeyFile.of_text(KEY.replace(b"spent = false", b"spent = true")).spent)

    def test_key_file_of_another_session_or_party(self):
        session, key = Session.of_text(SESSION), KeyFile.of_text(KEY)
        self.assertEqual([*key.faults(session, 1)], [])
        self.assertEqual([*key.faults(session, 2)], ["it has another party than party 2 of the session"])

    def test_faults_of_a_key_file(self):
        self.assertEqual(self.fault_of(KeyFile.of_text, KEY.replace(b"party = 1", b"party = 201")).split(":")[0], "party is 201")
        self.assertEqual(self.fault_of(KeyFile.of_text, KEY.replace(b"false", b"0")), "spent is neither true nor false")
        self.assertEqual(self.fault_of(KeyFile.of_text, KEY.replace(b'"6dff', b'"6df')), "secret isn't a text of 64 hex digits")


class Rooms(unittest.TestCase):
    def fault_of(self, length, *numbers):
        """What refuses a stream in a session of a version, so many rounds, so many updates a round and an LMS type."""
        return next(files.Room(*numbers).faults(length), None)

    def test_stream_that_fills_its_room(self):
        self.assertIsNone(self.fault_of(10 * 8 * 1022, 1, 10, 8, 6))

    def test_stream_of_a_byte_more(self):
        fault = self.fault_of(10 * 8 * 1022 + 1, 1, 10, 8, 6)
        told = "the stream has 81,761 bytes, and 10 rounds of 8 updates have room for 81,760: "
        self.assertEqual(fault, told + "take 11 rounds of 8 updates or 10 rounds of 9 updates")

    def test_more_rounds_with_a_higher_type(self):
        told = "take 57 rounds of 1 update with LMS type 7 or 1 round of 57 updates"
        self.assertTrue(self.fault_of(57 * 1022, 1, 1, 1, 5).endswith(told))

    def test_more_updates_with_version_2(self):
        told = "take 65 rounds of 1 update with LMS type 7 or 1 round of 65 updates"
        self.assertTrue(self.fault_of(65 * 1022, 1, 1, 1, 5).endswith(f"{told} with version 2"))
        self.assertTrue(self.fault_of(65 * 1022, 2, 1, 1, 5).endswith(told))
        told = "take 114 rounds of 64 updates with LMS type 7 or 57 rounds of 128 updates with version 2 and LMS type 7"
        self.assertTrue(self.fault_of(57 * 128 * 1022, 1, 56, 64, 6).endswith(told))

    def test_only_both_together(self):
        told = "take 47 rounds of 64 updates or 24 rounds of 128 updates with version 2"
        self.assertTrue(self.fault_of(3000 * 1022, 1, 1, 1, 7).endswith(told))
        self.assertTrue(self.fault_of(3000 * 1022, 2, 1, 1, 7).endswith("take 24 rounds of 128 updates"))

    def test_larger_than_every_room(self):
        told = "at most 941,875,200 bytes, the room of the longest session"
        for version, lms, *top in ((1, 7), (2, 7), (2, 5, 7)):
            self.assertTrue(self.fault_of(7200 * 128 * 1022 + 1, version, 1, 1, lms, *top).endswith(told))

    def test_more_rounds_with_two_levels(self):
        self.assertTrue(self.fault_of(1820 * 128 * 1022 + 1, 2, 1, 1, 7).endswith("take 1,821 rounds of 128 updates with top 7"))
        told = "take 57 rounds of 1 update with top 6 or 1 round of 57 updates"
        self.assertTrue(self.fault_of(57 * 1022, 1, 1, 1, 5, 5).endswith(told))
        self.assertTrue(self.fault_of(57 * 1022, 1, 1, 1, 5, 6).endswith(told.replace(" with top 6", "")))


class Recordings(unittest.TestCase):
    def test_recording_of_the_example(self):
        entries, whole = files.entries_of(RECORDING)
        self.assertTrue(whole and files.is_whole(io.BytesIO(RECORDING)))
        self.assertEqual((entries.count(None), len(entries)), (120, 122))
        self.assertEqual(files.recording_of(RECORDING[:15], entries), RECORDING)
        self.assertEqual(files.whole_recording(RECORDING), RECORDING)

    def test_recording_cut_at_every_byte(self):
        entries, _ = files.entries_of(RECORDING)
        for end in range(len(RECORDING)):
            front, whole = files.entries_of(RECORDING[:end])
            self.assertFalse(whole or files.is_whole(io.BytesIO(RECORDING[:end])))
            self.assertEqual(front, entries[: len(front)])
            if end >= 15:
                self.assertEqual(files.entries_of(files.whole_recording(RECORDING[:end])), (front, True))

    def test_what_stands_behind_the_end(self):
        self.assertFalse(files.entries_of(RECORDING + b"\x00")[1])
        self.assertFalse(files.entries_of(RECORDING[:-1] + b"\x03")[1])

    def test_an_empty_datagram(self):
        self.assertEqual(files.entries_of(bytes(15) + b"\x02\x00\x00\x01\x00"), ([b"", None], True))


class Others(unittest.TestCase):
    def test_transcript(self):
        self.assertEqual([*files.transcript_of("1 2 ba47\n12 0 00\n")], [(1, 2, b"\xba\x47"), (12, 0, b"\x00")])
        for printed in ("1 2\n", "1 2 3\n", "x 2 ba\n", "1 2 ba 3\n", "\n"):
            with self.subTest(printed=printed), self.assertRaises(Malformed):
                [*files.transcript_of("1 2 ba\n" + printed)]

    def test_table(self):
        table = (ROOT / "examples/evidence/table").read_bytes()
        manifests = [*files.manifests_of(table)]
        self.assertEqual([int.from_bytes(manifest[16:20], "big") for _, manifest in manifests], [1, 2, 4, 6])
        self.assertEqual(b"".join(len(it).to_bytes(2, "big") + it for _, it in manifests), table)
        self.assertEqual([table[place + 2 : place + 5] for place, _ in manifests], [b"\xba\x47\x01"] * len(manifests))

    def test_table_cut_at_every_byte(self):
        table = b"\x00\x01a\x00\x02bc"
        for end in (1, 2, 4, 5, 6):
            with self.assertRaises(Malformed):
                [*files.manifests_of(table[:end])]
        self.assertEqual([*files.manifests_of(table[:3])], [(0, b"a")])

    def test_names_of_findings(self):
        found = {"party.1.table": (1, "table"), "party.0.12": (0, "12"), "party.12.3": (12, "3")}
        others = ["party.1.played", "party.1.4.bak", "party.1", "party.x.4", "party.1.table2", "aparty.1.4", "party.1.4\n"]
        self.assertEqual({name: files.finding_of(name) for name in [*found, *others]}, found | dict.fromkeys(others))

    def test_heads_of_datagrams(self):
        session = Session(1, ID, 2, 2, 1, 1, 1, 20_000, 20, 5, 3, 2)
        whole = datagram(8, 1, 65_535)
        self.assertEqual(files.head_of(whole, session), (8, 1, 65_535))
        self.assertEqual({files.head_of(whole[:end], session) for end in range(16)}, {None})
        for at in range(12):
            changed = whole[:at] + bytes([whole[at] ^ 1]) + whole[at + 1 :]
            self.assertEqual(files.head_of(changed, session), (9, 1, 65_535) if at == 3 else None)

    def test_datagrams_of_another_version(self):
        session = Session(1, ID, 2, 2, 1, 1, 1, 20_000, 20, 5, 3, 2)
        sessions = {1: session, 2: dataclasses.replace(session, version=2)}
        for (version, each), named in itertools.product(sessions.items(), range(4)):
            head = files.head_of(b"\xba\x47" + bytes([named]) + datagram(8, 1, 2)[3:], each)
            self.assertEqual(head, (8, 1, 2) if named == version else None)


if __name__ == "__main__":
    unittest.main()
