"""What is required of a session that was attacked."""
import unittest

from support import RoomCase

from gossip.attacks import honest
import made_sessions as made
from gossip.programs.bar import Ran
from gossip.sessions.session_folder import Folder

STREAM = b"".join(bytes([number]) * 1022 for number in range(5))


class Ends(unittest.TestCase):
    def faults(self, killed=2, said=b"ticks 40 sent 3\n", **statuses):
        ended = {1: 0, 2: 137, 0: 0} | {int(name[1:]): status for name, status in statuses.items()}
        return [*honest.end_faults({party: Ran(status, said if party == 0 else b"", b"") for party, status in ended.items()}, killed)]

    def test_all_is_well(self):
        self.assertEqual(self.faults(), [])

    def test_statuses_that_are_others(self):
        told = ["party 1: status 6: the link failed in place of 0", "party 2: status 0: all was done in place of 137"]
        self.assertEqual(self.faults(p1=6, p2=0), told)

    def test_parties_that_are_evicted(self):
        said = b"ticks 40 sent 3\nevicted 1\nevicted 2\n"
        self.assertEqual(self.faults(said=said), ["the broadcaster evicted 1 and evicted 2, who kept the rules"])


class Streams(RoomCase):
    def test_pieces_in_order(self):
        for pieces, wanted in (([], True), ([0, 1, 2, 3, 4], True), ([1, 4], True), ([4, 1], False), ([1, 1], False), ([9], False)):
            self.assertEqual(honest.is_of_stream(b"".join(bytes([it]) * 1022 for it in pieces), STREAM), wanted)

    def test_what_peers_played(self):
        folder = Folder(self.room)
        folder.stream.write_bytes(STREAM)
        folder.played(1).write_bytes(STREAM[1022:])
        folder.played(2).write_bytes(STREAM[:1022] + STREAM[2044:3000])
        folder.played(3).write_bytes(STREAM[:1022] + STREAM[:1022])
        self.assertEqual([*honest.played_faults(folder, [1, 2, 3])], ["party 3: what it played isn't of the stream"])

    def test_what_parties_found(self):
        folder = Folder(self.room)
        tables = {0: made.table(made.manifest(1), made.manifest(2)), 1: made.table(made.manifest(2)), 2: b""}
        for party, table in tables.items():
            (self.room / f"party.{party}.table").write_bytes(table)
        self.assertEqual([*honest.found_faults(folder)], [])
        (self.room / "party.1.table").write_bytes(made.table(made.manifest(3)))
        (self.room / "party.2.1").write_bytes(made.evidence(made.manifest(1)))
        told = ["party 1: its table has a manifest that the broadcaster didn't sign"]
        told += ["party 2: it keeps evidence against party 1, who kept the rules"]
        self.assertEqual([*honest.found_faults(folder)], told)


if __name__ == "__main__":
    unittest.main()
