"""What peers lacked of a stream, and why."""
import dataclasses
import unittest

import support  # noqa: F401
from made_runs import busy_run

from gossip.reports import lacking
from gossip.reports.lacking import Lacking


def short_run(lacked, **peers):
    """A run of three peers over four rounds in which they played all but these updates, each of a peer, and peers are changed so."""
    run = busy_run(3, 4, per_round=2)
    rows = {row.peer: [] for row in run.peers}
    example = run.updates[0]
    for peer in rows:
        names = [(release.round, release.index) for release in run.releases]
        rows[peer] = [dataclasses.replace(example, peer=peer, round=it[0], index=it[1]) for it in names if (peer, *it) not in lacked]
    run.updates = [row for each in rows.values() for row in each]
    for row in run.peers:
        for name, value in peers.get(f"peer{row.peer}", {}).items():
            setattr(row, name, value)
    return run


class Lines(unittest.TestCase):
    def test_nothing_is_lacking(self):
        self.assertEqual([*lacking.lines_of(short_run([]), {})], [])

    def test_each_cause(self):
        run = short_run([(1, 4, 0), (1, 4, 1), (2, 4, 0), (2, 1, 0), (3, 2, 1), (3, 3, 1)])
        self.assertEqual(lacking.lacking(run, {2: 7, 3: 0}), Lacking(3, 1, 2))
        told = "peers lacked 3 updates of the last round, whose updates can't be traded "
        told += "(let the stream end a round earlier, or take --fanout 3), "
        told += "1 update where a receive buffer ran over and lost datagrams and 2 updates that didn't come in time"
        self.assertEqual([*lacking.lines_of(run, {2: 7, 3: 0})], [told])

    def test_peers_that_are_not_counted(self):
        lacked = [(peer, 1, 0) for peer in (1, 2, 3)]
        run = short_run(lacked, peer1={"lies": True}, peer2={"whole": False}, peer3={"refused": "it left no recording"})
        self.assertEqual(lacking.lacking(run, {}), Lacking())

    def test_updates_without_bytes(self):
        run = short_run([(1, 1, 0), (2, 1, 0), (3, 1, 0)])
        run.releases[0] = dataclasses.replace(run.releases[0], bytes=0)
        self.assertEqual(lacking.lacking(run, {}), Lacking())


if __name__ == "__main__":
    unittest.main()
