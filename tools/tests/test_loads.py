"""The datagrams that are put into recordings: which they are, where they stand, and what has to be answered to them."""
import dataclasses
import pathlib
import sys
import unittest

sys.path.insert(0, str(pathlib.Path(__file__).resolve().parent.parent))

from gossip.measures import replay_loads
import made_sessions as made
from gossip.formats.datagrams import Exchange, Update
from gossip.formats.files import Malformed, entries_of
from gossip.measures.replay_loads import Load, Recorded, Said
from made_sessions import SESSION, Diary, Trade, first_tick

ME, PARTNER, THIRD = 1, 2, 3
NOTHING = Load("nothing", {})
# an exchange in which this peer asks, and one in which it's asked
ASKS = Trade.balanced(Exchange(2, False, ME, PARTNER), [[Update(1, 0)], [Update(1, 1)]], [[Update(1, 1)], [Update(1, 0)]])
ASKED = dataclasses.replace(ASKS, exchange=Exchange(2, False, PARTNER, ME))


def request(number, initiator=PARTNER, responder=ME):
    """A REQUEST of this round."""
    return dataclasses.replace(ASKS, exchange=Exchange(number, False, initiator, responder)).request()


def recorded(*groups, answered=()):
    """A recording of these datagrams before the first tick, behind it, and so on, in whose replay these inputs are answered."""
    diary = Diary(ME)
    for tick, group in enumerate(groups):
        diary.until(tick)
        diary.take(*group)
    return Recorded(SESSION, diary.recording(), answered)


class Recordings(unittest.TestCase):
    def test_groups(self):
        first, other = made.manifest(1), request(1)
        read = recorded([], [first, b"junk"], [], [other])
        self.assertEqual((read.party, len(read.entries)), (ME, 6))
        self.assertEqual([[it.number for it in group] for group in read.groups], [[], [2, 3], [], [6]])
        self.assertEqual(read.ends, [0, 3, 4, 6])
        self.assertEqual([it.message is None for it in read.groups[1]], [False, True])

    def test_nothing_is_added(self):
        read = recorded([made.manifest(1)], [request(1)], [b"junk"])
        self.assertEqual(entries_of(replay_loads.longer(read, NOTHING)), (read.entries, True))

    def test_what_is_added(self):
        read = recorded([b"first"], [b"second", b"third"])
        load = Load("some", {0: (b"model", 2), 3: (b"other", 1), 4: (b"last", 1)})
        wanted = [b"model", b"model", b"first", None, b"second", b"other", b"third", b"last"]
        self.assertEqual(entries_of(replay_loads.longer(read, load)), (wanted, True))
        self.assertEqual((load.total, NOTHING.total), (4, 0))

    def test_other_signatures(self):
        copies = Load("some", {2: (bytes(9), 3)}, is_forged=True).before(2)
        self.assertEqual(copies, [bytes(8) + bytes([number]) for number in (1, 2, 3)])


class Models(unittest.TestCase):
    """What is put behind the datagrams of each tick."""

    def test_repeated_requests(self):
        read = recorded([], [], [request(1)], [request(1, ME, THIRD)], *[[]] * 14, answered=[3])
        self.assertEqual(replay_loads.repeated_requests(read), [None] * 2 + [request(1)] * 15 + [None])

    def test_requests_that_are_not_answered(self):
        read = recorded([request(1)], [ASKED.case(True)], [request(1, THIRD)], answered=[3])
        self.assertEqual(replay_loads.repeated_requests(read), [None] * 3)

    def test_manifests(self):
        one, two = made.manifest(1), made.manifest(2)
        read = recorded([], [one], [], [one, two], [request(1)])
        self.assertEqual(replay_loads.past_manifests(read), [None, one, one, two, two])
        self.assertEqual(replay_loads.coming_manifests(read), [one, two, two, None, None])

    def test_keys_before_the_case_of_their_sender(self):
        other = dataclasses.replace(ASKS, exchange=Exchange(2, False, ME, THIRD))
        groups = [[], [ASKS.answer()], [ASKS.case(False)], [ASKS.key(False)], [other.case(False), other.key(False)], []]
        self.assertEqual(replay_loads.early_keys(recorded(*groups)), [ASKS.key(False)] * 2 + [other.key(False)] * 2 + [None] * 2)

    def test_keys_that_came_already(self):
        self.assertEqual(replay_loads.early_keys(recorded([ASKS.key(False)], [], [ASKS.case(False)], [ASKS.key(False)])), [None] * 4)

    def test_keys_of_others(self):
        own, other = ASKS.key(True), dataclasses.replace(ASKS, exchange=Exchange(2, False, THIRD, PARTNER))
        groups = [[], [ASKS.case(True), other.case(False), ASKED.case(False)], [own, other.key(False), ASKED.key(True)]]
        self.assertEqual(replay_loads.early_keys(recorded(*groups)), [None] * 3)


class Repeats(unittest.TestCase):
    def test_keys_after_the_case_of_their_sender(self):
        groups = [[], [ASKS.key(False)], [ASKS.case(False)], [ASKS.key(True), ASKS.key(False)], []]
        self.assertEqual(replay_loads.repeated_keys(recorded(*groups)), [None] * 3 + [ASKS.key(False)] * 2)

    def test_blocks_after_the_manifest_of_their_round(self):
        block, other = made.block(ME, Update(1, 0)), made.block(PARTNER, Update(1, 0))
        self.assertEqual(replay_loads.repeated_blocks(recorded([block], [made.manifest(1)], [other], [block])), [None] * 3 + [block])


class Loads(unittest.TestCase):
    def test_so_many_in_all(self):
        read = recorded([], [b"one"], [], [], [])
        models = [None, b"model", None, b"model", b"other"]
        parts = replay_loads.spread_over(read, models, 7)
        self.assertEqual(parts, {2: (b"model", 2), 4: (b"model", 2), 5: (b"other", 3)})
        self.assertEqual(replay_loads.spread_over(read, [None] * 5, 7), {})

    def test_nothing_behind_the_last_tick(self):
        ticks = SESSION.ticks
        self.assertEqual([*replay_loads.spread_over(recorded(*[[]] * (ticks + 1)), [b"model"] * (ticks + 1), 1000)], [*range(ticks)])

    def test_no_more_in_a_row_than_pacing_lets(self):
        parts = replay_loads.spread_over(recorded([], [b"one", b"two"]), [None, b"model"], 100_000)
        self.assertEqual(parts, {3: (b"model", 65_534)})
        loads = [*replay_loads.request_loads(recorded([], [request(1), b"two"], answered=[2]), 100_000)]
        self.assertEqual([load.parts for load in loads], [{1: (request(1), 65_534)}])

    def requests(self, *numbers):
        """The loads of changed REQUESTs by a recording with REQUESTs of these rounds, in a session of enough rounds."""
        diary = Diary(ME)
        for number in numbers:
            diary.until(first_tick(number))
            diary.take(request(number), request(number, THIRD), request(number))
        answered = [place for place, entry in enumerate(diary.entries, 1) if entry != b"\x01"]
        session = dataclasses.replace(SESSION, rounds=1820)
        return answered, [*replay_loads.request_loads(Recorded(session, diary.recording(), answered), 5)]

    def test_requests_of_a_low_and_a_high_round(self):
        answered, loads = self.requests(3, 40, 70, 900, 1200)
        self.assertEqual([load.told for load in loads], ["request of round 40", "request of round 900"])
        self.assertEqual([load.parts for load in loads], [{answered[at] - 1: (request(n), 5)} for at, n in ((3, 40), (9, 900))])
        self.assertTrue(all(load.is_forged and not load.answers for load in loads))

    def test_requests_of_one_round(self):
        self.assertEqual([load.told for load in self.requests(3, 5)[1]], ["request of round 5"])
        self.assertEqual(self.requests()[1], [])

    def test_all_loads(self):
        read = recorded([made.manifest(1)], [request(1)], [made.manifest(2)], [ASKS.case(False)], [ASKS.key(False)], answered=[3])
        loads = [*replay_loads.loads_of(read, 12)]
        again = ["block again", "key again", "query again", "divulge again"]
        self.assertEqual([load.told for load in loads], ["repeated", "forged", "verified", "early", *again, "request of round 1"])
        self.assertEqual([load.total for load in loads], [12] * 4 + [0, 12, 0, 0, 12])
        self.assertEqual([load.answers for load in loads], [1] + [0] * 5 + [2, 1, 0])


class Answers(unittest.TestCase):
    recording = replay_loads.longer(recorded([], [b"one"], [b"two"]), NOTHING)
    # its inputs are a tick, a datagram, a tick, a datagram
    lines = ["2 2 aa", "4 2 bb", "4 3 cc"]

    def said(self, lines, recording=None):
        return replay_loads.said_in(iter(lines), recording or self.recording)

    def test_what_is_said(self):
        said = self.said(self.lines)
        self.assertEqual((said.lines, said.answered), (3, {2, 4}))
        self.assertEqual(said, self.said(self.lines))
        for other in (["2 2 aa", "3 2 bb", "4 3 cc"], ["2 2 aa", "4 2 bb", "4 2 cc"], ["2 2 aa", "4 2 bc", "4 3 cc"], self.lines[:2]):
            self.assertEqual(self.said(other).digest == said.digest, other == ["2 2 aa", "3 2 bb", "4 3 cc"], other)
        self.assertEqual(self.said([]).lines, 0)

    def test_the_same_is_said_behind_other_inputs(self):
        longer = replay_loads.longer(recorded([], [b"one"], [b"two"]), Load("some", {1: (b"more", 2), 3: (b"more", 1)}))
        self.assertEqual(self.said(["4 2 aa", "7 2 bb", "7 3 cc"], longer).digest, self.said(self.lines).digest)
        self.assertNotEqual(self.said(["4 2 aa", "4 2 bb", "7 3 cc"], longer).digest, self.said(self.lines).digest)

    def test_lines_that_are_none(self):
        for line in ("5 2 aa", "0 2 aa", "-1 2 aa", "x 2 aa", "2 2 a"):
            with self.assertRaises(Malformed, msg=line):
                self.said([line])

    def test_datagrams_that_are_answered_by_nothing(self):
        alone, load = Said(3, frozenset({1}), b"digest"), Load("some", {0: (b"model", 2)})
        self.assertIsNone(replay_loads.fault_of(load, alone, alone))
        told = replay_loads.fault_of(load, alone, dataclasses.replace(alone, lines=4))
        self.assertEqual(told, "some: the transcript has 4 lines instead of 3")
        told = replay_loads.fault_of(load, alone, dataclasses.replace(alone, digest=b"other"))
        self.assertEqual(told, "some: the transcript says other things than that of the recording alone")

    def test_datagrams_that_are_answered(self):
        alone, load = Said(3, frozenset({1}), b"digest"), Load("some", {0: (b"model", 2)}, answers=1)
        self.assertIsNone(replay_loads.fault_of(load, alone, Said(5, frozenset({1}), b"other")))
        self.assertEqual(replay_loads.fault_of(load, alone, alone), "some: the transcript has 3 lines instead of 5")


if __name__ == "__main__":
    unittest.main()
