"""The numbers that are chosen for a session, and what is expected of it."""
import random
import unittest
from unittest import mock

from support import RoomCase, fake_program, run_script

from gossip.formats.files import CONTENT, NUMBERS, Room, Session, faults_of_numbers, names_in
from gossip.measures import experiments
from gossip.scripts import console
from gossip.sessions import choosing, expecting
from gossip.sessions.choosing import DEFAULTS, completed
from gossip.sessions.expecting import BASE, Played

LENGTHS = (0, 1, CONTENT, 60_000)


def faults_of(numbers, length):
    """What refuses a session of these numbers, and a stream of so many bytes in it."""
    names = [*DEFAULTS, *(name for name in choosing.FREE if name in numbers)]
    faults = [*faults_of_numbers(numbers, names)]
    values = [numbers[name] for name in names_in(numbers, ["version", "rounds", "per_round", "lms", "top"])]
    return faults or [*Room(*values).faults(length)]


class Fitting(unittest.TestCase):
    def test_no_number_alone_is_refused(self):
        for name in (*DEFAULTS, *choosing.FREE):
            number = NUMBERS[name]
            values = {number.least, number.most, *random.Random(name).choices(range(number.least, number.most + 1), k=20)}
            tries = ((value, length) for value in values for length in LENGTHS)
            for value, length in tries:
                self.assertEqual(faults_of(completed({name: value}, length), length), [], (name, value, length))

    def test_what_is_given_stays(self):
        given = {"peers": 2, "rounds": 3, "life": 2, "cap": 1, "per_round": 1, "fanout": 1, "tick_ms": 7, "lms": 7, "ots": 4, "version": 2}
        self.assertEqual(completed(given, 10**6), given)

    def test_the_defaults_of_a_small_stream(self):
        self.assertEqual(completed({}, 9 * 8 * CONTENT), DEFAULTS)
        self.assertEqual(choosing.fitted({}, DEFAULTS), {})

    def test_few_peers(self):
        self.assertEqual((completed({"peers": 2})["fanout"], completed({"peers": 4})["fanout"]), (2, 3))
        self.assertEqual(completed({"fanout": 9})["peers"], 9)

    def test_streams_of_all_sizes(self):
        wanted = {9 * 8 * CONTENT + 1: (11, 8, 6), 10**6: (56, 18, 6), 3 * 10**7: (460, 64, 7), 2 * 10**8: (1530, 128, 7)}
        for length, (rounds, per_round, lms) in wanted.items():
            numbers = completed({}, length)
            self.assertEqual((numbers["rounds"], numbers["per_round"], numbers["lms"]), (rounds, per_round, lms))
            self.assertFalse(choosing.has_last_round(choosing.pieces_of(length), numbers))
            self.assertEqual(faults_of(numbers, length), [])

    def test_a_last_round_goes_to_all_peers(self):
        numbers = completed({"lms": 5, "peers": 7}, 600)
        self.assertEqual((numbers["rounds"], numbers["fanout"]), (1, 7))
        self.assertEqual(completed({"rounds": 1, "version": 1}, 64 * CONTENT)["per_round"], 64)
        self.assertEqual(completed({"rounds": 3, "version": 1}, 150 * CONTENT)["per_round"], 50)

    def test_more_rounds_have_larger_keys(self):
        self.assertEqual([completed({"rounds": rounds})["lms"] for rounds in (1, 56, 57, 1820)], [6, 6, 7, 7])
        self.assertEqual(completed({"top": 7, "rounds": 7200})["lms"], 5)

    def test_a_number_out_of_its_range_is_refused(self):
        for given in ({"peers": 1}, {"rounds": 1821}, {"cap": "many"}, {"version": 1, "per_round": 65}, {"peers": 2, "fanout": 3}):
            self.assertEqual(completed(given), DEFAULTS | given)
        for given in ({"top": 5, "rounds": "many"}, {"top": "x", "rounds": 7000}, {"top": 5, "rounds": 7201}, {"top": 5, "ots": 2}):
            self.assertEqual(completed(given), DEFAULTS | {"lms": 5} | given)


class Expecting(RoomCase):
    def share(self, **numbers):
        """What is expected of a session about the base."""
        return expecting.expected(BASE | numbers, 19 * 8 * CONTENT)

    def test_the_tables_of_the_experiments(self):
        tables = expecting.tables_in(expecting.TABLES.read_text("utf-8"))
        self.assertLessEqual({"cap", "fanout", "liars", "life", "loss", "peers"}, {*tables})
        rows = [(name, int(value), played) for name in ("peers", "fanout", "cap", "life") for value, played in tables[name].items()]
        for name, value, played in rows:
            self.assertAlmostEqual(self.share(**{name: value}).mean, played.mean, delta=0.05, msg=f"{name} {value}")

    def test_the_base_is_that_of_the_experiments(self):
        self.assertEqual({name: experiments.BASE[name] for name in BASE}, BASE)

    def test_tables_that_are_missing(self):
        expecting.measured.cache_clear()
        self.addCleanup(expecting.measured.cache_clear)
        for text in (None, "", "| cap | played, mean | least of a peer | most of a peer |"):
            path = self.room / "tables"
            path.unlink(missing_ok=True)
            if text is not None:
                path.write_text(text)
            with mock.patch("gossip.sessions.expecting.TABLES", path):
                (line,) = expecting.lines_of(BASE, 9)
            self.assertRegex(line, "^what to expect isn't known: .*/tables has no tables of experiments: ")

    def test_a_table(self):
        lines = ["| cap | played, mean | least of a peer | most of a peer |", "|---|---|---|---|", "| 2 | 61.4% | 42.0% | 73.7% |"]
        (played,) = expecting.tables_in("\n".join(lines))["cap"].items()
        self.assertEqual((played[0], round(played[1].mean, 3), played[1].least), (2.0, 0.614, 0.42))

    def test_more_of_each_number_plays_no_less(self):
        for name, values in (("fanout", range(1, 21)), ("cap", range(1, 17)), ("life", range(2, 17)), ("rounds", range(20, 60))):
            shares = [self.share(**{name: value}).mean for value in values]
            self.assertEqual(shares, sorted(shares), name)

    def test_the_range_has_the_mean(self):
        shares = (self.share(peers=peers, cap=cap) for peers in (2, 9, 200) for cap in (1, 16))
        for it in (it for it in shares if it.mean < 1):
            self.assertTrue(0 <= it.least <= it.mean <= it.most <= 1, it)

    def test_all_peers_are_sent_all(self):
        self.assertEqual(self.share(fanout=20), expecting.Expected(1, 1, 1))
        told = "peers play all of the stream"
        self.assertEqual((self.share(fanout=20).told, expecting.expected(BASE, 0).told), (told, told))

    def test_the_last_round_is_not_traded(self):
        whole = expecting.expected(BASE | {"rounds": 1}, 8 * CONTENT)
        self.assertEqual([round(share, 9) for share in (whole.mean, whole.least, whole.most)], [0.15, 0.15, 0.15])
        lines = [*expecting.lines_of(BASE | {"rounds": 2}, 9 * CONTENT)]
        self.assertEqual(lines[1], "1 update of the last round can't be traded: take more rounds, or --fanout 20")
        self.assertEqual(len([*expecting.lines_of(BASE | {"rounds": 3}, 9 * CONTENT)]), 1)

    def test_what_lies_beyond(self):
        self.assertEqual(self.share(peers=200).beyond, ("more peers for this fan-out",))
        self.assertEqual(self.share(per_round=64, cap=1).beyond, ("more updates a round for this cap",))
        self.assertTrue(self.share(peers=200).told.endswith("; more peers for this fan-out than was measured"))

    def lossy(self, loss, **numbers):
        """What is expected of a session about the base where so many of a hundred datagrams are lost."""
        return expecting.expected({"version": 3} | BASE | numbers, 19 * 8 * CONTENT, loss)

    def test_losses_of_the_experiments(self):
        tables = expecting.tables_in(expecting.TABLES.read_text("utf-8"))
        for name, version in (("loss", 3), ("loss, version 2", 2)):
            for loss, played in tables[name].items():
                self.assertAlmostEqual(self.lossy(loss, version=version).mean, played.mean, delta=0.05, msg=f"{name} {loss}")

    def test_more_losses_play_no_more(self):
        for numbers in ({}, {"version": 2}, {"fanout": 20}, {"cap": 1}, {"life": 3}):
            shares = [self.lossy(loss, **numbers).mean for loss in range(100)]
            self.assertEqual(shares, sorted(shares, reverse=True), numbers)
            self.assertLess(shares[30], shares[0])

    def test_nothing_lost_is_no_loss(self):
        self.assertEqual(self.lossy(0), self.share())

    def test_losses_beyond_what_was_measured(self):
        self.assertEqual((self.lossy(50).beyond, self.lossy(51).beyond), ((), ("more losses",)))

    def test_the_line_names_the_losses(self):
        (line,) = expecting.lines_of(BASE | {"version": 3}, 9 * CONTENT, 12.5)
        self.assertTrue(line.endswith(", if no party is late and 12.5% of datagrams are lost"), line)

    def test_between_points(self):
        points = [(2, 20), (1, 10)]
        self.assertEqual([expecting.between(points, place) for place in (0, 1, 1.5, 2, 3)], [10, 10, 15, 20, 20])

    def test_shares_and_their_odds(self):
        for share in (0.01, 0.5, 0.9):
            self.assertAlmostEqual(expecting.share_of(expecting.odds_of(share)), share)
        self.assertAlmostEqual(expecting.limited(0.8, expecting.limit_by(0.5, 0.8)), 0.5)
        self.assertEqual(expecting.odds_of(Played(1, 1, 1).mean), expecting.odds_of(2))


class Choosing(unittest.TestCase):
    def chosen(self, plays, loss=0, **given):
        length = 19 * 8 * CONTENT
        return expecting.chosen(given, completed(given | {"rounds": 20}, length), length, plays, loss)

    def test_so_much_is_played_by_the_least_numbers(self):
        for plays in (30, 80, 95, 99, 100):
            numbers = self.chosen(plays, peers=20)
            less = numbers | {"fanout": numbers["fanout"] - 1}
            self.assertGreaterEqual(100 * expecting.expected(numbers, 19 * 8 * CONTENT).mean, plays)
            if less["fanout"]:
                self.assertLess(100 * expecting.expected(less, 19 * 8 * CONTENT).mean, plays)
            self.assertGreaterEqual((numbers["life"], numbers["cap"]), (DEFAULTS["life"], DEFAULTS["cap"]))

    def test_what_is_given_stays(self):
        numbers = self.chosen(90, peers=20, life=4, cap=5)
        self.assertEqual((numbers["life"], numbers["cap"]), (4, 5))

    def test_so_much_cannot_be(self):
        with self.assertRaises(console.Refusal) as refused:
            self.chosen(99, peers=20, fanout=1, life=2)
        self.assertRegex(str(refused.exception), r"^--plays 99: with --fanout 1 and --life 2 peers play some \d+\.\d% at the most; leave")
        with self.assertRaises(console.Refusal) as refused:
            self.chosen(100, 60, peers=20)
        self.assertRegex(str(refused.exception), r"^--plays 100: with --loss 60 peers play some \d+\.\d% at the most; leave")

    def test_where_datagrams_are_lost_more_is_chosen(self):
        fanouts = [self.chosen(90, loss, peers=20)["fanout"] for loss in (0, 25, 35)]
        self.assertEqual(fanouts, sorted({*fanouts}))


class Scripts(RoomCase):
    def made(self, *words):
        """The status and the lines of make-session."""
        status, out, err = run_script("make-session", self.room / "new", "--stream", self.stream, "--bar", fake_program(self.room), *words)
        return status, out, err

    def test_two_peers_are_no_refusal(self):
        status, out, err = self.made("--peers", 2)
        self.assertEqual(status, 0, err)
        self.assertEqual(out[0], "chosen so that all fits: --fanout 2")
        self.assertEqual(out[1], "expected: peers play all of the stream, if no party is late and nothing is lost")
        self.assertEqual(Session.read(self.room / "new/session.toml").fanout, 2)

    def test_a_part_that_is_to_be_played(self):
        status, out, err = self.made("--peers", 6, "--plays", 99)
        self.assertEqual(status, 0, err)
        session = Session.read(self.room / "new/session.toml")
        self.assertGreaterEqual(expecting.expected(vars(session), 600).mean, 0.99)
        self.assertRegex(out[-3], r"^expected: peers play some (99|100)% of the stream, a single one \d+% to 100%, if no party is late")

    def test_parts_that_are_none(self):
        for plays in (0, 101, "nan"):
            status, _, err = self.made("--plays", plays)
            self.assertEqual((status, err), (2, [f"REFUSED: --plays is {plays}: take a number above 0, and 100 at the most"]))

    def test_losses_that_are_none(self):
        for loss in (-1, 100, "nan"):
            status, _, err = self.made("--loss", loss)
            self.assertEqual((status, err), (2, [f"REFUSED: --loss is {loss}: take 0 to less than 100 of a hundred datagrams"]))

    def test_losses_are_told(self):
        status, out, err = self.made("--peers", 6, "--loss", 25)
        self.assertEqual(status, 0, err)
        self.assertTrue(out[0].endswith("if no party is late and 25% of datagrams are lost"), out)


if __name__ == "__main__":
    unittest.main()
