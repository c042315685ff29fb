"""The cases of an experiment, what is told of them, and how they are drawn."""
import unittest
import xml.dom.minidom
from unittest import mock

from support import RoomCase, fake_program, lines_of

from gossip.measures import experiments, plots
from gossip.measures.experiments import BASE, Case, Result

SMALL = BASE | {"peers": 2, "rounds": 1, "life": 2, "per_round": 2, "fanout": 1, "lms": 5}


def result(played, seed=1, evicted=0, **numbers):
    return Result(Case.of(BASE | {"peers": len(played)} | numbers, seed), tuple(played), evicted, 9)


class Cases(unittest.TestCase):
    def test_one_number_at_a_time_takes_another_value(self):
        cases = experiments.cases_of({"cap": (4, 8), "liars": (0, 5)}, BASE, [1, 2])
        wanted = [(case.by_name["cap"], case.by_name["liars"], case.seed) for case in cases]
        self.assertEqual(wanted, [(8, 0, 1), (8, 0, 2), (4, 0, 1), (4, 0, 2), (8, 5, 1), (8, 5, 2)])

    def test_the_value_of_the_base_is_one_of_the_values(self):
        self.assertEqual(experiments.values_of({"cap": (2, 16)}, BASE), {"cap": [2, 8, 16]})

    def test_who_lies(self):
        case = Case.of(BASE | {"peers": 20, "liars": 10, "withholders": 50}, 1)
        self.assertEqual((case.peers_of("liars"), len(case.peers_of("withholders")), len(case.lies)), ({19, 20}, 10, 12))
        self.assertEqual({len({*case.lies} | {*other.lies}) for other in [case, Case(case.numbers, 1)]}, {12})
        self.assertEqual(Case.of(BASE | {"peers": 2, "withholders": 100}, 1).peers_of("withholders"), {1, 2})
        self.assertEqual(Case.of(BASE, 1).lies, {})
        network = Case.of(BASE | {"peers": 5, "liars": 20, "loss": 7}, 3).network
        self.assertEqual((network.loss, network.liars, network.seed), (7, {5: "key"}, "3"))

    def test_the_numbers_of_a_session(self):
        numbers = Case.of(BASE | {"peers": 2, "loss": 5}, 1).session_numbers
        self.assertEqual((numbers["fanout"], numbers["version"]), (2, 3))
        self.assertFalse({"loss", "liars", "withholders"} & {*numbers})

    def test_losses_are_drawn_in_two_versions(self):
        cases = experiments.cases_of({"loss": (0, 5)}, BASE, [1])
        wanted = [(case.by_name["version"], case.by_name["loss"]) for case in cases]
        self.assertEqual(wanted, [(3, 0), (3, 5), (2, 0), (2, 5)])

    def test_the_last_round_of_a_stream_is_empty(self):
        self.assertEqual(len(experiments.stream_of(Case.of(BASE, 1))), 19 * 8 * 1022)


class Told(unittest.TestCase):
    def setUp(self):
        self.results = [result([0.5, 1.0]), result([0.2, 0.4], 2), result([1.0, 1.0], cap=4), result([0.0, 1.0], 2, 1, cap=4)]
        self.points = experiments.points_of("cap", [4, 8], BASE | {"peers": 2}, self.results)

    def test_points(self):
        four, eight = self.points
        self.assertEqual((four.value, four.means, four.least, four.most, four.withheld), (4, (1.0, 0.5), 0.0, 1.0, None))
        self.assertEqual((eight.least, eight.most), (0.2, 1.0))
        self.assertAlmostEqual(eight.mean, 0.525)

    def test_a_table(self):
        lines = [*experiments.table_lines("cap", self.points)]
        self.assertEqual(lines[2:], ["| 4 | 75.0% | 0.0% | 100.0% |", "| 8 | 52.5% | 20.0% | 100.0% |"])

    def test_what_withholders_play(self):
        (party,) = Case.of(BASE | {"peers": 2, "withholders": 50}, 1).lies
        plain, kept = ([0.5, 1.0], [0.4, 0.6]) if party == 2 else ([1.0, 0.5], [0.6, 0.4])
        results = [result(plain), result(kept, withholders=50)]
        none, one = experiments.points_of("withholders", [0, 50], BASE | {"peers": 2}, results)
        self.assertEqual((none.withheld, one.means, one.withheld, one.honest), (None, (0.4,), 0.6, 1.0))
        lines = [*experiments.table_lines("withholders", [none, one], 2)]
        self.assertIn("withholders, version 2", lines[0])
        self.assertEqual(lines[3], "| 50 | 40.0% | 40.0% | 40.0% | 60.0% | 100.0% |")

    def test_results_as_lines(self):
        head, *lines = experiments.csv_lines(self.results)
        self.assertTrue(head.startswith("version,peers,rounds,life,cap,"))
        self.assertEqual([line.count(",") for line in lines], [head.count(",")] * 4)
        self.assertTrue(lines[3].endswith(",2,0.5000,0.0000,1.0000,0,1,9"))

    def test_a_picture(self):
        panels = [plots.Panel("cap: how many < items", {3: self.points, 2: self.points}, 8), plots.Panel("peers", {3: self.points[:1]}, 5)]
        drawn = plots.picture(panels)
        document = xml.dom.minidom.parseString(drawn)
        self.assertEqual([len(document.getElementsByTagName(name)) for name in ("polygon", "polyline", "circle")], [2, 3, 6])
        self.assertIn("how many &lt; items", drawn)
        self.assertEqual(drawn.count('class="base"'), 1)
        self.assertLess(len(drawn), 10_000)

    def test_shares_stand_at_their_heights(self):
        self.assertEqual([plots.place(share) for share in (0, 0.5, 1)], [150, 75, 0])
        self.assertEqual(plots.columns(2), [62.5, 187.5])


class Runs(RoomCase):
    def test_a_case(self):
        program, case = fake_program(self.room), Case.of(SMALL | {"liars": 50}, 1)
        with mock.patch("gossip.runs.simulation.built", return_value=program):
            found, out, err = lines_of(lambda: experiments.run_case(case, program))
        # peer 2 lies, and of a stream of 2,044 bytes peer 1 plays as many as it took inputs
        self.assertEqual((found.case, found.evicted, found.sent, len(found.played), len(found.shares)), (case, 0, 64, 2, 1))
        self.assertGreater(found.mean, 0)
        self.assertEqual((out, err), ([], []))


if __name__ == "__main__":
    unittest.main()
