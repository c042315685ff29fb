"""Tests of tools/list-definitions: how definitions are read, what they use, and the page that leads their reader."""
import pathlib
import tempfile
import unittest
import unittest.mock

from support import ROOT

from gossip.documents import trust
from gossip.documents.definitions import Definitions, clauses_of

HEAD = """-- What is promised. It goes on here.
use Rattle.std.specs.Prelude.{◌≡◌, ◌+◌, ℕ, suc}
use Rattle.small.specs.Pairs.{Pair, sum as total, Left}
use Rattle.small.specs.Pairs as pairs
use Rattle.small.specs.declared.shape.Shape.{Shape}

-- a law
pub record Keeps (p : Pair) : Type 0 where
  -- comments name no total
  pub after : ℕ
  pub same : total p ≡ after

abbrev pub Headline : Pair → ℕ → Type 0
Headline p other = Keeps p

-- unread, and hides a name that it binds
abbrev pub unread : ℕ → ℕ
unread total = suc total

abbrev pub one_more : Shape → ℕ
one_more s =
    pairs.sum (record { left = 1; right = 2 }) + 1

pub record ByTheRules (p : Pair) : Type 0 where
  pub other : ℕ ≡ one_more
  pub peer_headline : Headline p 1
"""

PAIRS = """-- Pairs of numbers.
use Rattle.std.specs.Prelude.{◌+◌, ℕ}

pub record Pair : Type 0 where
  pub left : ℕ
  pub right : ℕ

pub data Side : Type 0 where
  Left : Side
  right_side : Side

module _ {A : Type 0} where
  -- the sum
  abbrev pub sum : Pair → ℕ
  sum p = p.left + p.right

abbrev pub is_right : Side → ℕ
is_right right_side = 1
is_right other = 0
"""

SHAPE = "pub struct Shape {\n    pub size: Size,\n}\n\npub enum Size {\n    Small,\n}\n"

CALL = """ghost use Rattle.bar_cli.specs.Ran.{ByTheRules};

pub fn bar_run()
    ensures ruled { ByTheRules words }
{
}
"""


class MadeDefinitions(unittest.TestCase):
    def setUp(self):
        self.root = pathlib.Path(self.enterContext(tempfile.TemporaryDirectory()))
        files = {
            "bar_cli/specs/Ran.antt": HEAD,
            "small/specs/Pairs.antt": PAIRS,
            "small/src/shape.rt": SHAPE,
            "bar_cli/src/run.rt": CALL,
        }
        for name, text in files.items():
            path = self.root / "crates" / name
            path.parent.mkdir(parents=True, exist_ok=True)
            path.write_text(text, "utf-8")
        self.definitions = Definitions(self.root)
        self.own = self.definitions.files["bar_cli.specs.Ran"].own
        self.pairs = self.definitions.files["small.specs.Pairs"].own

    def used(self, definition):
        return {each.name for each in self.definitions.used_by(definition)}


class Reading(MadeDefinitions):
    def test_definitions_have_their_lines_and_constructors(self):
        self.assertEqual(list(self.pairs), ["Pair", "Side", "sum", "is_right"])
        self.assertEqual(self.pairs["Side"].constructors, ("Left", "right_side"))
        place = self.pairs["sum"].place
        self.assertEqual((place.file, place.first, place.last), ("crates/small/specs/Pairs.antt", 14, 15))
        self.assertEqual(self.own["Keeps"].size, 3)

    def test_each_field_and_equation_is_a_clause(self):
        self.assertEqual(len(clauses_of(self.own["Keeps"].text)), 3)
        self.assertEqual(len(clauses_of(self.pairs["is_right"].text)), 3)

    def test_a_definition_uses_what_it_names_and_no_variable_or_field(self):
        self.assertEqual(self.used(self.own["Keeps"]), {"Pair", "sum"})
        self.assertEqual(self.used(self.own["unread"]), set())
        self.assertEqual(self.used(self.own["Headline"]), {"Pair", "Keeps"})

    def test_another_name_for_a_module_and_a_type_of_the_code_are_followed(self):
        self.assertEqual(self.used(self.own["one_more"]), {"sum", "Shape"})
        reached = {each.name: str(each.place) for each in self.definitions.reached_from([self.own["one_more"]])}
        self.assertEqual(reached["Shape"], "crates/small/src/shape.rt:1")
        self.assertEqual(reached["Size"], "crates/small/src/shape.rt:5")

    def test_a_constructor_in_a_pattern_stands_for_its_type(self):
        self.assertEqual(self.used(self.pairs["is_right"]), {"Side"})

    def test_a_type_that_is_missing_is_refused(self):
        (self.root / "crates/small/src/shape.rt").write_text("pub struct Other;\n", "utf-8")
        with self.assertRaisesRegex(ValueError, "there is no type `Shape`"):
            self.definitions.used_by(self.own["one_more"])


class Page(MadeDefinitions):
    def setUp(self):
        super().setUp()
        parts = {"Pairs": ["small/*"], "Headline": ["bar_cli/*"]}
        for name, value in {"PARTS": parts, "PARTS_RECORD": "Keeps", "LAWS": ("small",)}.items():
            self.enterContext(unittest.mock.patch.object(trust, name, value))
        self.trust = trust.Trust.of(self.root)

    def write_page(self):
        page = self.root / trust.PAGE
        page.parent.mkdir(exist_ok=True)
        page.write_text(trust.with_made(f"# Page\n\n{trust.FIRST}\n{trust.LAST}\n", trust.made(self.trust)), "utf-8")
        return page

    def test_the_headline_is_what_its_fields_reach_lowest_first(self):
        listed = [[each.name for each in definitions] for _, definitions in self.trust.in_order()]
        self.assertEqual(listed, [["Pair", "sum"], ["Keeps", "Headline"]])

    def test_the_page_has_files_lines_and_first_sentences(self):
        lines = trust.made(self.trust)
        self.assertIn("- [small/specs/Pairs.antt](../crates/small/specs/Pairs.antt). Pairs of numbers. `Pair`:4, `sum`:14", lines)
        self.assertIn("- [bar_cli/specs/Ran.antt](../crates/bar_cli/specs/Ran.antt). What is promised. `Keeps`:8, `Headline`:13", lines)
        self.assertIn("| `same` | `sum` ([small/specs/Pairs.antt:14](../crates/small/specs/Pairs.antt#L14)) |", lines)

    def test_a_page_that_differs_from_the_sources_has_a_fault(self):
        page = self.write_page()
        self.assertEqual([*trust.faults_of_page(self.root)], [])
        page.write_text(page.read_text("utf-8").replace("`sum`:14", "`sum`:15"), "utf-8")
        ((line, fault),) = trust.faults_of_page(self.root)
        self.assertIn("`sum`:15", page.read_text("utf-8").splitlines()[line - 1])
        self.assertIn("it isn't what the sources say", fault)

    def test_a_file_about_code_that_the_headline_reaches_has_a_fault(self):
        self.write_page()
        with unittest.mock.patch.object(trust, "CODE", "Pairs"):
            faults = [fault for _, fault in trust.faults_of_page(self.root)]
        self.assertIn("the headline reaches `sum`", "\n".join(faults))

    def test_a_page_without_its_marks_is_refused(self):
        page = self.write_page()
        page.write_text("# Page\n", "utf-8")
        with self.assertRaisesRegex(ValueError, "lacks a line"):
            [*trust.faults_of_page(self.root)]

    def test_a_repository_without_the_call_has_no_page(self):
        (self.root / trust.CALL).unlink()
        self.assertEqual([*trust.faults_of_page(self.root)], [])


class Repository(unittest.TestCase):
    """The definitions of this repository."""

    @classmethod
    def setUpClass(cls):
        cls.trust = trust.Trust.of(ROOT)
        cls.definitions = cls.trust.definitions

    def test_each_name_that_a_file_takes_is_used_by_one_of_its_definitions(self):
        # a name is missed by the reading if the file takes it and no definition uses it; these are handed on, or taken for nothing
        excused = {"bar_arguments.specs.Options", "bar_cli.specs.Refusals"}
        for module, file in self.definitions.files.items():
            used = set().union(*(self.definitions.named_in(file, each) for each in file.own.values()))
            unused = set(file.taken.values()) - used
            self.assertTrue(not unused or module in excused, f"{module}: {unused}")

    def test_no_definition_of_the_headline_uses_one_of_a_later_file(self):
        seen = set()
        for _, definitions in self.trust.in_order():
            for each in definitions:
                others = {other for other in self.definitions.used_by(each) if other.place.file != each.place.file and not other.is_of_code}
                self.assertTrue(others <= seen, each.place)
            seen.update(definitions)


if __name__ == "__main__":
    unittest.main()
