"""Tests of tools/check-documents, over a small made-up repository."""
import argparse
import importlib.machinery
import importlib.util
import pathlib
import subprocess
import tempfile
import unittest
import unittest.mock

from support import TOOLS, lines_of

from gossip.documents import block_runs, checks, reading
from gossip.scripts import console

README = """# bar

It counts. `bar count --from N` counts, see [the formats](docs/FORMATS.md#printed-lines); `tools/greet` greets, with `--loud` loudly.

- [bar_small](crates/bar_small/README.md): `double`; `Pair::{first, swap}`
- [bar_large](crates/bar_large/README.md): law `doubles_are_even`
- [bar](crates/bar/README.md): main

```sh run
tools/greet --loud > "$room/said"
cat "$room/said"
```

```text
HELLO
room /...
```

```sh run
bar=crates/bar/out/bar
$bar count --from 1
```

```sh
cd crates/bar && rt run -- count --from 2
```

```toml
from = 1
```
"""

FORMATS = """# Formats

## Printed lines

`bar count --from N` prints `N counted`.

| status | line | when |
|---|---|---|
| 0 | | it was done |
| 2 | `bar: usage` | the words aren't a line |
| 8 | `bar: input refused: N` | the number is too large |
"""

SMALL = """# bar_small

- `double` doubles: `double`: `twice`, `Doubled`.
- `Pair::swap` swaps (clause `swapped`), by `specs/Doubling`; its field `left`; `LIMIT` of `src/pairs.rt`.
- The calculation is `2 * left`; the bytes are `ba 47`; it can be a `Copy`, by `sha2`.
- The edit `doubles_once` in `must-fail/` is refused.
"""

LARGE = """# bar_large

The law `doubles_are_even` is of bar_small's `double`. The record `Even` has `even-lemma`, in `proofs/Evens.antt`. Its laws stand in [laws.rt](src/laws.rt).
"""

PAIRS = """//! Pairs.
use sha2::Sha256;
use std::fmt;

pub const LIMIT: u8 = 9;

#[derive(Clone, Copy)]
pub struct Pair<T> {
    left: T,
}

impl<T: Into<Vec<u8>>> Pair<T> {
    pub fn first(&self) -> T {
        self.left
    }

    fn swap(&mut self)
        ensures swapped { self.new ≡ self.old }
    {
    }
}

/// Doubles.
pub fn double(n: u8) -> u8
    ensures twice { Doubled n result }
{
    n + n
}
"""

COMMANDS = """//! Commands.
const COUNT_OPTIONS: [&str; 1] = ["from"];

fn show(n: u8) {
    format!(in alloc; "{n} counted\\n")
}
"""

STATUS = """-- The exit statuses.
abbrev pub code_of : Status → ℕ
code_of Done = 0
code_of Usage = 2
code_of (Refused n) = 8

abbrev pub said_at : Status → List ℕ
said_at Done = []
said_at Usage = plan.usage
said_at (Refused n) = refused n

abbrev pub usage : List ℕ
usage = codes "bar: usage\\n"

abbrev pub refused : ℕ → List ℕ
refused n = codes "bar: input refused: " ++ decimal n
"""

GREET = """#!/bin/sh
if [ "$1" = --help ]; then echo "usage: greet [--loud]"; exit 0; fi
if [ "$1" = --loud ]; then echo HELLO; else echo hello; fi
echo "room $room"
"""

DRAWING = """def draw(folder, party):
    folder.joinpath("page.html").touch()
    folder.joinpath(f"docs/{party}.md").touch()
    print(f"party {party} is drawn")
"""

FILES = {
    "README.md": README,
    "docs/FORMATS.md": FORMATS,
    "crates.txt": "# ground\nbar_small: sha2\n\n# program\nbar_large: bar_small\nbar: bar_large\n",
    ".gitignore": "crates/*/out/\n",
    "tools/greet": GREET,
    "tools/drawing.py": DRAWING,
    "crates/bar_small/README.md": SMALL,
    "crates/bar_small/src/pairs.rt": PAIRS,
    "crates/bar_small/specs/Doubling.antt": "-- Doubles.\nabbrev pub Doubled : ℕ → ℕ → Type 0\nDoubled n m = m ≡ 2 * n\n",
    "crates/bar_small/must-fail/doubles_once.edit": "file: src/pairs.rt\nold: n + n\nnew: n\n",
    "crates/bar_large/README.md": LARGE,
    "crates/bar_large/src/laws.rt": "pub fn doubles_are_even()\n    ensures even { IsEven }\n{}\n",
    "crates/bar_large/specs/Evens.antt": "pub record Even (n : ℕ) : Type 0 where\n  pub half : ℕ\n",
    "crates/bar_large/proofs/Evens.antt": "use Rattle.bar_small.specs.Doubling.{Doubled}\neven-lemma : (n : ℕ) → Even (n + n)\neven-lemma n = refl\n",
    "crates/bar/README.md": "# bar\n\nIt has `main`, and `src/commands.rt`.\n",
    "crates/bar/src/main.rt": "fn main() {\n    bar_large::doubles_are_even();\n}\n",
    "crates/bar/src/commands.rt": COMMANDS,
    "crates/bar/specs/Status.antt": STATUS,
}


def write_repository(root, changes):
    """Writes the files of the repository, with some that are others, or that aren't there where they are `None`."""
    for name, text in (FILES | changes).items():
        if text is not None:
            path = root / name
            path.parent.mkdir(parents=True, exist_ok=True)
            path.write_text(text, encoding="utf-8")
            path.chmod(0o755 if text.startswith("#!") else 0o644)


class Repository(unittest.TestCase):
    """A made-up repository in which all is so, and what is found where something is changed."""

    def setUp(self):
        room = tempfile.TemporaryDirectory()
        self.addCleanup(room.cleanup)
        self.root = pathlib.Path(room.name)

    def check(self, changes=None, **options):
        write_repository(self.root, changes or {})
        check = checks.Check(self.root, **options)
        return check, [str(fault) for fault in check.faults()]

    def changed(self, name, old, new, **options):
        """What is found where a part of a file is another one."""
        self.assertIn(old, FILES[name])
        return self.check({name: FILES[name].replace(old, new, 1)}, **options)[1]

    def added(self, name, line):
        return self.check({name: f"{FILES[name]}\n{line}\n"})[1]

    def assert_found(self, faults, *parts):
        """One thing is found, and it says these parts."""
        self.assertEqual(len(faults), 1, faults)
        for part in parts:
            self.assertIn(part, faults[0])

    def test_all_is_so(self):
        check, faults = self.check()
        self.assertEqual(faults, [])
        self.assertEqual((check.blocks, len(check.documents)), (1, 5))
        self.assertGreater(check.names, 30)


class Names(Repository):
    def test_a_missing_file(self):
        self.assert_found(self.changed("crates/bar_large/README.md", "proofs/Evens.antt", "proofs/Odds.antt"), "`proofs/Odds.antt`")

    def test_a_missing_file_without_backticks(self):
        self.assert_found(self.added("README.md", "More stands in docs/MORE.md."), "README.md:32: ", "`docs/MORE.md`")

    def test_a_missing_crate(self):
        self.assert_found(self.added("README.md", "It stands on bar_tiny."), "`bar_tiny`")

    def test_a_name_that_is_gone(self):
        faults = self.changed("crates/bar_small/src/pairs.rt", "LIMIT", "MOST")
        self.assert_found(faults, "bar_small/README.md:4: ", "`LIMIT` of `src/pairs.rt`")

    def test_a_name_of_a_crate_above(self):
        self.assert_found(self.added("crates/bar_small/README.md", "It has `doubles_are_even`."), "in bar_small or below")
        self.assertEqual(self.added("crates/bar_small/README.md", "bar_large has `doubles_are_even`."), [])

    def test_members_of_a_type(self):
        self.assert_found(self.changed("README.md", "{first, swap}", "{first, last}"), "`Pair::{first, last}`")

    def test_a_clause_of_another_function(self):
        self.assert_found(self.changed("crates/bar_small/README.md", "`double`: `twice`", "`double`: `swapped`"), "`swapped` of `double`")

    def test_a_clause_that_is_none(self):
        faults = self.changed("crates/bar_small/README.md", "clause `swapped`", "clause `left`")
        self.assert_found(faults, "no clause `left` in bar_small or below")

    def test_a_stale_law(self):
        faults = self.check({"crates/bar_large/src/laws.rt": "pub fn doubles_have_halves()\n    ensures even { IsEven }\n{}\n"})[1]
        self.assertEqual(len(faults), 2, faults)
        self.assertTrue(all("no law `doubles_are_even`" in fault for fault in faults), faults)

    def test_a_law_that_is_a_definition(self):
        self.assert_found(self.changed("crates/bar_large/README.md", "law `doubles_are_even`", "law `Even`"), "no law `Even`")

    def test_a_record_that_is_none(self):
        faults = self.check({"crates/bar_large/specs/Evens.antt": "abbrev pub Even : ℕ → Type 0\nEven n = ⊤\n"})[1]
        self.assert_found(faults, "no record `Even`")

    def test_an_edit_that_is_gone(self):
        edits = "crates/bar_small/must-fail"
        self.assert_found(self.check({f"{edits}/doubles_once.edit": None, f"{edits}/other.edit": ""})[1], "no edit `doubles_once`")

    def test_a_name_in_another_crate(self):
        self.assert_found(self.added("README.md", "It is `double` of `bar_large`."), "`double` of `bar_large`")

    def test_another_name_for_a_module(self):
        uses = "use Rattle.bar_small.specs.Doubling as doubling\n" + FILES["crates/bar_large/specs/Evens.antt"]
        for name, found in [("doubling.Doubled", 0), ("doubling.Even", 1)]:
            changes = {"crates/bar_large/specs/Evens.antt": uses, "README.md": f"{README}\nIt has `{name}`.\n"}
            self.assertEqual(len(self.check(changes)[1]), found, name)

    def test_a_word_of_a_calculation(self):
        self.assert_found(self.changed("crates/bar_small/README.md", "2 * left", "2 * middle"), "`2 * middle`")

    def test_a_printed_line(self):
        self.assert_found(self.changed("docs/FORMATS.md", "`N counted`", "`counted N`"), "`counted N`")

    def test_what_scripts_make_and_print(self):
        line = "It makes `FOLDER/page.html` and prints `party P is drawn`, from `party ` on; `git log` has no `/tmp/page`."
        self.assertEqual(self.added("README.md", line), [])
        self.assert_found(self.added("README.md", line.replace("page.html", "page.svg")), "`FOLDER/page.svg`")
        self.assert_found(self.added("README.md", line.replace("is drawn", "was drawn")), "`party P was drawn`")

    def test_files_by_a_pattern(self):
        self.assertEqual(self.added("README.md", "Such are `docs/*.md`, `specs/E*.antt` and `crates/NAME/README.md`."), [])
        self.assert_found(self.added("README.md", "Such are `docs/*.txt`."), "`docs/*.txt`")

    def test_a_link_to_nothing(self):
        self.assert_found(self.added("README.md", "See [more](docs/MORE.md)."), "the link goes to `docs/MORE.md`")

    def test_a_link_to_no_heading(self):
        self.assert_found(self.changed("README.md", "#printed-lines", "#lines"), "`#lines`")

    def test_excused_names(self):
        changes = {"README.md": f"{README}\nIt is `no_name`.\n"}
        self.assertEqual(self.check(changes, excused={"no_name": "a reason"})[1], [])
        self.assert_found(self.check(excused={"no_name": "a reason"})[1], "no document has `no_name` any more")


class Lists(Repository):
    def test_a_crate_that_is_named_nowhere(self):
        self.assert_found(self.changed("crates.txt", "bar_large:", "bar_large: sha2"), "crates.txt:5: `bar_large` lists `sha2`")

    def test_a_crate_that_is_named_in_a_comment(self):
        main = "fn main() {\n    // by bar_large::doubles_are_even\n}\n"
        self.assert_found(self.check({"crates/bar/src/main.rt": main})[1], "`bar` lists `bar_large`")

    def test_a_source_file_without_a_line(self):
        self.assert_found(self.check({"crates/bar_small/src/more.rt": "//! More.\n"})[1], "it has no line for `src/more.rt`")

    def test_what_the_prover_needs(self):
        needed = {"bar_large: sha2": "a reason"}
        longer = FILES["crates.txt"].replace("bar_large:", "bar_large: sha2")
        self.assertEqual(self.check({"crates.txt": longer}, needed=needed)[1], [])
        self.assert_found(self.check(needed=needed)[1], "no `bar_large: sha2`")


class Commands(Repository):
    def test_a_command_that_the_program_lacks(self):
        self.assert_found(self.added("README.md", "`bar measure --from N` measures."), "no command `measure`")

    def test_an_option_that_a_command_lacks(self):
        self.assert_found(self.added("README.md", "`bar count --from N --to N` counts."), "`count` has no option `--to`")

    def test_an_option_that_is_left_out(self):
        self.assert_found(self.added("README.md", "`bar count --from N --from N` counts."), "takes the option `--from` once")
        self.assertEqual(self.added("README.md", "`bar count --from N ..` counts."), [])

    def test_an_option_that_a_script_lacks(self):
        self.assert_found(self.added("README.md", "`tools/greet --quiet` greets."), "`tools/greet` has no option `--quiet`")

    def test_an_option_alone(self):
        self.assert_found(self.changed("README.md", "`--loud`", "`--low`"), "no option `--low` of tools/greet or of the program")
        self.assertEqual(self.added("docs/FORMATS.md", "Some have `--loud`."), [])
        self.assert_found(self.added("docs/FORMATS.md", "Some have `--low`."), "no option `--low` of any script or of the program")

    def test_a_script_without_help(self):
        faults = self.check({"tools/greet": "#!/bin/sh\nexit 3\n", "README.md": README.replace("```sh run\n", "```sh\n")})[1]
        self.assertTrue(any("`tools/greet --help` prints nothing" in fault for fault in faults), faults)

    def test_an_option_in_a_block(self):
        self.assert_found(self.changed("README.md", "count --from 2", "count --until 2"), "README.md:25: `count` has no option `--until`")

    def test_a_file_in_a_block(self):
        self.assert_found(self.changed("README.md", "cd crates/bar &&", "cmp docs/FORMATS.md docs/MORE.md &&"), "no file `docs/MORE.md`")

    def test_a_file_of_the_program_in_a_block(self):
        self.assert_found(self.changed("README.md", "-- count --from 2", "-- count --from src/two"), "no file `src/two`")

    def test_a_file_below_the_folder_of_a_block(self):
        self.assertEqual(self.changed("README.md", "cd crates/bar &&", "cd crates/bar && cat ../../docs/FORMATS.md &&"), [])

    def test_a_key_in_a_block(self):
        self.assert_found(self.changed("README.md", "from = 1", "to = 1"), "README.md:29: there is no key `to`")

    def test_quotes_that_stay_open(self):
        self.assert_found(self.changed("README.md", "count --from 2", "count --from '2"), "no lines for a shell")


class Blocks(Repository):
    def test_a_block_that_says_nothing(self):
        self.assert_found(self.changed("README.md", "```toml", "```"), "README.md:28: the block doesn't say what it has")

    def test_words_that_mean_nothing(self):
        self.assert_found(self.changed("README.md", "```toml", "```toml run"), "the block doesn't say what it has")

    def test_a_command_that_fails(self):
        self.assert_found(self.changed("README.md", 'cat "$room/said"', 'cat "$room/other"'), "README.md:9: the block ended with status 1")

    def test_a_command_that_prints_something_else(self):
        self.assert_found(self.changed("README.md", "tools/greet --loud >", "tools/greet >"), "doesn't print `HELLO` there", "| hello")

    def test_a_command_that_prints_more(self):
        faults = self.changed("README.md", 'cat "$room/said"', 'cat "$room/said"; echo more')
        self.assert_found(faults, "prints more than is shown", "| more")

    def test_a_block_that_needs_the_program(self):
        self.assert_found(self.check(with_program=True)[1], "README.md:19: the block ended with status 127")

    def test_a_block_that_needs_the_program_and_has_it(self):
        check, faults = self.check({"crates/bar/out/bar": "#!/bin/sh\n"}, with_program=True)
        self.assertEqual((faults, check.blocks), ([], 2))

    def test_a_block_that_takes_too_long(self):
        block = reading.Block(1, ["sh", "run"], ["sleep 1000 & echo $!", "sleep 1000"])
        fault = block_runs.fault_of_run(block, self.root, seconds=1)
        self.assertRegex(fault, r"^the block took more than 1 s\n  \| \d+$")
        status = pathlib.Path("/proc", fault.split()[-1], "stat")
        self.assertTrue(not status.exists() or status.read_text().split()[2] == "Z", "a part of the block goes on")

    def test_rooms_are_removed(self):
        block = reading.Block(1, ["sh", "run"], ['test -d "$room"', 'echo "$(mktemp)"'])
        status, printed = block_runs.run(block.lines, self.root, 10)
        self.assertEqual(status, 0)
        self.assertFalse(pathlib.Path(printed.strip()).parent.exists())

    def test_dots_stand_for_any_lines(self):
        for shown, printed, fault in [
            (["...", "b"], "a\na\nb\n", None),
            (["a", "..."], "a\n", None),
            (["a ... c"], "a b c", None),
            (["a.c"], "abc\n", "the block doesn't print `a.c` there"),
            (["a", "b"], "a\n", "the block doesn't print `b` there"),
            ([], "a\n", "the block prints more than is shown"),
        ]:
            self.assertEqual(block_runs.fault_of_lines(shown, printed), fault)


class Pages(Repository):
    def test_a_long_readme(self):
        self.assert_found(self.check({"README.md": README + "\n" * 120})[1], "more than 130")

    def test_a_long_line_of_a_crate(self):
        self.assert_found(self.changed("README.md", ": `double`;", f": {'so' * 60} `double`;"), "README.md:5: ", "more than 140")

    def test_a_crate_without_a_document(self):
        faults = self.check({"crates/bar/README.md": None})[1]
        self.assertTrue(any("there is no crates/bar/README.md" in fault for fault in faults), faults)

    def test_a_crate_without_a_line(self):
        faults = self.changed("README.md", "- [bar](crates/bar/README.md): main\n", "")
        self.assert_found(faults, "0 lines have a link to crates/bar/README.md")

    def test_pages_of_their_own_have_the_crates_and_the_scripts(self):
        crates = README[README.index("- [bar_small]") : README.index("```sh run")]
        readme = f"{README.replace(crates, '')}\nSee docs/ARCHITECTURE.md and docs/RUNNING.md."
        architecture = f"# Architecture\n\n{crates.replace('(crates/', '(../crates/')}"
        changes = {"README.md": readme, "docs/ARCHITECTURE.md": architecture, "docs/RUNNING.md": "# Running\n\n`tools/part` is a part.\n"}
        changes["tools/part"] = "#!/bin/sh\n"
        self.assertEqual(self.check(changes)[1], [])
        changes["docs/ARCHITECTURE.md"] = architecture.replace("../crates/bar/README.md", "bar.md")
        self.assertTrue(any("0 lines have a link to crates/bar/README.md" in fault for fault in self.check(changes)[1]))

    def test_a_sentence_a_cell_and_an_item_that_are_too_long(self):
        sentence = f"It goes {'on and ' * 17}on."
        told = "a sentence has 37 words, more than 35: It goes on and on and .."
        self.assert_found(self.added("README.md", sentence), "README.md:32: ", told)
        self.assertEqual(self.added("README.md", sentence.replace("on and on", "on. On", 1)), [])
        self.assertEqual(self.check({"README.md": f"{README}\n{sentence}\n"}, long={"It goes": "it has to"})[1], [])
        cell = "It goes on. " * 14
        table = f"| what | it is |\n|---|---|\n| this | {cell}|"
        self.assert_found(self.added("README.md", table), "README.md:34: ", "a cell has 42 words, more than 40")
        self.assert_found(self.added("README.md", f"1. {cell * 2}"), "an item has 84 words, more than 80")

    def test_names_in_a_row_are_one_word(self):
        names = ", ".join(["`double`"] * 50)
        self.assertEqual(self.added("README.md", f"It has {names} and [a link](docs/FORMATS.md)."), [])

    def test_a_long_passage_that_isnt_there_is_excused_for_nothing(self):
        self.assert_found(self.check(long={"It went on": "it had to"})[1], "no document has `It went on` any more")

    def test_a_link_to_a_line_of_a_source(self):
        self.assertEqual(self.added("README.md", "See [it](crates/bar_small/src/pairs.rt#L5)."), [])
        self.assert_found(self.added("README.md", "See [it](crates/bar_small/src/pairs.rt#L99)."), "the link goes to line 99")

    def test_a_script_that_isnt_named(self):
        self.assert_found(self.check({"tools/part": "#!/bin/sh\n"})[1], "it doesn't name tools/part")

    def test_a_document_that_isnt_named(self):
        self.assert_found(self.check({"docs/MORE.md": "# More\n"})[1], "it doesn't name docs/MORE.md")

    def test_a_command_without_a_line(self):
        self.assert_found(self.changed("docs/FORMATS.md", "`bar count --from N` prints", "It prints"), "no line of the command `count`")

    def test_a_status_of_another_line(self):
        faults = self.changed("docs/FORMATS.md", "| 2 |", "| 3 |")
        self.assertEqual(len(faults), 2, faults)
        self.assertIn("no row of status 2 with the line `bar: usage`", faults[0])
        self.assertIn("no status 3 with the line `bar: usage`", faults[1])

    def test_words_that_go_stale(self):
        self.assert_found(self.added("docs/FORMATS.md", "Nothing reads it yet."), "docs/FORMATS.md:13: `yet` goes stale")

    def test_sentences_that_are_allowed(self):
        changes = {"docs/FORMATS.md": f"{FORMATS}\nNothing is said yet.\n"}
        self.assertEqual(self.check(changes, allowed={"Nothing is said yet.": "a reason"})[1], [])
        self.assert_found(self.check(allowed={"Nothing is said yet.": "a reason"})[1], "no document has")


class Passages(unittest.TestCase):
    def test_items_rows_and_paragraphs(self):
        document = reading.Document("x.md", "", "# Title\nOne\ntwo\n\n- a\n  b\n- c\n| d |\n| e |\n```sh\nf\n```\ng\n")
        document.cut()
        self.assertEqual([(each.line, each.text) for each in document.passages], [
            (1, "# Title"), (2, "One\ntwo"), (5, "- a\n  b"), (7, "- c"), (8, "| d |"), (9, "| e |"), (13, "g"),
        ])
        self.assertEqual([(each.line, each.words, each.lines) for each in document.blocks], [(10, ["sh"], ["f"])])

    def test_a_block_of_text_shows_what_the_one_before_prints(self):
        document = reading.Document("x.md", "", "```sh run\na\n```\n\n```text\nb\n```\n```sh\n```\nand\n```text\nc\n```\n")
        document.cut()
        self.assertEqual([each.shown and each.shown.lines for each in document.blocks], [["b"], None, None, None])

    def test_what_names_belong_to(self):
        for text, owners in [
            ("`a`, `b` of `c`", [("c",), ("c",), ()]),
            ("`a` of bar_c", [("bar_c",)]),
            ("`a`: `b`, `c`;", [(), ("a",), ("a",)]),
            ("`a`: `b` is so", [(), ()]),
            ("`a`'s `b`", [(), ("a",)]),
            ("`a`, clause `b`", [(), ("a",)]),
            ("`a` of `b` and `c` of `d`", [("b",), (), ("d",), ()]),
            ("`a`\nof `b`", [("b",), ()]),
        ]:
            found = [mention.owners for mention in reading.Passage(1, text).mentions()]
            self.assertEqual(found, owners, text)


class Script(Repository):
    """The script itself: its outcome is its last line."""

    def outcome(self, changes, run=False):
        """The script's exit status and its last line, and the lines before it."""
        write_repository(self.root, changes)
        loader = importlib.machinery.SourceFileLoader("check_documents", str(TOOLS / "check-documents"))
        script = importlib.util.module_from_spec(importlib.util.spec_from_loader(loader.name, loader))
        loader.exec_module(script)
        program = self.root / "crates/bar/out/bar"
        with unittest.mock.patch.multiple(script, ROOT=self.root, PROGRAM=program, EXCUSED={}, ALLOWED={}, LONG={}):
            outcome, out, err = lines_of(lambda: console.outcome_of(script.main, argparse.Namespace(run=run)))
        return outcome.status, outcome.lines[-1], [*out, *err]

    def test_well(self):
        status, last, lines = self.outcome({})
        self.assertEqual(status, 0)
        self.assertRegex(last, r"^OK: \d+ names in 5 documents, 1 block run$")
        self.assertEqual(lines, ["README.md:9: the block is run"])

    def test_failed(self):
        status, last, _ = self.outcome({"docs/MORE.md": "# More\n"})
        self.assertEqual(status, 1)
        self.assertRegex(last, r"^FAILED: 1 fault \(\d+ names in 6 documents, 1 block run\)$")

    def test_no_program(self):
        status, last, lines = self.outcome({}, run=True)
        self.assertEqual((status, lines), (2, []))
        self.assertRegex(last, "^REFUSED: .*crates/bar/out/bar is missing: `rt run`")

    def test_no_documents(self):
        status, last, _ = self.outcome({"README.md": None})
        self.assertEqual(status, 2)
        self.assertRegex(last, "^REFUSED: .*README.md")

    def test_a_document_that_is_no_text(self):
        write_repository(self.root, {})
        (self.root / "docs/MORE.md").write_bytes(b"\xff\xfe")
        status, last, _ = self.outcome({})
        self.assertEqual(status, 2)
        self.assertRegex(last, "^REFUSED: .*docs/MORE.md")

    def test_help(self):
        ran = subprocess.run([TOOLS / "check-documents", "--help"], capture_output=True, text=True)
        self.assertEqual((ran.returncode, ran.stderr), (0, ""))
        self.assertIn("sh run", ran.stdout)


if __name__ == "__main__":
    unittest.main()
