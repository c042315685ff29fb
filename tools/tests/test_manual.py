"""Manual pages as documents: how they are read, and what is found in one of a made-up repository and in that of this one."""
import re
import shutil
import subprocess
import unittest

from support import ROOT
from test_documents import README, Repository

from gossip.documents import manual

PAGE = r""".\" Counting.
.TH BAR 1
.SH NAME
bar \- count
.SH COMMANDS
.TP
\fBbar count \-\-from\fR \fIN\fR
Print \fIN\fR, by \fBtools/greet \-\-loud\fR or by \fBdouble\fR.
.SH EXIT STATUS
.TP
.B 0
it was done.
.TP
.B 2
\fBbar: usage\fR: the words are no line.
.TP
.B 8
\fBbar: input refused: N\fR: the number is too large.
"""


class Lines(unittest.TestCase):
    def lines(self, *lines):
        return manual.markdown_of("\n".join(lines)).splitlines()

    def test_each_line_is_one(self):
        lines = self.lines(*PAGE.splitlines())
        self.assertEqual(len(lines), len(PAGE.splitlines()))
        self.assertEqual(lines[2:7], ["# Name", "bar - count", "# Commands", "", "`bar count --from N`"])
        self.assertEqual(lines[7], "Print `N`, by `tools/greet --loud` or by `double`.")
        rows = [line for line in lines if line.startswith("|")]
        self.assertEqual(rows[:2], ["| 0 | | it was done. |", "| 2 | `bar: usage` | the words are no line. |"])

    def test_fonts(self):
        told = {
            r"\fBbar peer \-\-key\fR \fIFILE\fR \fB\-\-begin\fR \fIMS\fR": "`bar peer --key FILE --begin MS`",
            r"\fB\-\-\fIname value\fR": "`--name value`",
            r"of \fBjudge\fR, \fBpack\fR and \fIQ\fR": "of `judge`, `pack` and `Q`",
            r".B 70": "`70`",
        }
        self.assertEqual({line: self.lines(line)[0] for line in told}, told)

    def test_what_is_not_read(self):
        for line in (".BR bar 1", r"it\(aqs", r"\s+1large", "'br"):
            with self.assertRaisesRegex(ValueError, "this isn't read in a manual page"):
                self.lines(line)


class Pages(Repository):
    def found(self, old="", new=""):
        """What is found where a part of the page is another one."""
        readme = README + "\nThe page is docs/bar.1.\n"
        return self.check({"README.md": readme, "docs/bar.1": PAGE.replace(old, new, 1)})[1]

    def test_all_is_so(self):
        self.assertEqual(self.found(), [])

    def test_what_is_not_so(self):
        self.assert_found(self.found("double", "treble"), "docs/bar.1:8: there is no `treble`")
        self.assert_found(self.found(r"tools/greet \-\-loud", r"tools/greet \-\-low"), "docs/bar.1:8: `tools/greet` has no option `--low`")
        self.assert_found(self.found("no line.", "no line, today."), "docs/bar.1:15: `today` goes stale")

    def test_a_command_and_its_options(self):
        self.assert_found(self.found(r"count \-\-from", r"count \-\-to"), "docs/bar.1:7: `count` has no option `--to`")
        found = self.found("bar count", "bar tell")
        told = ["the program has no command `tell`", "it has no line of the command `count`"]
        self.assertEqual([fault.partition(": ")[2] for fault in found], told)

    def test_statuses(self):
        found = self.found("bar: usage", "bar: unused")
        self.assertIn("docs/bar.1:1: it has no row of status 2 with the line `bar: usage`", found)
        self.assertIn("docs/bar.1:15: the program has no status 2 with the line `bar: unused`", found)
        self.assert_found(self.found(".TP\n.B 0\nit was done.\n"), "docs/bar.1:1: it has no row of status 0 with the line ``")

    def test_the_page_is_named(self):
        self.assert_found(self.check({"docs/bar.1": PAGE})[1], "README.md:30: it doesn't name docs/bar.1")


class Manual(unittest.TestCase):
    @unittest.skipUnless(shutil.which("groff"), "there is no groff")
    def test_the_page_is_one(self):
        ran = subprocess.run(["groff", "-man", "-Tascii", "-ww", "-P-c", ROOT / "docs/bar.1"], capture_output=True, timeout=30, text=True)
        self.assertEqual((ran.returncode, ran.stderr), (0, ""))
        plain = re.sub(r".\x08", "", ran.stdout)
        self.assertIn("bar verify --session FILE --proof FILE", " ".join(plain.split()))


if __name__ == "__main__":
    unittest.main()
