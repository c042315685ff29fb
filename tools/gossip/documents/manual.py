"""Reads a manual page as a document in Markdown, so that it is checked like the others. Each of its lines becomes one line.

Text in bold or italics is put between backticks. The text after the tag of an exit status becomes a row of the table of statuses. An
unknown macro or escape is refused.
"""
import re

# the macros after which a new passage begins, and the macro for bold text
BREAKS, BOLD = ("TH", "TP", "PP", "nf", "fi"), "B"
STATUSES = "EXIT STATUS"
ESCAPES = {r"\-": "-", r"\&": ""}
FONTS = re.compile(r"\\f[BI](.*?)(?=\\f)")


def words_of(line: str) -> str:
    """Returns a line of text with backticks around its bold and italic parts. Those with nothing or a blank between them are joined."""
    text = FONTS.sub(lambda part: f"`{part[1]}`", line).replace(r"\fR", "")
    for escape, letters in ESCAPES.items():
        text = text.replace(escape, letters)
    if "\\" in text:
        raise ValueError(f"this isn't read in a manual page: {line}")
    return re.sub(r"(?<=\w)` `(?=[\w-])", " ", text.replace("``", ""))


def row_of(status: str, text: str) -> str:
    """Returns the table row of a status: its line on standard error, if the text begins with one, and when it is returned."""
    said = re.match(r"(`bar: [^`]*`): ", text)
    return f"| {status} | {said[1] if said else ''} | {text[said.end() :] if said else text} |".replace("|  |", "| |")


class Manual:
    """Reads the lines of a manual page, one by one."""

    def __init__(self) -> None:
        self.section, self.is_tag, self.status = "", False, None

    def line(self, line: str) -> str:
        """Returns the line in Markdown for a line of the page."""
        if line.startswith('.\\"'):
            return ""
        macro = re.fullmatch(r"\.(\w+) ?(.*)", line)
        if macro and macro[1] == "SH":
            self.section, self.status = macro[2], None
            return f"# {macro[2].capitalize()}"
        if macro and macro[1] in BREAKS:
            self.is_tag, self.status = macro[1] == "TP", None
            return ""
        if macro and macro[1] != BOLD or line.startswith("'"):
            raise ValueError(f"this isn't read in a manual page: {line}")
        text = words_of(rf"\fB{macro[2]}\fR" if macro else line)
        return self.text(text)

    def text(self, text: str) -> str:
        """Returns the line in Markdown for a line of text, which may be a tag, or the first line after the tag of a status."""
        is_tag, self.is_tag = self.is_tag, False
        if is_tag and self.section == STATUSES:
            self.status = text.strip("`")
            return ""
        status, self.status = self.status, None
        return row_of(status, text) if status else text


def markdown_of(text: str) -> str:
    """Returns a manual page in Markdown, with a line for each of its lines."""
    manual = Manual()
    return "\n".join(map(manual.line, text.splitlines()))
