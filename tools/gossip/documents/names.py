"""The names that .rt and .antt files define, found by regular expressions, and the string literals of these files and of scripts."""
import ast
import dataclasses
import enum
import re
import typing
from collections.abc import Iterable, Iterator


class Kind(enum.Enum):
    """The sort of a name."""

    FUNCTION = enum.auto()
    TYPE = enum.auto()
    TRAIT = enum.auto()
    CONSTANT = enum.auto()
    MODULE = enum.auto()
    CLAUSE = enum.auto()
    FIELD = enum.auto()
    VARIANT = enum.auto()
    DEFINITION = enum.auto()
    EDIT = enum.auto()


KINDS_OF_KEYWORDS = {
    "fn": Kind.FUNCTION,
    "struct": Kind.TYPE,
    "enum": Kind.TYPE,
    "type": Kind.TYPE,
    "record": Kind.TYPE,
    "data": Kind.TYPE,
    "trait": Kind.TRAIT,
    "const": Kind.CONSTANT,
    "static": Kind.CONSTANT,
    "mod": Kind.MODULE,
}
# the kinds that are part of the definition before them
PARTS = (Kind.CLAUSE, Kind.FIELD, Kind.VARIANT)

# a line of a .rt file that defines a name, or ends a block at the left edge
RUST = re.compile(
    r"^(?P<indent> *)(?:pub(?:\([\w:]+\))? )?(?:"
    r"(?:(?:const|unsafe) )?(?P<keyword>fn|struct|enum|trait|const|static|type|mod) (?:mut )?(?P<name>\w+)"
    r"|(?:unsafe )?impl\b(?P<impl>[^{]*)"
    r"|(?:ensures|requires)\*? (?P<clause>\w+) \{"
    r"|ghost (?P<ghost>\w+)(?: =|:)"
    r"|(?P<variant>[A-Z]\w*)(?=[ ({,]|$)"
    r"|(?P<field>[a-z_]\w*): "
    r"|(?P<end>\})$)",
    re.MULTILINE,
)
# a line of an .antt file that defines a name
ANTT = re.compile(
    r"^(?P<indent>(?:  )?)(?:(?:pub|abbrev|unfoldable|no_body) )*"
    r"(?:(?P<keyword>record|data) (?P<type>[^\s:]+)|(?P<name>[^\s:(){}=]+) :\s)",
    re.MULTILINE,
)
# the comment after a line's code; the crate at the start of a path, in definitions or in code
COMMENT = {".rt": re.compile(r"//.*"), ".antt": re.compile(r"--.*")}
NAMED = re.compile(r"\bRattle\.(\w+)\.|(?<![\w:])(\w+)::")

GENERICS = re.compile(r"<[^<>]*>")
TEXTS = re.compile(r"//[^\n]*|--[^\n]*|'(?:\\.|[^'\\])'|\"((?:[^\"\\]|\\.)*)\"", re.DOTALL)
ESCAPES = {"\\n": "\n", '\\"': '"', "\\\\": "\\"}


@dataclasses.dataclass(frozen=True)
class Definition:
    """A name that a crate defines."""

    name: str
    kind: Kind
    crate: str
    # what it belongs to: its crate, its file and the folders of this, its type, trait, record or function
    owners: frozenset[str]
    # the text of its file from the definition up to the next name that isn't a part of it
    text: str = dataclasses.field(default="", repr=False, compare=False)

    def says(self, name: str) -> bool:
        return re.search(rf"(?<![\w-]){re.escape(name)}(?![\w-])", self.text) is not None


class Named(typing.NamedTuple):
    """A name that a file defines: its position, its name, its kind and what contains it."""

    place: int
    name: str
    kind: Kind
    inside: list[str]


def type_of(header: str) -> str:
    """Returns the type that an `impl` block is for."""
    while GENERICS.search(header):
        header = GENERICS.sub("", header)
    words = re.findall(r"\w+", header.split(" where ")[0].split(" for ")[-1])
    return words[-1] if words else ""


def rust_names(text: str) -> Iterator[Named]:
    """Yields the names that a .rt file defines."""
    block, sort, function = "", "", ""
    for line in RUST.finditer(text):
        inside = [block] if line["indent"] and block else []
        if line["end"] and not line["indent"]:
            block, sort, function = "", "", ""
        elif line["impl"] is not None:
            block, sort = type_of(line["impl"]), "impl"
        elif line["keyword"]:
            yield Named(line.start(), line["name"], KINDS_OF_KEYWORDS[line["keyword"]], inside)
            if line["keyword"] == "fn":
                function = line["name"]
            elif not line["indent"] and line["keyword"] in ("struct", "enum", "trait"):
                block, sort = line["name"], line["keyword"]
        elif line["clause"]:
            yield Named(line.start(), line["clause"], Kind.CLAUSE, [*inside, function])
        elif line["ghost"]:
            yield Named(line.start(), line["ghost"], Kind.FIELD, inside)
        elif line["variant"] and sort == "enum" and inside:
            yield Named(line.start(), line["variant"], Kind.VARIANT, inside)
        elif line["field"] and sort in ("struct", "enum") and inside:
            yield Named(line.start(), line["field"], Kind.FIELD, inside)


def antt_names(text: str) -> Iterator[Named]:
    """Yields the names that an .antt file defines."""
    block, sort = "", Kind.DEFINITION
    for line in ANTT.finditer(text):
        if line["keyword"]:
            block, sort = line["type"], Kind.VARIANT if line["keyword"] == "data" else Kind.FIELD
            yield Named(line.start(), line["type"], Kind.TYPE, [])
        elif line["indent"] and block:
            yield Named(line.start(), line["name"], sort, [block])
        else:
            block = block if line["indent"] else ""
            yield Named(line.start(), line["name"], Kind.DEFINITION, [])


NAMES = {".rt": rust_names, ".antt": antt_names}


def definitions_of(text: str, ending: str, crate: str, owners: frozenset[str]) -> Iterator[Definition]:
    """Yields the definitions of a file with this extension, which have these owners."""
    end = len(text)
    for named in reversed(list(NAMES[ending](text))):
        yield Definition(named.name, named.kind, crate, owners.union(named.inside), text[named.place : end])
        end = end if named.kind in PARTS else named.place


def named_in(text: str, ending: str) -> set[str]:
    """Returns the names at the start of paths in a source, among them the crates that it names."""
    return {first or second for first, second in NAMED.findall(COMMENT[ending].sub("", text))}


def texts_of(text: str) -> Iterator[str]:
    """Yields the lines of the string literals outside of comments."""
    for found in TEXTS.finditer(text):
        if found[1]:
            yield from re.sub(r'\\[n"\\]', lambda escape: ESCAPES[escape[0]], found[1]).split("\n")


def script_texts_of(text: str) -> Iterator[str]:
    """Yields the lines of the string literals of a Python script, with braces for the parts that are filled in."""
    for node in ast.walk(ast.parse(text)):
        if isinstance(node, ast.Constant) and isinstance(node.value, str):
            yield from node.value.split("\n")
        elif isinstance(node, ast.JoinedStr):
            yield "".join(part.value if isinstance(part, ast.Constant) else "{}" for part in node.values).strip("\n")


def patterns_of(texts: Iterable[str]) -> Iterator[re.Pattern[str]]:
    """Yields a pattern for each text with parts in braces, which are filled in. A text without a word beside them has no pattern."""
    for text in texts:
        parts = re.split(r"\{[^{}]*\}", text)
        if len(parts) > 1 and re.search(r"[A-Za-z]{2}", "".join(parts)):
            yield re.compile(".+".join(re.escape(part) for part in parts))
