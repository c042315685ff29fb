"""The required contents of README.md, of the pages on crates, scripts and formats, and of the manual page; and forbidden words."""
import pathlib
import posixpath
import re
from collections.abc import Iterable, Iterator, Mapping

from gossip.documents.reading import Document, Fault
from gossip.documents.sources import Sources

README_LINES = 130
CRATE_COLUMNS = 140
WORDS = re.compile(r"\b(?:yet|TODO|today)\b", re.IGNORECASE)
# a row of the table of exit statuses: the status, and the line on standard error
STATUS = re.compile(r"\| (\d+) \| (?:`([^`]+)` )?\|")


def faults_of_crate(crate: str, page: Document, root: pathlib.Path) -> Iterator[Fault]:
    """Checks that a crate has one short line in the page of the crates, with a link to its own document."""
    own = f"crates/{crate}/README.md"
    goes_to = f"]({posixpath.relpath(own, posixpath.dirname(page.name) or '.')})"
    lines = [(number, line) for number, line in enumerate(page.text.splitlines(), 1) if goes_to in line]
    first = lines[0][0] if lines else 1
    if not (root / own).exists():
        yield Fault(page.name, first, f"there is no {own}")
    if len(lines) != 1:
        yield Fault(page.name, first, f"{len(lines)} lines have a link to {own}, instead of one")
    long = [(number, len(line)) for number, line in lines if len(line) > CRATE_COLUMNS]
    yield from (Fault(page.name, number, f"the line has {columns} columns, more than {CRATE_COLUMNS}") for number, columns in long)


def names(text: str, name: str) -> bool:
    """Whether a text names a file by its path."""
    return re.search(rf"(?<![\w/]){re.escape(name)}(?![\w-])", text) is not None


def faults_of_readme(pages: Mapping[str, Document], sources: Sources) -> Iterator[Fault]:
    """Checks that README.md is short and names each document.

    Each script must be named there or in docs/RUNNING.md. Each crate must have its line in docs/ARCHITECTURE.md, or in README.md if there
    is no such page.
    """
    readme = pages["README.md"]
    count = readme.text.count("\n")
    if count > README_LINES:
        yield Fault(readme.name, count, f"it has {count} lines, more than {README_LINES}")
    for crate in sources.crates:
        yield from faults_of_crate(crate, pages.get("docs/ARCHITECTURE.md", readme), sources.root)
    documents = [f"docs/{path.name}" for path in sorted(sources.root.glob("docs/*.[m1]*"))]
    yield from (Fault(readme.name, count, f"it doesn't name {name}") for name in documents if not names(readme.text, name))
    running = pages.get("docs/RUNNING.md", readme)
    scripts = [name for name in sources.scripts() if not names(readme.text, name) and not names(running.text, name)]
    yield from (Fault(running.name, running.text.count("\n"), f"it doesn't name {name}") for name in scripts)


def statuses_of(sources: Sources) -> Iterator[tuple[str, str]]:
    """Yields the exit statuses by the program's own definitions, each with the beginning of its line on standard error."""
    texts = {name: each.text for name in ("code_of", "said_at") for each in sources.definitions.get(name, ()) if "Status" in each.owners}
    said = dict(re.findall(r"^said_at \(?(\w+).* = (?:\w+\.)?(\w+)", texts.get("said_at", ""), re.MULTILINE))
    for variant, status in re.findall(r"^code_of \(?(\w+).* = (\d+)$", texts.get("code_of", ""), re.MULTILINE):
        lines = "".join(each.text for each in sources.definitions.get(said.get(variant), ()))
        yield status, next(iter(re.findall(r'"(bar: [^"\\]*)', lines)), "")


def is_of_status(row: re.Match[str], status: str, said: str) -> bool:
    """Whether a row is of this status, with a line that begins like this, or without a line if the status has none."""
    line = row[2] or ""
    return row[1] == status and line.startswith(said) and bool(line) == bool(said)


def faults_of_statuses(formats: Document, sources: Sources) -> Iterator[Fault]:
    """Checks that a page of formats has a row for each exit status and its line, and no other rows of statuses."""
    statuses = sorted(set(statuses_of(sources)))
    rows = [(row, passage.line) for passage in formats.passages if (row := STATUS.match(passage.text))]
    lacking = [status for status in statuses if not any(is_of_status(row, *status) for row, _ in rows)]
    yield from (Fault(formats.name, 1, f"it has no row of status {status} with the line `{said}`") for status, said in lacking)
    wrong = [(row, line) for row, line in rows if not any(is_of_status(row, *status) for status in statuses)]
    yield from (Fault(formats.name, line, f"the program has no status {row[1]} with the line `{row[2] or ''}`") for row, line in wrong)


def faults_of_formats(formats: Document, sources: Sources) -> Iterator[Fault]:
    """Checks that a page of formats has each command of the program, and its exit statuses."""
    spans = [mention.text for _, mention in formats.mentions()]
    lacking = [command for command in sources.commands if not any(span.startswith(f"bar {command} ") for span in spans)]
    yield from (Fault(formats.name, 1, f"it has no line of the command `{command}`") for command in lacking)
    yield from faults_of_statuses(formats, sources)


def faults_of_words(document: Document, allowed: Iterable[str]) -> Iterator[Fault]:
    """Checks that a document has no word that goes stale, outside of the allowed sentences."""
    sentences = re.compile("|".join(map(re.escape, allowed)) or "(?!)")
    for passage in document.passages:
        rest = sentences.sub(lambda cut: re.sub(r"[^\n]", " ", cut[0]), passage.text)
        yield from (Fault(document.name, passage.line_at(word.start()), f"`{word[0]}` goes stale") for word in WORDS.finditer(rest))
