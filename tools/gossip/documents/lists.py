"""Checks that a crate names each crate that crates.txt lists for it, and that its page names its source files."""
import pathlib
import re
from collections.abc import Iterator

from gossip.documents.reading import Fault
from gossip.documents.sources import Sources


def faults_of_lists(sources: Sources, needed: dict[str, str]) -> Iterator[Fault]:
    """Checks that a crate names each crate in its list, unless an excuse says that the prover needs it, and that each excuse is needed."""
    left = set(needed)
    for number, line in enumerate(sources.lines_of("crates.txt"), 1):
        crate, _, below = line.partition(":")
        named = sources.named.get(crate, set())
        for name in below.split() if crate in sources.crates else ():
            excuse = f"{crate}: {name}"
            if name not in named and excuse not in needed:
                yield Fault("crates.txt", number, f"`{crate}` lists `{name}`, which it names nowhere")
            elif name not in named:
                left.discard(excuse)
    yield from (Fault("tools/check-documents", 1, f"crates.txt has no `{excuse}` that needs an excuse any more") for excuse in sorted(left))


def faults_of_files(root: pathlib.Path) -> Iterator[Fault]:
    """Checks that the README.md of a crate names each of its source files but the root file."""
    for page in sorted(root.glob("crates/*/README.md")):
        text, crate = page.read_text("utf-8"), page.parent
        for path in sorted(crate.glob("src/**/*.rt")):
            name = path.relative_to(crate).as_posix()
            if path.name not in ("lib.rt", "main.rt") and not re.search(rf"[`(]{re.escape(name)}[`)]", text):
                yield Fault(page.relative_to(root).as_posix(), 1, f"it has no line for `{name}`")
