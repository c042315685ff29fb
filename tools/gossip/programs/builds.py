"""The programs other than `bar` that the tools run. Each is a crate of this repository."""
import dataclasses
import pathlib

from gossip.programs.bar import ROOT, build_crate
from gossip.scripts.console import progress


@dataclasses.dataclass(frozen=True)
class Beside:
    """A program other than `bar`, by the name of its crate."""

    crate: str

    @property
    def path(self) -> pathlib.Path:
        return ROOT / "crates" / self.crate / "out" / self.crate


# a party, honest or lying, over a link of the tools or in memory, which also tries changed datagrams and files
PARTY = Beside("bar_party")

# its first argument for a party over files and a link in memory, and for changed datagrams and files
IN_MEMORY, FUZZ = "memory", "fuzz"


def built(program: Beside) -> pathlib.Path:
    """Returns the path of a program, which is built if it is missing."""
    if not program.path.exists():
        progress(f"the program of crates/{program.crate} isn't built: `rt ci` proves and builds it, which takes a while")
        build_crate(program.crate)
    return program.path
