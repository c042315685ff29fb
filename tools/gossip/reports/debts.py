"""Debts in a run of version 3: the rounds in which a partner owed a peer the key of an exchange, and so wasn't served by it."""
import dataclasses
from collections.abc import Mapping

from gossip.reports.exchanges import first_tick, round_of
from gossip.reports.run_data import Run, SideRow

# the first version in which a party that owes a key isn't served, and how many rounds after its own an exchange's key is owed
VERSION, GRACE = 3, 2


@dataclasses.dataclass(frozen=True)
class Debt:
    """The first and the last round in which a key was owed, and whether it arrived."""

    first: int
    last: int
    is_paid: bool

    @property
    def told(self) -> str:
        """The debt in words."""
        rounds = f"round {self.first}" if self.first == self.last else f"the rounds {self.first} to {self.last}"
        return f"was owed the key in {rounds}" + ("" if self.is_paid else ", and didn't get it")


def debt_of(session: Mapping[str, object], side: SideRow) -> Debt | None:
    """Returns the debt of a peer's partner in an exchange, in a session with these numbers, or None if there is none."""
    if session["version"] < VERSION or side.key_given is None:
        return None
    paid = min((tick for tick in (side.key_got, side.wrong_key) if tick is not None), default=None)
    first, last = max(side.round + GRACE, round_of(side.key_given)), min(side.round + session["life"], round_of(session["ticks"]))
    if paid is None:
        return Debt(first, last, False) if first <= last else None
    was_owed = paid > side.key_given and paid >= first_tick(first) and first <= last
    return Debt(first, round_of(paid), True) if was_owed else None


def debts_of(run: Run) -> tuple[int, int]:
    """Returns how many debts there were, and how many of them were paid."""
    debts = [debt for side in run.sides if (debt := debt_of(run.session, side))]
    return len(debts), sum(debt.is_paid for debt in debts)
