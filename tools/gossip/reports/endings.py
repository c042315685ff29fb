"""How the exchanges of a run ended: with both keys, cut short, with nothing to trade, without an answer, or in an unknown way."""
import collections

from gossip.reports.run_data import ExchangeName, ExchangeRow, Run, SideRow

BOTH_KEYS, CUT_SHORT, NOTHING, NO_ANSWER, UNKNOWN = "both keys", "cut short", "nothing to trade", "no answer", "unknown"


def end_of(exchange: ExchangeRow, sides: list[SideRow]) -> str:
    """Returns how an exchange ended, according to those of its sides whose recordings were replayed.

    If nothing was promised, only the initiator knows why: if it got an answer, there was nothing to trade.
    """
    if exchange.complete:
        return BOTH_KEYS
    if any(side.promised for side in sides):
        return CUT_SHORT
    answered = [side.answered for side in sides if side.asks]
    return UNKNOWN if not answered else NOTHING if answered[0] else NO_ANSWER


def ends_of(run: Run) -> dict[ExchangeName, str]:
    """Returns how each exchange of a run ended, by the exchange's name."""
    sides = collections.defaultdict(list)
    for side in run.sides:
        sides[side.exchange].append(side)
    return {row.exchange: end_of(row, sides[row.exchange]) for row in run.exchanges}


def with_nothing(run: Run) -> set[ExchangeName]:
    """Returns the exchanges in which there was nothing to trade."""
    return {name for name, end in ends_of(run).items() if end == NOTHING}
