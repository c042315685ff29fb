"""Chooses the numbers of a session that aren't given: the defaults, or others if the given numbers or the stream don't fit these."""
from gossip.formats.files import CONTENT, LEAVES, LEAVES_A_ROUND, LOWER, UPDATES, Given, Numbers, leaves_of, most_rounds_of, range_of

# the numbers of a session if none are given
DEFAULTS = {"version": 3, "peers": 5, "rounds": 10, "life": 6, "cap": 8, "per_round": 8, "fanout": 3, "tick_ms": 50, "lms": 6, "ots": 3}

# the numbers that may be missing
FREE = ("port", "top")

# the rounds that a key of the default type has leaves for: a larger stream first gets fuller rounds, and then more of them
FEW_ROUNDS = LEAVES[DEFAULTS["lms"]] // LEAVES_A_ROUND


def pieces_of(length: int) -> int:
    """Returns how many updates a stream of this length has."""
    return -(-length // CONTENT)


def rounds_with_keys(given: Numbers) -> int:
    """Returns how many rounds a session has at most, with the types of keys that are given."""
    tree = {"lms": LOWER if "top" in given else given.get("lms", max(LEAVES)), "top": given.get("top")}
    return min(most_rounds_of(given.get("top")), leaves_of(**tree) // LEAVES_A_ROUND)


def updates_a_round(pieces: int, given: Numbers, most_rounds: int) -> int:
    """Returns how many updates a round has. All rounds but the last have room for all the pieces, if that is possible."""
    rounds = given.get("rounds", min(most_rounds, FEW_ROUNDS))
    wanted, least = max(DEFAULTS["per_round"], -(-pieces // max(1, rounds - 1))), -(-pieces // rounds)
    lower, upper = UPDATES[min(UPDATES)], UPDATES[given.get("version", max(UPDATES))]
    if "rounds" in given:
        return wanted if wanted <= upper else min(least, upper)
    return min(wanted, lower if pieces <= lower * (most_rounds - 1) else upper)


def filled(pieces: int, given: Numbers) -> Numbers:
    """Returns the rounds, and the updates of a round, for this many updates in all. If possible, the last round has none of them."""
    most_rounds = rounds_with_keys(given)
    per_round = given.get("per_round") or updates_a_round(pieces, given, most_rounds)
    rounds = given.get("rounds") or min(most_rounds, max(DEFAULTS["rounds"], -(-pieces // per_round) + 1))
    return {"rounds": rounds, "per_round": per_round}


def has_last_round(pieces: int, numbers: Numbers) -> bool:
    """Whether this many updates need the last round, whose updates can't be traded."""
    return pieces > numbers["per_round"] * (numbers["rounds"] - 1)


def types_of_keys(given: Numbers, rounds: int) -> Numbers:
    """Returns the LMS type: 5 with an upper tree, else the lowest from the default on that has leaves for this many rounds."""
    if "top" in given:
        return {"lms": LOWER}
    large = [lms for lms in LEAVES if LEAVES_A_ROUND * rounds <= leaves_of(lms) and lms >= DEFAULTS["lms"]]
    return {"lms": min(large, default=max(LEAVES))}


def completed(given: Given, length: int = 0) -> Given:
    """Returns all numbers of a session, given some of them, for a stream of this length.

    The others are chosen to fit these. If a given number is out of its range, so that it will be refused, the others are the defaults.
    """
    if not all(range_of(name, given).has(value) for name, value in given.items()):
        return DEFAULTS | ({"lms": LOWER} if "top" in given else {}) | given
    pieces, numbers = pieces_of(length), {"peers": max(DEFAULTS["peers"], given.get("fanout", 0))} | given
    numbers = filled(pieces, given) | numbers
    numbers = types_of_keys(given, numbers["rounds"]) | numbers
    fanout = numbers["peers"] if has_last_round(pieces, numbers) else min(DEFAULTS["fanout"], numbers["peers"])
    return DEFAULTS | {"fanout": fanout} | numbers


def fitted(given: Numbers, numbers: Numbers) -> Numbers:
    """Returns the numbers that weren't given and differ from the defaults. An LMS type that an upper tree determines isn't one of them."""
    free = [name for name in DEFAULTS if name not in given and (name != "lms" or "top" not in given)]
    return {name: numbers[name] for name in free if numbers[name] != DEFAULTS[name]}
