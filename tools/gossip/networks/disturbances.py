"""What a network does to the datagrams between parties, and which peers lie: the options for both, and the fate of each datagram.

Fates are drawn from a seed, separately for each pair of a sender and a receiver. So the fate of the n-th datagram from one party to another
doesn't depend on what other parties send.
"""
import argparse
import collections
import dataclasses
import json
import random
import secrets
from collections.abc import Iterator

from gossip.formats.files import Session
from gossip.scripts.console import counted

# the lies, and what each one does
LIES = {
    "key": "the key of each briefcase is another one",
    "case": "each briefcase holds another thing than its terms promise",
    "answers": "each REQUEST has two answers, which tell two histories",
    "partner": "each REQUEST and QUERY goes to another peer than the seed chooses",
    "leaf": "the leaf that signed a CASE signs its KEY too",
    "keys": "no KEY is given, which leaves no evidence",
}

# the longest delay, in milliseconds
LONGEST_DELAY = 60_000


@dataclasses.dataclass(frozen=True)
class Network:
    """The percentage of datagrams that are lost, that of the others that are repeated, and the longest delay in milliseconds.

    `liars` has the lie of each peer that lies, by its number. If `forges`, a forger asks for keys in the names of partners.
    """

    loss: float = 0
    repeat: float = 0
    delay: int = 0
    seed: str = ""
    liars: dict[int, str] = dataclasses.field(default_factory=dict)
    forges: bool = False

    @property
    def is_plain(self) -> bool:
        """Whether the network delivers each datagram exactly once and immediately."""
        return not (self.loss or self.repeat or self.delay)

    @property
    def told(self) -> str:
        """A line that describes what the network does."""
        parts = [f"loses {self.loss:g}%" if self.loss else "", f"repeats {self.repeat:g}%" if self.repeat else ""]
        parts += [f"delays by up to {self.delay} ms" if self.delay else "", "asks for keys in the names of partners" if self.forges else ""]
        done = ", ".join(filter(None, parts)) or "delivers each datagram once"
        return f"the network {done}, seed {self.seed}"


# ---- options


def take_network(parser: argparse.ArgumentParser) -> None:
    """Adds the options for what the network does and for who lies."""
    parser.add_argument("--loss", type=float, default=0, metavar="PERCENT", help="how many of a hundred datagrams are lost (default: 0)")
    told = "how many of a hundred datagrams that aren't lost are delivered twice (default: 0)"
    parser.add_argument("--repeat", type=float, default=0, metavar="PERCENT", help=told)
    told = "each datagram is delayed by 0 to MS milliseconds, so that some overtake others (default: 0)"
    parser.add_argument("--delay", type=int, default=0, metavar="MS", help=told)
    parser.add_argument("--seed", metavar="TEXT", help="the seed of losses, repeats and delays (default: a random one, which is printed)")
    told = f"peer P lies in this way: {', or '.join(f'{lie} ({does})' for lie, does in LIES.items())}; may stand for several peers"
    parser.add_argument("--liar", action="append", default=[], metavar="P:LIE", help=told)


def liar_of(word: str) -> tuple[int, str] | None:
    """Returns the peer and the lie of an argument P:LIE, or None if it is malformed."""
    party, colon, lie = word.partition(":")
    return (int(party), lie) if colon and party.isascii() and party.isdigit() and lie in LIES else None


def faults_of_network(words: argparse.Namespace, session: Session) -> Iterator[str]:
    """Yields what is wrong with the options for a session's network and liars."""
    for name in ("loss", "repeat"):
        value = getattr(words, name)
        if not 0 <= value <= 100:
            yield f"--{name} is {value:g}: take 0 to 100 of a hundred datagrams"
    if not 0 <= words.delay <= LONGEST_DELAY:
        yield f"--delay is {words.delay}: take 0 to {LONGEST_DELAY:,} milliseconds"
    liars = [liar_of(word) for word in words.liar]
    for word, liar in zip(words.liar, liars):
        if liar is None:
            yield f"--liar {word} is none: take P:LIE, where LIE is one of {', '.join(LIES)}"
        elif not 1 <= liar[0] <= session.peers:
            yield f"--liar {word} names no peer: take one of 1 to {session.peers}"
        elif liar[1] == "partner" and session.peers < 3:
            yield f"--liar {word}: among two peers there is no other partner"
    parties = collections.Counter(liar[0] for liar in liars if liar)
    yield from (f"--liar names peer {party} more than once" for party, count in parties.items() if count > 1)


def network_of(words: argparse.Namespace) -> Network:
    """Returns the network that valid options describe."""
    liars, seed = dict(map(liar_of, words.liar)), words.seed or secrets.token_hex(4)
    return Network(words.loss, words.repeat, words.delay, seed, liars, getattr(words, "forger", False))


# ---- the fates of datagrams


class Fates:
    """Draws the fate of each datagram, and counts the fates by sender and receiver."""

    def __init__(self, network: Network) -> None:
        self.network, self.draws = network, {}
        self.sent, self.lost, self.repeated = (collections.Counter() for _ in range(3))

    def delays(self, sender: int, receiver: int) -> list[int]:
        """Returns the delay in milliseconds of each copy of the next datagram. If the list is empty, the datagram is lost."""
        pair = sender, receiver
        self.sent[pair] += 1
        if self.network.is_plain:
            return [0]
        if pair not in self.draws:
            self.draws[pair] = random.Random(f"{self.network.seed} {sender} {receiver}")
        draw = self.draws[pair]
        if draw.random() * 100 < self.network.loss:
            self.lost[pair] += 1
            return []
        is_repeated = draw.random() * 100 < self.network.repeat
        self.repeated[pair] += is_repeated
        return [draw.randint(0, self.network.delay) for _ in range(1 + is_repeated)]

    @property
    def line(self) -> str:
        """A line on how many datagrams were sent, lost and repeated."""
        sent, lost, repeated = (counter.total() for counter in (self.sent, self.lost, self.repeated))
        return f"{counted(sent, 'datagram')} went over the network: {lost:,} lost, {repeated:,} repeated"

    def text(self) -> str:
        """Returns what the network did and who lied, as JSON."""
        network = self.network
        told = {"loss": network.loss, "repeat": network.repeat, "delay_ms": network.delay, "seed": network.seed}
        told["liars"] = {str(party): lie for party, lie in sorted(network.liars.items())}
        pairs = sorted(self.sent)
        told["pairs"] = [[*pair, self.sent[pair], self.lost[pair], self.repeated[pair]] for pair in pairs]
        return f"{json.dumps(told)}\n"
