"""Runs a session that spans several hosts on one machine. Each host is a network namespace, and a bridge in another namespace joins them.

The machine's own network isn't changed. A host has its address on its only interface besides the loopback, and reaches the others directly,
whatever networks their addresses belong to. The bridge may lose packets, of which a large datagram has several, and interfaces may delay
what they send. What runs on a host are the scripts in its folder.
"""
import contextlib
import dataclasses
import os
import pathlib
import re
import shutil
import subprocess
import time
from collections.abc import Iterable, Iterator, Sequence

from gossip.formats.files import Session
from gossip.networks import spans
from gossip.networks.forwarding import NFTABLES, SOCAT
from gossip.networks.host_text import Host
from gossip.networks.spans import Span
from gossip.programs.bar import Word, await_end, lines_of, running
from gossip.runs import runner
from gossip.runs.disturbed import Ended, status_of_all
from gossip.runs.watching import Watch, watched
from gossip.scripts.console import Failure, Refusal, counted, held, say
from gossip.sessions.session_folder import begin_of

# the packages of Debian that have these programs
PACKAGES = {"ip": "iproute2", "tc": "iproute2", "socat": "socat", "nft": "nftables"}

# the names of a host's interface and of the bridge, each in its own namespace
INTERFACE, BRIDGE = "eth0", "hub"

# how many seconds may pass until forwarding works, and the seconds between two looks at it
READY, LOOK = 10, 0.1

# how many milliseconds later a session begins than one whose parties a single program starts
AHEAD = 1000

# the line of a party that has ended
PARTY = re.compile(r"^party (\d+) status (\d+)$", re.MULTILINE)

# the least and the most bytes that a packet may be limited to, and the limit of Ethernet
LEAST_MTU, MOST_MTU, MTU = 576, 65_535, 1500
LONGEST_DELAY = 60_000


@dataclasses.dataclass(frozen=True)
class Wire:
    """The network between the hosts of a trial: the percentage of packets that are lost, by how many milliseconds each packet is delayed,
    and how many bytes a packet has at most.
    """

    loss: float = 0
    delay: int = 0
    mtu: int = MTU

    @property
    def told(self) -> str:
        """A description of what the network does."""
        parts = [f"loses {self.loss:g}% of packets"] if self.loss else []
        parts += [f"delays each by {self.delay} ms"] if self.delay else []
        return ", ".join([*parts, f"takes up to {self.mtu:,} bytes a packet"])

    def faults(self) -> Iterator[str]:
        """Yields what is wrong with these numbers."""
        if not 0 <= self.loss <= 100:
            yield f"--loss is {self.loss:g}: take 0 to 100 of a hundred packets"
        if not 0 <= self.delay <= LONGEST_DELAY:
            yield f"--delay is {self.delay}: take 0 to {LONGEST_DELAY:,} milliseconds"
        if not LEAST_MTU <= self.mtu <= MOST_MTU:
            yield f"--mtu is {self.mtu}: take {LEAST_MTU} to {MOST_MTU:,} bytes"


# ---- what is needed


def programs_for(by: str, wire: Wire) -> list[str]:
    """Returns the programs that a trial needs."""
    wanted = {"ip": True, "socat": by == SOCAT, "nft": by == NFTABLES or wire.loss, "tc": wire.delay}
    return [name for name in wanted if wanted[name]]


def faults_of_programs(names: Iterable[str]) -> Iterator[str]:
    """Yields a fault for each program that is missing, with its package."""
    for name in names:
        if not shutil.which(name):
            yield f"there is no {name}: install the package {PACKAGES[name]}"


def faults_of_system(by: str, wire: Wire) -> Iterator[str]:
    """Yields why a trial can't run on this machine, except for what only the trial shows."""
    yield from faults_of_programs(programs_for(by, wire))
    if os.geteuid() != 0:
        yield "network namespaces are made by root alone: run --try as root"


# ---- commands of the system


def system(words: Sequence[Word], text: bytes | None = None) -> str:
    """Runs a command of the system with this text on its standard input, and returns what it prints. Raises `Failure` if it fails."""
    pipes = {"stdin": subprocess.PIPE} if text is not None else {}
    with running(words, stdout=subprocess.PIPE, stderr=subprocess.PIPE, **pipes) as process:
        printed, said = process.communicate(text) if text is not None else await_end(process)
        if process.returncode:
            raise Failure(f"`{' '.join(map(str, words))}` fails: {' '.join(said.decode(errors='replace').split())}")
        return printed.decode(errors="replace")


def inside(space: str, *words: object) -> list[str]:
    """Returns the command that runs another command in a namespace."""
    return ["ip", "netns", "exec", space, *map(str, words)]


# ---- the namespaces


class Spaces:
    """The namespaces of a trial: one for each host, by its name, and one that joins them."""

    def __init__(self, hosts: list[Host]) -> None:
        front = f"bar-{os.getpid()}"
        self.hub, self.of_host = f"{front}-", {host.name: f"{front}-{host.name}" for host in hosts}

    @property
    def names(self) -> list[str]:
        return [self.hub, *self.of_host.values()]

    def remove(self) -> None:
        """Removes those of the namespaces that exist, with all that is in them."""
        there = system(["ip", "netns", "list"]).split()
        for name in self.names:
            if name in there:
                system(["ip", "netns", "del", name])


def commands_of_host(spaces: Spaces, hosts: list[Host], host: Host, wire: Wire) -> Iterator[list[str]]:
    """Yields the commands that join a host to the bridge."""
    space, port, mtu = spaces.of_host[host.name], f"h{hosts.index(host)}", str(wire.mtu)
    inside_it, inside_hub = ["ip", "-n", space], ["ip", "-n", spaces.hub]
    ends = ["ip", "link", "add", INTERFACE, "mtu", mtu, "netns", space, "type", "veth"]
    yield [*ends, "peer", "name", port, "mtu", mtu, "netns", spaces.hub]
    yield [*inside_hub, "link", "set", port, "master", BRIDGE, "up"]
    yield [*inside_it, "link", "set", "lo", "up"]
    yield [*inside_it, "addr", "add", f"{host.address}/32", "dev", INTERFACE]
    yield [*inside_it, "link", "set", INTERFACE, "up"]
    others = (f"{other.address}/32" for other in hosts if other != host)
    yield from ([*inside_it, "route", "add", other, "dev", INTERFACE, "src", host.address] for other in others)
    if wire.delay:
        yield ["tc", "-n", space, "qdisc", "add", "dev", INTERFACE, "root", "netem", "delay", f"{wire.delay}ms", "limit", "100000"]


def commands_of(spaces: Spaces, hosts: list[Host], wire: Wire) -> Iterator[list[str]]:
    """Yields the commands that lay out the namespaces, in order."""
    yield from (["ip", "netns", "add", name] for name in spaces.names)
    yield ["ip", "-n", spaces.hub, "link", "add", BRIDGE, "type", "bridge"]
    yield ["ip", "-n", spaces.hub, "link", "set", BRIDGE, "up"]
    yield from (words for host in hosts for words in commands_of_host(spaces, hosts, host, wire))


@contextlib.contextmanager
def laid_out(hosts: list[Host], wire: Wire) -> Iterator[Spaces]:
    """Makes namespaces of these hosts, joined, and removes them after the block. Raises `Refusal` if the system doesn't allow this."""
    spaces = Spaces(hosts)
    try:
        try:
            for words in commands_of(spaces, hosts, wire):
                system(words)
            if wire.loss:
                system(inside(spaces.hub, "nft", "-f", "-"), loss_table(wire).encode())
        except Failure as failure:
            hint = "; --delay needs a kernel with netem" if wire.delay else ""
            raise Refusal(f"the system doesn't allow what the trial needs: {failure}{hint}") from None
        yield spaces
    finally:
        with held():
            spaces.remove()


# ---- lost packets

LOSS_TABLE = """table bridge wire {{
    counter passed {{ }}
    counter lost {{ }}
    chain forward {{
        type filter hook forward priority 0; policy accept;
        ether type != ip accept
        {share}counter name lost drop
        counter name passed
    }}
}}
"""


def loss_table(wire: Wire) -> str:
    """Returns the text of the nftables table with which the bridge loses packets."""
    share = f"numgen random mod 1000000 < {max(1, round(wire.loss * 10_000))} "
    return LOSS_TABLE.format(share=share if wire.loss < 100 else "")


def counts_in(text: str) -> dict[str, int]:
    """Returns the packets of each counter, by name, from what `nft list counters` prints."""
    return {name: int(packets) for name, packets in re.findall(r"counter (\w+) \{\s*packets (\d+)", text)}


def loss_line(spaces: Spaces) -> str:
    """Returns a line on how many packets the bridge lost."""
    counts = counts_in(system(inside(spaces.hub, "nft", "list", "counters", "table", "bridge", "wire")))
    passed, lost = counts.get("passed", 0), counts.get("lost", 0)
    return f"{counted(passed + lost, 'packet')} went between the hosts: {lost:,} lost"


# ---- forwarding, and the parties


def sockets_of(process: subprocess.Popen[bytes]) -> pathlib.Path:
    """Returns the path of the list of UDP sockets in the namespace of a process."""
    return pathlib.Path(f"/proc/{process.pid}/net/udp")


def ports_in(text: str) -> Iterator[tuple[int, int]]:
    """Yields the port of each socket in such a list, and how many datagrams the socket lost because its buffer was full."""
    for fields in map(str.split, text.splitlines()[1:]):
        yield int(fields[1].rpartition(":")[2], 16), int(fields[-1])


def await_sockets(process: subprocess.Popen[bytes], count: int, name: str) -> None:
    """Waits until `count` sockets are open in the namespace of a process."""
    until = time.monotonic() + READY
    while len([*ports_in(sockets_of(process).read_text("utf-8"))]) < count:
        if time.monotonic() > until:
            raise Failure(f"the forwarding of host {name} doesn't open all its ports within {READY} s")
        time.sleep(LOOK)


def start_forwarding(stack: contextlib.ExitStack, space: str, place: pathlib.Path, sockets: int) -> subprocess.Popen[bytes]:
    """Starts the forwarding of a host, which the stack ends. Returns its process once it forwards with this number of sockets."""
    pipes = {"stdout": subprocess.PIPE, "stderr": subprocess.STDOUT}
    process = stack.enter_context(running(inside(space, place / "forward.sh"), **pipes))
    line = next(lines_of(process), "it said nothing")
    if not line.startswith("forwarding"):
        raise Failure(f"the forwarding of host {place.name} ended: {line}")
    await_sockets(process, sockets, place.name)
    say(f"host {place.name}: {line}")
    return process


class SpanWatch(Watch):
    """Looks at a session whose parties run in the namespaces of these processes."""

    def __init__(self, session: Session, begin: int, processes: Iterable[subprocess.Popen[bytes]]) -> None:
        super().__init__(session, begin)
        self.places = [sockets_of(process) for process in processes]

    def drops_now(self) -> dict[int, int]:
        """Returns how many datagrams to each party were lost so far, by its own socket and by those that forward to it."""
        sockets = [socket for place in self.places for socket in ports_in(place.read_text("utf-8"))]
        return {party: sum(count for each, count in sockets if each == port) for party, port in self.ports.items()}


def statuses_in(printed: str) -> dict[int, int]:
    """Returns the statuses of parties from what `start.sh` printed."""
    return {int(party): int(status) for party, status in PARTY.findall(printed)}


def run_parties(span: Span, spaces: Spaces, forwarding: Iterable[subprocess.Popen[bytes]]) -> Ended:
    """Runs the parties of all hosts, for which these processes forward, and returns how the run ended."""
    begin, statuses = begin_of(span.session, span.program) + AHEAD, {}
    watch, pipes = SpanWatch(span.session, begin, forwarding), {"stdout": subprocess.PIPE, "stderr": subprocess.PIPE}
    with contextlib.ExitStack() as stack:
        stack.enter_context(watched(watch))
        words = {name: inside(spaces.of_host[name], place / "start.sh", begin) for name, place in span.places.items()}
        processes = {name: stack.enter_context(running(words[name], **pipes)) for name in words}
        for name, process in processes.items():
            printed, said = (part.decode(errors="replace") for part in await_end(process))
            statuses |= statuses_in(printed)
            if said:
                say(f"host {name}: {' '.join(said.split())}")
    return Ended(statuses, status_of_all(statuses), watch.drops)


# ---- the trial


def run_hosts(span: Span, wire: Wire, spaces: Spaces) -> Ended:
    """Forwards between the hosts and runs their parties, and returns how the run ended."""
    sockets = len(span.session.parties) if span.by == SOCAT else 0
    with contextlib.ExitStack() as stack:
        forwarding = [start_forwarding(stack, spaces.of_host[name], place, sockets) for name, place in span.places.items()]
        ran = run_parties(span, spaces, forwarding)
        if wire.loss:
            say(loss_line(spaces))
        return ran


def run_trial(span: Span, wire: Wire) -> Ended:
    """Runs a session over its hosts on this machine, and moves all files of its parties back to its folder. Returns how it ended."""
    near = dataclasses.replace(span, hosts=[dataclasses.replace(host, listen=host.address) for host in span.hosts])
    with laid_out(near.hosts, wire) as spaces:
        say(f"{len(near.hosts)} hosts in network namespaces, joined by a network that {wire.told}")
        try:
            spans.spread(near)
            ran = run_hosts(near, wire, spaces)
        finally:
            with held():
                spans.gather(near.folder, near.hosts)
    for party in sorted(ran.statuses):
        say(runner.line_of(span.folder, party, ran.statuses[party]))
    return ran
