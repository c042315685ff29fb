"""The text that describes the hosts of a session that spans several machines: their names, their addresses and the parties on each.

The text is a TOML document of tables [[host]], each with these keys:
  name      the host's name: letters, digits and hyphens
  address   the IPv4 address at which the other hosts reach it
  parties   the parties that run on it: numbers, and ranges of them as texts, such as "3-9"; party 0 is the broadcaster
  listen    optional: its own address, if it differs from `address`, for example because addresses are translated
"""
import collections
import dataclasses
import ipaddress
import pathlib
import re
import reprlib
import tomllib
from collections.abc import Iterator

from gossip.formats.files import Session
from gossip.scripts.console import Refusal, counted, listed, refuse

KEYS = ("name", "address", "parties", "listen")
NAME = re.compile(r"[A-Za-z0-9]([A-Za-z0-9-]{0,30}[A-Za-z0-9])?")
RANGE = re.compile(r"(\d{1,3})-(\d{1,3})")


# a table of the text
Table = dict[str, object]


@dataclasses.dataclass(frozen=True)
class Host:
    """A host: its name, its address, the parties that run on it in ascending order, and its own address."""

    name: str
    address: str
    parties: tuple[int, ...]
    listen: str


# ---- one host


def shown_host(number: int, table: Table) -> str:
    """Returns what a host is called in a refusal: its name if that is valid, else its number in the text."""
    name = table.get("name")
    return f"host {name}" if isinstance(name, str) and NAME.fullmatch(name) else f"host number {number}"


def faults_of_keys(shown: str, table: Table) -> Iterator[str]:
    """Yields a fault for each required key that is missing, and for each unknown key."""
    yield from (f"{shown} has no {key}: give it one" for key in KEYS[:3] if key not in table)
    yield from (f"{shown} has the key {reprlib.repr(key)}: a host has {listed(KEYS)}" for key in table if key not in KEYS)


def faults_of_name(shown: str, table: Table) -> Iterator[str]:
    """Yields what is wrong with a host's name."""
    name = table.get("name", "host")
    if not isinstance(name, str) or not NAME.fullmatch(name):
        yield f"{shown} has the name {reprlib.repr(name)}: take up to 32 letters, digits and hyphens between them"


def faults_of_address(shown: str, key: str, value: object) -> Iterator[str]:
    """Yields what is wrong with the address under this key."""
    try:
        address = ipaddress.IPv4Address(value) if isinstance(value, str) else None
    except ValueError:
        address = None
    if address is None:
        yield f"{shown} has the {key} {reprlib.repr(value)}: give an IPv4 address, such as \"192.0.2.10\""
    elif address.is_loopback or address.is_unspecified or address.is_multicast or int(address) == 2**32 - 1:
        yield f"{shown} has the {key} {address}: give one at which other machines reach it"


def parties_in(value: object) -> list[int] | None:
    """Returns the parties that a list names, or None if it is malformed."""
    parties = []
    for item in value if isinstance(value, list) else [None]:
        told = RANGE.fullmatch(item) if isinstance(item, str) else None
        if told:
            parties += range(int(told[1]), int(told[2]) + 1)
        elif type(item) is int:
            parties.append(item)
        else:
            return None
    return parties


def faults_of_list(shown: str, value: object) -> Iterator[str]:
    """Yields what is wrong with a host's list of parties."""
    parties = parties_in(value)
    if parties is None:
        yield f"{shown} has the parties {reprlib.repr(value)}: give a list of numbers, and of ranges such as \"3-9\""
    elif not parties:
        yield f"{shown} has no party: give it one, or leave it out"


def faults_of_host(number: int, table: Table) -> Iterator[str]:
    """Yields what is wrong with a host, whatever the other hosts are."""
    shown = shown_host(number, table)
    yield from faults_of_keys(shown, table)
    yield from faults_of_name(shown, table)
    yield from (fault for key in ("address", "listen") if key in table for fault in faults_of_address(shown, key, table[key]))
    if "parties" in table:
        yield from faults_of_list(shown, table["parties"])


# ---- all hosts


def host_of(table: Table) -> Host:
    """Returns the host that a valid table describes."""
    address = str(ipaddress.IPv4Address(table["address"]))
    listen = str(ipaddress.IPv4Address(table.get("listen", address)))
    return Host(table["name"], address, tuple(sorted(parties_in(table["parties"]))), listen)


def faults_of_twice(hosts: list[Host]) -> Iterator[str]:
    """Yields a fault for each name and each address that several hosts have."""
    counts = collections.Counter((key, getattr(host, key).lower()) for key in ("name", "address") for host in hosts)
    yield from (f"{count} hosts have the {key} {value}: give each its own" for (key, value), count in counts.items() if count > 1)


def faults_of_parties(hosts: list[Host], session: Session) -> Iterator[str]:
    """Yields the parties that the session doesn't have, those that are named more than once, and those that no host has."""
    pairs = [(party, host.name) for host in hosts for party in host.parties]
    owners = {party: [name for each, name in pairs if each == party] for party, _ in pairs}
    for party, names in sorted(owners.items()):
        if party not in session.parties:
            yield f"host {names[0]} has party {party}, and the session has the parties 0 to {session.peers}"
        elif len(names) > 1:
            yield f"party {party} is on {listed(names)}: it has one key, which signs on one host alone"
    nowhere = [party for party in sorted(session.parties) if party not in owners]
    if nowhere:
        yield f"no host has {listed(f'party {party}' for party in nowhere)}: give each party to a host"


def hosts_of_text(text: str, session: Session) -> list[Host]:
    """Returns the hosts of a text, which run the parties of a session. Raises `Refusal` if anything is wrong with the text."""
    try:
        document = tomllib.loads(text)
    except (ValueError, RecursionError) as error:
        raise Refusal(f"the text of hosts isn't valid TOML: {error}") from None
    tables = document.get("host")
    if not isinstance(tables, list) or not all(isinstance(table, dict) for table in tables):
        raise Refusal("the text of hosts has no tables [[host]]: give one for each host, with its name, address and parties")
    refuse(f"the text of hosts has the key {reprlib.repr(key)}: it has tables [[host]] alone" for key in document if key != "host")
    refuse(fault for number, table in enumerate(tables, 1) for fault in faults_of_host(number, table))
    hosts = [host_of(table) for table in tables]
    refuse([*faults_of_twice(hosts), *faults_of_parties(hosts, session), *faults_of_count(hosts)])
    return hosts


def faults_of_count(hosts: list[Host]) -> Iterator[str]:
    """Yields a fault if there are fewer than two hosts."""
    if len(hosts) < 2:
        yield f"there is {counted(len(hosts), 'host')}: name two or more, or run the session by tools/run-session"


def read_hosts(path: pathlib.Path, session: Session) -> list[Host]:
    """Reads the file that describes the hosts of a session."""
    try:
        return hosts_of_text(path.read_text("utf-8"), session)
    except (OSError, UnicodeDecodeError) as error:
        raise Refusal(f"{path} can't be read: {getattr(error, 'strerror', None) or error}") from None
