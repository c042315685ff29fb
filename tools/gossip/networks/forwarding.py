"""The texts that configure forwarding of datagrams between the hosts of a session: systemd units that run socat, or an nftables table.

Party P binds the session's port plus P on the loopback address, and all parties send to that address. One-way forwarding is enough, since a
receiver ignores the address from which a datagram comes. If a datagram is sent to the port of a party of another host, it is forwarded to
that host's address. If a datagram arrives at the host's own address, at the port of one of its parties, it is forwarded to the loopback
address. The port doesn't change.
"""
import dataclasses
import shlex
from collections.abc import Iterable, Iterator

from gossip.formats.files import Session
from gossip.networks.host_text import Host
from gossip.networks.relaying import BUFFER, LARGEST
from gossip.scripts.console import listed
from gossip.sessions.session_folder import LOOPBACK

SOCAT, NFTABLES = "socat", "nftables"

# the path of socat on Debian; a unit names a program by its absolute path
SOCAT_PATH = "/usr/bin/socat"
# the exit status of socat if SIGTERM stops it
STOPPED = 143

# the file of the setting that lets a host forward to and from its loopback address
ROUTE_LOCALNET = "/proc/sys/net/ipv4/conf/all/route_localnet"


@dataclasses.dataclass(frozen=True)
class Way:
    """One direction of forwarding on a host, from a party's port at `listen` to the same port at `to`: out of the host if `is_out`."""

    party: int
    port: int
    listen: str
    to: str
    is_out: bool


def ways_of(session: Session, hosts: list[Host], host: Host) -> Iterator[Way]:
    """Yields the directions of a host: out to each party of another host, and in to each of its own parties."""
    for party, other in [(party, other) for other in hosts for party in other.parties]:
        listen, to = (host.listen, LOOPBACK) if other == host else (LOOPBACK, other.address)
        yield Way(party, session.port + party, listen, to, other != host)


def label_of(session: Session) -> str:
    """Returns the prefix of the names of a session's units and tables."""
    return f"bar-{session.id}"


# ---- socat


def socat_words(way: Way) -> list[str]:
    """Returns the command of a socat process that forwards datagrams of any length in one direction."""
    sizes = ["-b", str(LARGEST), "-u"]
    return [SOCAT_PATH, *sizes, f"UDP4-RECV:{way.port},bind={way.listen},rcvbuf={BUFFER}", f"UDP4-SENDTO:{way.to}:{way.port}"]


def unit_name(session: Session, way: Way) -> str:
    return f"{label_of(session)}-{'to' if way.is_out else 'for'}-{way.party}.service"


def unit_of(session: Session, way: Way) -> str:
    """Returns the text of the unit that forwards in one direction."""
    told = f"to party {way.party} at {way.to}" if way.is_out else f"for party {way.party}, which come to {way.listen}"
    lines = ["[Unit]", f"Description=Datagrams of session {session.id} {told}", f"PartOf={label_of(session)}.target"]
    lines += ["Wants=network-online.target", "After=network-online.target", ""]
    lines += ["[Service]", f"ExecStart={shlex.join(socat_words(way))}", "DynamicUser=yes"]
    lines += [f"SuccessExitStatus={STOPPED}", "Restart=always", "RestartSec=1", ""]
    return "\n".join(lines)


def target_of(session: Session, ways: list[Way]) -> str:
    """Returns the text of the target that starts all units of a host."""
    names = " ".join(unit_name(session, way) for way in ways)
    return "\n".join(["[Unit]", f"Description=What forwards datagrams of session {session.id}", f"Wants={names}", ""])


def socat_files(session: Session, ways: list[Way]) -> dict[str, str]:
    """Returns the files with which a host forwards by socat: their texts by name."""
    units = {unit_name(session, way): unit_of(session, way) for way in ways}
    return units | {f"{label_of(session)}.target": target_of(session, ways)}


# ---- nftables


def table_name(session: Session) -> str:
    return label_of(session).replace("-", "_")


def ports_of(ways: Iterable[Way]) -> str:
    return f"{{ {', '.join(str(way.port) for way in ways)} }}"


def rules_out(ways: list[Way]) -> Iterator[str]:
    """Yields the rules for what a host sends, one for each address to which it is forwarded."""
    for to in dict.fromkeys(way.to for way in ways if way.is_out):
        yield f"ip daddr {LOOPBACK} udp dport {ports_of(way for way in ways if way.to == to)} dnat to {to}"


def chain_of(name: str, hook: str, rules: Iterable[str]) -> list[str]:
    """Returns the lines of a chain."""
    return [f"    chain {name} {{", f"        type {hook}; policy accept;", *(f"        {rule}" for rule in rules), "    }"]


def table_of(session: Session, hosts: list[Host], host: Host) -> str:
    """Returns the text of the table with which a host forwards. If it is loaded again, it replaces its earlier version.

    If a system routes its loopback address, it also accepts datagrams to this address from outside. The first chain drops these.
    """
    name, ways = table_name(session), [*ways_of(session, hosts, host)]
    inward, outward = ([way for way in ways if way.is_out == is_out] for is_out in (False, True))
    others = f"{{ {', '.join(other.address for other in hosts if other != host)} }}"
    lines = [f"# what forwards datagrams of session {session.id} on host {host.name}", f"table ip {name}", f"delete table ip {name}"]
    lines += [f"table ip {name} {{"]
    lines += chain_of("guard", "filter hook prerouting priority raw", ['iifname != "lo" ip daddr 127.0.0.0/8 drop'])
    lines += chain_of("out", "nat hook output priority -100", rules_out(ways))
    rule = f"ip daddr {host.listen} ip saddr {others} udp dport {ports_of(inward)} dnat to {LOOPBACK}"
    lines += chain_of("in", "nat hook prerouting priority dstnat", [rule])
    rule = f"ip saddr {LOOPBACK} ip daddr {others} udp dport {ports_of(outward)} snat to {host.listen}"
    lines += chain_of("leave", "nat hook postrouting priority srcnat", [rule])
    return "\n".join([*lines, "}", ""])


# ---- the script that forwards

HEAD = """#!/bin/sh
# Forwards datagrams of session {id} on host {name} by {by}, until it is stopped.
cd "$(dirname "$0")/forward" || exit 2
command -v {program} > /dev/null || {{ echo "REFUSED: there is no {program}: install the package {by}" >&2; exit 2; }}
"""

BY_SOCAT = """started=
trap 'kill $started; exit 0' INT TERM
for unit in {label}-*.service; do
    $(sed -n 's/^ExecStart=//p' "$unit") &
    started="$started $!"
done
sleep 1
for each in $started; do
    kill -0 "$each" 2> /dev/null || {{ echo "FAILED: a socat ended, so nothing is forwarded" >&2; kill $started 2> /dev/null; exit 1; }}
done
echo "{told}"
wait
"""

BY_NFTABLES = """was=$(cat {route}) || exit 2
nft -f {label}.nft || exit 2
trap 'echo "$was" > {route}; nft delete table ip {table}; kill "$!"; exit 0' INT TERM
echo 1 > {route} || {{ nft delete table ip {table}; exit 2; }}
echo "{told}"
while :; do sleep 3600 & wait "$!"; done
"""

PROGRAMS = {SOCAT: (SOCAT_PATH, BY_SOCAT), NFTABLES: ("nft", BY_NFTABLES)}


def told_of(hosts: list[Host], host: Host) -> str:
    """Returns a line that describes what a host forwards."""
    inward = listed(f"party {party}" for party in host.parties)
    return f"forwarding between {inward} at {host.listen} and {listed(other.address for other in hosts if other != host)}"


def script_of(session: Session, hosts: list[Host], host: Host, by: str) -> str:
    """Returns the text of the script that forwards on a host."""
    program, body = PROGRAMS[by]
    named = {"label": label_of(session), "table": table_name(session), "route": ROUTE_LOCALNET, "told": told_of(hosts, host)}
    return (HEAD + body).format(id=session.id, name=host.name, by=by, program=program, **named)


def files_of(session: Session, hosts: list[Host], host: Host, by: str) -> dict[str, str]:
    """Returns the files with which a host forwards: their texts by name."""
    if by == SOCAT:
        return socat_files(session, [*ways_of(session, hosts, host)])
    return {f"{label_of(session)}.nft": table_of(session, hosts, host)}
