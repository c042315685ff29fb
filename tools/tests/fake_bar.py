"""A program that stands for `bar` in the tests: it takes its words, and does what a file tells.

The first word names the file, a JSON object. Of these it has what a test asks for:
  status, said     by command, the status with which it fails, and what it says then
  statuses         by party, the status with which it ends in a session
  hang             a file: a session starts a process that sleeps, writes its number there and waits
  keygen_seconds   how long a key takes
  sent, taken      by peer, the datagrams of its transcript and of its recording, in hex
  replayed         what a replay plays
  audited          the lines of an audit, which names an exchange that isn't balanced in the last one, or none
  packed           what is written to a proof file, in hex, and the line of that
  printed          what every other command prints
  live             a replay prints and plays what `peer` does: at each tick it plays a letter and sends a datagram to the next peer
It also stands for the program bar_party, whose first words are a link and a lie. A party over a pipe that lies sends to itself.
"""
import json
import pathlib
import sys

WAYS = json.loads(pathlib.Path(sys.argv[1]).read_text())


def keygen(options):
    """Makes a key file, whose public key tells nothing but its types and the secret. One of two levels has lower trees of type 5."""
    if "keygen_seconds" in WAYS:
        import time

        time.sleep(WAYS["keygen_seconds"])
    secret = pathlib.Path(options["secret"]).read_bytes().hex()
    options = {"lms": "5"} | options
    numbers = [f"{name} = {options[name]}" for name in ("party", "rounds", "lms", "ots", "top") if name in options]
    lines = ["version = 1", f'id = "{options["id"]}"', *numbers, f'secret = "{secret}"', "spent = false", ""]
    pathlib.Path(options["key"]).write_text("\n".join(lines))
    front = "00000002" if "top" in options else ""
    print(f'key = "{front}{int(options.get("top", options["lms"])):08x}{int(options["ots"]):08x}{secret}{secret[:32]}"')
    if options["party"] != "0":
        print(f'anchor = "{secret}"')


def session(options):
    """Has each party of a session end, and returns the status."""
    import tomllib

    text = tomllib.loads(pathlib.Path(options["session"]).read_text())
    if "hang" in WAYS:
        hang(pathlib.Path(WAYS["hang"]))
    for party in [*range(1, len(text["peer"]) + 1), 0]:
        status = WAYS.get("statuses", {}).get(str(party), 0)
        if status == 0:
            end_well(options, party, bytes.fromhex(text["id"]))
        print(f"party {party} status {status}", flush=True)
    return 9 if any(WAYS.get("statuses", {}).values()) else 0


def hang(path):
    """Starts a process that sleeps, and waits for it."""
    import subprocess

    child = subprocess.Popen(["sleep", "60"])
    path.write_text(str(child.pid))
    child.wait()


def end_well(options, party, session_id):
    """Spends a party's key, and leaves what a peer leaves: one tick behind which it took its datagrams."""
    key, results = pathlib.Path(f"{options['keys']}.{party}"), f"{options['results']}.{party}"
    key.write_text(key.read_text().replace("spent = false", "spent = true"))
    pathlib.Path(f"{results}.table").touch()
    if party:
        datagrams = [bytes.fromhex(datagram) for datagram in WAYS.get("taken", {}).get(str(party), [])]
        entries = [b"\x02" + len(datagram).to_bytes(2, "big") + datagram for datagram in datagrams]
        parts = [b"BARL\x01", session_id, party.to_bytes(2, "big"), b"\x01", *entries, b"\x00"]
        pathlib.Path(f"{results}.recording").write_bytes(b"".join(parts))
        pathlib.Path(f"{results}.played").write_bytes(b"played")


def replay(options):
    """Plays what a replay plays, and prints the transcript of what the peer sent behind the first tick."""
    if "live" in WAYS:
        return live_replay(options)
    peer = pathlib.Path(options["recording"]).read_bytes()[14]
    pathlib.Path(options["played"]).write_text(WAYS.get("replayed", "played"))
    pathlib.Path(f"{options['found']}.table").write_bytes(b"")
    for datagram in WAYS.get("sent", {}).get(str(peer), []):
        print(1, int(datagram[28:32], 16), datagram)


class Ended(Exception):
    """The program ends with a status, and says a line."""


def party(options, number):
    """Runs a party, whose ticks are due from the session's begin on, and which takes what comes to its port."""
    import socket
    import tomllib

    try:
        session = tomllib.loads(pathlib.Path(options["session"]).read_text())
        key = pathlib.Path(options["key"]).read_text()
        pathlib.Path(options["stream"] if number == 0 else options["session"]).read_bytes()
        pathlib.Path(options["key"]).write_text(key.replace("spent = false", "spent = true"))
        played, recording = [open(options[name], "wb", buffering=0) if number else None for name in ("played", "recording")]
        with socket.socket(socket.AF_INET, socket.SOCK_DGRAM) as link:
            bind(link, session["port"] + number)
            takes(options, session, number, link, played, recording)
        pathlib.Path(f"{options['found']}.table").write_bytes(b"")
    except OSError:
        raise Ended(3, "file failed") from None
    tell("ticks")


def bind(link, port):
    try:
        link.bind(("127.0.0.1", port))
    except OSError:
        raise Ended(6, "link failed") from None


def takes(options, session, number, link, played, recording):
    """Takes all ticks, each when it is due or behind that, and what comes between them."""
    import time

    if number:
        recording.write(b"BARL\x01" + bytes.fromhex(session["id"]) + number.to_bytes(2, "big"))
    due, ticks = int(options["begin"]) / 1000, 8 * (session["rounds"] + session["life"] + 1)
    while ticks:
        entry = b"\x01" if due <= time.time() else taken(link, min(due - time.time(), 0.1))
        if number and entry:
            recording.write(entry)
        if entry == b"\x01":
            due, ticks = due + session["tick_ms"] / 1000, ticks - 1
            for to, datagram in sent_at_tick(session, number):
                send(link, datagram, session["port"] + to)
            if number:
                played.write(b"p" * 100)
    if number:
        recording.write(b"\x00")


def piped(options, lie, number):
    """Runs a party over the standard streams."""
    import tomllib

    session = tomllib.loads(pathlib.Path(options["session"]).read_text())
    recording = [b"BARL\x01", bytes.fromhex(session["id"]), number.to_bytes(2, "big")]
    ticks = 8 * (session["rounds"] + session["life"] + 1)
    while ticks:
        sys.stdout.buffer.write(b"\x01")
        sys.stdout.buffer.flush()
        entry = sys.stdin.buffer.read(1)
        if entry == b"\x02":
            size = sys.stdin.buffer.read(2)
            entry += size + sys.stdin.buffer.read(int.from_bytes(size, "big"))
        recording.append(entry)
        if entry == b"\x01":
            ticks -= 1
            for to, datagram in sent_at_tick(session, number):
                datagram += bytes(WAYS.get("size", 0))
                to = number if lie != "none" else to
                sys.stdout.buffer.write(b"\x02" + to.to_bytes(2, "big") + len(datagram).to_bytes(2, "big") + datagram)
    if number:
        pathlib.Path(options["recording"]).write_bytes(b"".join([*recording, b"\x00"]))
        pathlib.Path(options["played"]).write_bytes(b"p" * min(600, len(recording)))
    pathlib.Path(f"{options['found']}.table").write_bytes(b"")
    tell("ticks")


def over_link(link, lie, command, *rest):
    """Runs a party over a link, with a lie."""
    options = dict(zip((word.removeprefix("--") for word in rest[::2]), rest[1::2]))
    if link == "udp":
        return peer(options)
    return piped(options, lie, 0 if command == "broadcaster" else party_of(options))


def taken(link, seconds):
    """The entry of a datagram that comes in this time, or nothing."""
    link.settimeout(max(seconds, 0.001))
    try:
        datagram = link.recv(1 << 16)
    except TimeoutError:
        return b""
    return b"\x02" + len(datagram).to_bytes(2, "big") + datagram


def send(link, datagram, port):
    try:
        link.sendto(datagram, ("127.0.0.1", port))
    except OSError:
        raise Ended(6, "link failed") from None


def sent_at_tick(session, number):
    """What a peer sends at each tick: a request for a key, to the next peer."""
    to = number % len(session["peer"]) + 1
    if number and to != number:
        head = b"\xba\x47" + bytes([session["version"], 9]) + bytes.fromhex(session["id"])
        yield to, head + number.to_bytes(2, "big") + to.to_bytes(2, "big") + b"\0\0\0\1\0\0"


def tell(line):
    try:
        print(line, flush=True)
    except OSError:
        raise Ended(7, "output failed") from None


def party_of(options):
    """The party of a key file."""
    import re

    return int(re.search(r"^party = (\d+)$", pathlib.Path(options["key"]).read_text(), re.MULTILINE)[1])


def peer(options):
    return party(options, party_of(options))


def live_replay(options):
    """Replays a recording as a party took it; one that is cut is refused."""
    import tomllib

    session = tomllib.loads(pathlib.Path(options["session"]).read_text())
    recording, at, number = pathlib.Path(options["recording"]).read_bytes(), 15, 0
    with open(options["played"], "wb") as played:
        while recording[at : at + 1] in (b"\1", b"\2"):
            number += 1
            if recording[at] == 1:
                played.write(b"p" * 100)
                for to, datagram in sent_at_tick(session, recording[14]):
                    print(number, to, datagram.hex())
            at += 1 if recording[at] == 1 else 3 + int.from_bytes(recording[at + 1 : at + 3], "big")
    if recording[at:] != b"\0":
        raise Ended(8, "input refused: recording NoEnd" if at == len(recording) else f"input refused: recording BadEntry at {at}")
    pathlib.Path(f"{options['found']}.table").write_bytes(b"")


def audit(options):
    """Reads the recordings of the parties, each of which has to be whole, and prints what an audit finds. Returns its status."""
    for party in range(int(options["first"]), int(options["last"]) + 1):
        path = pathlib.Path(f"{options['results']}.{party}.recording")
        if not path.exists():
            print("bar: file failed", file=sys.stderr)
            return 3
        if path.read_bytes()[-1:] != b"\0":
            print("bar: input refused: recording NoEnd", file=sys.stderr)
            return 8
    lines = WAYS.get("audited", ["balanced"])
    print("\n".join(lines))
    return int(lines[-1] != "balanced")


def pack(options):
    """Writes a proof file."""
    packed, line = WAYS["packed"]
    if packed:
        pathlib.Path(options["proof"]).write_bytes(bytes.fromhex(packed))
    print(line)
    return 0 if packed else 1


def other(_options):
    print(WAYS["printed"], end="")


def main():
    if len(sys.argv) == 2:
        print("bar: usage", file=sys.stderr)
        return 2
    command, *rest = sys.argv[2:]
    status = WAYS.get("status", {}).get(command)
    if status:
        print(WAYS.get("said", ""), end="", file=sys.stderr)
        return status
    if command in ("udp", "pipe"):
        return over_link(command, *rest)
    options = dict(zip((word.removeprefix("--") for word in rest[::2]), rest[1::2]))
    known = {"keygen": keygen, "hsskeygen": keygen, "session": session, "replay": replay, "audit": audit, "pack": pack}
    known |= {"peer": peer, "broadcaster": lambda options: party(options, 0)}
    try:
        return known.get(command, other)(options)
    except Ended as ended:
        print(f"bar: {ended.args[1]}", file=sys.stderr)
        return ended.args[0]


if __name__ == "__main__":
    sys.exit(main())
