"""Describes datagrams and the files that hold them, in lines for a reader or as data for a program."""
import dataclasses
import re
import tomllib
from collections.abc import Iterator

from gossip.formats.datagrams import Reader
from gossip.formats.files import (
    BLOCK,
    CASE,
    DIVULGE,
    EVICT,
    EVIDENCE,
    KEY,
    KEYREQ,
    MAGIC,
    MANIFEST,
    QUERY,
    RECORDING_HEAD,
    REPLY,
    REQUEST,
    RESPONSE,
    SLOTS,
    KeyFile,
    Malformed,
    Session,
    entries_of,
    fingerprint_of,
    manifests_of,
    parts_of,
    sends_of,
)
from gossip.formats.grammar import EXCHANGE_KINDS, GRAMMAR, NUMBER, ROLES, WINDOW, Span, Values, name_of
from gossip.scripts.console import counted, listed

# the most bytes of a field that are shown; of a longer one only their number is
LONGEST = 64

PROOF_MAGIC, PROOF_HEAD = b"BARP\x01", 6


class Datagrams:
    """Describes the datagrams of a session."""

    def __init__(self, session: Session) -> None:
        self.session, self.reader = session, Reader(session)

    def fault(self, datagram: bytes) -> str | None:
        """Returns the first reason why a datagram isn't encoded as one of the session, or None if it is one."""
        session, layout = self.session, self.reader.layout
        checks = (
            ("Short", len(datagram) < 16),
            ("BadMagic", datagram[:2] != MAGIC),
            ("BadVersion", datagram[2:3] != bytes([session.version])),
            ("BadKind", datagram[3:4] not in map(bytes, ([kind] for kind in GRAMMAR))),
            ("BadSession", datagram[4:12].hex() != session.id),
        )
        fault = next((name for name, holds in checks if holds), None)
        if fault or len(datagram) == layout.length_of(datagram[3], datagram):
            return fault or ("BadField" if self.has_bad_field(datagram) else None)
        return "BadLength"

    def has_bad_field(self, datagram: bytes) -> bool:
        """Whether a datagram of the right length has a number that is out of its range."""
        kind, session, peers = datagram[3], self.session, range(1, self.session.peers + 1)
        values, (sender, receiver) = self.numbers(datagram), self.sides(datagram)
        if kind != EVIDENCE and not 1 <= values["round"] <= session.rounds:
            return True
        if kind in (MANIFEST, EVICT):
            return sender != 0 or receiver != 0xFFFF or self.has_bad_count(kind, values, datagram)
        if kind == BLOCK:
            return sender != 0 or receiver not in peers or values["index"] >= session.per_round
        if kind == EVIDENCE:
            return sender not in peers or receiver != 0 or values["count"] not in (1, 2) or not all(parts_of(datagram[16:]))
        if sender not in peers or receiver not in peers or sender == receiver:
            return True
        bad = values.get("exchange kind", 0) > 1 or values.get("role", 0) > 1 or self.has_late_window(values["round"], datagram)
        if kind == CASE:
            bad = bad or not 1 <= values["updates"] + values["junk"] <= 16 or values.get("junk by terms", 0) > 16
        return bad or kind == REPLY and values["junk"] > 16

    def has_bad_count(self, kind: int, values: Values, datagram: bytes) -> bool:
        """Whether a manifest has too many digests, or the parties of a notice aren't one or more peers in strictly rising order."""
        if kind == MANIFEST:
            return values["count"] > self.session.per_round
        parties = [span.value_in(datagram) for span in self.spans(datagram) if span.field.name == "parties"]
        return not parties or parties != sorted(set(parties)) or not 1 <= parties[0] <= parties[-1] <= self.session.peers

    def has_late_window(self, number: int, datagram: bytes) -> bool:
        """Whether a window has updates of rounds after the datagram's own."""
        windows = [span.value_in(datagram) for span in self.spans(datagram) if span.field.form == WINDOW]
        return any(update.round > number for window in windows for update in self.reader.updates_in(number, window))

    def spans(self, datagram: bytes) -> Iterator[Span]:
        return self.reader.layout.spans(datagram[3], datagram)

    def numbers(self, datagram: bytes) -> Values:
        """Returns the fields of a datagram that have fixed positions, by name."""
        return self.reader.layout.values(datagram[3], datagram)[0]

    def sides(self, datagram: bytes) -> tuple[int, int]:
        return int.from_bytes(datagram[12:14], "big"), int.from_bytes(datagram[14:16], "big")

    # ---- in words

    def told(self, datagram: bytes) -> str:
        """Returns a text on what a datagram says, without its kind and its parties."""
        kind, values = datagram[3], self.numbers(datagram)
        number = f"round {values['round']}" if "round" in values else ""
        if kind in (MANIFEST, BLOCK):
            return f"{number}, {counted(values['count'], 'update') if kind == MANIFEST else 'index {}'.format(values['index'])}"
        if kind == EVICT:
            parties = [span.value_in(datagram) for span in self.spans(datagram) if span.field.name == "parties"]
            return f"{number}, {listed(parties)} evicted"
        if kind == EVIDENCE:
            return listed(self.line(part, "from") for part in parts_of(datagram[16:]))
        return f"{number}, {self.told_of_message(kind, values)}"

    def told_of_message(self, kind: int, values: Values) -> str:
        """Returns a text on what a datagram of an exchange says, without its round."""
        if kind in (REQUEST, RESPONSE, DIVULGE):
            history = values.get("responder's") or values.get("initiator's")
            return f"balanced, a history of {counted(self.size(values['round'], history), 'update')}" if history else "balanced"
        if kind == QUERY:
            young, aged = (self.size(values["round"], values[name]) for name in ("young", "aged"))
            return f"push, offers {counted(young, 'update')} and asks for {counted(aged, 'update')}"
        if kind == REPLY:
            want, give = (self.size(values["round"], values[name]) for name in ("wanted", "given"))
            return f"push, wants {counted(want, 'update')} and gives {counted(give, 'update')}{junk_in(values)}"
        which = EXCHANGE_KINDS[values["exchange kind"]]
        if kind == CASE:
            return f"{which}, {counted(values['updates'], 'update')}{junk_in(values)}"
        return f"{which}, of the {ROLES[values['role']]}" if kind in (KEYREQ, KEY) else which

    def size(self, number: int, window: bytes) -> int:
        return len(self.reader.updates_in(number, window))

    def line(self, datagram: bytes, side: str = "from") -> str:
        """Returns a line on a datagram: its kind, whom it is from or to, and what it says; or why it is none of the session."""
        fault = self.fault(datagram)
        if fault:
            return f"{counted(len(datagram), 'byte')} that are no datagram of the session: {fault}"
        sender, receiver = self.sides(datagram)
        whom = {"from": f"from {sender}", "to": f"to {party_of(receiver)}"}.get(side, f"from {sender} to {party_of(receiver)}")
        return f"{name_of(datagram[3])} {whom}, {self.told(datagram)}"

    # ---- as data

    def data(self, datagram: bytes) -> dict[str, object]:
        """Returns a datagram as data: its kind, its parties and its fields, or why it is none of the session."""
        fault = self.fault(datagram)
        if fault:
            return {"bytes": len(datagram), "fault": fault}
        sender, receiver = self.sides(datagram)
        fields, number = {}, self.numbers(datagram).get("round")
        for span in self.spans(datagram):
            told = self.value(span, datagram, number)
            if span.field.times:
                fields.setdefault(span.field.name, []).append(told)
            else:
                fields[span.field.name] = told
        return {"kind": name_of(datagram[3]), "from": sender, "to": receiver, "bytes": len(datagram), "fields": fields}

    def value(self, span: Span, datagram: bytes, number: int | None) -> object:
        """Returns a field as data: a number, the updates of a window, a datagram, or bytes in hex. If they are many, only their number."""
        value = span.value_in(datagram)
        if span.field.form == NUMBER:
            return value
        if span.field.form == WINDOW:
            return sorted(self.reader.updates_in(number, value))
        if span.field.form == "datagram":
            return self.data(value)
        return value.hex() if len(value) <= LONGEST else {"bytes": len(value)}


def junk_in(values: Values) -> str:
    return f" and {counted(values['junk'], 'junk item')}" if values["junk"] else ""


def party_of(receiver: int) -> int | str:
    return "all" if receiver == 0xFFFF else receiver


# ---- files

# a line, as text and as data
Line = tuple[str, dict[str, object]]


@dataclasses.dataclass(frozen=True)
class Told:
    """What a file is, in words, and its lines, each as text and as data."""

    what: str
    lines: list[Line]

    @property
    def shown(self) -> list[str]:
        """The lines for a reader. Ticks in a row after which nothing was taken share one line."""
        shown, ticks = [], []
        for line, data in self.lines:
            if "tick" in data:
                ticks.append((line, data))
                continue
            # the datagram of this line was taken after the last of these ticks
            shown += [*folded(ticks[:-1]), *(tick for tick, _ in ticks[-1:]), line]
            ticks = []
        return shown + folded(ticks)


def folded(ticks: list[Line]) -> list[str]:
    """Returns the lines of ticks in a row after which nothing was taken: one line for all of them, or the only one's own."""
    if len(ticks) < 2:
        return [line for line, _ in ticks]
    (_, first), (_, last) = ticks[0], ticks[-1]
    rounds = f"rounds {first['round']} to {last['round']}" if first["round"] < last["round"] else f"round {first['round']}"
    return [f"ticks {first['tick']} to {last['tick']}: {rounds}, and nothing was taken"]


def recording_told(data: bytes, datagrams: Datagrams) -> Told:
    """Describes a recording, with a line for each input."""
    head = data[:RECORDING_HEAD]
    if head[:5] != b"BARL\x01" or head[5:13].hex() != datagrams.session.id:
        raise Malformed("its head isn't that of a recording of this session: name the session's text by --session")
    entries, whole = entries_of(data)
    lines, tick = [], 0
    for number, entry in enumerate(entries, 1):
        tick += entry is None
        if entry is None:
            place = {"round": (tick - 1) // SLOTS + 1, "slot": (tick - 1) % SLOTS}
            lines.append((f"tick {tick}: round {place['round']}, slot {place['slot']}", {"input": number, "tick": tick} | place))
        else:
            lines.append((f"<- {datagrams.line(entry)}", {"input": number, "behind tick": tick, "datagram": datagrams.data(entry)}))
    end = "whole" if whole else "up to its last whole entry, since it has no end"
    return Told(f"a recording of party {int.from_bytes(head[13:15], 'big')}, {end}", lines)


def transcript_told(data: bytes, datagrams: Datagrams) -> Told:
    """Describes a transcript, with a line for each datagram that was sent."""
    lines = []
    for number, to, datagram in sends_of(data.decode(errors="replace").splitlines()):
        line = f"-> {datagrams.line(datagram, 'to')}, at input {number}"
        lines.append((line, {"input": number, "to": to, "datagram": datagrams.data(datagram)}))
    return Told("a transcript", lines)


def table_told(data: bytes, datagrams: Datagrams) -> Told:
    """Describes a table, with a line for each manifest."""
    lines = [(datagrams.line(it), {"at": at, "datagram": datagrams.data(it)}) for at, it in manifests_of(data)]
    return Told("a table of manifests", lines)


def evidence_told(data: bytes, datagrams: Datagrams) -> Told:
    """Describes evidence, with a line for each of its datagrams."""
    return Told("evidence", [(datagrams.line(part, "both"), {"datagram": datagrams.data(part)}) for part in parts_of(data)])


def proof_told(data: bytes, datagrams: Datagrams) -> Told:
    """Describes a proof, with a line for each manifest and each datagram of its evidence."""
    if data[: PROOF_HEAD - 1] != PROOF_MAGIC or len(data) < PROOF_HEAD:
        raise Malformed("it has no head of a proof file")
    lines, at = [], PROOF_HEAD
    for _ in range(data[PROOF_HEAD - 1]):
        size = int.from_bytes(data[at : at + 2], "big")
        manifest, at = data[at + 2 : at + 2 + size], at + 2 + size
        lines.append((datagrams.line(manifest), {"datagram": datagrams.data(manifest)}))
    return Told("a proof", [*lines, *evidence_told(data[at:], datagrams).lines])


def key_told(data: bytes, _datagrams: Datagrams | None = None) -> Told:
    """Describes a key file without its secret, with a line for each of its keys."""
    key = dataclasses.asdict(KeyFile.of_text(data))
    lines = [(f"{name} = {str(value).lower()}", {name: value}) for name, value in key.items() if value is not None]
    return Told("a key file, whose secret isn't shown", lines)


def session_told(data: bytes, _datagrams: Datagrams | None = None) -> Told:
    """Describes a session's text, with a line for each number."""
    session = dataclasses.asdict(Session.of_text(data)) | {"SHA-256": fingerprint_of(data)}
    return Told("a session's text", [(f"{name} = {value}", {name: value}) for name, value in session.items() if value is not None])


FORMS = {
    "recording": recording_told,
    "transcript": transcript_told,
    "table": table_told,
    "evidence": evidence_told,
    "proof": proof_told,
    "key": key_told,
    "session": session_told,
}
TEXTS = "key", "session"


def form_of(data: bytes) -> str:
    """Returns which of these forms a file has, by its bytes. A file that can have none of them is refused."""
    if data[:4] in (b"BARL", b"BARP"):
        return "recording" if data[:4] == b"BARL" else "proof"
    if re.match(rb"\d+ \d+ [0-9a-f]*(\n|$)", data):
        return "transcript"
    for form, read in (("table", lambda: [it for _, it in manifests_of(data)]), ("evidence", lambda: parts_of(data))):
        try:
            if all(it[:2] == MAGIC[:2] for it in read()):
                return form
        except Malformed:
            continue
    try:
        return "key" if "secret" in tomllib.loads(data.decode()) else "session"
    except ValueError:
        raise Malformed("its bytes are those of none of these files: name what it is by --as") from None
