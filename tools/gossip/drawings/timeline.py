"""Draws a run as one page that needs no other file: an overview of all peers, and the exchanges of one peer when it is chosen.

Everything comes from the run's data. The page itself contains the figures and tables. The script in tools/page draws the overview and a
peer's exchanges, from the same data in a shorter form.
"""
import collections
import dataclasses
import html
import itertools
import json
import typing
from collections.abc import Callable, Collection, Iterable, Iterator, Sequence

from gossip.drawings.decoded import Seen, Video
from gossip.drawings.session_picture import FONT, tag
from gossip.programs.bar import ROOT
from gossip.reports import endings
from gossip.reports.debts import Debt, debt_of, debts_of
from gossip.reports.flooding import outside_told
from gossip.reports.run_data import (
    BALANCED_WAY,
    BLOCK_WAY,
    PUSH_WAY,
    EvidenceRow,
    PeerRow,
    ReleaseRow,
    RoundRow,
    Run,
    SideRow,
    TrafficRow,
    UpdateRow,
    columns_of,
)
from gossip.scripts.console import counted, listed

PARTS = ROOT / "tools/page"

# the largest number of peers for which all are shown at once
SMALL = 6

# how many pairs of parties with the most losses are listed
WORST = 8

WAYS = {BLOCK_WAY: "b", BALANCED_WAY: "x", PUSH_WAY: "p"}

READING = (
    """The overview has a row for each peer and a column for each round, and above it the part of the updates due in a round that all peers
together played, by the way in which these came. Move over it, or go to it by Tab and then by the arrow keys, to read a cell in words; a
click or Enter opens that peer’s exchanges, whose rounds the arrow keys walk through too. A red dot is the first notice of an
eviction. The scale above the overview says what a shade stands for.""",
    """Of one peer, a coloured sign is its side of an exchange, and the number in it is the partner. Blue are the balanced exchanges, one
update for one; amber are the pushes, in which fresh updates are offered for old ones or for junk. A full sign, the first on its line, is
the exchange that the peer started; behind it stand those in which it answered.""",
    """Both partners first send what they promise in sealed briefcases, and then the keys to these: giving the key is paying. The arrow
above a sign says that this peer paid, and the arrow below it that it was paid, by a key that opens what was promised. A pale sign came to
nothing: one of the two lacked nothing that the other had, the offer was not wanted, or no answer came. Where a peer did nothing and
played nothing for two rounds or more, these are folded; a click or Enter unfolds them.""",
    """The marks at the foot of a round are the updates that are played in it, in order, and in several lines where they are many; an update
is played {life} rounds after its own. A mark is grey where the update came from the broadcaster, which sends each to {fanout}, and green
where it came by a trade; of both ways the first counts.""",
)


# the value of a cell of a table
Cell = int | str

Row = typing.TypeVar("Row", RoundRow, UpdateRow, SideRow)


def part_of(part: float, whole: float, format_: str = ".1%") -> str:
    return f"{part / whole:{format_}}" if whole else "–"


def table(names: Sequence[str], lines: Iterable[Sequence[Cell]], label: str, text: Collection[int] = ()) -> str:
    """Returns a table that scrolls sideways if it is wide. The columns with the numbers in `text` contain text."""
    classes = [{"class_": "text"} if at in text else {} for at in range(len(names))]
    head = tag("tr", *(tag("th", name, scope="col", **more) for name, more in zip(names, classes)))
    rows = [tag("tr", *(tag("td", cell_of(it), **more) for it, more in zip(line, classes))) for line in lines]
    return tag("div", tag("table", tag("thead", head), tag("tbody", *rows)), class_="wide", tabindex="0", role="region", aria_label=label)


def cell_of(value: Cell) -> str:
    return f"{value:,}" if isinstance(value, int) else html.escape(str(value))


# ---- the data of the page


def ways_of(arrivals: dict[tuple[int, int], UpdateRow], releases: list[ReleaseRow]) -> Iterator[str]:
    """Yields a letter for how each update came: a capital if it wasn't played, `l` if it came too late, a dot if it didn't come."""
    for release in releases:
        row = arrivals.get((release.round, release.index))
        letter = WAYS[row.way] if row and row.in_time else "l" if row else "."
        yield letter.upper() if row and row.in_time and not row.played else letter


@dataclasses.dataclass(frozen=True)
class SideNumbers:
    """A side of an exchange as the page's script reads it, in the order of these fields. A tick that isn't known is 0."""

    round: int
    flags: int
    partner: int
    gives: int
    gives_junk: int
    gets: int
    gets_junk: int
    key_given: int
    key_got: int
    wrong_key: int


def side_of(side: SideRow, debt: Debt | None, is_unbalanced: bool, had_nothing: bool) -> list[int]:
    """Returns the numbers of a side. If its partner owed a key, the debt's first and last round follow, and whether it was paid."""
    numbers = SideNumbers(
        side.round,
        flags=(side.kind == "push") + 2 * side.asks + 4 * side.answered + 8 * is_unbalanced + 16 * had_nothing,
        partner=side.partner,
        gives=len(side.gives),
        gives_junk=side.gives_junk,
        gets=len(side.gets),
        gets_junk=side.gets_junk,
        key_given=side.key_given or 0,
        key_got=side.key_got or 0,
        wrong_key=side.wrong_key or 0,
    )
    return [*dataclasses.astuple(numbers), *([debt.first, debt.last, int(debt.is_paid)] if debt else [])]


def by_peer(rows: Iterable[Row]) -> dict[int, list[Row]]:
    """Returns the rows grouped by peer."""
    found = collections.defaultdict(list)
    for row in rows:
        found[row.peer].append(row)
    return found


class Rows:
    """The rows of a run by peer, and the exchanges that are unbalanced or had nothing to trade."""

    def __init__(self, run: Run) -> None:
        self.rounds, self.updates, self.sides = by_peer(run.rounds), by_peer(run.updates), by_peer(run.sides)
        self.unbalanced = {row.exchange for row in run.exchanges if row.audit == "unbalanced"}
        self.nothing = endings.with_nothing(run)


def closer(run: Run, peer: PeerRow, rows: Rows) -> dict[str, object]:
    """Returns the data of a peer for the page's script."""
    names = "peer", "lies", "ticks", "started", "answered", "traded"
    told = {name: getattr(peer, name) for name in names} | {"part": part_of(peer.bytes_played, run.stream)}
    if peer.refused:
        return told
    arrivals = {(row.round, row.index): row for row in rows.updates[peer.peer]}
    came = [arrivals.get((release.round, release.index)) for release in run.releases]
    fields = "due", "played", "came", "started", "answered", "traded", "lost", "accuses"
    return told | {
        "rounds": [int(getattr(row, field)) for row in rows.rounds[peer.peer] for field in fields],
        "ways": "".join(ways_of(arrivals, run.releases)),
        "comes": [row.tick if row else 0 for row in came],
        "senders": [row.sender if row else 0 for row in came],
        "sides": [
            side_of(side, debt_of(run.session, side), side.exchange in rows.unbalanced, side.exchange in rows.nothing)
            for side in rows.sides[peer.peer]
        ],
    }


def data_of(run: Run) -> dict[str, object]:
    """Returns the data of a run for the page's script."""
    rows = Rows(run)
    return {
        "session": run.session,
        "small": len(run.peers) <= SMALL,
        "transcripts": bool(run.replays["replayed"]),
        "evictions": {row.party: row.round for row in run.evictions if row.round},
        "releases": [[row.round, row.index] for row in run.releases],
        "peers": [closer(run, peer, rows) for peer in run.peers],
    }


# ---- the contents of the page


def subtitle(run: Run) -> str:
    """Returns the session's numbers, in words."""
    numbers = run.session
    told = [counted(numbers["peers"], "peer"), counted(numbers["rounds"], "round")]
    told += [f"{counted(numbers['per_round'], 'update')} a round, each to {counted(numbers['fanout'], 'peer')}"]
    told += [f"an update lives {numbers['life']} rounds", f"an exchange trades at most {numbers['cap']}"]
    told += [f"a tick has {numbers['tick_ms']} ms"]
    signed = f"signatures of two levels, top {numbers['top']}" if numbers.get("top") else f"LMS type {numbers['lms']}"
    told += [f"version {numbers['version']}", f"{signed}, LM-OTS type {numbers['ots']}", f"id {numbers['id']}"]
    return html.escape(" · ".join(told))


def figures(run: Run) -> str:
    """Returns the run in a few numbers."""
    replayed = [peer for peer in run.peers if not peer.refused]
    ended = [peer for peer in replayed if peer.ticks >= run.session["ticks"]] or replayed
    parts = [peer.bytes_played / run.stream if run.stream else 0 for peer in ended]
    whose = "on average" if len(ended) == len(run.peers) else "on average by those that ran to the end"
    played, traded = sum(peer.played for peer in replayed), sum(peer.played_by_balanced + peer.played_by_push for peer in replayed)
    sent, lost = losses_of(run)
    told = [(f"{sum(parts) / len(parts):.1%}", f"of the stream was played, {whose}; at least {min(parts):.1%}")] if parts else []
    gap = counted(max((peer.gap for peer in ended), default=0), "round")
    told += [
        (part_of(traded, played), "of the updates that were played came by trades"),
        exchanges_told(run),
        (part_of(lost, sent, ".2%"), f"of the datagrams to peers were lost: {lost:,} of {sent:,}"),
        (f"{len(run.evictions):,}", f"evicted; at most {gap} in a row not wholly played"),
    ]
    debts, paid = debts_of(run)
    told += [(f"{debts:,}", f"times a partner owed a key and wasn't served for it; {paid:,} of these keys came")] if debts else []
    return tag("div", *(tag("div", tag("b", number), tag("span", said)) for number, said in told), class_="figures")


def exchanges_told(run: Run) -> tuple[str, str]:
    """Returns how many of the exchanges with something to trade ended with both keys, and a text on these and on the others."""
    ends = collections.Counter(endings.ends_of(run).values())
    traded, told = ends[endings.BOTH_KEYS], "exchanges with something to trade ended with both keys given"
    words = {endings.NOTHING: "{:,} had nothing to trade", endings.NO_ANSWER: "{:,} had no answer"}
    words |= {endings.UNKNOWN: "of {:,} only the answering side is known"}
    others = [said.format(ends[end]) for end, said in words.items() if ends[end]]
    return f"{traded:,} of {traded + ends[endings.CUT_SHORT]:,}", "; ".join([told, *others])


def kinds_of(run: Run) -> dict[str, collections.Counter[str]]:
    """Returns by kind the sums of the counts of traffic, and how many datagrams came more often than sent or weren't sent."""
    kinds = collections.defaultdict(collections.Counter)
    for row in run.traffic:
        kinds[row.kind].update({name: getattr(row, name) for name in columns_of(TrafficRow)[2:]})
    for row in run.losses:
        kinds[row.kind].update({name: getattr(row, name) for name in ("copies", "unsent")})
    return dict(sorted(kinds.items()))


def losses_of(run: Run) -> tuple[int, int]:
    """Returns how many datagrams are known to be either taken or lost, and how many of these were lost."""
    return sum(row.known for row in run.traffic), sum(row.lost for row in run.traffic)


def losses(run: Run) -> list[str]:
    """Returns the section on the datagrams of each kind, and on the pairs of parties between which most were lost."""
    names = ["kind", "sent", "again", "bytes", "taken", "again", "bytes", "lost", "share lost", "came more often", "not sent"]
    columns = "sent", "sent_again", "bytes_sent", "taken", "taken_again", "bytes_taken", "lost"
    lines = []
    for kind, it in kinds_of(run).items():
        lines.append([kind, *(it[name] for name in columns), part_of(it["lost"], it["known"], ".2%"), it["copies"], it["unsent"]])
    pairs = collections.Counter()
    for row in run.losses:
        pairs[row.sender, row.receiver] += row.lost
    worst = [f"{sender} to {receiver}: {count:,}" for (sender, receiver), count in pairs.most_common(WORST) if count]
    told = "What was sent and not taken is lost, with what came behind a peer’s end. "
    told += f"Most from one to another: {'; '.join(worst)}." if worst else "Nothing was lost."
    told += "" if run.casts else " What the broadcaster sent isn’t known, so its losses aren’t counted."
    return [tag("h2", "Datagrams and losses"), tag("p", told, class_="soft"), table(names, lines, "datagrams by kind")]


def audited(audit: dict[str, object]) -> str:
    """Returns a text on what an auditor found."""
    if audit["refused"]:
        return f"The recordings weren’t audited: {audit['refused']}."
    told = f"An auditor, who has the public keys alone, read the {counted(audit['recordings'], 'recording')}"
    if audit["named"]:
        number, kind, initiator, responder = audit["named"]
        what = "push" if kind == "push" else "balanced exchange"
        which = f"the {what} of round {number} that peer {initiator} started with peer {responder}"
        framed = "A red frame stands around the signs of exchanges that are unbalanced."
        return f"{told} and found {which} unbalanced: {audit['cause']}. {framed}"
    count = audit["exchanges"]
    balanced = "each peer that gave its key holds its partner’s briefcase, by which both promise equally many items"
    found = f"all {counted(count, 'exchange')}" if count != 1 else "the one exchange"
    return f"{told} and found {found} balanced: {balanced}." if count else f"{told} and found no exchange."


def notes(run: Run) -> list[str]:
    """Returns lines on the audit, on replays, and on peers that stand out."""
    lines = [(audited(run.audit), bool(run.audit["named"]))] if run.audit else []
    agree = f"{run.replays['agree']} of {counted(run.replays['replayed'], 'replay')} agree with what the peers left."
    lines.append((agree, run.replays["agree"] < run.replays["replayed"]))
    reasons = collections.defaultdict(list)
    for peer in [peer for peer in run.peers if peer.refused]:
        reasons[peer.refused].append(f"peer {peer.peer}")
    lines += [(f"There is no row for {listed(peers)}: {reason}.", True) for reason, peers in reasons.items()]
    lines += [(f"Peer {peer.peer}: {listed(peer.differs)}.", True) for peer in run.peers if peer.differs]
    flooded = [peer for peer in run.peers if peer.full]
    lines += [(f"Peer {it.peer} was flooded: {counted(it.full, 'tick')} had no room for more datagrams.", True) for it in flooded]
    outside = outside_told(run.outside)
    lines += [(f"{outside}.", True)] if outside else []
    liars = [f"peer {peer.peer}" for peer in run.peers if peer.lies]
    lines += [(f"{listed(liars)} lied on purpose.".capitalize(), True)] if liars else []
    return [tag("p", html.escape(said), class_="warn") if warns else tag("p", html.escape(said)) for said, warns in lines]


def evidence(run: Run) -> list[str]:
    """Returns the sections on who was evicted, and on the evidence that is kept."""
    parts = []
    if run.evictions:
        lines = [[row.party, row.fault or "–", row.round or "–", row.told] for row in run.evictions]
        parts += [tag("h2", "Evictions"), table(["peer", "fault", "first notice in round", "peers that took a notice"], lines, "evictions")]
    if run.evidence:
        lines = []
        for row in sorted(run.evidence, key=lambda row: (row.accused, row.keeper)):
            keeper = f"peer {row.keeper}" if row.keeper else "the broadcaster"
            lines.append([row.accused, keeper, row.fault or row.verdict or "–", " and ".join(row.datagrams), exchange_in_words(row)])
        names = ["against peer", "kept by", "fault by the judge", "its datagrams", "of"]
        parts += [tag("h2", "Evidence"), table(names, lines, "evidence", text=(1, 2, 3, 4))]
    return parts


def exchange_in_words(row: EvidenceRow) -> str:
    if row.round is None:
        return "–"
    return f"round {row.round}, {row.kind}, started by peer {row.initiator} with peer {row.responder}"


@dataclasses.dataclass(frozen=True)
class Column:
    """A column of the table of peers: its group, its name within the group, its full name, and its value for a peer."""

    group: str
    name: str
    whole: str
    # a field of the peer's row, or a function of this row
    of: str | Callable[[PeerRow], Cell]

    def cell(self, peer: PeerRow) -> Cell:
        """Returns the column's value for a peer."""
        return getattr(peer, self.of) if isinstance(self.of, str) else self.of(peer)


def peer_columns(run: Run, video: Video | None = None) -> list[Column]:
    """Returns the columns of the table of peers. If there is a video, they include the frames that decode."""
    nothing = endings.with_nothing(run)
    idle = collections.Counter(side.peer for side in run.sides if side.exchange in nothing)
    columns = [
        Column("", "peer", "peer", "peer"),
        Column("played", "bytes", "bytes played", "bytes_played"),
        Column("played", "of the stream", "part of the stream", lambda peer: part_of(peer.bytes_played, run.stream)),
        Column("played", "longest gap", "longest gap in rounds", "gap"),
        Column("updates played", "as blocks", "played, from the broadcaster", "played_by_block"),
        Column("updates played", "balanced", "played, by balanced exchanges", "played_by_balanced"),
        Column("updates played", "pushed", "played, by pushes", "played_by_push"),
        Column("came", "as blocks", "blocks first from the broadcaster", "blocks"),
        Column("came", "too late", "came too late", "late"),
        Column("exchanges", "started", "exchanges started", "started"),
        Column("exchanges", "answered", "answered", "answered"),
        Column("exchanges", "both keys", "with both keys", "traded"),
        Column("exchanges", "nothing to trade", "with nothing to trade", lambda peer: idle[peer.peer]),
        Column("keys", "given", "keys given", "keys_given"),
        Column("keys", "got", "keys got that open well", "keys_got"),
        Column("datagrams", "sent", "datagrams sent", "sent"),
        Column("datagrams", "bytes", "bytes sent", "bytes_sent"),
        Column("datagrams", "taken", "datagrams taken", "taken"),
        Column("datagrams", "bytes", "bytes taken", "bytes_taken"),
        Column("datagrams", "lost to it", "lost on the way to it", "lost"),
    ]
    if video:
        frames = {peer: seen.frames for peer, seen in video.peers.items()}
        columns.insert(3, Column("played", "frames", "frames that decode", lambda peer: frames.get(peer.peer, "–")))
    return columns


def head_of_peers(columns: list[Column]) -> list[str]:
    """Returns the head of the table of peers: the groups, and the columns with buttons that sort by them."""
    groups = [(group, len([*of])) for group, of in itertools.groupby(columns, lambda column: column.group)]
    spans = [tag("th", group, scope="colgroup", colspan=count) for group, count in groups]
    buttons = [tag("button", column.name, type="button", title=f"{column.whole}: sort by it") for column in columns]
    sorts = [tag("th", button, scope="col", aria_label=column.whole) for button, column in zip(buttons, columns)]
    borders = [tag("colgroup", span=count) for _, count in groups]
    return [*borders, tag("thead", tag("tr", *spans, class_="groups"), tag("tr", *sorts))]


def peers_table(run: Run, video: Video | None = None) -> list[str]:
    """Returns the table of each peer's totals, which a reader can sort."""
    columns = peer_columns(run, video)
    rows = [tag("tr", *(tag("td", cell_of(column.cell(peer))) for column in columns)) for peer in run.peers if not peer.refused]
    drawn = tag("table", *head_of_peers(columns), tag("tbody", *rows), class_="sorts")
    told = "Blocks come from the broadcaster. A click on a name sorts by its column, and another click the other way."
    told = tag("p", told, class_="soft")
    return [tag("h2", "Each peer"), told, tag("div", drawn, class_="wide", tabindex="0", role="region", aria_label="totals of each peer")]


# ---- a video


def lag_of(seen: Seen, whole: Seen) -> float:
    """Returns how many seconds before the stream's still a still is due, or 0 if there is none."""
    return round(whole.second - seen.second, 2) if seen.still else 0


def still(seen: Seen, whole: Seen, name: str, told: str) -> str:
    """Returns a still with its caption: whose it is, how many frames decode, and for how long it is shown if it is an earlier one."""
    lag = lag_of(seen, whole)
    frozen = f"; this one stands for {lag:.2f} s" if lag else ""
    picture = f'<img src="{seen.picture}" alt="a still of {name}"/>' if seen.still else tag("div", "nothing to show", class_="none")
    caption = tag("figcaption", tag("b", name), f" {told}{frozen}")
    return tag("figure", picture, caption)


def video_of(run: Run, video: Video | None) -> list[str]:
    """Returns the section on the video: the frames that decode of each peer's file, and a still of each."""
    if not video:
        return []
    whole, bytes_played = video.whole, {peer.peer: part_of(peer.bytes_played, run.stream) for peer in run.peers}
    stills = [still(whole, whole, "the stream", f"{counted(whole.frames, 'frame')}")]
    for peer, seen in video.peers.items():
        told = f"{seen.frames:,} of {whole.frames:,} frames decode, of {bytes_played[peer]} of the bytes"
        stills.append(still(seen, whole, f"peer {peer}", told))
    told = f"The stream is a video. Each still is what a player shows at second {whole.second:.2f}, the last frame that decodes by then. "
    told += "At no other moment do more peers lack their frame." if any(lag_of(it, whole) for it in video.peers.values()) else ""
    return [tag("h2", "The video"), tag("p", told, class_="soft"), tag("div", *stills, class_="stills")]


def icon(width: float, *parts: str) -> str:
    return tag("svg", *parts, width=width, height=26, aria_hidden="true")


def sign(push: bool, asks: bool, traded: bool = True, paid: bool = False, was_paid: bool = False) -> str:
    """Returns a sign for the legend."""
    parts = [tag("rect", class_="sign", x=0.5, y=6.5, width=15, height=13, rx=3.5), tag("text", "3", class_="partner", x=8, y=16.5)]
    parts += [tag("path", class_="key", d="M4 4.5L12 4.5L8 0Z")] if paid else []
    parts += [tag("path", class_="key", d="M4 21.5L12 21.5L8 26Z")] if was_paid else []
    classes = "push" if push else "balanced", "asks" if asks else "asked", "traded" if traded else "idle"
    return icon(16, tag("g", *parts, class_=" ".join(classes)))


def mark(class_: str) -> str:
    return icon(9, tag("rect", class_=class_, x=0.5, y=8.5, width=8, height=9))


def legend(*entries: tuple[str, str]) -> str:
    return tag("div", *(tag("span", drawn, said) for drawn, said in entries), class_="legend")


def radio(value: str, said: str) -> str:
    """Returns a choice of what the overview shows. The choice `played` is selected at first."""
    chosen = ' checked="checked"' if value == "played" else ""
    return f'<label><input type="radio" name="measure" value="{value}"{chosen}/>{said}</label>'


def overview(run: Run) -> list[str]:
    """Returns the overview, which the script draws."""
    dot = icon(9, tag("circle", class_="alarm", cx=4.5, cy=13, r=4))
    ways = legend(
        (mark("straight"), "played, came from the broadcaster"),
        (mark("traded"), "by balanced exchanges"),
        (mark("pushed"), "by pushes"),
        (mark("field"), "due and not played"),
        (mark("gone"), "stopped"),
        *([(dot, "the first notice of an eviction")] if run.evictions else []),
    )
    shown = {"played": "what it played of what was due", "traded": "its exchanges with both keys", "lost": "datagrams to it that were lost"}
    choices = [radio(*it) for it in shown.items()]
    controls = tag("div", tag("fieldset", tag("legend", "A row shows", class_="soft"), *choices), class_="controls")
    scale = tag("div", id="scale", class_="legend scale")
    grid = tag("div", id="grid", tabindex="0", role="application", aria_label="overview of peers by rounds", aria_describedby="cell")
    told = "Go to the overview and use the arrow keys, or point at it; Enter opens a peer."
    cell = tag("p", told, id="cell", aria_live="polite", class_="soft")
    script = tag("noscript", tag("p", "The overview and the peers’ exchanges are drawn by a script in this page.", class_="warn"))
    return [tag("h2", "All peers by rounds"), ways, controls, scale, script, tag("div", grid, cell)]


def one_peer(run: Run) -> list[str]:
    """Returns the place for one peer's exchanges, with the menu that chooses the peer."""
    options = ['<option value="all">all</option>'] if len(run.peers) <= SMALL else ['<option value="" selected="selected">none</option>']
    options += [f'<option value="{peer.peer}">{peer.peer}</option>' for peer in run.peers if not peer.refused]
    choice = f'<label>peer <select id="peer">{"".join(options)}</select></label>'
    signs = legend(
        (sign(False, True), "asks peer 3 for a balanced exchange"),
        (sign(False, False), "is asked by peer 3"),
        (sign(True, True), "offers updates to peer 3"),
        (sign(True, False), "is offered some by peer 3"),
        (sign(False, True, traded=False), "came to nothing: nothing to trade, or no answer"),
        (sign(False, True, paid=True), "paid: gave its key"),
        (sign(False, True, was_paid=True), "was paid: was given the key"),
        (mark("straight"), "played, came from the broadcaster"),
        (mark("traded"), "played, came by a trade"),
        (mark("missed"), "not played"),
    )
    return [tag("h2", "One peer’s exchanges"), tag("div", choice, class_="controls"), signs, tag("div", id="lanes")]


def reading(run: Run) -> str:
    """Returns the section on how to read the page, folded."""
    life, fanout = run.session["life"], counted(run.session["fanout"], "peer")
    told = [tag("p", said.format(life=life, fanout=fanout)) for said in READING]
    return tag("details", tag("summary", "How to read this page"), tag("div", *told, class_="reading"))


def page(run: Run, video: Video | None = None) -> str:
    """Returns the page of a run. If its stream is a video, `video` is what decodes of it."""
    style, script = ((PARTS / name).read_text("utf-8") for name in ("page.css", "page.js"))
    parts = [tag("h1", "A session, as its peers recorded it"), tag("p", subtitle(run), class_="soft"), reading(run)]
    parts += [figures(run), *notes(run), *video_of(run, video), *overview(run), *one_peer(run)]
    parts += [*evidence(run), *losses(run), *peers_table(run, video)]
    head = '<meta charset="utf-8"><meta name="viewport" content="width=device-width, initial-scale=1">'
    head += f"<title>Session {html.escape(run.session['id'])}</title>{tag('style', style.replace('FONT', FONT))}"
    data = json.dumps(data_of(run), separators=(",", ":")).replace("<", "\\u003c")
    scripts = f'<script type="application/json" id="run">{data}</script>\n<script>\n{script}</script>'
    return f'<!doctype html>\n<html lang="en"><head>{head}</head>\n<body>{tag("main", *parts)}\n{scripts}</body></html>\n'
