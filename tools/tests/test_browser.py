"""The page of a run in a real browser, against the run's data; skipped where there is no chromium."""
import collections
import html
import html.parser
import pathlib
import shutil
import subprocess
import sys
import tempfile
import unittest

sys.path.insert(0, str(pathlib.Path(__file__).resolve().parent.parent))

from made_runs import busy_run

from gossip.drawings import timeline
from gossip.reports.run_data import EvictionRow, Run

BROWSER = shutil.which("chromium") or shutil.which("chromium-browser")
OPTIONS = ["--headless", "--no-sandbox", "--disable-gpu", "--disable-dev-shm-usage", "--no-first-run"]
OPTIONS += ["--virtual-time-budget=2000", "--dump-dom"]
DARK = ["--blink-settings=preferredColorScheme=0"]
# a browser without a screen has windows of 500 pixels at least, so a page that is as wide as a phone stands in a frame
PHONE = 390
VOID = {"input", "meta", "br", "link"}
PEER, ROUND, STOPPED = 4, 9, 2


class Elements(html.parser.HTMLParser):
    """The elements of a document, each with its name, its attributes and all text in it."""

    def __init__(self, text):
        super().__init__()
        self.all, self.open = [], []
        self.feed(text)

    def handle_starttag(self, name, attributes):
        it = {"name": name, "text": "", "in": [*self.open], **dict(attributes)}
        self.all.append(it)
        if name not in VOID:
            self.open.append(it)

    def handle_endtag(self, name):
        while self.open and self.open.pop()["name"] != name:
            pass

    def handle_data(self, data):
        for it in self.open:
            it["text"] += data

    def of_class(self, class_, name=None):
        return [it for it in self.all if class_ in (it.get("class") or "").split() and name in (None, it["name"])]

    def with_id(self, id_):
        return next(it for it in self.all if it.get("id") == id_)


def browsed(page, address="", options=()):
    """The elements of a page when a browser has read it."""
    with tempfile.TemporaryDirectory(ignore_cleanup_errors=True) as room:
        path = pathlib.Path(room) / "timeline.html"
        path.write_text(page)
        words = [BROWSER, *OPTIONS, *options, f"--user-data-dir={room}/profile", f"{path.as_uri()}{address}"]
        ran = subprocess.run(words, stdout=subprocess.PIPE, stderr=subprocess.PIPE, timeout=60)
    return Elements(ran.stdout.decode())


# presses keys: in the overview two peers down and eight rounds to the right, then Enter, then in the peer's rounds one to the left
PRESSES = """<script>
const press = key => document.activeElement.dispatchEvent(new KeyboardEvent("keydown", {key, bubbles: true, cancelable: true}));
const told = {}, shown = () => document.getElementById("cursor").getAttribute("visibility") || "visible";
told.frames = [shown()];
document.getElementById("grid").focus();
told.frames.push(shown());
told.scale = document.getElementById("scale").textContent;
["ArrowDown", "ArrowDown", ...Array(8).fill("ArrowRight")].forEach(press);
told.cell = document.getElementById("cell").textContent;
press("Enter");
told.opened = document.activeElement.dataset.round;
press("ArrowLeft");
told.left = document.activeElement.dataset.round;
press("End");
told.end = document.activeElement.dataset.round;
told.paper = getComputedStyle(document.body).backgroundColor;
told.ink = getComputedStyle(document.body).color;
told.peers = [...document.querySelectorAll("section")].map(section => section.dataset.peer);
told.pressed = [...document.querySelectorAll("button[aria-pressed=true]")].map(button => button.dataset.round);
told.first = [];
for (const name of ["bytes played", "bytes played", "peer", "peer"]) {
  document.querySelector(`th[aria-label="${name}"] button`).click();
  told.first.push(document.querySelector(".sorts tbody td").textContent);
}
told.sorted = [...document.querySelectorAll("th[aria-sort]")].map(header => [header.ariaLabel, header.ariaSort]);
told.widths = [innerWidth, document.documentElement.scrollWidth <= innerWidth];
for (const name in told) parent.document.body.dataset[name] = told[name];
</script></body>"""


@unittest.skipUnless(BROWSER, "there is no chromium")
class Keys(unittest.TestCase):
    @classmethod
    def setUpClass(cls):
        cls.run_ = busy_run(9, 10)
        page = html.escape(timeline.page(cls.run_).replace("</body>", PRESSES))
        frame = f'<iframe srcdoc="{page}" width="{PHONE}" height="800" style="border: 0"></iframe>'
        elements = browsed(f"<!doctype html><html><body>{frame}</body></html>", options=DARK)
        cls.body = next(it for it in elements.all if it["name"] == "body")

    def test_arrows_go_over_the_overview_and_enter_opens_a_peer(self):
        row = next(row for row in self.run_.rounds if (row.peer, row.round) == (3, 9))
        told = f"Peer 3, round 9: played {row.played} of {row.due} updates; "
        self.assertTrue(self.body["data-cell"].startswith(told), self.body["data-cell"])
        self.assertEqual((self.body["data-peers"], self.body["data-opened"]), ("3", "9"))

    def test_arrows_go_over_the_rounds_of_a_peer(self):
        self.assertEqual((self.body["data-left"], self.body["data-end"]), ("8", str(self.run_.session["ends"])))
        self.assertEqual(self.body["data-pressed"], self.body["data-end"])

    def test_no_frame_stands_before_anybody_pointed(self):
        self.assertEqual(self.body["data-frames"], "hidden,visible")

    def test_the_scale_tells_what_a_shade_stands_for(self):
        self.assertEqual(self.body["data-scale"], "0255075100% of what was due in a round; blank where nothing was")

    def test_the_table_of_peers_is_sorted_by_a_column_and_back(self):
        by_bytes = sorted(self.run_.peers, key=lambda peer: peer.bytes_played)
        most, least = (next(it.peer for it in rows if it.bytes_played == rows[0].bytes_played) for rows in (by_bytes[::-1], by_bytes))
        first = [int(it) for it in self.body["data-first"].split(",")]
        bytes_of = {peer.peer: peer.bytes_played for peer in self.run_.peers}
        self.assertEqual([bytes_of[it] for it in first[:2]], [bytes_of[most], bytes_of[least]])
        self.assertEqual(first[2:], [1, 9])
        self.assertEqual(self.body["data-sorted"], "peer,descending")

    def test_it_is_dark_where_that_is_preferred(self):
        self.assertEqual((self.body["data-paper"], self.body["data-ink"]), ("rgb(20, 24, 29)", "rgb(228, 233, 238)"))

    def test_it_is_no_wider_than_a_phone(self):
        self.assertEqual(self.body["data-widths"], f"{PHONE},true")


@unittest.skipUnless(BROWSER, "there is no chromium")
class Browser(unittest.TestCase):
    @classmethod
    def setUpClass(cls):
        # what is drawn is compared with what is read of session.json
        run = busy_run(9, 10)
        run.evictions = [EvictionRow(PEER, "F1", ROUND, 8)]
        run.rounds = [row for row in run.rounds if (row.peer, row.round) not in {(STOPPED, number) for number in range(12, 18)}]
        cls.run_ = Run.of_json(run.to_json())
        cls.elements = browsed(timeline.page(cls.run_), f"#peer={PEER}&round={ROUND}&show=lost")

    def rows(self, name):
        return [row for row in getattr(self.run_, name) if row.peer == PEER]

    def test_the_overview_has_a_cell_for_each_round_with_losses(self):
        lost = [row for row in self.run_.rounds if row.lost]
        self.assertEqual(len(self.elements.of_class("cell", "rect")), len(lost))
        percents = [it["text"] for it in self.elements.of_class("end", "text") if "%" in it["text"]]
        self.assertEqual(percents, [f"{peer.bytes_played / self.run_.stream:.1%}" for peer in self.run_.peers])

    def test_the_chart_adds_up_to_what_was_played(self):
        # above the overview each column has the parts of what was due that came in each way, of 46 in all
        (chart,) = self.elements.of_class("chart", "g")
        life, due = self.run_.session["life"], collections.Counter()
        for row in self.run_.rounds:
            due[row.round] += row.due
        ran = {(row.peer, row.round) for row in self.run_.rounds}
        for class_, way in (("straight", "block"), ("traded", "balanced"), ("pushed", "push")):
            drawn = sum(float(it["height"]) for it in self.elements.of_class(class_, "rect") if chart in it["in"])
            played = [row for row in self.run_.updates if row.way == way and row.played and (row.peer, row.round + life) in ran]
            self.assertAlmostEqual(drawn, sum(46 / due[row.round + life] for row in played), delta=0.05 * len(due))

    def test_an_eviction_and_a_stop_are_shown(self):
        self.assertEqual(len(self.elements.of_class("evicted", "circle")), 1)
        self.assertIn("; the first notice of its eviction.", self.elements.with_id("cell")["text"])
        (line,) = [it["text"] for it in self.elements.all if it["name"] == "tr" and "F1" in it["text"]]
        self.assertEqual(line, f"{PEER}F1{ROUND}8")
        grid = self.elements.with_id("grid")
        self.assertEqual(len([it for it in self.elements.of_class("gone", "rect") if grid in it["in"]]), self.run_.session["ends"] - 11)

    def test_a_cell_is_told(self):
        row = next(row for row in self.rows("rounds") if row.round == ROUND)
        told = f"Peer {PEER}, round {ROUND}: played {row.played} of {row.due} updates; {row.came} updates came; started {row.started}"
        told += f" and answered {row.answered} exchanges, of which {row.traded} ended with both keys; "
        self.assertTrue(self.elements.with_id("cell")["text"].startswith(told), self.elements.with_id("cell")["text"])

    def test_the_exchanges_of_the_peer_are_drawn(self):
        (section,) = [it for it in self.elements.all if it["name"] == "section"]
        self.assertEqual(section["data-peer"], str(PEER))
        signs = [it for it in self.elements.of_class("sign", "rect") if section in it["in"]]
        self.assertEqual(len(signs), len(self.rows("sides")))
        arrows = [it for it in self.elements.of_class("key", "path") if section in it["in"]]
        self.assertEqual(len(arrows), sum((row.key_given is not None) + (row.key_got is not None) for row in self.rows("sides")))
        names = "straight", "traded", "missed"
        marks = {name: [it for it in self.elements.of_class(name, "rect") if section in it["in"]] for name in names}
        played = [row for row in self.rows("updates") if row.played]
        straight = sum(row.way == "block" for row in played)
        self.assertEqual((len(marks["straight"]), len(marks["traded"])), (straight, len(played) - straight))
        self.assertEqual(sum(map(len, marks.values())), len(self.run_.releases))

    def test_the_round_is_told_in_words(self):
        (words,) = self.elements.of_class("words")
        lines = [it["text"] for it in self.elements.all if it["name"] == "li" and words in it["in"]]
        sides, due = [row for row in self.rows("sides") if row.round == ROUND], ROUND - self.run_.session["life"]
        self.assertEqual(len(lines), len(sides) + sum(row.round == due for row in self.run_.releases))
        partners = [f"peer {row.partner}, promises {row.promised} update" for row in sides]
        self.assertTrue(all(told in line for told, line in zip(partners, lines)))
        came = {f"update {row.index + 1} of round {row.round}: played" for row in self.rows("updates") if row.round == due}
        self.assertEqual({line.split(",")[0] for line in lines[len(sides) :] if "not played" not in line}, came)

    def test_many_updates_are_told_together(self):
        run = busy_run(9, 10, 64)
        elements = browsed(timeline.page(run), f"#peer={PEER}&round={ROUND}")
        (words,) = elements.of_class("short")
        lines = [it["text"] for it in elements.all if it["name"] == "li" and words in it["in"]]
        due = ROUND - run.session["life"]
        fates = {line.partition(f" of round {due}: ")[2]: line.partition(" of round ")[0].split(" ", 1) for line in lines}
        self.assertEqual(len(fates), len(lines))
        told = []
        for fate, (word, numbers) in fates.items():
            spans = [[int(end) for end in it.split(" to ")] for it in numbers.split(", ")]
            self.assertEqual(word, "update" if spans[0][0] == spans[-1][-1] else "updates")
            told += [(number, fate) for first, *last in spans for number in range(first, [first, *last][-1] + 1)]
        self.assertEqual(sorted(number for number, _ in told), [*range(1, 65)])
        came = {row.index + 1: f"at tick {row.tick}" for row in run.updates if (row.peer, row.round) == (PEER, due)}
        for number, fate in told:
            self.assertTrue(fate.endswith(came.get(number, "not played")), (number, fate))

    def test_one_round_of_the_peer_can_be_reached_by_tab(self):
        buttons = [it for it in self.elements.all if it["name"] == "button" and "data-round" in it]
        self.assertEqual(len(buttons), self.run_.session["ends"])
        self.assertEqual([it["data-round"] for it in buttons if it["tabindex"] == "0"], [str(ROUND)])
        self.assertEqual(self.elements.with_id("grid")["tabindex"], "0")


@unittest.skipUnless(BROWSER, "there is no chromium")
class Folds(unittest.TestCase):
    """Rounds in a row in which a peer did nothing and nothing was due."""

    def buttons(self, address, peers=9):
        run = busy_run(peers, 10)
        run.rounds = [row for row in run.rounds if (row.peer, row.round) not in {(STOPPED, number) for number in range(12, 18)}]
        elements = browsed(timeline.page(run), address)
        return elements, [it for it in elements.all if it["name"] == "button" and "data-round" in it]

    def test_they_are_folded(self):
        _, buttons = self.buttons(f"#peer={STOPPED}")
        self.assertEqual([it["data-round"] for it in buttons], [str(number) for number in range(1, 13)])
        (fold,) = [it for it in buttons if "data-last" in it]
        self.assertEqual((fold["data-last"], fold["aria-label"]), ("17", "rounds 12 to 17: it had stopped; unfold"))

    def test_a_round_that_is_named_is_unfolded(self):
        _, buttons = self.buttons(f"#peer={STOPPED}&round=14")
        self.assertEqual(len(buttons), 17)
        self.assertEqual([it["data-round"] for it in buttons if it["aria-pressed"] == "true"], ["14"])

    def test_a_click_unfolds_them(self):
        run = busy_run(9, 10)
        run.rounds = [row for row in run.rounds if (row.peer, row.round) not in {(STOPPED, number) for number in range(12, 18)}]
        click = '<script>document.querySelector("button.fold").click()</script></body>'
        elements = browsed(timeline.page(run).replace("</body>", click), f"#peer={STOPPED}")
        buttons = [it for it in elements.all if it["name"] == "button" and "data-round" in it]
        self.assertEqual([it["data-round"] for it in buttons if it["aria-pressed"] == "true"], ["12"])
        self.assertEqual(len(buttons), 17)

    def test_signs_for_partners_above_99_do_not_overlap(self):
        elements, _ = self.buttons("#peer=1&round=1", 120)
        (section,) = [it for it in elements.all if it["name"] == "section"]
        signs = [it for it in elements.of_class("sign", "rect") if section in it["in"]]
        self.assertEqual({it["width"] for it in signs}, {"19"})
        places = sorted({float(it["x"]) for it in signs})
        self.assertTrue(all(place + 20 <= following for place, following in zip(places, places[1:])), places)


if __name__ == "__main__":
    unittest.main()
