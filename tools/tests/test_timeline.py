import dataclasses
import pathlib
import sys
import unittest
import xml.etree.ElementTree

sys.path.insert(0, str(pathlib.Path(__file__).resolve().parent.parent))

from gossip.drawings import session_picture, timeline
import made_sessions as made
from gossip.formats.datagrams import Exchange, Update
from gossip.formats.files import EVIDENCE, SLOTS
from gossip.reports.gathering import Known, run_of
from made_runs import busy_run
from made_sessions import LONG, PLAIN, SESSION, WIDE, WIDE_PLAIN, ZEROS, Diary, Trade, first_tick

ME, PARTNER = 1, 2
FIRST, SECOND, THIRD, FOURTH = (Update(1, index) for index in range(4))
# an exchange in which peer 1 gives the first update of round 1 and gets the second
EXCHANGE = Exchange(2, False, ME, PARTNER), [[FIRST, FOURTH], [SECOND]], [[SECOND], [FIRST]]
TRADE, ZERO_TRADE = Trade.balanced(*EXCHANGE), Trade.balanced(*EXCHANGE, blocks=ZEROS)
LAST_TICK = SLOTS * SESSION.ends


class Page:
    """What the picture and the page show of a session with one peer or more."""

    def __init__(self, logs, session=SESSION, audit=None):
        run = run_of(session, logs, Known(audit))
        self.drawn = xml.etree.ElementTree.fromstring(session_picture.picture(run).replace(' xmlns="http://www.w3.org/2000/svg"', ""))
        self.titles = [(it.get("class"), it.findtext("title")) for it in self.drawn.iter() if it.find("title") is not None]
        self.marks = [it for it in self.titles if it[1].startswith("update") and "took" not in it[1]]
        page = timeline.page(run)
        self.body = xml.etree.ElementTree.fromstring(page[page.index("<main>") : page.index("</main>")] + "</main>")
        self.tables = {it.get("aria-label"): rows_of(it) for it in self.body.iter("div") if it.get("role") == "region"}
        self.table = self.tables["totals of each peer"]
        self.figures = [" ".join(it.itertext()) for it in self.body.findall(".//div[@class='figures']/div")]

    def words(self, class_):
        """The words of the marks or signs of this class."""
        return [told for its, told in self.titles if its == class_]


def rows_of(part):
    """The lines of a table, by the names of its columns."""
    names = [head.get("aria-label") or head.text for head in part.iter("th") if head.get("scope") == "col"]
    return [dict(zip(names, (cell.text for cell in row))) for row in part.find(".//tbody")]


def diary_of(party, *updates, blocks=PLAIN):
    """The diary of a peer that takes the manifests of rounds 1 and 2 in tick 1, and these updates in tick 2."""
    diary = Diary(party)
    diary.until(1)
    diary.take_manifest(1, 2, blocks=blocks)
    diary.until(2)
    diary.take(*(made.block(party, update, blocks) for update in updates))
    return diary


def page_of(diary, until=LAST_TICK, **log):
    diary.until(until)
    return Page({ME: diary.log(**log)})


class Marks(unittest.TestCase):
    def test_where_all_blocks_are_the_same_those_that_are_held_are_marked(self):
        diary = diary_of(ME, FIRST, FOURTH, blocks=ZEROS)
        diary.trade(ZERO_TRADE, 9, key_tick=10)
        page = page_of(diary, played=bytes(3 * 1022))
        marks = ["played, came from the broadcaster at tick 2", "played, came by a trade with peer 2 at tick 10", "not played"]
        told = [("straight", marks[0]), ("traded", marks[1]), ("missed", marks[2]), ("straight", marks[0])]
        self.assertEqual(page.marks[:4], [(class_, f"update {at} of round 1: {said}") for at, (class_, said) in enumerate(told, 1)])
        self.assertEqual(page.marks[4:], [("missed", f"update {at} of round 2: not played") for at in range(1, 5)])

    def test_what_came_both_ways_counts_by_what_came_first(self):
        names = ["blocks first from the broadcaster", "played, from the broadcaster", "played, by balanced exchanges"]
        ways = [TRADE.key(False), made.block(ME, SECOND)]
        for keys, class_, counts in ((ways, "traded", ["2", "2", "1"]), (ways[::-1], "straight", ["3", "3", "0"])):
            diary = diary_of(ME, FIRST, FOURTH)
            diary.trade(TRADE, 9, key_tick=9, keys=keys)
            page = page_of(diary, played=bytes(6))
            self.assertEqual([its for its, told in page.marks if told.startswith("update 2 of round 1")], [class_])
            self.assertEqual([page.table[0][name] for name in names], counts)

    def test_a_block_without_content_is_marked_as_such(self):
        blocks = PLAIN | {FIRST: made.block_with(b"")}
        page = page_of(diary_of(ME, FIRST, SECOND, blocks=blocks), played=bytes(2))
        self.assertEqual(page.marks[0], ("missed", "update 1 of round 1: has nothing to play"))
        self.assertEqual(page.marks[1], ("straight", "update 2 of round 1: played, came from the broadcaster at tick 2"))
        self.assertEqual(page.table[0]["blocks first from the broadcaster"], "2")

    def test_a_peer_that_stopped_has_marks_up_to_its_last_round(self):
        diary = diary_of(ME, FIRST)
        diary.take(made.block(ME, Update(2, 0)))
        page = page_of(diary, until=first_tick(4) + 2, played=bytes(2), cut=-1)
        self.assertEqual(page.words("straight")[-1], "update 1 of round 1: played, came from the broadcaster at tick 2")
        self.assertEqual(len(page.marks), 4)
        self.assertEqual(page.words("gone"), [f"stopped after tick {first_tick(4) + 2}"])

    def test_128_updates_a_round(self):
        diary = Diary(ME, WIDE)
        diary.until(1)
        diary.take_manifest(1, blocks=WIDE_PLAIN)
        diary.take(*(made.block(ME, Update(1, index), WIDE_PLAIN, WIDE) for index in range(64, 128)))
        diary.until(LAST_TICK)
        page = Page({ME: diary.log(played=bytes(64 * 2))}, WIDE)
        self.assertEqual([class_ for class_, _ in page.marks], ["missed"] * 64 + ["straight"] * 64)
        self.assertEqual(page.marks[127][1], "update 128 of round 1: played, came from the broadcaster at tick 1")
        self.assertEqual(page.table[0]["played, from the broadcaster"], "64")
        self.check_places(page)

    def check_places(self, page):
        """The marks of a peer stand in rows of 32, none over another, within the strip of their round and the peer's row."""
        told = {told for _, told in page.marks}
        boxes = [it for it in page.drawn.iter("rect") if it.findtext("title") in told]
        places = [[float(it.get(name)) for name in ("x", "y", "width", "height")] for it in boxes]
        self.assertEqual(sorted({y for _, y, _, _ in places}), [y for _, y, _, _ in places[::32]])
        for (x, y, width, height), (next_x, next_y, *_) in zip(places, places[1:]):
            self.assertTrue(x + width < next_x if y == next_y else y + height < next_y and next_x == places[0][0])
        self.assertLess(max(x + width for x, _, width, _ in places), places[0][0] + session_picture.STRIP)
        self.assertLess(max(y + height for _, y, _, height in places), session_picture.HEAD + session_picture.CASTER + session_picture.LANE)


class Numbers(unittest.TestCase):
    def test_the_session_is_told_by_its_numbers(self):
        for session, told in ((WIDE, "version 2 · LMS type 5, LM-OTS"), (LONG, "version 1 · signatures of two levels, top 6, LM-OTS")):
            diary = Diary(ME, session)
            diary.until(LAST_TICK)
            self.assertIn(told, "".join(Page({ME: diary.log()}, session).body.itertext()))


class Signs(unittest.TestCase):
    def test_an_exchange_with_both_keys(self):
        diary = diary_of(ME, FIRST, FOURTH)
        diary.trade(TRADE, 9, key_tick=11)
        diary.send(TRADE.key(True))
        page = page_of(diary)
        told = "asks peer 2, promises 1 update, is promised 1 update, gave its key at tick 11, was given the key at tick 11"
        self.assertEqual(page.words("balanced asks traded"), [f"round 2: {told}"])
        self.assertIn("1 of 1 exchanges with something to trade ended with both keys given", page.figures)

    def test_an_exchange_whose_key_does_not_come(self):
        diary = diary_of(ME, FIRST, FOURTH)
        diary.trade(TRADE, 9)
        page = page_of(diary, played=bytes(4))
        self.assertEqual(page.words("balanced asks traded"), ["round 2: asks peer 2, promises 1 update, is promised 1 update"])
        self.assertEqual(page.marks[1], ("missed", "update 2 of round 1: not played"))
        self.assertEqual(page.table[0]["keys got that open well"], "0")
        self.assertIn("0 of 1 exchanges with something to trade ended with both keys given", page.figures)

    def test_a_wrong_key_is_told_and_pays_nothing(self):
        wrong = TRADE.key(False, bytes(32))
        diary = diary_of(ME, FIRST, FOURTH)
        diary.trade(TRADE, 9, key_tick=10, keys=[wrong])
        diary.send(made.datagram(EVIDENCE, ME, 0, made.evidence(TRADE.case(False), wrong)))
        page = page_of(diary, evidence={str(PARTNER): made.evidence(TRADE.case(False), wrong)})
        told = "asks peer 2, promises 1 update, is promised 1 update, was given a wrong key at tick 10"
        self.assertEqual(page.words("balanced asks traded"), [f"round 2: {told}"])
        self.assertEqual(page.marks[1], ("missed", "update 2 of round 1: not played"))
        self.assertEqual(page.table[0]["keys got that open well"], "0")
        self.assertEqual(page.words("alarm"), ["round 2: sends evidence to the broadcaster"])
        (line,) = page.tables["evidence"]
        told = {"against peer": "2", "kept by": "peer 1", "its datagrams": "CASE and KEY"}
        self.assertEqual({name: line[name] for name in told}, told)
        self.assertEqual(line["of"], "round 2, balanced, started by peer 1 with peer 2")

    def test_exchanges_that_came_to_nothing(self):
        push = Trade.push(Exchange(2, True, ME, 3), [[], [], [], []], 0)
        asked = Trade.balanced(Exchange(2, False, 3, ME), [[], []], [[], []])
        diary = diary_of(ME, FIRST)
        diary.until(9)
        diary.send(TRADE.request(), push.request())
        diary.take(TRADE.answer(), asked.request())
        diary.send(asked.answer())
        page = page_of(diary)
        self.assertEqual(page.words("balanced asks idle"), ["round 2: asks peer 2, nothing to trade"])
        self.assertEqual(page.words("push asks idle"), ["round 2: offers to peer 3, no answer"])
        self.assertEqual(page.words("balanced asked idle"), ["round 2: is asked by peer 3, nothing came of it"])
        told = "exchanges with something to trade ended with both keys given; 1 had nothing to trade; 1 had no answer"
        self.assertIn(f"0 of 0 {told}; of 1 only the answering side is known", page.figures)
        self.assertEqual(page.table[0]["with nothing to trade"], "1")

    def test_both_sides_are_told_that_there_was_nothing_to_trade(self):
        mine, other = diary_of(ME, FIRST), diary_of(PARTNER, FIRST)
        for diary, by_initiator in ((mine, True), (other, False)):
            diary.until(9)
            (diary.send if by_initiator else diary.take)(TRADE.request())
            (diary.take if by_initiator else diary.send)(TRADE.answer())
            diary.until(LAST_TICK)
        page = Page({ME: mine.log(), PARTNER: other.log()})
        self.assertEqual(page.words("balanced asks idle"), ["round 2: asks peer 2, nothing to trade"])
        self.assertEqual(page.words("balanced asked idle"), ["round 2: is asked by peer 1, nothing to trade"])
        self.assertEqual([line["with nothing to trade"] for line in page.table], ["1", "1"])

    def test_a_push_with_junk(self):
        push = Trade.push(Exchange(3, True, PARTNER, ME), [[Update(3, 0)], [], [Update(3, 0)], []], 1)
        diary = diary_of(ME)
        diary.until(first_tick(3))
        diary.take_manifest(3)
        diary.trade(push, 18, key_tick=18)
        page = page_of(diary, played=bytes(2))
        told = "is offered by peer 2, promises 1 junk item, is promised 1 update, was given the key at tick 18"
        self.assertEqual(page.words("push asked traded"), [f"round 3: {told}"])
        self.assertEqual(page.words("traded"), ["update 1 of round 3: played, came by a trade with peer 2 at tick 18"])


class Sessions(unittest.TestCase):
    def test_two_peers(self):
        mine, other = diary_of(ME, FIRST, FOURTH), diary_of(PARTNER, SECOND, THIRD, FOURTH)
        trade = Trade.balanced(Exchange(2, False, ME, PARTNER), [[FIRST, FOURTH], [SECOND, THIRD, FOURTH]], [[SECOND], [FIRST]])
        for diary in (mine, other):
            diary.trade(trade, 9, key_tick=9)
            diary.send(trade.key(diary is mine))
            diary.until(LAST_TICK)
        page = Page({PARTNER: other.log(played=bytes(8)), ME: mine.log(played=bytes(6))})
        took = [told for _, told in page.titles if "took" in told]
        counts = ["1 peer", "1 peer", "1 peer", "2 peers", "0 peers", "0 peers", "0 peers", "0 peers"]
        self.assertEqual([told.split(": ")[1] for told in took], [f"{count} took it from here" for count in counts])
        self.assertEqual([line["peer"] for line in page.table], ["1", "2"])
        self.assertEqual([line["played, from the broadcaster"] for line in page.table], ["2", "3"])
        self.assertEqual([line["played, by balanced exchanges"] for line in page.table], ["1", "1"])
        self.assertEqual([line["exchanges started"] + line["answered"] for line in page.table], ["10", "01"])
        self.assertEqual([line["keys given"] + line["keys got that open well"] for line in page.table], ["11", "11"])
        self.assertIn("28.6% of the updates that were played came by trades", page.figures)
        # four updates of two bytes, and four that nobody held, which count as full
        self.assertEqual([line["part of the stream"] for line in page.table], [f"{part / (8 + 4 * 1022):.1%}" for part in (6, 8)])

    def test_nothing_came(self):
        diary = Diary(ME)
        page = page_of(diary)
        self.assertEqual((page.marks, page.table[0]["part of the stream"], page.table[0]["bytes played"]), ([], "–", "0"))
        self.assertIn("0 of 0 exchanges with something to trade ended with both keys given", page.figures)

    def test_evidence_stands_in_the_order_of_parties(self):
        diary = diary_of(ME)
        page = Page({ME: diary.log(evidence={"10": b"", "2": b""})}, dataclasses.replace(SESSION, peers=12))
        self.assertEqual([(line["against peer"], line["kept by"]) for line in page.tables["evidence"]], [("2", "peer 1"), ("10", "peer 1")])

    def test_the_table_counts_datagrams(self):
        diary = diary_of(ME, FIRST)
        diary.send(TRADE.request())
        (line,) = page_of(diary).table
        sent, taken = len(TRADE.request()), 2 * len(made.manifest(1)) + len(made.block(ME, FIRST))
        self.assertEqual([line["datagrams sent"], line["bytes sent"]], ["1", f"{sent:,}"])
        self.assertEqual([line["datagrams taken"], line["bytes taken"]], ["3", f"{taken:,}"])


class Layout(unittest.TestCase):
    @classmethod
    def setUpClass(cls):
        cls.run_ = busy_run(120, 2)

    def test_how_to_read_it_stands_first_and_is_folded(self):
        page = timeline.page(self.run_)
        self.assertIn("<details><summary>How to read this page</summary>", page)
        self.assertLess(page.index("<details>"), page.index('class="figures"'))

    def test_the_table_of_peers_has_a_button_for_each_column_and_a_group_above(self):
        page = timeline.page(self.run_)
        body = xml.etree.ElementTree.fromstring(page[page.index("<main>") : page.index("</main>")] + "</main>")
        (drawn,) = body.findall(".//table[@class='sorts']")
        groups, names = drawn.find("thead")
        self.assertEqual(sum(int(it.get("colspan")) for it in groups), len(names))
        self.assertTrue(all(it.find("button") is not None for it in names))
        self.assertEqual(len({it.get("aria-label") for it in names}), len(names))
        self.assertEqual(len(drawn.find("tbody")), 120)

    def drawn(self, run):
        return xml.etree.ElementTree.fromstring(session_picture.picture(run).replace(' xmlns="http://www.w3.org/2000/svg"', ""))

    def test_the_picture_has_a_ground_and_a_legend_within_it(self):
        drawn = self.drawn(busy_run(5, 4))
        left, top, width, height = map(float, drawn.get("viewBox").split())
        ground = next(it for it in drawn if it.tag != "style")
        self.assertEqual([float(ground.get(name)) for name in ("x", "y", "width", "height")], [left, top, width, height])
        words = {it.text: float(it.get("y")) for it in drawn if it.tag == "text"}
        self.assertIn("asks peer 3 for a balanced exchange", words)
        self.assertTrue(all(y < top + height for y in words.values()))
        self.assertNotIn("sends evidence to the broadcaster", words)
        self.assertNotIn("var(", drawn.findtext("style"))

    def test_the_legend_of_the_picture_tells_of_what_is_seldom(self):
        run = busy_run(5, 4)
        run.rounds[3] = dataclasses.replace(run.rounds[3], accuses=True)
        run.exchanges[0] = dataclasses.replace(run.exchanges[0], audit="unbalanced")
        words = [it.text for it in self.drawn(run) if it.tag == "text"]
        self.assertTrue({"sends evidence to the broadcaster", "unbalanced by the audit"} <= {*words})

    def test_signs_for_partners_above_99_stand_apart(self):
        width = session_picture.SEATS[True].sign
        signs = [it for it in self.drawn(self.run_).iter("rect") if it.get("class") == "sign" and float(it.get("width")) == width - 1]
        signs = sorted({float(it.get("x")) for it in signs})
        self.assertTrue(all(width <= following - place for place, following in zip(signs, signs[1:])), signs)
