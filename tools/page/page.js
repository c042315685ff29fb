"use strict";
// Draws the overview of a run, and the exchanges of a peer when it is chosen. All numbers are from the run's data in the page.
(() => {
const run = JSON.parse(document.getElementById("run").textContent), session = run.session;
const SLOTS = 8, STRIP = 58, FIELDS = 8;
// a round with more updates than this has no line for each of them
const MOST_LINES = 16;
// a sign is as wide as the numbers of partners need, and a line has three signs
const TOKEN = session.peers > 99 ? 20 : 16, SEATS = session.peers > 99 ? [0.5, 22, 43] : [2, 21, 39];
const element = id => document.getElementById(id);
const counted = (count, word) => `${count.toLocaleString("en")} ${word}${count === 1 ? "" : "s"}`;
const peers = run.peers.filter(peer => peer.rounds), byNumber = new Map(peers.map(peer => [peer.peer, peer]));
// the place of each round's first update among all updates, and the number of its updates
const starts = new Map(), counts = new Map();
run.releases.forEach(([number], at) => {
  if (!starts.has(number)) starts.set(number, at);
  counts.set(number, (counts.get(number) || 0) + 1);
});
const escaped = text => String(text).replace(/[&<>"]/g, sign => ({"&": "&amp;", "<": "&lt;", ">": "&gt;", '"': "&quot;"})[sign]);

// ---- what the data says

// the data of a peer's round, or null if the peer had no tick in it
function roundOf(peer, number) {
  const at = FIELDS * (number - 1), row = peer.rounds.slice(at, at + FIELDS);
  if (!row.length) return null;
  const [due, played, came, started, answered, traded, lost, accuses] = row;
  return {due, played, came, started, answered, traded, lost, accuses};
}

// the sums over the rounds of a peer from the first to the last
function sumOf(peer, first, last) {
  const sum = {due: 0, played: 0, came: 0, started: 0, answered: 0, traded: 0, lost: 0, accuses: 0, rounds: 0};
  for (let number = first; number <= last; number++) {
    const row = roundOf(peer, number);
    if (!row) continue;
    for (const name in row) sum[name] += row[name];
    sum.rounds++;
  }
  return sum;
}

const toldRounds = (first, last) => first === last ? `round ${first}` : `rounds ${first} to ${last}`;

function toldCell(peer, first, last) {
  const sum = sumOf(peer, first, last), told = [];
  if (!sum.rounds) return `Peer ${peer.peer}, ${toldRounds(first, last)}: it had stopped, after tick ${peer.ticks}.`;
  told.push(sum.due ? `played ${sum.played} of ${counted(sum.due, "update")}` : "nothing was due");
  told.push(`${counted(sum.came, "update")} came`);
  told.push(`started ${sum.started} and answered ${counted(sum.answered, "exchange")}, of which ${sum.traded} ended with both keys`);
  const nothing = nothingIn(peer, first, last);
  if (nothing) told.push(`${counted(nothing, "exchange")} had nothing to trade`);
  if (run.transcripts) told.push(`${counted(sum.lost, "datagram")} to it ${sum.lost === 1 ? "was" : "were"} lost`);
  if (sum.accuses) told.push("it sent evidence to the broadcaster");
  const evicted = run.evictions[peer.peer];
  if (evicted >= first && evicted <= last) told.push("the first notice of its eviction");
  return `Peer ${peer.peer}, ${toldRounds(first, last)}: ${told.join("; ")}.`;
}

const items = (updates, junk) =>
  [updates && counted(updates, "update"), junk && counted(junk, "junk item")].filter(Boolean).join(" and ");

function sideOf(row) {
  const [round, flags, partner, gives, givesJunk, gets, getsJunk, given, got, wrong, owedFrom, owedTo, paid] = row;
  return {round, push: flags & 1, asks: flags & 2, answered: flags & 4, unbalanced: flags & 8, nothing: flags & 16,
    partner, gives, givesJunk, gets, getsJunk, given, got, wrong, owedFrom, owedTo, paid};
}

function toldDebt(side) {
  const rounds = side.owedFrom === side.owedTo ? `round ${side.owedFrom}` : `the rounds ${side.owedFrom} to ${side.owedTo}`;
  return `was owed the key in ${rounds}${side.paid ? "" : ", and didn't get it"}`;
}

function toldSide(side) {
  const way = side.push ? (side.asks ? "offers to" : "is offered by") : (side.asks ? "asks" : "is asked by");
  const end = side.nothing ? "nothing to trade" : side.asks && !side.answered ? "no answer" : "nothing came of it";
  const told = [`${way} peer ${side.partner}`, side.gives + side.givesJunk ? `promises ${items(side.gives, side.givesJunk)}` : end];
  if (side.gets + side.getsJunk) told.push(`is promised ${items(side.gets, side.getsJunk)}`);
  if (side.given) told.push(`gave its key at tick ${side.given}`);
  if (side.got) told.push(`was given the key at tick ${side.got}`);
  if (side.wrong) told.push(`was given a wrong key at tick ${side.wrong}`);
  if (side.owedFrom) told.push(toldDebt(side));
  if (side.unbalanced) told.push("unbalanced by the audit");
  return `round ${side.round}: ${told.join(", ")}`;
}

// in how many of a peer's exchanges of these rounds there was nothing to trade
function nothingIn(peer, first, last) {
  prepare(peer);
  let count = 0;
  for (let number = first; number <= last; number++) count += (peer.byRound.get(number) || []).filter(side => side.nothing).length;
  return count;
}

// the class and the description of each update that is due in a round
function marksOf(peer, number) {
  const from = number - session.life, start = starts.get(from), marks = [];
  for (let at = start; at < start + (counts.get(from) || 0); at++) {
    const name = `update ${run.releases[at][1] + 1} of round ${from}`;
    const way = peer.ways[at], tick = peer.comes[at], sender = peer.senders[at];
    const by = sender ? `came by a ${way === "p" ? "push" : "balanced exchange"} with peer ${sender}` : "came from the broadcaster";
    if (way === ".") marks.push(["missed", `${name}: not played`]);
    else if (way === "l") marks.push(["missed", `${name}: not played, ${by} too late, at tick ${tick}`]);
    else if (way !== way.toLowerCase()) marks.push(["missed", `${name}: has nothing to play`]);
    else marks.push([way === "b" ? "straight" : "traded", `${name}: played, ${by} at tick ${tick}`]);
  }
  return marks;
}

// ---- the overview

// what a shade means, from nothing to the largest value that has a shade of its own, with the steps of its scale
const measures = {
  played: {of: sum => sum.due ? 100 * sum.played / sum.due : null, steps: [0, 25, 50, 75, 100],
    unit: "% of what was due in a round; blank where nothing was"},
  traded: {of: sum => sum.traded / Math.max(1, sum.rounds), steps: [0, 1, 2, 3], unit: "or more exchanges with both keys in a round"},
  lost: {of: sum => sum.lost / Math.max(1, sum.rounds), steps: [0, 2, 4, 6, 8], unit: "or more datagrams lost in a round"},
};
let measure = "played", cursor = {row: 0, column: 0}, pointed = false, place = null;

// how dark a value of a measure is
function shade(value, steps) {
  const part = Math.min(1, value / steps.at(-1));
  return part > 0 ? (0.15 + 0.85 * part * part).toFixed(2) : "0";
}

function drawScale() {
  const {steps, unit} = measures[measure];
  const drawn = steps.map(value => `<span><svg class="of-${measure}" width="22" height="14" aria-hidden="true">` +
    rect("field", 0, 0, 22, 14) + rect("shade", 0, 0, 22, 14, ` fill-opacity="${shade(value, steps)}"`) + `</svg>${value}</span>`);
  element("scale").innerHTML = `${drawn.join("")}<span>${unit}</span>`;
}

// the places of the overview's columns and rows; if there are too many rounds, a column has several
function placed() {
  const width = Math.max(280, element("grid").clientWidth || 800), left = 30, right = 48, top = 74;
  const each = Math.ceil(session.ends / Math.floor((width - left - right) / 4)), columns = Math.ceil(session.ends / each);
  const height = peers.length <= 24 ? 18 : peers.length <= 80 ? 12 : 7;
  return {width, left, right, top, each, columns, height, step: (width - left - right) / columns, bottom: top + height * peers.length + 4};
}

const roundsAt = column => [place.each * column + 1, Math.min(session.ends, place.each * (column + 1))];

// how many of the updates that were due in some rounds were played, by the way in which they arrived, over all peers that ran then
function sharesOf(first, last) {
  const shares = {b: 0, x: 0, p: 0, due: 0};
  for (const peer of peers) {
    for (let number = first; number <= last && FIELDS * number <= peer.rounds.length; number++) {
      const start = starts.get(number - session.life), end = start + (counts.get(number - session.life) || 0);
      for (let at = start; at < end; at++) {
        shares.due++;
        if (peer.ways[at] in shares) shares[peer.ways[at]]++;
      }
    }
  }
  return shares;
}

const rect = (class_, x, y, width, height, more = "") =>
  `<rect class="${class_}" x="${x.toFixed(1)}" y="${y.toFixed(1)}" width="${width.toFixed(1)}" height="${height.toFixed(1)}"${more}/>`;
const text = (class_, x, y, said) => `<text class="${class_}" x="${x.toFixed(1)}" y="${y.toFixed(1)}">${said}</text>`;

// a column of the chart above the overview: the part of the due updates that was played, by the way in which they arrived
function chartColumn(column) {
  const shares = sharesOf(...roundsAt(column)), height = 46, x = place.left + place.step * column, wide = Math.max(0.8, place.step - 0.8);
  if (!shares.due) return "";
  let y = 2 + height;
  const parts = [rect("field", x, 2, wide, height)];
  for (const [way, class_] of [["b", "straight"], ["x", "traded"], ["p", "pushed"]]) {
    const part = height * shares[way] / shares.due;
    y -= part;
    parts.push(rect(class_, x, y, wide, part));
  }
  return parts.join("");
}

function gridRow(peer, row) {
  const y = place.top + place.height * row, gap = place.height > 8 ? 1 : 0.6, parts = [];
  for (let column = 0; column < place.columns; column++) {
    const sum = sumOf(peer, ...roundsAt(column)), x = place.left + place.step * column, wide = Math.max(0.8, place.step - 0.8);
    const value = sum.rounds ? measures[measure].of(sum) : null;
    if (!sum.rounds) parts.push(rect("gone", x, y, wide, place.height - gap));
    if (value === null) continue;
    parts.push(rect("field", x, y, wide, place.height - gap));
    const dark = ` fill-opacity="${shade(value, measures[measure].steps)}"`;
    if (value > 0) parts.push(rect("cell", x, y, wide, place.height - gap, dark));
  }
  const often = place.height > 10 ? 1 : 10, evicted = run.evictions[peer.peer];
  if (row % often === 0 || row === peers.length - 1) {
    const middle = y + Math.min(place.height, 14) - 3;
    parts.push(text("label end", place.left - 6, middle, peer.peer));
    parts.push(text("label end", place.width - 2, middle, peer.part));
  }
  if (evicted) {
    const x = place.left + place.step * (Math.floor((evicted - 1) / place.each) + 0.5);
    const middle = (y + place.height / 2).toFixed(1), size = Math.min(4.5, place.height / 2);
    parts.push(`<circle class="alarm evicted" cx="${x.toFixed(1)}" cy="${middle}" r="${size}"/>`);
  }
  return parts.join("");
}

function drawGrid() {
  place = placed();
  const columns = [...Array(place.columns).keys()], step = Math.max(1, Math.ceil(26 / place.step));
  const numbers = columns.filter(column => column % step === 0)
    .map(column => text("label middle", place.left + place.step * (column + 0.5), 64, roundsAt(column)[0]));
  const said = [text("label", 0, 64, "peer"), text("label end", place.width - 2, 64, "played")];
  element("grid").innerHTML = `<svg class="of-${measure}" width="${place.width}" height="${place.bottom}" aria-hidden="true">` +
    `<g class="chart">${columns.map(chartColumn).join("")}</g>` + numbers.join("") + said.join("") + peers.map(gridRow).join("") +
    '<rect id="cursor" rx="1" visibility="hidden"/></svg>';
  drawScale();
  if (pointed) moveTo(cursor.row, cursor.column, false);
}

// moves the cursor, which is visible once somebody pointed, and describes its cell if `tells`
function moveTo(row, column, tells = true) {
  pointed = true;
  cursor = {row: Math.max(0, Math.min(peers.length - 1, row)), column: Math.max(0, Math.min(place.columns - 1, column))};
  const box = {x: place.left + place.step * cursor.column - 1, y: place.top + place.height * cursor.row - 1,
    width: place.step + 1, height: place.height + 1};
  for (const name in box) element("cursor").setAttribute(name, box[name].toFixed(1));
  element("cursor").removeAttribute("visibility");
  if (tells) element("cell").textContent = toldCell(peers[cursor.row], ...roundsAt(cursor.column));
}

function cellAt(event) {
  const box = element("grid").getBoundingClientRect(), x = event.clientX - box.left, y = event.clientY - box.top;
  const row = Math.floor((y - place.top) / place.height), column = Math.floor((x - place.left) / place.step);
  return row >= 0 && row < peers.length ? [row, column] : null;
}

const STEPS = {ArrowUp: [-1, 0], ArrowDown: [1, 0], ArrowLeft: [0, -1], ArrowRight: [0, 1], PageUp: [-10, 0], PageDown: [10, 0],
  Home: [0, -1e9], End: [0, 1e9]};

function takeClick(event) {
  const at = cellAt(event);
  if (!at) return;
  moveTo(...at);
  open(peers[cursor.row].peer, roundsAt(cursor.column)[0], true);
}

function takeGridKey(event) {
  if (event.key in STEPS) {
    const [down, right] = STEPS[event.key];
    moveTo(cursor.row + down, cursor.column + right);
    const box = element("cursor").getBoundingClientRect();
    if (box.top < 0 || box.bottom > innerHeight) scrollBy(0, box.top - innerHeight / 2);
    event.preventDefault();
  } else if (event.key === "Enter" || event.key === " ") {
    open(peers[cursor.row].peer, roundsAt(cursor.column)[0], true);
    event.preventDefault();
  }
}

// ---- one peer

function arrow(x, y, up) {
  const points = up ? [x - 4, y + 4.5, x + 4, y + 4.5, x, y] : [x - 4, y, x + 4, y, x, y + 4.5];
  return `<path class="key" d="M${points.slice(0, 2)}L${points.slice(2, 4)}L${points.slice(4)}Z"/>`;
}

function token(side, x, y) {
  const classes = [side.push ? "push" : "balanced", side.asks ? "asks" : "asked", side.gives + side.givesJunk ? "traded" : "idle"];
  if (side.unbalanced) classes.push("unbalanced");
  const middle = x + TOKEN / 2;
  return `<g class="${classes.join(" ")}"><title>${toldSide(side)}</title>` +
    `<rect class="sign" x="${x + 0.5}" y="${y + 6.5}" width="${TOKEN - 1}" height="13" rx="3.5"/>` +
    text(side.partner > 99 ? "partner long" : "partner", middle, y + 16.5, side.partner) +
    (side.given ? arrow(middle, y, true) : "") + (side.got ? arrow(middle, y + 21.5, false) : "") + "</g>";
}

// a line of signs: the exchange that the peer started is first
function tokens(sides, y) {
  const own = sides.filter(side => side.asks), others = sides.filter(side => !side.asks);
  const seat = at => SEATS[at] ?? SEATS[2] + (at - 2) * (TOKEN + 2);
  return own.map(side => token(side, SEATS[0], y)).join("") + others.map((side, at) => token(side, seat(at + 1), y)).join("");
}

function drawnMarks(marks, y) {
  const rows = Math.ceil(marks.length / 32) || 1, columns = Math.max(8, Math.ceil(marks.length / rows)), step = STRIP / columns;
  const [pitch, gap] = rows === 1 ? [10, 1] : [3.6, 0.6];
  const size = `width="${Math.max(step - gap, 0.8).toFixed(1)}" height="${pitch - gap}"${rows > 1 ? ' stroke-width="0.4"' : ""}`;
  return marks.map(([class_, told], at) => {
    const x = 3 + at % columns * step, top = y + Math.floor(at / columns) * pitch;
    return `<rect class="${class_}" x="${x.toFixed(1)}" y="${top.toFixed(1)}" ${size}><title>${told}</title></rect>`;
  }).join("");
}

function roundButton(peer, number) {
  const row = roundOf(peer, number), sides = peer.byRound.get(number) || [], marks = row ? marksOf(peer, number) : [];
  const heading = text(number <= session.rounds ? "round" : "round late", 32, 11, number);
  const veil = row ? "" : `<rect class="gone" width="64" height="102"><title>stopped after tick ${peer.ticks}</title></rect>`;
  const accuses = `<title>round ${number}: sends evidence to the broadcaster</title><circle cx="56" cy="8" r="6"/>`;
  const alarm = row && row.accuses ? `<g class="alarm">${accuses}${text("partner", 56, 11.5, "!")}</g>` : "";
  const drawn = tokens(sides.filter(side => !side.push), 16) + tokens(sides.filter(side => side.push), 45) + drawnMarks(marks, 78);
  const said = row ? `played ${row.played} of ${row.due}, ${counted(sides.length, "exchange")}` : "it had stopped";
  const label = `round ${number}: ${said}`;
  return `<button type="button" tabindex="-1" aria-pressed="false" data-round="${number}" aria-label="${label}">` +
    `<svg width="64" height="102" aria-hidden="true">${veil}${heading}${drawn}${alarm}</svg></button>`;
}

// whether a peer had stopped before a round, or did nothing in it and nothing was due
function isEmpty(peer, number) {
  const row = roundOf(peer, number);
  return !row || !(row.due || row.accuses || peer.byRound.has(number));
}

// the rounds of a peer from the first to the last, with empty ones in a row joined
function stretches(peer) {
  const found = [];
  for (let number = 1; number <= session.ends; number++) {
    const empty = isEmpty(peer, number), stopped = !roundOf(peer, number), before = found.at(-1);
    if (empty && before && before.empty && before.stopped === stopped) before.last = number;
    else found.push({first: number, last: number, empty, stopped});
  }
  return found;
}

const roundButtons = (peer, first, last) =>
  [...Array(last - first + 1).keys()].map(at => roundButton(peer, first + at)).join("");

// a button for empty rounds, which unfolds them
function foldButton({first, last, stopped}) {
  const veil = stopped ? '<rect class="gone" width="30" height="102"/>' : "";
  const label = `rounds ${first} to ${last}: ${stopped ? "it had stopped" : "nothing was done and nothing was due"}; unfold`;
  const rounds = `data-round="${first}" data-last="${last}"`;
  return `<button type="button" class="fold" tabindex="-1" aria-pressed="false" ${rounds} aria-label="${label}">` +
    `<svg width="30" height="102" aria-hidden="true">${veil}${text("round late", 15, 11, first)}${text("label middle", 15, 55, "···")}` +
    `${text("round late", 15, 96, last)}</svg></button>`;
}

// replaces a fold by the buttons of its rounds, and returns one of these
function unfold(fold, number) {
  const section = fold.closest("section"), peer = byNumber.get(Number(section.dataset.peer));
  fold.outerHTML = roundButtons(peer, Number(fold.dataset.round), Number(fold.dataset.last));
  return section.querySelector(`button[data-round="${number}"]`);
}

// the button of a round, which is unfolded if necessary
function buttonOf(section, number) {
  const covers = fold => Number(fold.dataset.round) <= number && number <= Number(fold.dataset.last);
  const fold = [...section.querySelectorAll("button.fold")].find(covers);
  return fold ? unfold(fold, number) : section.querySelector(`button[data-round="${number}"]`);
}

// reads the sides of a peer's exchanges at the first call
function prepare(peer) {
  if (peer.byRound) return;
  peer.byRound = new Map();
  for (const side of peer.sides.map(sideOf)) {
    if (!peer.byRound.has(side.round)) peer.byRound.set(side.round, []);
    peer.byRound.get(side.round).push(side);
  }
}

function lane(peer) {
  prepare(peer);
  const rounds = stretches(peer).map(it => it.empty && it.last > it.first ? foldButton(it) : roundButtons(peer, it.first, it.last));
  const told = `${peer.part} played, ${counted(peer.started, "exchange")} started, ${peer.answered} answered, ` +
    `${peer.traded} ended with both keys, ${nothingIn(peer, 1, session.ends)} had nothing to trade`;
  const name = `Peer ${peer.peer}${peer.lies ? ", who lies" : ""}`;
  return `<section class="peer" data-peer="${peer.peer}"><h3>${name} <span class="soft">${told}</span></h3>` +
    `<div class="rounds" role="group" aria-label="rounds of peer ${peer.peer}">${rounds.join("")}</div>` +
    '<div class="words" aria-live="polite" hidden></div></section>';
}

// shows one peer, or all peers
function show(which) {
  const shown = which === "all" ? peers : peers.filter(peer => peer.peer === Number(which));
  element("peer").value = which;
  element("lanes").innerHTML = shown.map(lane).join("");
  for (const button of element("lanes").querySelectorAll(".rounds button:first-child")) button.tabIndex = 0;
}

const listed = (class_, lines) => `<ul class="${class_}">${lines.map(line => `<li>${escaped(line)}</li>`).join("")}</ul>`;

// ascending numbers as text: three or more in a row are a range
function toldNumbers(numbers) {
  const rows = [];
  for (const number of numbers) {
    if (rows.length && rows.at(-1).at(-1) === number - 1) rows.at(-1).push(number);
    else rows.push([number]);
  }
  return rows.flatMap(row => row.length > 2 ? [`${row[0]} to ${row.at(-1)}`] : row).join(", ");
}

// lines on what happened to the updates that are due in a round; if they are many, those with the same fate share a line
function toldMarks(peer, number) {
  const lines = marksOf(peer, number).map(([, told]) => told), fates = new Map();
  if (lines.length <= MOST_LINES) return lines;
  for (const line of lines) {
    const [, index, fate] = /^update (\d+) (.*)$/.exec(line);
    fates.set(fate, [...fates.get(fate) || [], Number(index)]);
  }
  return [...fates].map(([fate, numbers]) => `update${numbers.length > 1 ? "s" : ""} ${toldNumbers(numbers)} ${fate}`);
}

// describes the round of a button in words, below its signs
function tell(chosen) {
  const section = chosen.closest("section"), number = Number(chosen.dataset.round), last = Number(chosen.dataset.last || number);
  const peer = byNumber.get(Number(section.dataset.peer)), sides = peer.byRound.get(number) || [], words = section.querySelector(".words");
  for (const button of section.querySelectorAll(".rounds button")) {
    button.setAttribute("aria-pressed", button === chosen);
    button.tabIndex = button === chosen ? 0 : -1;
  }
  words.hidden = false;
  words.innerHTML = `<p>${escaped(toldCell(peer, number, last))}</p>` + listed("", sides.map(toldSide)) +
    listed("short", roundOf(peer, number) ? toldMarks(peer, number) : []);
}

// the button that is nearest to another one, in the line above or below it
function beside(all, button, down) {
  const others = all.filter(it => (it.offsetTop - button.offsetTop) * down > 0);
  const line = Math[down > 0 ? "min" : "max"](...others.map(it => it.offsetTop)), far = it => Math.abs(it.offsetLeft - button.offsetLeft);
  const there = others.filter(it => it.offsetTop === line);
  return there.reduce((best, it) => far(it) < far(best) ? it : best, there[0] ?? button);
}

function takeLaneKey(event) {
  const button = event.target.closest("button[data-round]");
  if (!button || !(event.key in STEPS)) return;
  const all = [...button.parentElement.children], [down, right] = STEPS[event.key];
  const to = down ? beside(all, button, down) : all[Math.max(0, Math.min(all.length - 1, all.indexOf(button) + right))];
  to.focus();
  event.preventDefault();
}

// shows a peer's exchanges and describes a round of it; if `goes`, moves the focus there
function open(which, number, goes) {
  show(String(which));
  const section = element("lanes").querySelector(`section[data-peer="${which}"]`);
  if (section && number) {
    const button = buttonOf(section, number);
    tell(button);
    if (goes) button.focus();
  }
  if (goes) remember(`peer=${which}${number ? `&round=${number}` : ""}`);
}

function remember(told) {
  try { history.replaceState(null, "", `#${told}`); } catch { /* a page that has no address of its own */ }
}

// shows what the address names: #peer=3&round=12&show=lost
function follow() {
  const named = new URLSearchParams(location.hash.slice(1)), number = Number(named.get("round"));
  if (Object.hasOwn(measures, named.get("show"))) {
    measure = named.get("show");
    document.querySelector(`input[value="${measure}"]`).checked = true;
    drawGrid();
  }
  if (byNumber.has(Number(named.get("peer")))) {
    open(named.get("peer"), number >= 1 && number <= session.ends ? number : 0, false);
    if (number) moveTo(peers.indexOf(byNumber.get(Number(named.get("peer")))), Math.floor((number - 1) / place.each));
  } else if (run.small) show("all");
}

// ---- tables that sort

// the value by which a cell is sorted; a dash is less than all numbers
const worth = cell => parseFloat(cell.textContent.replace(/,/g, "")) || (cell.textContent === "–" ? -1 : 0);

// sorts a table by the column of a header: in ascending order if it is the first column, else in descending order; each further click
// reverses the order
function sortBy(table, header) {
  const names = [...header.parentElement.children], at = names.indexOf(header), was = header.getAttribute("aria-sort");
  const rises = was ? was === "descending" : at === 0;
  for (const name of names) name.removeAttribute("aria-sort");
  header.setAttribute("aria-sort", rises ? "ascending" : "descending");
  const rows = [...table.tBodies[0].rows].sort((one, other) => (worth(one.cells[at]) - worth(other.cells[at])) * (rises ? 1 : -1));
  table.tBodies[0].append(...rows);
}

for (const table of document.querySelectorAll("table.sorts")) {
  table.addEventListener("click", event => {
    const button = event.target.closest("th button");
    if (button) sortBy(table, button.parentElement);
  });
}

// ---- all together

if (peers.length) {
  drawGrid();
  new ResizeObserver(() => { if (element("grid").clientWidth !== place.width) drawGrid(); }).observe(element("grid"));
  element("grid").addEventListener("keydown", takeGridKey);
  element("grid").addEventListener("focus", () => moveTo(cursor.row, cursor.column));
  element("grid").addEventListener("pointermove", event => { const at = cellAt(event); if (at) moveTo(...at); });
  element("grid").addEventListener("click", takeClick);
  for (const input of document.querySelectorAll("input[name=measure]")) {
    input.addEventListener("change", () => { measure = input.value; drawGrid(); });
  }
  element("peer").addEventListener("change", event => { show(event.target.value); remember(`peer=${event.target.value}`); });
  element("lanes").addEventListener("keydown", takeLaneKey);
  element("lanes").addEventListener("focusin", event => {
    const button = event.target.closest("button[data-round]");
    if (button) tell(button);
  });
  element("lanes").addEventListener("click", event => {
    const fold = event.target.closest("button.fold");
    if (fold) unfold(fold, Number(fold.dataset.round)).focus();
  });
  addEventListener("hashchange", follow);
  follow();
}
})();
