// The maps of the page, what is pointed at, and the steps of peeling, over the chain of model.js.

// ---- How a bit is drawn: by its shape, so that nothing depends on colour ----

const square = (x, y) => `M${x + 1.5} ${y + 1.5}h6v6h-6z`, diamond = (x, y) => `M${x + 4.5} ${y + .8}l3.7 3.7l-3.7 3.7l-3.7 -3.7z`;
const triangle = (x, y) => `M${x + 4.5} ${y + 1}l3.7 7h-7.4z`, cross = (x, y) => `M${x + 1.5} ${y + 1.5}l6 6m-6 0l6 -6`;
const SHAPES = {
  "arrived: 0": [square, "hollow"], "arrived: 1": [square, "solid"],
  "fixed: 0": [diamond, "hollow"], "fixed: 1": [diamond, "solid"],
  "arrived inverted: 0": [triangle, "hollow"], "arrived inverted: 1": [triangle, "solid"], "erased": [cross, "hollow"],
  "stuck": [cross, "bold"], "filler": [(x, y) => `M${x + 1.5} ${y + 4.5}h6`, "hollow"],
  "unknown": [(x, y) => `M${x + 4} ${y + 4.5}h1`, "bold"],
};
const CELL = 9, WIDE = 96;

// Cells of bits that can be pointed at, by mouse or by keys: `cellOf` says where a bit stands, `kindOf` how it is drawn.
class Cells {
  constructor(parent, label, count, cellOf, kindOf, select) {
    Object.assign(this, {label, count, cellOf, kindOf, select, current: 0, cells: [], lookup: new Map()});
    let wide = 0, high = 0;
    for (let at = 0; at < count; at++) {
      const [x, y] = this.cells[at] = cellOf(at);
      this.lookup.set(y * 1000 + x, at);
      [wide, high] = [Math.max(wide, x + 1), Math.max(high, y + 1)];
    }
    const frame = element("div", {class: "cells"}, parent), size = wide < 60 && count <= 1000 ? 1.6 : 1;
    this.svg = element("svg", {
      width: (wide * CELL + 2) * size, height: (high * CELL + 2) * size, tabindex: 0,
      viewBox: `-1 -1 ${wide * CELL + 2} ${high * CELL + 2}`,
      role: "application", "aria-roledescription": "map of bits", "aria-label": `${label}: arrow keys go from bit to bit`,
    }, frame);
    this.paths = {};
    for (const kind in SHAPES) this.paths[kind] = element("path", {class: SHAPES[kind][1]}, this.svg);
    this.marks = element("path", {class: "marks"}, this.svg);
    this.related = element("path", {class: "related"}, this.svg);
    this.svg.addEventListener("pointermove", (event) => this.point(event));
    this.svg.addEventListener("pointerdown", (event) => this.point(event));
    this.svg.addEventListener("keydown", (event) => this.key(event));
    this.svg.addEventListener("focus", () => this.choose(this.current));
    this.draw();
  }
  draw() {
    const texts = {}, found = {};
    for (let at = 0; at < this.count; at++) {
      const kind = this.kindOf(at), [x, y] = this.cells[at];
      texts[kind] = (texts[kind] || "") + SHAPES[kind][0](x * CELL, y * CELL);
      found[kind] = (found[kind] || 0) + 1;
    }
    for (const kind in this.paths) this.paths[kind].setAttribute("d", texts[kind] || "");
    this.found = found;
  }
  point(event) {
    const place = this.svg.getBoundingClientRect(), scale = place.width / this.svg.viewBox.baseVal.width;
    const [x, y] = [event.clientX - place.left, event.clientY - place.top].map((it) => Math.floor((it / scale - 1) / CELL));
    const at = this.lookup.get(y * 1000 + x);
    if (at !== undefined && x >= 0 && (at !== this.current || event.type === "pointerdown")) this.choose(at);
  }
  key(event) {
    const [x, y] = this.cells[this.current], beside = (rows) => {
      for (let to = y + rows; to >= 0 && to < 100000 && Math.abs(to - y) < 12; to += rows) {
        const at = this.lookup.get(to * 1000 + x);
        if (at !== undefined) return at;
      }
      return this.current;
    };
    const to = {
      ArrowRight: () => this.lookup.get(y * 1000 + x + 1) ?? this.current + 1, ArrowDown: () => beside(1), Home: () => 0,
      ArrowLeft: () => this.lookup.get(y * 1000 + x - 1) ?? this.current - 1, ArrowUp: () => beside(-1), End: () => this.count - 1,
    }[event.key];
    if (!to) return;
    event.preventDefault();
    this.choose(Math.min(Math.max(to(), 0), this.count - 1));
  }
  choose(at) {
    this.current = at;
    this.select(at);
  }
  box(at) {
    const [x, y] = this.cells[at];
    return `M${x * CELL} ${y * CELL}h9v9h-9z`;
  }
}
const legend = (parent, kinds) => {
  for (const kind of kinds) {
    const item = element("span", {class: "kind"}, parent), [shape, style] = SHAPES[kind];
    const svg = element("svg", {width: 13, height: 13, viewBox: "-1 -1 11 11", "aria-hidden": true}, item);
    element("path", {d: shape(0, 0), class: style}, svg);
    item.append(` ${kind}`);
  }
};

// ---- The maps of the page ----

const sentMaps = transmissions.map((one) => {
  const section = element("section", {}, byId("sent"));
  element("h3", {}, section, `Transmission ${one.t + 1}: rv ${one.rv}, G = ${one.g}, Qm = ${one.qm}, NL = ${one.nl}`);
  return one.parts.map((part) => {
    element("p", {}, section, `Code block ${part.r}: E = ${part.order.length} bits in ${one.qm} rows of ${part.columns}, ` +
      `indexes ${part.first} to ${part.first + part.order.length - 1} of g.`);
    const kindOf = (f) => {
      const bit = one.arrived[part.first + f], sent = blocks[part.r].word[sentAt(one.t, part.first + f).position];
      return bit === UNKNOWN ? "erased" : `arrived${bit === sent ? "" : " inverted"}: ${bit}`;
    };
    const cellOf = (f) => [Math.floor(f / one.qm) % WIDE, Math.floor(Math.floor(f / one.qm) / WIDE) * (one.qm + 1) + f % one.qm];
    return new Cells(section, `sent bits of transmission ${one.t + 1}, code block ${part.r}`, part.order.length, cellOf, kindOf,
      (f) => select(part.r, part.order[sentAt(one.t, part.first + f).k], {t: one.t, m: part.first + f}));
  });
});
legend(byId("sent-legend"), ["arrived: 0", "arrived: 1", "arrived inverted: 0", "arrived inverted: 1", "erased"]);
legend(byId("word-legend"), ["arrived: 0", "arrived: 1", "fixed: 0", "fixed: 1", "filler", "unknown", "stuck"]);

const linesOfColumn = Math.ceil(Z / WIDE), columnsOfLine = Math.max(1, Math.floor((WIDE + 1) / (Z + 1)));
const cellOfPosition = (position) => {
  const column = Math.floor(position / Z), t = position % Z;
  return Z > WIDE ? [t % WIDE, column * (linesOfColumn + 1) + Math.floor(t / WIDE)]
    : [column % columnsOfLine * (Z + 1) + t, Math.floor(column / columnsOfLine) * 2];
};
const kindOfPosition = (block, position) => {
  const from = block.from[position];
  if (from === FILLER) return "filler";
  if (from === ARRIVED) return `arrived: ${block.value[position]}`;
  if (from < block.at) return `fixed: ${block.value[position]}`;
  return block.at === block.steps.length ? "stuck" : "unknown";
};
let shown = null, chosen = null;

const graph = (() => {
  const high = D.entries.reduce((most, [row]) => Math.max(most, row + 1), 0), size = 11;
  const svg = element("svg", {viewBox: `-22 -14 ${P.columns * size + 24} ${high * size + 18}`, role: "img", class: "graph",
    "aria-label": `the base graph: ${high} rows, ${P.columns} columns, ${D.entries.length} entries`}, byId("graph"));
  for (const [row, column, shift] of D.entries) {
    const cell = element("rect", {x: column * size + 1, y: row * size + 1, width: 9, height: 9, class: "entry"}, svg);
    element("title", {}, cell, `row ${row}, column ${column}: shifted by ${shift}`);
  }
  for (let at = 0; at < P.columns; at += 5) element("text", {x: at * size, y: -4}, svg, at);
  for (let at = 0; at < high; at += 5) element("text", {x: -20, y: at * size + 9}, svg, at);
  return {size, high, marks: element("path", {class: "marks"}, svg), related: element("path", {class: "related"}, svg)};
})();

// ---- The circular buffer as a ring ----

const drawRing = (block) => {
  const host = byId("ring"), N = P.n, step = Math.min(16, 150 / Math.max(1, block.carried.length));
  host.textContent = "";
  const svg = element("svg", {viewBox: "-270 -250 540 500", role: "img", class: "ring", "aria-label":
    `the circular buffer of code block ${block.r}: ${D.ncb} of ${N} bits, with what each transmission sends`}, host);
  const turn = 2 * Math.PI / N;
  const point = (n, radius) => [radius * Math.sin(turn * n), -radius * Math.cos(turn * n)].map((it) => it.toFixed(1));
  const arc = (from, to, radius) => to - from >= N ? arc(0, N / 2, radius) + arc(N / 2, N, radius)
    : `M${point(from, radius)}A${radius} ${radius} 0 ${to - from > N / 2 ? 1 : 0} 1 ${point(to, radius)}`;
  const systematic = P.kdash - 2 * Z, parity = P.k - 2 * Z;
  element("path", {d: arc(0, systematic, 200), class: "systematic"}, svg);
  if (parity > systematic) element("path", {d: arc(systematic, parity, 200), class: "fillers"}, svg);
  element("path", {d: arc(parity, N, 200), class: "parity"}, svg);
  if (D.ncb < N) element("path", {d: arc(D.ncb, N, 209), class: "beyond"}, svg);
  D.k0.forEach((k0, rv) => {
    const same = D.k0.indexOf(k0), [x, y] = point(k0, 226 + 12 * (rv - same));
    element("path", {d: `M${point(k0, 192)}L${point(k0, 214)}`, class: "start"}, svg);
    element("text", {x, y: +y + 4, "text-anchor": "middle"}, svg, `rv ${rv}`);
  });
  block.carried.forEach((part, number) => {
    const radius = 182 - step * number, arrived = transmissions[part.t].arrived;
    const texts = {arrived: "", erased: ""};
    let begin = null, kind = "", last = -2;
    const end = () => { if (begin !== null) texts[kind] += arc(begin, last + 1, kind === "arrived" ? radius : radius - step / 4); };
    part.order.forEach((position, k) => {
      const here = arrived[placeOf(part, k)] === UNKNOWN ? "erased" : "arrived", n = position - 2 * Z;
      if (here !== kind || n !== last + 1) { end(); [begin, kind] = [n, here]; }
      last = n;
    });
    end();
    for (const it in texts) element("path", {d: texts[it], class: `ring-${it}`}, svg);
    element("text", {x: 2, y: -radius + 3, class: "small"}, svg, part.t + 1);
  });
  shown.needle = element("path", {class: "needle"}, svg);
  shown.point = point;
};

// ---- What is pointed at ----

const tell = (fields) => {
  const list = byId("about");
  list.textContent = "";
  for (const [id, term, text] of fields) {
    element("dt", {}, list, term);
    element("dd", {id: `about-${id}`}, list, text);
  }
};
const originOf = (r, position) => {
  const share = P.kdash - P.l;
  if (position < share) {
    const at = r * share + position;
    return at < P.a ? `bit ${at} of the transport block` : `bit ${at} of b, in the CRC of the transport block`;
  }
  return position < P.kdash ? `bit ${position - share} of the CRC24B of code block ${r}` : position < P.k ? "a filler, which is 0"
    : `a parity bit, of column ${Math.floor(position / Z)} of the base graph`;
};
const stateOf = (block, position) => {
  const from = block.from[position];
  return from === FILLER ? "known: a filler" : from === ARRIVED ? "known: it arrived" : from === NEVER ? "never fixed"
    : `fixed in step ${from + 1} by check row ${block.steps[from].row}`;
};
function select(r, position, place) {
  chosen = {r, position, place};
  const block = blocks[r], rows = rowsOf(position), carriers = carriersOf(block, position), n = position - 2 * Z, fields = [];
  if (place) {
    const {part, row, column, k} = sentAt(place.t, place.m);
    const bit = block.word[position], came = transmissions[place.t].arrived[place.m];
    fields.push(["place", "Index in g", `${place.m} of transmission ${place.t + 1}`]);
    const said = came === UNKNOWN ? "nothing arrived" : came === bit ? "it arrived" : `${came} arrived`;
    fields.push(["bit", "Bit", `${bit} was sent; ${said}`]);
    fields.push(["interleaver", "Interleaver", `row ${row} of ${part.qm}, column ${column} of ${part.columns}: bit ${k} of e`]);
  }
  fields.push(["codeblock", "Code block", `${r}`]);
  fields.push(["position", "Codeword index", `${position}: column ${Math.floor(position / Z)}, bit ${position % Z}` +
    (n < 0 ? "; never sent" : `; d ${n}`)]);
  fields.push(["origin", "It is", originOf(r, position)], ["state", "Receiver", stateOf(block, position)]);
  fields.push(["rows", "Check rows", rows.join(" ")]);
  fields.push(["sent", "Sent at", carriers.map(({t, m}) => `transmission ${t + 1} index ${m}` +
    (transmissions[t].arrived[m] === UNKNOWN ? " (erased)" : "")).join(", ") || "no index"]);
  tell(fields);
  if (!shown || shown.block !== block) show(r);
  mark(block, position, rows, carriers);
}
function mark(block, position, rows, carriers) {
  for (const maps of sentMaps) for (const map of maps) map.marks.setAttribute("d", "");
  for (const {t, m} of carriers) {
    const part = transmissions[t].parts.findIndex((it) => it.r === block.r), map = sentMaps[t][part];
    map.marks.setAttribute("d", map.marks.getAttribute("d") + map.box(m - transmissions[t].parts[part].first));
  }
  shown.map.marks.setAttribute("d", shown.map.box(position));
  shown.map.related.setAttribute("d", rows.flatMap(positionsOf).map((it) => shown.map.box(it)).join(""));
  const column = Math.floor(position / Z), {size, high} = graph;
  graph.marks.setAttribute("d", `M${column * size - .5} -1h${size}v${high * size + 2}h-${size}z`);
  const wide = P.columns * size + 2, box = (row) => `M-1 ${Math.floor(row / Z) * size - .5}h${wide}v${size}h-${wide}z`;
  graph.related.setAttribute("d", rows.map(box).join(""));
  const n = position - 2 * Z;
  shown.needle.setAttribute("d", n < 0 ? "" : `M${shown.point(n, 20)}L${shown.point(n, 212)}`);
  const share = P.kdash - P.l, at = position < share ? block.r * share + position : -1, text = D.b;
  const before = at < 0 ? text.length : at >> 2;
  const digit = element("mark", {}, null, text.slice(before, before + 1));
  byId("b").replaceChildren(text.slice(0, before), digit, text.slice(before + 1));
}

// ---- The codeword, and stepping through peeling ----

function show(r) {
  const block = blocks[r];
  shown = {block};
  byId("code-block").value = r;
  byId("word").textContent = "";
  shown.map = new Cells(byId("word"), `codeword of code block ${r}`, block.size, cellOfPosition, (it) => kindOfPosition(block, it),
    (position) => select(r, position));
  drawRing(block);
  byId("steps").max = block.steps.length;
  step(block.at);
}
function step(to) {
  const {block} = shown, last = block.steps.length;
  block.at = Math.min(Math.max(to, 0), last);
  byId("steps").value = block.at;
  shown.map.draw();
  let text = `Before the first of ${last} steps: what arrived and the fillers are known.`;
  if (block.at) {
    const {row, position, members} = block.steps[block.at - 1], others = members.filter((it) => it !== position);
    const sum = others.map((it) => block.value[it]).join(" + ") || 0;
    text = `Step ${block.at} of ${last}: in check row ${row}, only codeword index ${position} is unknown, so its bit is ` +
      `${sum} = ${block.value[position]} (modulo 2), from the indexes ${others.join(" ")}.`;
  }
  const {stuck = 0} = shown.map.found;
  if (block.at === last) text += isStuck(block)
    ? ` The end: ${stuck} indexes are stuck. No check row has exactly one of them: they are a stopping set.`
    : ` The end: every index below K' is fixed. ${D.ended}`;
  byId("step").textContent = text;
  byId("step").dataset.stuck = block.at === last && isStuck(block)
    ? Array.from(block.from.keys()).filter((it) => block.from[it] === NEVER).join(" ") : "";
}
blocks.forEach((_, r) => element("option", {value: r}, byId("code-block"), r));
byId("code-block").addEventListener("change", (event) => { show(+event.target.value); select(+event.target.value, 0); });
byId("steps").addEventListener("input", (event) => step(+event.target.value));
const buttons = {first: () => 0, back: () => shown.block.at - 1, next: () => shown.block.at + 1, last: () => Infinity};
for (const id in buttons) byId(id).addEventListener("click", () => step(buttons[id]()));
byId("find").addEventListener("submit", (event) => {
  event.preventDefault();
  const t = +byId("find-transmission").value - 1, m = +byId("find-place").value;
  const part = (transmissions[t] || {parts: []}).parts.findIndex((it) => m >= it.first && m < it.first + it.order.length);
  if (part >= 0) sentMaps[t][part].choose(m - transmissions[t].parts[part].first);
});
show(0);
if (sentMaps.length) sentMaps[0][0].choose(0);
else select(0, 0);
