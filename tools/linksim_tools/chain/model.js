"use strict";
// The page of a transport block: what stands in the element `data` is drawn, and pointing at a bit tells where it comes from.
const D = JSON.parse(document.getElementById("data").textContent);
const P = D.plan, Z = P.z, SVG = "http://www.w3.org/2000/svg";
const UNKNOWN = 2; // at a place: nothing arrived
// Where the bit of a position comes from, if it is not the number of the step that fixes it.
const NEVER = 1 << 30, ARRIVED = -1, FILLER = -2;

const byId = (id) => document.getElementById(id);
const bitsOf = (hex, count) => {
  const bits = new Uint8Array(count);
  for (let at = 0; at < count; at++) bits[at] = parseInt(hex[at >> 2], 16) >> (3 - (at & 3)) & 1;
  return bits;
};
const element = (name, attributes, parent, text) => {
  const made = parent instanceof SVGElement || name === "svg" ? document.createElementNS(SVG, name) : document.createElement(name);
  for (const key in attributes) made.setAttribute(key, attributes[key]);
  if (text !== undefined) made.textContent = text;
  if (parent) parent.append(made);
  return made;
};

// ---- What the chain is, from the data ----

const entriesOfRow = [], entriesOfColumn = Array.from({length: P.columns}, () => []);
for (const [row, column, shift] of D.entries) {
  (entriesOfRow[row] = entriesOfRow[row] || []).push([column, shift]);
  entriesOfColumn[column].push([row, shift]);
}
// Check row i Zc + t adds up, for each entry of row i, position column Zc + (t + shift) mod Zc (5.3.2).
const positionsOf = (row) => entriesOfRow[Math.floor(row / Z)].map(([column, shift]) => column * Z + (row + shift) % Z);
const rowsOf = (position) => entriesOfColumn[Math.floor(position / Z)].map(([row, shift]) => row * Z + (position - shift + Z) % Z);

const blocks = D.words.map((hex, r) => {
  const size = P.columns * Z, from = new Int32Array(size).fill(NEVER), value = new Uint8Array(size);
  return {r, size, word: bitsOf(hex, size), from, value, carried: [], steps: [], at: 0};
});

const transmissions = D.transmissions.map((given, t) => {
  const bits = bitsOf(given.bits, given.g), erased = bitsOf(given.erased, given.g);
  const arrived = bits.map((bit, m) => erased[m] ? UNKNOWN : bit);
  let first = 0;
  const parts = given.parts.map(({r, runs}) => {
    // The positions in the order of e: runs that ascend, from one place of the circular buffer each (5.4.2.1).
    const order = runs.flatMap(([start, length]) => Array.from({length}, (_, at) => 2 * Z + start + at));
    const part = {t, r, first, order, qm: given.qm, columns: order.length / given.qm};
    blocks[r].carried.push(part);
    first += order.length;
    return part;
  });
  return {...given, t, arrived, parts};
});

// Bit i + j Qm of f is bit i E / Qm + j of e (5.4.2.2).
const placeOf = (part, k) => part.first + Math.floor(k / part.columns) + k % part.columns * part.qm;
const sentAt = (t, m) => {
  const part = transmissions[t].parts.find((it) => m >= it.first && m < it.first + it.order.length), f = m - part.first;
  const row = f % part.qm, column = Math.floor(f / part.qm), k = row * part.columns + column;
  return {part, row, column, k, position: part.order[k]};
};
const carriersOf = (block, position) => block.carried.flatMap((part) =>
  part.order.flatMap((it, k) => it === position ? [{t: part.t, m: placeOf(part, k)}] : []));

for (const block of blocks) {
  block.from.fill(FILLER, P.kdash, P.k);
  for (const part of block.carried)
    for (let m = part.first; m < part.first + part.order.length; m++) {
      const bit = transmissions[part.t].arrived[m], {position} = sentAt(part.t, m);
      if (bit !== UNKNOWN && block.from[position] === NEVER) [block.from[position], block.value[position]] = [ARRIVED, bit];
    }
  // Each step is a check row with one unknown position, whose bit the others add up to.
  const octets = atob(D.steps[block.r]);
  for (let at = 0; at < octets.length; at += 2) {
    const row = octets.charCodeAt(at) + 256 * octets.charCodeAt(at + 1), members = positionsOf(row);
    const unknown = members.filter((it) => block.from[it] === NEVER);
    if (unknown.length !== 1) throw new Error(`step ${at / 2} of code block ${block.r} does not have one unknown position`);
    block.value[unknown[0]] = members.reduce((sum, it) => sum ^ block.value[it], 0);
    block.from[unknown[0]] = block.steps.length;
    block.steps.push({row, position: unknown[0], members});
  }
  block.at = block.steps.length;
}
const isStuck = (block) => block.from.subarray(0, P.kdash).includes(NEVER);

