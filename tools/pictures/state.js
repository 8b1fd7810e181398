"use strict";
const data = JSON.parse(document.getElementById("data").textContent);
const byId = (id) => document.getElementById(id);
const pagesOf = (size) => 8 ** size;
const beginOf = (size, number) => number - number % pagesOf(size);
const runOf = (name, first, count) => count === 1 ? `${name} ${first}` : `${name}s ${first} to ${first + count - 1}`;
// A frame's code is its role and, times 16, its space, or the processor that holds it.
const FREE = 0, UNUSED = 1, HELD = 5;

// The run's entries are packed in chunks, as [first entry, text]. Those that were looked at last are kept unpacked, by number.
const KEPT = 6;
const unpacked = new Map();
// The number of the chunk that has an entry.
function chunkAt(entry) {
  let low = 0, high = data.chunks.length;
  while (high - low > 1) {
    const middle = (low + high) >> 1;
    if (data.chunks[middle][0] <= entry) low = middle; else high = middle;
  }
  return low;
}
// A number below zero is a place in the entry's line and call: a number that stands there, the page of one that is an address, or the entry's own.
const INEXACT = 1e15, NO_ADDRESS = 1e10, PAGE_BYTES = 8192;
function numbersIn(number, line, call) {
  const words = `${line} ${call}`.match(/[0-9]+/g);
  return [...words, ...words.filter((word) => word < NO_ADDRESS).map((word) => Math.floor(word / PAGE_BYTES)), number];
}
function resolved(part, numbers) {
  if (Array.isArray(part)) return part.map((one) => resolved(one, numbers));
  if (typeof part !== "number" || part >= 0) return part;
  const word = numbers[-1 - part];
  return word < INEXACT ? Number(word) : word;
}
// Each entry has its line without its number, its call, and what it changes. Packed, an answer lacks the number of its call, and a call stands where its
// processor's was another one before, in the chunk.
function entriesOf(first, { start, lines, calls, rows }) {
  const named = {}, all = calls.split("\n"), answered = [...start.answered];
  return lines.split("\n").slice(0, rows.length).map((packed, at) => {
    const processor = Number(packed.split(" ", 1)[0]), line = packed.replace(" answer ", () => ` answer ${answered[processor]++} `);
    if (all[at]) named[processor] = all[at];
    const call = named[processor] || "", row = resolved(rows[at], numbersIn(first + at, packed, call)).map((part) => part || undefined);
    const [meaning, page, counts, used, why, paints, outlines, tiles, left, regions, broken] = row;
    return { number: first + at, line, processor, call, meaning, why, page, paints, outlines, tiles, regions, counts, used, left, broken };
  });
}
// The bytes of a text in base 85, with a comma in place of its one letter that may not stand in a page's data.
const DIGITS = "0123456789ABCDEFGHIJKLMNOPQRSTUVWXYZabcdefghijklmnopqrstuvwxyz!#$%&()*+-;,=>?@^_`{|}~";
function bytesOf(text) {
  const values = new Uint8Array(128), padded = text + "~".repeat((5 - text.length % 5) % 5), view = new DataView(new ArrayBuffer(padded.length / 5 * 4));
  [...DIGITS].forEach((digit, value) => { values[digit.charCodeAt(0)] = value; });
  for (let at = 0; at < padded.length; at += 5) {
    let word = 0;
    for (let place = at; place < at + 5; place++) word = word * 85 + values[padded.charCodeAt(place)];
    view.setUint32(at / 5 * 4, word);
  }
  return view.buffer.slice(0, Math.floor(text.length * 4 / 5));
}
async function inflated(text) {
  const stream = new Blob([bytesOf(text)]).stream().pipeThrough(new DecompressionStream("deflate"));
  return JSON.parse(await new Response(stream).text());
}
// In a page of tools/page the one chunk isn't packed.
async function unpack(number) {
  const [first, packed] = data.chunks[number], part = typeof packed === "string" ? await inflated(packed) : packed;
  return { first, start: part.start, entries: entriesOf(first, part) };
}
// The chunk of this number, when it is unpacked.
async function chunk(number) {
  const there = unpacked.get(number) || await unpack(number);
  unpacked.delete(number);
  unpacked.set(number, there);
  if (unpacked.size > KEPT) unpacked.delete(unpacked.keys().next().value);
  return there;
}
// An entry of a chunk that is unpacked, or null.
function entryAt(number) {
  const part = unpacked.get(chunkAt(number));
  return part ? part.entries[number - part.first] : null;
}

// What is drawn, after the entries so far: the code of each frame; reservations by first frame as [size, space, first page, entry of the latest
// taking, yield]; of each space the tiles by first page, as [size, first frame, dirty, rights], and the regions, as [first, length, kind, rights, pinned];
// by processor and space the first pages of the tiles of an image, the last used first; and the counts.
const codes = new Uint16Array(data.count);
const outlines = new Map();
const tiles = Array.from({ length: data.spaces }, () => new Map());
let regions = [], counts = [], images = new Map();
let entries = -1;
// The last entry, and the place that its tile had in the image before, or -1.
let now = null, place = -1;

function put(table, rows) {
  for (const [key, ...value] of rows) if (value.length) table.set(key, value); else table.delete(key);
}
const owned = (processor, space) => `${processor} ${space}`;
function imageOf(processor, space) {
  const key = owned(processor, space);
  if (!images.has(key)) images.set(key, []);
  return images.get(key);
}
// The state before a chunk.
function restore({ first, start }) {
  let frame = 0;
  for (const [length, code] of start.codes) { codes.fill(code, frame, frame + length); frame += length; }
  outlines.clear();
  put(outlines, start.outlines);
  start.tiles.forEach((rows, space) => { tiles[space].clear(); put(tiles[space], rows); });
  regions = [...start.regions];
  counts = [...start.counts];
  images = new Map(start.images.map(([processor, space, firsts]) => [owned(processor, space), [...firsts]]));
  [entries, now, place] = [first, null, -1];
}
function take(image, first) {
  const at = image.indexOf(first);
  if (at >= 0) image.splice(at, 1);
  return at;
}
// What left an image is told by its first page, or is the last one, whose first page is told from then on. Answers the place that it had.
function leave(row) {
  const image = imageOf(row[0], row[1]);
  if (row[2] === null) row[2] = image[image.length - 1];
  return take(image, row[2]);
}
// The state after one entry more.
function apply(entry) {
  for (const [first, length, code] of entry.paints || []) codes.fill(code, first, first + length);
  put(outlines, entry.outlines || []);
  for (const [space, rows] of entry.tiles || []) put(tiles[space], rows);
  for (const [space, all] of entry.regions || []) regions[space] = all;
  for (const at of entry.counts || []) counts[at]++;
  const places = (entry.left || []).map(leave);
  place = -1;
  if (entry.used) use(entry, places);
  now = entry;
  entries++;
}
// The tile of the page that was used comes to the front of its processor's image.
function use(entry, places) {
  const [space, page] = entry.page, image = imageOf(entry.processor, space), first = tileOf(space, page)[0];
  const before = (entry.left || []).findIndex(([c, s, begin, size]) => c === entry.processor && s === space && beginOf(size, page) === begin);
  place = Math.max(take(image, first), before < 0 ? -1 : places[before]);
  image.unshift(first);
}
function tileOf(space, page) {
  for (const size of data.sizes) {
    const first = beginOf(size, page), tile = tiles[space].get(first);
    if (tile && tile[0] >= size) return [first, ...tile];
  }
  return null;
}
function frameOf(space, page) {
  const tile = tileOf(space, page);
  return tile && tile[2] + page - tile[0];
}
function reservationOf(frame) {
  for (const size of data.sizes) {
    const first = beginOf(size, frame), found = outlines.get(first);
    if (found && found[0] >= size) return [first, ...found];
  }
  return null;
}

// How many entries are wanted. A walk leads there, from the state before a chunk where that is shorter, and waits where a chunk has to be unpacked.
let wanted = 0, walking = false;
async function walk() {
  walking = true;
  while (entries !== wanted) {
    const to = wanted, part = await chunk(chunkAt(to - 1));
    if (to !== wanted) continue;
    if (entries > to || entries < part.first) restore(part);
    while (entries < to) apply(part.entries[entries - part.first]);
  }
  // What the next entry does may be asked.
  await chunk(chunkAt(entries));
  if (entries !== wanted) return walk();
  walking = false;
  return show();
}
function goTo(many) {
  wanted = Math.max(0, Math.min(data.entries, many));
  if (!walking) walk();
}
