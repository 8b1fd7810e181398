// A run as the data of a page of tools/picture, as tools/pictures/page.py, layout.py and packing.py make it; but the entries are one chunk, which
// isn't packed.
const ROW = 64, BOX = 512;

// The boxes, as [space, first, count, columns, x, y, title], side by side, from left to right and then below.
function placed(boxes) {
  const rowsOf = ([, , count, columns]) => Math.ceil(count / columns), rows = boxes.reduce((sum, box) => sum + rowsOf(box), 0);
  const columns = boxes.reduce((most, box) => Math.max(most, box[3]), boxes.length ? 0 : 1);
  const [cell] = LAYOUT.cells.find(([side, most]) => rows <= most && columns * side <= LAYOUT.width), out = [];
  let x = 0, y = 0, wide = 0, high = 0;
  for (const box of boxes) {
    const width = Math.max(box[3] * cell, 7 * box[6].length), height = rowsOf(box) * cell + LAYOUT.title;
    if (x && x + width > LAYOUT.width) [x, y, high] = [0, y + high + LAYOUT.gap, 0];
    out.push([...box.slice(0, 4), x, y + LAYOUT.title, box[6]]);
    [high, wide] = [Math.max(high, height), Math.max(wide, x + width)];
    x += width + LAYOUT.gap;
  }
  return { cell, width: wide, height: y + high, boxes: out };
}
const frameGrid = (frames) => placed(upTo(frames / BOX).map((at) => [-1, at * BOX, BOX, ROW, 0, 0, runOf("frame", at * BOX, BOX)]));

// What the page says once of all entries: which pages and codes of frames are drawn, and what is marked below the slider.
class Seen {
  constructor(entries) {
    Object.assign(this, { codes: new Set([FREE]), rows: new Map(), reach: new Map(), wide: Math.ceil(entries / LAYOUT.marks) || 1 });
    this.marks = new Map(LAYOUT.colours.map(([place]) => [place, new Set()]));
  }
  // The row of a space is drawn.
  row(space, row) {
    const key = `${space} ${Math.floor(row * ROW / BOX)}`;
    if (!this.rows.has(key)) this.rows.set(key, new Set());
    this.rows.get(key).add(row);
  }
  add(at, change) {
    for (const [space, some] of change.tiles) for (const page of some.keys()) this.row(space, Math.floor(page / ROW));
    for (const [space, regions] of change.regions) for (const region of regions) this.region(space, region);
    for (const [, , code] of change.paints) this.codes.add(code);
    for (const place of change.counts) if (this.marks.has(place)) this.marks.get(place).add(Math.floor(at / this.wide) * this.wide);
  }
  region(space, region) {
    const row = Math.floor(region[0] / ROW), key = `${space} ${row}`;
    this.row(space, row);
    this.reach.set(key, Math.max(this.reach.get(key) || 0, Math.min(ROW, endOf(region) - row * ROW)));
  }
  // The pages that are drawn, in boxes of rows of one extent of 512 pages; and how many boxes are left out.
  pages() {
    const all = [...this.rows].map(([key, rows]) => [...key.split(" ").map(Number), [...rows].sort((one, other) => one - other)]), boxes = [];
    let left = LAYOUT.rows;
    for (const [space, , rows] of all.sort((one, other) => one[0] - other[0] || one[1] - other[1])) {
      const low = rows[0], count = rows[rows.length - 1] - low + 1, reach = this.reach.get(`${space} ${low}`);
      left -= count;
      if (left < 0) break;
      const columns = count > 1 ? ROW : Math.ceil((reach === undefined ? ROW : reach) / 8) * 8, pages = (count - 1) * ROW + columns;
      boxes.push([space, low * ROW, pages, columns, 0, 0, `space ${space}: ${runOf("page", low * ROW, pages)}`]);
    }
    return [placed(boxes), all.length - boxes.length];
  }
}

// Sentences as their words and their numbers: the words of each kind stand once in the page, with a # for each number.
class Sentences {
  constructor() { this.kinds = new Map(); }
  coded(sentence) {
    const parts = sentence.split(/([0-9]+)/), kind = parts.filter((_, at) => at % 2 === 0).join("#");
    if (!this.kinds.has(kind)) this.kinds.set(kind, this.kinds.size);
    const number = (word) => (word < 1e15 ? Number(word) : BigInt(word).toString());
    return [this.kinds.get(kind), ...parts.filter((_, at) => at % 2 === 1).map(number)];
  }
  // What an entry changes, without the empty parts behind the last that isn't.
  row(change) {
    const coded = (sentence) => this.coded(sentence), rows = (table) => [...table].map(([key, value]) => [key, ...(value || [])]);
    const parts = [
      change.meaning.map(coded), change.page || 0, change.counts, Number(change.size !== null),
      change.why.map(coded), change.paints, rows(change.outlines),
      [...change.tiles].map(([space, some]) => [space, rows(some)]),
      change.left.map(({ owner, first, size, putOut, why }) => [...owner, putOut ? null : first, size, coded(why)]), [...change.regions],
      change.broken ? Object.values(change.broken) : 0,
    ];
    return parts.map((part) => (part.length === 0 ? 0 : part));
  }
}
// An entry's line without its number, and an answer's without the number of the call.
function lineOf(line) {
  const [, processor, part, kind, ...rest] = line.split(" ");
  return [processor, part, kind, ...(kind === "answer" ? rest.slice(1) : rest)].join(" ");
}

// The run in one line.
function aboutOf(run, order) {
  const sizes = run.sizes.length === WORDS.sizes.length ? "" : `page sizes: ${run.sizes.map((size) => WORDS.sizes[size]).join(", ")}`;
  const head = `${run.frames} frames (${Math.floor(run.frames / 128)} MiB), processors: ${run.calls.length}, spaces: ${run.spaces}`;
  return [[head, sizes].filter(Boolean).join(", "), order].join(", ");
}
function chunkOf(run, changes, sentences) {
  const start = {
    codes: [[run.frames, FREE]], outlines: [], tiles: upTo(run.spaces).map(() => []), regions: upTo(run.spaces).map(() => []),
    counts: FIXED.names.map(() => 0), answered: run.calls.map(() => 0), images: [],
  };
  const lines = changes.map(({ line }) => lineOf(line)).join("\n"), calls = changes.map(({ call }) => call).join("\n");
  return { start, lines, calls, rows: changes.map((change) => sentences.row(change)) };
}
// The data of a page of this run, by the program's text of it.
function dataOf(run, name, about) {
  const follower = new Follower(run), seen = new Seen(run.history.length), sentences = new Sentences(), counts = FIXED.names.map(() => 0);
  const codes = new Array(run.frames).fill(FREE), changes = run.history.map((line) => follower.entry(line));
  changes.forEach((change, at) => {
    seen.add(at, change);
    for (const [first, length, code] of change.paints) codes.fill(code, first, first + length);
    for (const place of change.counts) counts[place]++;
  });
  compareCounts(run, follower, codes, counts);
  const [pages, left] = seen.pages(), chunk = chunkOf(run, changes, sentences), named = run.spaces > 1 ? LAYOUT.namedOfMany : LAYOUT.named;
  const ordered = [...seen.codes].sort((one, other) => one - other), coloured = ordered.map((code) => [LAYOUT.coloured[code], named[code]]);
  return {
    ...FIXED, name, about, count: run.frames, spaces: run.spaces, sizes: run.sizes, entries: run.history.length, frames: frameGrid(run.frames), pages,
    omitted: left ? `Boxes of pages that are not drawn: ${left}.` : "", codes: Object.fromEntries(ordered.map((code, at) => [code, coloured[at]])),
    legend: coloured, marks: LAYOUT.colours.map(([place, colour]) => [colour, [...seen.marks.get(place)].sort((one, other) => one - other)]),
    sentences: [...sentences.kinds.keys()], chunks: [[0, chunk]],
  };
}
