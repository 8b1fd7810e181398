// What docs/model.md says of a space, and of the images, followed entry by entry, as tools/pictures/spaces.py and images.py follow it. A region is
// [first page, length, kind, rights, pinned], and a tile [size, first frame, dirty, rights].
const BLOCK = pagesOf(LARGEST);
const endOf = ([first, length]) => first + length;
const isSameTile = (one, other) => one === other || Boolean(one && other && one.every((part, at) => part === other[at]));

// A value for each page, as the runs of equal ones.
class Ranges {
  constructor() { [this.begins, this.values] = [[0], [null]]; }
  at(page) { return this.values[this.begins.filter((begin) => begin <= page).length - 1]; }
  cut(page) {
    const at = this.begins.filter((begin) => begin < page).length;
    if (this.begins[at] !== page) {
      this.begins.splice(at, 0, page);
      this.values.splice(at, 0, this.values[at - 1]);
    }
    return at;
  }
  fill(first, end, value) {
    const at = this.cut(first), behind = this.cut(end);
    this.begins.splice(at, behind - at, first);
    this.values.splice(at, behind - at, value);
  }
}

class Space {
  constructor(sizes) {
    // The sizes with their lengths in pages, the largest first.
    this.lengths = [...sizes].reverse().map((size) => [size, pagesOf(size)]);
    Object.assign(this, { sizes, regions: [], rights: new Ranges(), frames: new Map(), dirty: new Set(), tiles: new Map(), touched: new Set() });
    // By number of an extent of the largest size the kind of each of its pages, or null. Equal kinds are one object.
    Object.assign(this, { kinds: new Map(), known: new Map() });
  }
  regionOf(page) {
    const found = this.regions.find((region) => region[0] <= page && page < endOf(region));
    if (!found) throw new Astray(`no region has page ${page}`);
    return found;
  }
  replace(region, ...by) { this.regions = this.regions.flatMap((one) => (one === region ? by : [one])); }
  map(region) {
    this.regions = [...this.regions, region].sort((one, other) => one[0] - other[0]);
    this.rights.fill(region[0], endOf(region), region[3]);
  }
  grow(page, by) {
    const region = this.regionOf(page), [first, length, ...more] = region;
    this.replace(region, [first, length + by, ...more]);
    this.rights.fill(endOf(region), endOf(region) + by, region[3]);
  }
  unmap(page) {
    const region = this.regionOf(page);
    this.replace(region);
    this.rights.fill(region[0], endOf(region), null);
  }
  pin(page, pinned) {
    const region = this.regionOf(page);
    this.replace(region, [...region.slice(0, 4), pinned]);
  }
  protect(first, length, rights) {
    this.rights.fill(first, first + length, rights);
    for (const page of this.resident(first, length)) this.look(page);
  }
  resident(first, length) {
    const found = [...this.frames.keys()].filter((page) => first <= page && page < first + length);
    return found.sort((one, other) => one - other);
  }
  fill(page, frame) {
    this.frames.set(page, frame);
    this.look(page);
  }
  remove(page) {
    this.frames.delete(page);
    this.dirty.delete(page);
    this.look(page);
  }
  setDirty(page, dirty) {
    this.dirty[dirty ? "add" : "delete"](page);
    this.look(page);
  }
  // What the page has in common with its neighbours now, or null where it isn't resident.
  kindOf(page) {
    if (!this.frames.has(page)) return null;
    const distance = this.frames.get(page) - page, rights = this.rights.at(page), dirty = this.dirty.has(page);
    const key = [distance, this.regionOf(page)[0], rights, dirty].join(" ");
    if (!this.known.has(key)) this.known.set(key, { distance, rights, dirty: Number(dirty) });
    return this.known.get(key);
  }
  look(page) {
    const block = Math.floor(page / BLOCK);
    if (!this.kinds.has(block)) this.kinds.set(block, new Array(BLOCK).fill(null));
    this.kinds.get(block)[page % BLOCK] = this.kindOf(page);
    this.touched.add(page);
  }
  // The largest eligible extent round the page as it is now, as [first page, tile], or null where the page isn't resident.
  newTile(page) {
    if (!this.frames.has(page)) return null;
    const kinds = this.kinds.get(Math.floor(page / BLOCK)), place = page % BLOCK, kind = kinds[place];
    const isEligible = (at, length) => kind.distance % length === 0 && kinds[at + length - 1] === kind
      && kinds.slice(at, at + length).every((one) => one === kind);
    const [size, length] = this.lengths.find(([, some]) => isEligible(place - place % some, some)), first = page - page % length;
    return [first, [size, first + kind.distance, kind.dirty, kind.rights]];
  }
  // The tile that has the page, as [first page, tile], as the tiles were found last; or null.
  tileOf(page) {
    for (const [size, length] of this.lengths) {
      const first = page - page % length, tile = this.tiles.get(first);
      if (tile && tile[0] >= size) return [first, tile];
    }
    return null;
  }
  // Finds the tiles again where pages changed, and answers what became of them: what is at a first page now, and what was promoted and demoted.
  moves() {
    const moves = { tiles: new Map(), promoted: [], demoted: [] }, reached = new Map();
    for (const page of this.touched) {
      const extent = this.reach(page, moves);
      if (extent) reached.set(extent.join(" "), extent);
    }
    // An extent comes before those that lie in it, in which nothing changes then.
    const ordered = [...reached.values()].sort((one, other) => one[0] - other[0] || other[1] - one[1]);
    for (const [first, size] of ordered) this.move(first, first + pagesOf(size), moves);
    this.touched.clear();
    return moves;
  }
  // How far a change of the page reaches: the larger of its tiles before and after it. Where that is the page alone it is settled at once.
  reach(page, moves) {
    const old = this.tileOf(page), after = this.newTile(page), size = Math.max(old ? old[1][0] : 0, after ? after[1][0] : 0);
    if (size > 0) return [beginOf(size, page), size];
    if (isSameTile(old && old[1], after && after[1])) return null;
    moves.tiles.set(page, after && after[1]);
    this.tiles.delete(page);
    if (after) this.tiles.set(...after);
    return null;
  }
  move(first, end, moves) {
    const old = this.takeTiles(first, end), after = new Map(this.tilesIn(first, end));
    for (const pair of after) this.tiles.set(...pair);
    for (const page of new Set([...old.keys(), ...after.keys()])) {
      if (!isSameTile(old.get(page), after.get(page))) moves.tiles.set(page, after.get(page) || null);
    }
    moves.promoted.push(...outside(after, old));
    moves.demoted.push(...outside(old, after));
  }
  takeTiles(first, end) {
    const taken = new Map();
    for (let page = first; page < end; page++) if (this.tiles.has(page)) taken.set(page, this.tiles.get(page));
    for (const page of taken.keys()) this.tiles.delete(page);
    return taken;
  }
  // The tiles of the pages of an extent round which no larger one is eligible.
  tilesIn(page, end) {
    const found = [];
    while (page < end) {
      const one = this.newTile(page);
      if (one) found.push(one);
      page += one ? pagesOf(one[1][0]) : 1;
    }
    return found;
  }
}
// First page and size of the superpages among some tiles whose extents lie in none of the others.
function outside(some, others) {
  const liesIn = (first, size) => upTo(LARGEST + 1).some((larger) => {
    const tile = others.get(beginOf(larger, first));
    return larger >= size && tile && tile[0] >= larger;
  });
  return [...some].map(([first, [size]]) => [first, size]).filter(([first, size]) => size > 0 && !liesIn(first, size));
}

// Why a tile is none any more.
function whyGone(space, first, [size, , , rights]) {
  if (!space.frames.has(first)) return `page ${first} gave its frame up`;
  const [sizeNow, , dirtyNow, rightsNow] = space.tileOf(first)[1];
  if (sizeNow > size) return `its pages became a part of a translation of ${WORDS.sizes[sizeNow]}`;
  if (sizeNow < size) return "its pages lost their common translation";
  if (rightsNow !== rights) return "it got other rights";
  return dirtyNow ? "it became dirty" : "it was written to its copy";
}

// The images of all processors and spaces, each its tiles by first page, the last used at the end. What left is told as
// { owner, first, size, entry, putOut, why }, where the owner is a processor and a space.
class Images {
  constructor(spaces) { Object.assign(this, { spaces, images: new Map(), gone: new Map() }); }
  of(table, owner) {
    const key = owner.join(" ");
    if (!table.has(key)) table.set(key, new Map());
    return table.get(key);
  }
  has(owner, page) {
    const found = this.spaces[owner[1]].tileOf(page);
    return Boolean(found) && this.of(this.images, owner).has(found[0]);
  }
  leave(owner, image, first, entry, putOut, why) {
    const left = { owner, first, size: image.get(first)[0], entry, putOut, why };
    image.delete(first);
    this.of(this.gone, owner).set(`${first} ${left.size}`, left);
    return left;
  }
  // What is no tile any more leaves all images.
  forget(entry, space, tiles) {
    return [...this.images].flatMap(([key, image]) => {
      const owner = key.split(" ").map(Number), shot = owner[1] === space ? [...tiles.keys()].filter((first) => image.has(first)) : [];
      return shot.map((first) => this.leave(owner, image, first, entry, false, whyGone(this.spaces[space], first, image.get(first))));
    });
  }
  // The tile of the page comes to the front, and where there is no room the one that was used longest ago is put out.
  use(entry, owner, page) {
    const [first, tile] = this.spaces[owner[1]].tileOf(page), image = this.of(this.images, owner);
    image.delete(first);
    image.set(first, tile);
    if (image.size <= FIXED.room) return [];
    const why = `it was put out, as the one that was used longest ago, for that of page ${page}`;
    return [this.leave(owner, image, image.keys().next().value, entry, true, why)];
  }
  whyMissed(owner, page) {
    const gone = this.of(this.gone, owner), keys = this.spaces[owner[1]].lengths.map(([size, length]) => `${page - page % length} ${size}`);
    const last = keys.map((key) => gone.get(key)).filter(Boolean).reduce((one, other) => (one && one.entry >= other.entry ? one : other), null);
    if (!last) return `Processor ${owner[0]} had no translation of page ${page} before.`;
    return `The TLB had a translation of it, that of ${runOf("page", last.first, pagesOf(last.size))}, up to entry ${last.entry}: ${last.why}.`;
  }
}
