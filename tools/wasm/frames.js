// The frames' state of docs/model.md, followed entry by entry, as tools/pictures/frames.py follows it.
const LARGEST = 3, LARGEST_ORDER = 9;
const FREE = 0, UNUSED = 1, USED = 2, WIRED = 3, CLAIMED = 4, HELD = 5;
const coded = (role, owner = 0) => role + 16 * owner;
const pagesOf = (size) => 8 ** size;
const beginOf = (size, number) => number - number % pagesOf(size);
const upTo = (count) => Array.from({ length: count }, (_, at) => at);

// The history says another thing than the rules.
class Astray extends Error {}

// An extent of pages of a space joined to one of frames. `sizes` are those that there are, ascending, up to its own; `used` says of each size how
// many places of each part are used.
class Reservation {
  constructor(space, first, sizes, frame, stamp, places) {
    Object.assign(this, { space, first, sizes, size: sizes[sizes.length - 1], frame, stamp, used: {} });
    for (const size of sizes) {
      this.used[size] = new Array(places.length / pagesOf(size)).fill(0);
      places.forEach((one, at) => { this.used[size][Math.floor(at / pagesOf(size))] += one; });
    }
  }
  add(place, by) { for (const size of this.sizes) this.used[size][Math.floor(place / pagesOf(size))] += by; }
  isEmpty() { return this.used[this.size][0] === 0; }
  uses(page) { return this.used[0][page - this.first] === 1; }
  // The yield: the largest size of a part without a used place, or null where every place is used.
  giveBack() {
    const found = this.sizes.filter((size) => this.used[size].includes(0));
    return found.length ? found[found.length - 1] : null;
  }
  // The parts of the next smaller size, with the same stamp.
  parts() {
    const sizes = this.sizes.slice(0, -1), length = pagesOf(sizes[sizes.length - 1]), places = this.used[0];
    return upTo(places.length / length).map((part) => {
      const at = part * length;
      return new Reservation(this.space, this.first + at, sizes, this.frame + at, this.stamp, places.slice(at, at + length));
    });
  }
}

// The maximal free blocks, by their order.
class FreeBlocks {
  constructor() { this.blocks = upTo(LARGEST_ORDER + 1).map(() => new Set()); }
  put(frame, order) {
    while (order < LARGEST_ORDER && this.blocks[order].has(frame ^ 1 << order)) {
      this.blocks[order].delete(frame ^ 1 << order);
      frame &= ~(1 << order);
      order++;
    }
    this.blocks[order].add(frame);
  }
  // Takes the choice for this size: the lowest frames of the lowest block of the least order that is large enough; or null.
  take(size) {
    const least = 3 * size, order = this.blocks.findIndex((some, at) => at >= least && some.size > 0);
    if (order < 0) return null;
    const frame = [...this.blocks[order]].reduce((one, other) => Math.min(one, other));
    this.blocks[order].delete(frame);
    for (let smaller = least; smaller < order; smaller++) this.put(frame + (1 << smaller), smaller);
    return frame;
  }
}

// What becomes of a run of frames is told to `paint`, and what reservation begins at a frame from now on, or that none does, to `outline`.
class Frames {
  constructor(count, sizes, paint, outline) {
    Object.assign(this, { sizes, paint, outline, free: new FreeBlocks(), reservations: new Map(), inside: new Map() });
    // Those that give something back, by how much.
    this.partial = upTo(LARGEST).map(() => new Set());
    // By processor the frame that it claims, and the one that it holds.
    [this.claimed, this.held] = [new Map(), new Map()];
    for (let frame = 0; frame < count; frame += 1 << LARGEST_ORDER) this.free.put(frame, LARGEST_ORDER);
  }
  key(space, size, page) { return `${space} ${size} ${beginOf(size, page)}`; }
  has(space, page) {
    const keys = upTo(LARGEST + 1).map((size) => this.key(space, size, page));
    return this.reservations.get(keys.find((key) => this.reservations.has(key))) || null;
  }
  // The reservation of a page that has a frame.
  of(space, page, what) {
    const r = this.has(space, page);
    if (!r || !r.uses(page)) throw new Astray(`page ${page} of space ${space} ${what}, and has no frame`);
    return r;
  }
  file(r, by) {
    const size = r.giveBack();
    if (size !== null && size < LARGEST) this.partial[size][by > 0 ? "add" : "delete"](r);
  }
  enter(r, by) {
    if (by > 0) this.reservations.set(this.key(r.space, r.size, r.first), r);
    else this.reservations.delete(this.key(r.space, r.size, r.first));
    for (let size = r.size + 1; size <= LARGEST; size++) {
      const key = this.key(r.space, size, r.first);
      this.inside.set(key, (this.inside.get(key) || 0) + by);
    }
    this.outline(r.frame, by > 0 ? r : null);
    this.file(r, by);
  }
  fallFree(frame, size) {
    this.free.put(frame, 3 * size);
    this.paint(frame, pagesOf(size), coded(FREE));
  }
  split(r) {
    this.enter(r, -1);
    const parts = r.parts();
    this.keep(parts);
    return parts;
  }
  // Parts with a used place are reservations from now on, and the others are free.
  keep(parts) {
    for (const part of parts) {
      if (part.isEmpty()) this.fallFree(part.frame, part.size);
      else this.enter(part, 1);
    }
  }
  // Breaks the reservation: where no part is empty, the lowest part that gives as much back is broken in the same way.
  breakUp(r) {
    const gives = r.giveBack(), broken = { frame: r.frame, size: r.size, stamp: r.stamp, gives, others: this.partial[gives].size - 1 };
    let parts = this.split(r);
    while (!parts.some((part) => part.isEmpty())) parts = this.split(parts.find((part) => part.giveBack() === gives));
    return broken;
  }
  // The oldest of the first list, from that of this size up, that has a reservation.
  oldest(size) {
    const row = this.partial.slice(size).find((some) => some.size > 0) || [];
    const isOlder = (r, best) => r.stamp < best.stamp || (r.stamp === best.stamp && r.frame < best.frame);
    return [...row].reduce((best, r) => (!best || isOlder(r, best) ? r : best), null);
  }
  fits(space, page, want, size) {
    const first = beginOf(size, page), pages = pagesOf(size), key = this.key(space, size, page);
    const met = this.inside.get(key) || this.reservations.has(key);
    return want.low <= first && first + pages <= want.high && pages <= want.cap && !met;
  }
  // The sizes up to the preferred one, for a page that no reservation has.
  tried(space, page, want) {
    const fitting = this.sizes.filter((size) => size === 0 || this.fits(space, page, want, size));
    return this.sizes.slice(0, this.sizes.indexOf(fitting[fitting.length - 1]) + 1);
  }
  // The page gets a frame by the rules, which has to be the one that is told.
  take(stamp, space, page, frame, want) {
    const there = this.has(space, page), taken = there ? { reservation: there, made: false, broken: null } : this.reserve(stamp, space, page, want);
    const r = taken.reservation, by = r.frame + page - r.first;
    if (by !== frame || r.uses(page)) throw new Astray(`page ${page} of space ${space} gets frame ${frame}, and by the rules ${by}`);
    this.file(r, -1);
    r.add(page - r.first, 1);
    r.stamp = stamp;
    this.file(r, 1);
    this.outline(r.frame, r);
    this.paint(frame, 1, coded(want.wired ? WIRED : USED, space));
    return taken;
  }
  // Makes a reservation for the page, of the preferred size or the next that can be had.
  reserve(stamp, space, page, want) {
    for (let sizes = this.tried(space, page, want); sizes.length; sizes = sizes.slice(0, -1)) {
      const size = sizes[sizes.length - 1];
      let frame = this.free.take(size), broken = null;
      if (frame === null) {
        const oldest = this.oldest(size);
        if (!oldest) continue;
        broken = this.breakUp(oldest);
        frame = this.free.take(size);
      }
      const r = new Reservation(space, beginOf(size, page), sizes, frame, stamp, new Array(pagesOf(size)).fill(0));
      this.enter(r, 1);
      this.paint(frame, pagesOf(size), coded(UNUSED, space));
      return { reservation: r, made: true, broken };
    }
    throw new Astray(`page ${page} of space ${space} gets a frame, and by the rules there is none`);
  }
  // The page gives its frame up. Answers the processor that claimed the frame and holds it now, or undefined.
  give(space, page) {
    const r = this.of(space, page, "gives a frame up"), frame = r.frame + page - r.first;
    const [claimer] = [...this.claimed].find(([, claimed]) => claimed === frame) || [];
    this.file(r, -1);
    r.add(page - r.first, -1);
    this.file(r, 1);
    if (claimer !== undefined) {
      this.carve(r, frame, claimer);
    } else if (r.isEmpty()) {
      this.enter(r, -1);
      this.fallFree(r.frame, r.size);
    } else {
      this.paint(frame, 1, coded(UNUSED, space));
      this.outline(r.frame, r);
    }
    return claimer;
  }
  // The claimed frame leaves its reservation, which is split down to it, and its claimer holds it.
  carve(r, frame, claimer) {
    this.enter(r, -1);
    while (r.size > 0) {
      const parts = r.parts(), [one] = parts.splice(Math.floor((frame - r.frame) / pagesOf(parts[0].size)), 1);
      this.keep(parts);
      r = one;
    }
    this.claimed.delete(claimer);
    this.held.set(claimer, frame);
    this.paint(frame, 1, coded(HELD, claimer));
  }
  claim(processor, space, page, frame) {
    const r = this.of(space, page, "is claimed");
    if (r.frame + page - r.first !== frame) throw new Astray(`frame ${frame} of page ${page} of space ${space} is claimed, and the page has another`);
    this.claimed.set(processor, frame);
    this.paint(frame, 1, coded(CLAIMED, space));
  }
  unclaim(processor, space) {
    this.paint(this.claimed.get(processor), 1, coded(USED, space));
    this.claimed.delete(processor);
  }
  // The frame of the page is wired from now on, or isn't.
  pin(space, page, wired) {
    const r = this.of(space, page, "is pinned"), frame = r.frame + page - r.first;
    if ([...this.claimed.values()].includes(frame)) throw new Astray(`page ${page} of space ${space} is pinned, and its frame is claimed`);
    this.paint(frame, 1, coded(wired ? WIRED : USED, space));
  }
  drop(processor) {
    this.fallFree(this.held.get(processor), 0);
    this.held.delete(processor);
  }
}
