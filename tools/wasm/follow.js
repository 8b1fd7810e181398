// What each entry of a run's history changes, as tools/pictures/following.py and words.py work it out, in the form in which a page of tools/picture
// unpacks it. WORDS has the words of words.py, and FIXED what is the same in all such pages.
const [HITS, MISSES, PROMOTIONS, DEMOTIONS, PREEMPTIONS, CLAIMS] = upTo(6);
const PAGE_BYTES = 8192;
const runOf = (name, first, count) => (count === 1 ? `${name} ${first}` : `${name}s ${first} to ${first + count - 1}`);
const pagesSaid = (count) => `${count} page${count === 1 ? "" : "s"}`;
const filled = (text, ...parts) => text.replace(/%[sd]/g, () => parts.shift());
const pageOf = (call) => Math.floor(Number(call[2]) / (call[0] === "load" || call[0] === "store" ? PAGE_BYTES : 1));

// A trace that the program took, and what it printed of it: the page sizes, the calls of each processor, the lines of the history, and the counts.
function runFrom(trace, text) {
  const lines = trace.split("\n").slice(0, -2), [, , frames, processors, spaces, named] = lines[0].split(" ");
  // A daemon is one processor more, which makes no calls.
  const daemons = (lines[1] || "").startsWith("daemon ") ? 1 : 0, calls = upTo(Number(processors) + daemons).map(() => []);
  for (const line of lines.slice(1 + daemons)) {
    const [processor, ...call] = line.split(" ");
    calls[Number(processor)].push(call.join(" "));
  }
  // An answer for each call comes first.
  const printed = text.split("\n").slice(calls.flat().length), end = printed.findIndex((line) => line.startsWith("tiles "));
  const counts = printed.slice(end).filter(Boolean).map((line) => line.split(" "));
  return {
    frames: Number(frames), spaces: Number(spaces), sizes: [...(named || FIXED.tiles.map((_, size) => size).join(""))].map(Number), calls,
    history: printed.slice(0, end), counts: counts.map(([name, ...numbers]) => [name, numbers.map(Number)]),
  };
}

function called(words) {
  const [name, space, ...numbers] = words, count = ["map", "protect", "discard"].includes(name) ? Number(numbers[1]) : 1;
  const asks = WORDS.calls[name].replace("PAGES", () => `${runOf("page", pageOf(words), count)} of space ${space}`);
  if (name === "grow") return `${asks} by ${pagesSaid(Number(numbers[1]))}`;
  if (name === "map") return `${asks} as a ${numbers[2]} region ${WORDS.rights[numbers[3]]}`;
  return name === "protect" ? `${asks} ${WORDS.rights[numbers[2]]} from now on` : asks;
}
function answeredSaid(processor, call, reply) {
  const [told] = reply, of = told === "value" ? `it is ${reply[1]}` : told === "done" ? "done" : `${reply.join(" ")} (${WORDS.replies[told]})`;
  return `Processor ${processor} ${called(call)}: ${of}.`;
}
function givenUp(count) {
  if (count === 1) return "1 page gives its frame up";
  return count === 0 ? "no page has a frame to give up" : `${pagesSaid(count)} give their frames up`;
}
function takenSaid(space, page, frame, { reservation: r, made, broken }) {
  const gets = `Page ${page} of space ${space} gets frame ${frame}`, count = pagesOf(r.size);
  const last = !made ? `${gets}, its place in the reservation that has the page.` : count === 1 ? `${gets} alone.`
    : `${gets}: ${runOf("frame", r.frame, count)} are reserved for ${runOf("page", r.first, count)}.`;
  if (!broken) return [last];
  return ["No free block is large enough, so the oldest reservation that gives as much back is broken: "
    + `${runOf("frame", broken.frame, pagesOf(broken.size))}.`, last];
}
function oldestSaid({ gives, stamp, others }) {
  const few = ["it is alone there", "the other one got its last page no earlier"][others];
  const of = few || `none of the ${others} others got its last page earlier`;
  const list = `What was broken was the first in the list of those that can give ${pagesSaid(pagesOf(gives))}`;
  return `${list}: its last page came at entry ${stamp}, and ${of}.`;
}
function movedSaid(space, promoted, demoted) {
  const of = ([first, size]) => `${runOf("page", first, pagesOf(size))} of space ${space}`;
  return [...promoted.map((one) => `Promotion: ${of(one)} are one translation of ${WORDS.sizes[one[1]]} now.`),
    ...demoted.map((one) => `Demotion: ${of(one)} have no common translation any more.`)];
}

// What a call that was done changes in its space.
const DOES = {
  map: (one, page, more) => one.map([page, Number(more[0]), more[1], more[2], false]),
  grow: (one, page, more) => one.grow(page, Number(more[0])),
  unmap: (one, page) => one.unmap(page),
  protect: (one, page, more) => one.protect(page, Number(more[0]), more[1]),
  store: (one, page) => one.setDirty(page, true),
  sync: (one, page) => { if (one.frames.has(page)) one.setDirty(page, false); },
  wire: (one, page) => one.pin(page, true),
  unwire: (one, page) => one.pin(page, false),
};
// What follows an entry of each kind: of the follower, the entry's processor and space, and its other words, which are numbers but for some.
const MADE = {
  answer: (f, c, space, [, ...reply]) => f.answer(c, space, reply),
  take: (f, c, space, rest) => f.take(space, ...rest.map(Number)),
  use(f, c, space, rest) {
    f.say(`The frame that processor ${c} held goes free, and a page takes one by the rules.`);
    f.frames.drop(c);
    f.take(space, ...rest.map(Number));
  },
  give: (f, c, space, [page]) => f.lose(space, Number(page)),
  clear(f, c, space, rest) {
    const [first, length] = rest.map(Number), pages = f.spaces[space].resident(first, length);
    for (const page of pages) {
      f.spaces[space].remove(page);
      f.frames.give(space, page);
    }
    f.say(filled(WORDS.cleared[f.callOf(c).split(" ")[0]], runOf("page", first, length), space, givenUp(pages.length)));
  },
  pin(f, c, space, rest) {
    const [first, length, wired] = rest.map(Number), pages = f.spaces[space].resident(first, length);
    for (const page of pages) f.frames.pin(space, page, wired === 1);
    const withIt = pages.length ? filled(WORDS.pinned[wired], pagesSaid(pages.length)) : ", and no page of it has a frame";
    f.say(`The region of ${runOf("page", first, length)} of space ${space} is ${wired ? "wired" : "wired no longer"}${withIt}.`);
  },
  kept(f, c, space, rest) {
    const [first, length, page, frame] = rest.map(Number);
    f.change.page = [space, page];
    f.say(`The region of ${runOf("page", first, length)} of space ${space} is not wired: frame ${frame}, of page ${page}, is claimed.`);
  },
  out(f, c, space, [page, how]) {
    f.change.page = [space, Number(page)];
    f.spaces[space].setDirty(Number(page), false);
    const told = { written: "is written to its copy", clean: "is equal to its copy" }[how];
    f.say(`Page ${page} of space ${space} is about to be paged out: it ${told}.`);
  },
  failed: (f, c, space, [page, how]) => f.say(`The store of space ${space} failed at a ${how} of page ${page}.`),
  claim(f, c, space, rest) {
    const [other, page, frame] = rest.slice(0, 3).map(Number);
    f.frames.claim(c, other, page, frame);
    f.change.page = [other, page];
    f.change.counts.push(CLAIMS);
    const why = space === null ? "Frames are short" : "No frame is free, nor reserved and unpopulated";
    const whatFor = space === null ? "" : `, for page ${rest[4]} of space ${space}`;
    f.say(`${why}. Processor ${c} claims frame ${frame}, of page ${page} of space ${other}, which was filled first${whatFor}.`);
  },
  rest(f, c, space, [how]) {
    const why = ["frames are not short, or no page can give one up", "it has evicted as many pages as its mark says"][how];
    f.say(`Processor ${c}, the daemon, rests: ${why}.`);
  },
  got: (f, c, space, [frame]) => f.say(`Processor ${c} finds frame ${frame}, which it claimed, in its hand.`),
  drop(f, c, space, [frame]) {
    f.frames.drop(c);
    f.say(`Processor ${c} needs frame ${frame} no longer, which is free now.`);
  },
  unclaim(f, c, space, [frame]) {
    f.frames.unclaim(c, space);
    f.say(`Processor ${c} claims frame ${frame} no longer.`);
  },
  refused(f, c, space, [wired, claimed, held]) {
    f.say(`No frame can be had, nor claimed: ${wired} are wired, ${claimed} claimed, and ${held} held.`);
  },
};

// The frames and spaces of a run, after the entries so far.
class Follower {
  constructor(run) {
    this.calls = run.calls;
    const outlined = (frame, r) => this.change.outlines.set(frame, r && [r.size, r.space, r.first, r.stamp, r.giveBack()]);
    this.frames = new Frames(run.frames, run.sizes, (...painted) => this.change.paints.push(painted), outlined);
    this.spaces = upTo(run.spaces).map(() => new Space(run.sizes));
    this.images = new Images(this.spaces);
    this.answered = run.calls.map(() => 0);
  }
  say(sentence) { this.change.meaning.push(sentence); }
  callOf(c) { return this.calls[c][this.answered[c]] || ""; }
  // What an entry changes.
  entry(line) {
    const [number, processor, part, kind, ...rest] = line.split(" "), c = Number(processor), call = this.callOf(c);
    const space = part[0] === "s" ? Number(part.slice(1).split("+")[0]) : null;
    this.change = { meaning: [], why: [], page: null, paints: [], outlines: new Map(), regions: new Map(), counts: [], size: null, broken: null };
    this.number = Number(number);
    try {
      MADE[kind](this, c, space, rest);
      const tiles = this.moved();
      return { ...this.change, line, call: call ? `${c} ${call}` : "", tiles, left: this.imaged(c, tiles) };
    } catch (fault) {
      throw new Astray(`entry ${line} of the history doesn't follow from those before it: ${fault.message}`);
    }
  }
  // The tiles that changed, by space.
  moved() {
    const tiles = new Map();
    this.spaces.forEach((one, space) => {
      if (!one.touched.size) return;
      const { tiles: some, promoted, demoted } = one.moves();
      if (some.size) tiles.set(space, some);
      this.change.counts.push(...promoted.map(() => PROMOTIONS), ...demoted.map(() => DEMOTIONS));
      this.change.meaning.push(...movedSaid(space, promoted, demoted));
    });
    return tiles;
  }
  // What left the images, by the tiles that changed and by the access that is answered.
  imaged(c, tiles) {
    const left = [...tiles].flatMap(([space, some]) => this.images.forget(this.number, space, some));
    if (this.change.size === null) return left;
    const [space, page] = this.change.page, found = this.spaces[space].tileOf(page);
    if (!found || found[1][0] !== this.change.size) throw new Astray(`by the tiles the size is ${found ? found[1][0] : "none"}`);
    return [...left, ...this.images.use(this.number, [c, space], page)];
  }
  answer(c, space, told) {
    const call = this.callOf(c).split(" "), reply = [...told], [name] = call, page = pageOf(call);
    this.answered[c]++;
    if (["hit", "miss"].includes(reply[reply.length - 2])) {
      const [kind, size] = reply.splice(-2);
      this.access([c, space], page, kind === "hit", Number(size));
    }
    if (["load", "store", "sync", "evict"].includes(name)) this.change.page = [space, page];
    if (["done", "written", "clean"].includes(reply[0])) this.does(space, name, page, call.slice(3));
    this.say(answeredSaid(c, call, reply));
  }
  // An access that was done told a hit, which has to be one by the images, and a size.
  access(owner, page, hit, size) {
    if (this.images.has(owner, page) !== hit) throw new Astray(`by the images it is ${hit ? "a miss" : "a hit"}`);
    this.change.size = size;
    this.change.counts.push(hit ? HITS : MISSES);
    if (!hit) this.change.why.push(this.images.whyMissed(owner, page));
  }
  does(space, name, page, more) {
    const one = this.spaces[space];
    if (DOES[name]) DOES[name](one, page, more);
    if (name === "evict" && one.frames.has(page)) this.lose(space, page);
    if (["map", "grow", "unmap", "wire", "unwire"].includes(name)) this.change.regions.set(space, one.regions);
  }
  // The page gives its frame up.
  lose(space, page) {
    this.change.page = [space, page];
    const frame = this.spaces[space].frames.get(page);
    this.spaces[space].remove(page);
    const holder = this.frames.give(space, page);
    const went = holder === undefined ? "becomes free, or stays reserved and unpopulated" : `goes to processor ${holder}, which had claimed it`;
    this.say(`Page ${page} of space ${space} gives frame ${frame} up, which ${went}.`);
  }
  take(space, page, frame, low, high, cap, wired) {
    const how = this.frames.take(this.number, space, page, frame, { low, high, cap, wired: wired === 1 });
    this.change.broken = how.broken;
    if (how.broken) {
      this.change.counts.push(PREEMPTIONS);
      this.change.why.push(oldestSaid(how.broken));
    }
    this.spaces[space].fill(page, frame);
    this.change.page = [space, page];
    this.change.meaning.push(...takenSaid(space, page, frame, how));
  }
}

// Compares what the history led to with the counts that the program printed.
function compareCounts(run, follower, codes, counts) {
  const roles = codes.map((code) => code % 16), many = (...some) => roles.filter((role) => some.includes(role)).length;
  const sizes = follower.spaces.flatMap((one) => [...one.tiles.values()].map(([size]) => size));
  const found = {
    tiles: upTo(LARGEST + 1).map((size) => sizes.filter((one) => one === size).length), images: [counts[HITS], counts[MISSES]],
    promotions: [counts[PROMOTIONS]], demotions: [counts[DEMOTIONS]], preemptions: [counts[PREEMPTIONS]],
    frames: [many(FREE), many(UNUSED), many(USED, WIRED, CLAIMED)], end: [],
  };
  for (const [name, numbers] of run.counts) {
    const by = (found[name] || []).join(" ");
    if (by !== numbers.join(" ")) throw new Astray(`the history leads to "${name} ${by}", and the program printed "${name} ${numbers.join(" ")}"`);
  }
}
