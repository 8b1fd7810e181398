// What tools/try-picture asks of a page that it opened. None of it is in the page.

// When the page is where it should be, and drawn.
const drawn = () => new Promise((done) => requestAnimationFrame(() => requestAnimationFrame(done)));
async function settled() {
  while (walking || entries !== wanted) await drawn();
  await drawn();
}
async function at(many) {
  goTo(many);
  await settled();
}

// How many frames have the colour of a free one, of an unused place, and another colour, at the middles of their cells.
function colouredIn(box, image, roles, sums) {
  const grid = data.frames, wide = box[3] * grid.cell, half = Math.floor(grid.cell / 2), hex = (part) => part.toString(16).padStart(2, "0");
  const bytes = image.getImageData(box[4] + 2, box[5] + 2, wide, Math.ceil(box[2] / box[3]) * grid.cell).data;
  for (let at = 0; at < box[2]; at++) {
    const place = 4 * ((Math.floor(at / box[3]) * grid.cell + half) * wide + at % box[3] * grid.cell + half);
    sums[roles["#" + hex(bytes[place]) + hex(bytes[place + 1]) + hex(bytes[place + 2])]]++;
  }
}
function coloured() {
  const image = byId("frames").getContext("2d"), roles = {}, sums = [0, 0, 0];
  for (const [code, [colour]] of Object.entries(data.codes)) roles[colour] = Math.min(2, code % 16);
  for (const box of data.frames.boxes) colouredIn(box, image, roles, sums);
  return sums;
}
// The translations that are drawn of each processor and space, and the reservations of each list, by first frame.
function imagesDrawn() {
  return Object.fromEntries([...images].filter(([, image]) => image.length).sort().map(([key, image]) => [key, [...image]]));
}
const listsDrawn = () => lists().map(([size, list]) => [size, list.map(([frame]) => frame)]);
// What a page shows: its counts, the number of entries so far, what is behind its name, and what is drawn.
async function seen() {
  await settled();
  const number = (id) => Number(byId(id).textContent), [hits, misses, promotions, demotions, preemptions] = [0, 1, 2, 3, 4].map((at) => number("count" + at));
  return {
    entries, hash: location.hash, drawn: coloured(), frames: ["free", "reserved", "used"].map(number),
    tiles: data.tiles.map((_, size) => number("tiles" + size)), images: [hits, misses], promotions: [promotions], demotions: [demotions], preemptions: [preemptions], held: imagesDrawn(), lists: listsDrawn(),
  };
}

// All that is drawn, as one text.
function whole() {
  const ordered = (table) => [...table].sort(([one], [other]) => one - other);
  return JSON.stringify([entries, [...codes], ordered(outlines), tiles.map(ordered), regions, counts, imagesDrawn()]);
}
// The chunks whose first state isn't the one that the entries before it lead to.
async function unlike() {
  const wrong = [];
  for (let number = 1; number < data.chunks.length; number++) {
    await at(data.chunks[number][0]);
    const walked = whole();
    restore(await chunk(number));
    if (whole() !== walked) wrong.push(number);
  }
  await at(0);
  return wrong;
}

// Of the entries by which something left an image or a reservation was broken some, at most so many, as far apart as may be: the numbers of those after
// which a text on the page has a hole.
async function holes(most) {
  const some = [], wrong = [];
  for (let number = 0; number < data.chunks.length; number++) some.push(...(await chunk(number)).entries.filter((entry) => entry.left || entry.broken));
  const step = Math.max(1, Math.floor(some.length / most));
  for (let place = 0; place < some.length; place += step) {
    await at(some[place].number + 1);
    if (/null|undefined|NaN|#/.test(document.querySelector("main").textContent)) wrong.push(some[place].number);
  }
  await at(0);
  return wrong;
}

// Answers what is asked now, rightly or not.
function answerAll(rightly) {
  const part = byId("asked").querySelector("form");
  question.all.forEach(([, , is], at) => { part.elements["asked" + at].value = rightly ? is : ""; });
  part.requestSubmit();
}
// Goes from the beginning over so many entries and is asked: rightly answered but for the last question. What is seen is how many answers were right, of
// how many, how many were wrong, and whether what comes was hidden.
async function askedThrough(most) {
  await at(0);
  keys.a();
  const end = Math.min(most, data.entries), seen = { asked: 0, wrong: 0, hidden: true };
  while (entries < end) {
    keys.ArrowRight();
    await settled();
    if (question) await answered(seen);
  }
  const told = { right, answers, ...seen };
  keys.a();
  await at(0);
  return told;
}
async function answered(seen) {
  const many = question.all.length, rightly = seen.asked === 0 || seen.asked % 5 !== 0;
  seen.hidden = seen.hidden && byId("list").querySelectorAll("div").length <= entries + 1 && question.at === entries;
  seen.asked += many;
  if (!rightly) seen.wrong += many;
  answerAll(rightly);
  await settled();
}
