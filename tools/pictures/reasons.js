// What a sentence says: the words of its kind, with its numbers.
function said([kind, ...numbers]) {
  const parts = data.sentences[kind].split("#");
  return parts.map((part, at) => part + (at < numbers.length ? numbers[at] : "")).join("");
}
function element(kind, text, style) {
  const part = document.createElement(kind);
  part.textContent = text;
  part.className = style || "";
  return part;
}

// The images. More than these are shown only where the last entry used them or something left them, or where they were clicked.
const MOST_IMAGES = 2;
const opened = new Set();
const leftOf = (processor, space) => ((now && now.left) || []).filter(([c, s]) => c === processor && s === space);
const usedNow = (processor, space) => Boolean(now && now.used && now.processor === processor && now.page[0] === space);
const short = (first, count) => count === 1 ? String(first) : `${first}–${first + count - 1}`;
function tileChip(first, size, style, title) {
  const chip = element("span", short(first, pagesOf(size)), style);
  chip.style.background = data.tiles[size][0];
  chip.classList.toggle("light", size === data.tiles.length - 1);
  chip.title = title;
  return chip;
}
function imageChips(processor, space, image) {
  const row = element("div", "", "chips"), used = usedNow(processor, space), full = image.length === data.room;
  image.forEach((first, at) => {
    const size = tiles[space].get(first)[0], here = used && at === 0;
    const style = here ? (isHit(now) ? "hit" : "came") : full && at === image.length - 1 ? "last" : "";
    const told = here ? (isHit(now) ? `hit at place ${place + 1}` : "a miss: it comes in") : `place ${at + 1}`;
    row.append(tileChip(first, size, style, `${runOf("page", first, pagesOf(size))}: ${told}`));
  });
  return row;
}
// What the last entry did to an image.
function imageSaid(processor, space) {
  const lines = leftOf(processor, space).map(([, , first, size, why]) => {
    const line = element("div", "", "gone");
    line.append(tileChip(first, size, "out", "it left"), ` left: ${said(why)}`);
    return line;
  });
  if (!usedNow(processor, space)) return lines;
  const text = isHit(now) ? `A hit, at place ${place + 1}: what was used comes to the front.` : "A miss: the page's translation comes in, to the front.";
  return [element("div", text, isHit(now) ? "is-hit" : "is-miss"), ...lines];
}
function imageShown(key, image) {
  const [processor, space] = key.split(" ").map(Number), part = element("div", "", "image");
  const open = images.size <= MOST_IMAGES || opened.has(key) || usedNow(processor, space) || leftOf(processor, space).length > 0;
  const title = element("div", `processor ${processor}, space ${space}: ${image.length} of ${data.room}`, open ? "title" : "title shut");
  title.onclick = () => { opened[opened.has(key) ? "delete" : "add"](key); showImages(); };
  part.append(title);
  part.classList.toggle("shut", !open);
  if (open) part.append(...imageSaid(processor, space), imageChips(processor, space, image));
  return part;
}
function showImages() {
  const all = [...images].sort(([one], [other]) => one.localeCompare(other, "en", { numeric: true }));
  byId("images").replaceChildren(...all.map(([key, image]) => imageShown(key, image)));
  if (!all.length) byId("images").append(element("div", "No processor has a translation yet.", "none"));
}

// The lists of reservations by age. So many of each are shown.
const MOST_LISTED = 8;
// Whether a reservation is what is left of the one that the last entry broke.
function isPart([frame, , , , stamp]) {
  return Boolean(now && now.broken && frame >= now.broken[0] && frame < now.broken[0] + pagesOf(now.broken[1]) && stamp < now.number);
}
// By yield the reservations as [first frame, size, space, first page, entry, yield], the oldest first; the full ones have none.
function lists() {
  const all = [...outlines].map(([frame, r]) => [frame, ...r]).sort((one, other) => one[4] - other[4] || one[0] - other[0]);
  return data.sizes.filter((size) => size < data.tiles.length - 1).map((size) => [size, all.filter((r) => r[5] === size)]);
}
function listRow(table, [frame, size, space, page, stamp], style) {
  const row = table.insertRow(), count = pagesOf(size), places = codes.subarray(frame, frame + count);
  row.className = style;
  const used = places.reduce((sum, code) => sum + (code % 16 === UNUSED ? 0 : 1), 0);
  const owner = data.spaces > 1 ? ` of ${space}` : "";
  for (const text of [short(frame, count), short(page, count) + owner, `${used} of ${count}`, stamp]) row.insertCell().textContent = text;
}
function listShown(size, list, next) {
  const part = element("div", "", "list"), table = document.createElement("table");
  part.append(element("div", `can give ${pagesOf(size)} page${size ? "s" : ""}: ${list.length}`, "title"));
  if (!list.length) return part;
  table.insertRow().append(...["frames", "for pages", "populated", "last at entry"].map((name) => element("th", name)));
  list.slice(0, MOST_LISTED).forEach((r, at) => listRow(table, r, (at === 0 && next ? "next " : "") + (isPart(r) ? "part" : "")));
  part.append(table);
  if (list.length > MOST_LISTED) part.append(element("div", `and ${list.length - MOST_LISTED} younger`, "none"));
  return part;
}
function showLists() {
  const all = lists(), broken = now && now.broken, part = byId("lists");
  part.replaceChildren(...all.map(([size, list]) => listShown(size, list, !asks())));
  const full = [...outlines.values()].filter((r) => r[4] === null).length;
  const text = broken ? `Entry ${now.number} broke the reservation of ${runOf("frame", broken[0], pagesOf(broken[1]))}, the first of those that could give `
    + `${pagesOf(broken[3])} page${broken[3] ? "s" : ""}. What is left of it in a list is marked.` : "";
  byId("broken").textContent = text;
  byId("full").textContent = full ? `Full reservations, which give nothing: ${full}` : "";
}
