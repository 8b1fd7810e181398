let timer = null, pause = 400;
function stop() { clearInterval(timer); timer = null; byId("play").textContent = "play"; }
function play() {
  if (timer !== null) { stop(); return; }
  if (wanted === data.entries) goTo(0);
  byId("play").textContent = "stop";
  timer = setInterval(() => { if (wanted === data.entries) stop(); else goTo(wanted + 1); }, pause);
}
// Whoever goes to a place stays there.
function visit(many) { stop(); goTo(many); }
function pace(by) { pause = Math.max(25, Math.min(3200, pause * by)); if (timer !== null) { stop(); play(); } }
// How many entries there are up to the next one of those from here on, or before here (-1), that is so; or null.
async function found(step, isSo) {
  let at = wanted - 1 + step;
  while (at >= 0 && at < data.entries) {
    const { first, entries: some } = await chunk(chunkAt(at));
    while (some[at - first] && !isSo(some[at - first])) at += step;
    if (some[at - first]) return at + 1;
  }
  return null;
}
async function answer(step) {
  const many = await found(step, isAnswer);
  visit(many === null ? (step > 0 ? data.entries : 0) : many);
}
// To the next entry that raises this count.
async function goToNext(count) {
  const many = await found(1, (entry) => Boolean(entry.counts && entry.counts.includes(count)));
  if (many !== null) visit(many);
}
const keys = {
  ArrowRight: () => { if (!asked()) visit(wanted + 1); }, ArrowLeft: () => visit(wanted - 1), Home: () => visit(0), End: () => visit(data.entries),
  PageDown: () => answer(1), PageUp: () => answer(-1), " ": play, "+": () => pace(0.5), "-": () => pace(2), a: switchAsking,
};
document.addEventListener("keydown", (event) => {
  if (event.ctrlKey || event.altKey || event.metaKey || !keys[event.key] || event.target.form) return;
  event.preventDefault();
  keys[event.key]();
});
for (const [id, key] of [["home", "Home"], ["left", "ArrowLeft"], ["play", " "], ["right", "ArrowRight"], ["end", "End"], ["ask", "a"]]) {
  byId(id).onclick = (event) => { event.target.blur(); keys[key](); };
}
byId("slider").max = data.entries;
byId("slider").oninput = (event) => visit(Number(event.target.value));
byId("list").onscroll = showList;
window.onresize = show;

// What a frame or a page is that is pointed at.
function numberAt(grid, event) {
  const x = event.offsetX - 2, y = event.offsetY - 2;
  for (const box of grid.boxes) {
    const column = Math.floor((x - box[4]) / grid.cell), line = Math.floor((y - box[5]) / grid.cell), at = line * box[3] + column;
    if (column >= 0 && column < box[3] && line >= 0 && at < box[2]) return [box[0], box[1] + at];
  }
  return null;
}
function saidOfFrame(_, frame) {
  const text = `frame ${frame}: ${data.codes[codes[frame]][1]}`, reservation = reservationOf(frame);
  if (!reservation) return text;
  const [first, size, space, page] = reservation;
  return `${text}; place of page ${page + frame - first} of space ${space} in the reservation of ${runOf("frame", first, pagesOf(size))}`;
}
function saidOfPage(space, page) {
  const text = `page ${page} of space ${space}: `, tile = tileOf(space, page);
  const region = regions[space].find(([first, length]) => page >= first && page < first + length);
  if (!tile) return text + (region ? `no frame; in the ${region[4] ? "pinned " : ""}${region[2]} region of ${runOf("page", region[0], region[1])}` : "unmapped");
  const [, size, , dirty, rights] = tile;
  return `${text}frame ${frameOf(space, page)}; its translation has ${data.tiles[size][1]}; ${dirty ? "dirty" : "equal to its copy"}; rights: ${rights}`;
}
for (const [id, grid, say] of [["frames", data.frames, saidOfFrame], ["pages", data.pages, saidOfPage]]) {
  byId(id).onmouseleave = () => { byId("tip").style.display = "none"; };
  byId(id).onclick = (event) => { const at = numberAt(grid, event); if (at && id === "frames") fillAsked(at[1]); };
  byId(id).onmousemove = (event) => {
    const at = numberAt(grid, event), tip = byId("tip");
    tip.style.display = at ? "block" : "none";
    if (at) tip.textContent = say(...at);
    tip.style.left = Math.min(event.clientX + 14, window.innerWidth - tip.offsetWidth - 8) + "px";
    tip.style.top = event.clientY + 16 + "px";
  };
}

// The legends, and the marks below the slider.
function legend(id, colours) {
  for (const [colour, name, style] of colours) {
    const part = document.createElement("span"), box = document.createElement("i");
    if (colour) box.style.background = colour;
    box.className = style || "";
    part.append(box, name);
    byId(id).append(part);
  }
}
function mark(context, wide, places, colour) {
  context.fillStyle = colour;
  // The slider's handle is 16 wide, and its middle is what points. Who is asked doesn't see what comes.
  for (const at of places) if (!asks() || at < entries) context.fillRect(8 + (at + 1) / data.entries * (wide - 16) - 1, 0, 2, 8);
}
function strip() {
  const canvas = byId("marks"), context = canvas.getContext("2d");
  canvas.width = canvas.clientWidth;
  canvas.height = 8;
  for (const [colour, places] of data.marks) mark(context, canvas.width, places, colour);
}
byId("name").textContent = data.name;
byId("name").append(element("small", data.about));
byId("omitted").textContent = data.omitted;
const outlined = (name) => ["", name, "outline"], focused = ["", "what this entry is about", "focus"];
legend("roles", [...data.legend, outlined("outline of a reservation"), focused]);
const ofSize = (size) => [data.tiles[size][0], "translation of " + data.tiles[size][1]];
legend("sizes", [
  [data.mapped, "mapped, without a frame"], [data.unmapped, "unmapped"], ...data.sizes.map(ofSize),
  [data.dirty, "dirty: stored to since it was equal to its copy"], outlined("extent of one translation"), focused,
]);
// The page that is named by `#N` shows what is there after entry N.
if (typeof DecompressionStream === "undefined") byId("now").textContent = "This page needs a browser that can unpack data: one of 2023 or later.";
else goTo(/^#[0-9]+$/.test(location.hash) ? Number(location.hash.slice(1)) + 1 : 0);
