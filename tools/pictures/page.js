// The words of the page: the entry, the history, and the counts so far.
const kindOf = (entry) => entry.line.split(" ")[2];
const isAnswer = (entry) => kindOf(entry) === "answer";
const isHit = (entry) => / hit [0-3]$/.test(entry.line);
const last = data.entries - 1;
function textOf(at) {
  const entry = entryAt(at), number = String(at).padStart(String(data.entries).length);
  if (!entry) return `${number} …`;
  return isAnswer(entry) ? `${number} ${entry.call} → ${entry.line.split(" ").slice(4).join(" ")}` : `${number}   ${entry.line}`;
}
// What translation served the access of an answer.
function served(entry) {
  const count = pagesOf(Number(entry.line.slice(-1)));
  const found = isHit(entry) ? "A hit: its TLB had the translation" : "A miss: its TLB had no translation of the page";
  return `${found}. Its translation is of ${count} page${count === 1 ? "" : "s"} now.`;
}
function showNow() {
  const part = byId("now");
  part.replaceChildren();
  const add = (kind, text, style) => part.append(element(kind, text, style));
  if (!now) { add("code", "before entry 0"); add("div", "All frames are free, and no page is mapped."); return; }
  const words = now.line.split(" ").slice(1).join(" ");
  add("code", `entry ${now.number}, processor ${now.processor}: ${words}` + (isAnswer(now) || !now.call ? "" : ` (for ${now.call})`));
  const [first, ...others] = now.meaning.map(said);
  for (const text of [first, ...(now.used ? [served(now)] : []), ...others]) add("div", text, /^(Promotion|Demotion)|broken/.test(text) ? "change" : "");
  for (const text of (now.why || []).map(said)) add("div", text, "why");
}
function shares() {
  const role = [0, 0, 0, 0, 0, 0];
  for (const code of codes) role[code % 16]++;
  return { free: role[FREE], reserved: role[UNUSED], used: data.count - role[FREE] - role[UNUSED] - role[HELD], held: role[HELD] };
}
function sizes() {
  const sum = data.tiles.map(() => 0);
  tiles.forEach((some) => some.forEach(([size]) => { sum[size]++; }));
  return sum;
}
function row(table, name, value, id, jump) {
  const line = table.insertRow();
  line.insertCell().textContent = name;
  const number = line.insertCell();
  number.textContent = value;
  number.className = "number";
  number.id = id;
  const cell = line.insertCell();
  if (jump === undefined) return;
  const button = element("button", "next");
  button.onclick = () => goToNext(jump);
  cell.append(button);
}
function showCounts() {
  const [table, events] = [0, 1].map(() => document.createElement("table")), share = shares(), size = sizes();
  byId("counts").replaceChildren(table, events);
  row(table, "frames free", share.free, "free");
  row(table, "reserved and unpopulated", share.reserved, "reserved");
  row(table, "frames under a page", share.used, "used");
  row(table, "held by a processor", share.held, "held");
  size.forEach((count, at) => row(table, `translations of ${pagesOf(at)}`, count, "tiles" + at));
  data.names.forEach((name, at) => row(events, name, counts[at], "count" + at, at));
  byId("printed").textContent = entries === data.entries ? "The program printed these at the end." : "";
}
const LINE = 22;
function listed(at, text, style) {
  const part = element("div", text, style);
  part.style.top = at * LINE + "px";
  part.onclick = () => visit(at + 1);
  return part;
}
// Of the list only what is in sight is there; an empty line at the place of the last gives it its height. Who is asked doesn't see what comes.
function showList() {
  const list = byId("list"), end = asks() ? entries - 1 : last, top = Math.max(0, Math.floor(list.scrollTop / LINE) - 5);
  const empty = listed(Math.max(0, last), "", "");
  empty.style.pointerEvents = "none";
  list.replaceChildren(empty);
  const bottom = Math.min(end, top + 40);
  for (let at = top; at <= bottom; at++) {
    const entry = entryAt(at);
    list.append(listed(at, textOf(at), (entry && isAnswer(entry) ? "answer" : "") + (at === entries - 1 ? " here" : "")));
  }
  const missing = [top, bottom].filter((at) => at <= bottom && at >= 0 && !entryAt(at));
  if (missing.length) Promise.all(missing.map((at) => chunk(chunkAt(at)))).then(showList);
}
function scrollToEntry() {
  const list = byId("list"), at = Math.max(0, entries - 1) * LINE;
  if (at < list.scrollTop || at > list.scrollTop + list.clientHeight - LINE) list.scrollTop = at - list.clientHeight / 2;
}
let waiting = false;
function show() {
  if (waiting) return;
  waiting = true;
  requestAnimationFrame(() => {
    waiting = false;
    for (const part of [drawFrames, drawPages, showNow, showAsked, showCounts, showImages, showLists, scrollToEntry, showList, strip]) part();
    byId("slider").value = entries;
    byId("where").textContent = now ? `after entry ${now.number}` + (asks() ? "" : ` (last: ${last})`) : "before entry 0";
    history.replaceState(null, "", now ? "#" + now.number : "#");
  });
}
