// The page: a trace to edit, the words, what the program prints, and its picture.
const byId = (id) => document.getElementById(id);
const data = JSON.parse(byId("data").textContent);
const module = WebAssembly.compile(Uint8Array.from(atob(byId("module").textContent.trim()), (letter) => letter.charCodeAt(0)));
// Of each form the number that it takes, whether it prints a history where that is asked for, and what it does.
const FORMS = {
  order: [null, true, "Makes the calls in the order of their lines, and prints each answer and the counts."],
  turns: ["SEED", true, "The same, in turns of the processors that are drawn from a number of at most 64 bits."],
  curve: [null, false, "Prints the misses of TLBs of 1 to 1,024 translations, with those of the run and with base pages alone, of one processor."],
  plan: ["K", false, "Makes the calls, and prints which extent of 8, 64 or 512 frames (K is 1, 2 or 3) the fewest evictions empty."],
  stream: [null, false, "Makes the calls as they are read, keeps no history, and prints the counts alone."],
  "stream every": ["EVERY", false, "The same, with the counts so far after each so many calls."],
};
const USUAL = { SEED: "1", K: "2", EVERY: "8" };
// More entries are left to tools/picture.
const MOST_DRAWN = 50000;

function wordsNow() {
  const form = byId("order").value, [number, hasHistory] = FORMS[form], words = [form.split(" ")[0]];
  if (number) words.push(byId("number").value.trim());
  if (hasHistory && byId("history").checked) words.push("--history");
  return words;
}
function showForm() {
  const [number, hasHistory, meaning] = FORMS[byId("order").value];
  byId("numbered").hidden = !number;
  byId("asked").textContent = number || "";
  if (number) byId("number").value = USUAL[number];
  byId("histories").hidden = !hasHistory;
  byId("draw").hidden = !hasHistory && byId("order").value !== "curve";
  byId("meaning").textContent = meaning;
}
async function runBy(words) {
  return ran(await WebAssembly.instantiate(await module, HOST), words, new TextEncoder().encode(byId("trace").value));
}
function show(words, { status, printed, said, took, memory }) {
  byId("command").textContent = `superpager ${words.join(" ")}`;
  byId("ended").textContent = `status ${status}, ${took.toFixed(1)} ms, ${Math.round(memory / 2 ** 20)} MiB`;
  byId("printed").textContent = new TextDecoder().decode(printed);
  byId("said").textContent = new TextDecoder().decode(said);
  byId("said").hidden = !said.length;
}
// The page of a picture stands in a frame of its own, under a name that goes with the next one.
let shown = "";
function showPicture(text) {
  URL.revokeObjectURL(shown);
  shown = URL.createObjectURL(new Blob([text], { type: "text/html" }));
  byId("picture").src = shown;
  byId("drawn").hidden = false;
  byId("drawn").scrollIntoView({ behavior: "smooth" });
}
function pictureOf(words, printed, name) {
  if (words[0] === "curve") return curvesPage(data.curves, curvesFrom(printed), name);
  const run = runFrom(byId("trace").value, printed);
  const many = run.history.length;
  if (many > MOST_DRAWN) throw new RangeError(`the history has ${many} entries, and more than ${MOST_DRAWN} are left to tools/picture`);
  const order = words[0] === "turns" ? `turns drawn from ${words[1]}` : "the order of the lines";
  const parts = { TITLE: escaped(name), DATA: JSON.stringify(dataOf(run, name, aboutOf(run, order))).replace(/</g, "\\u003c") };
  return data.picture.replace(/TITLE|DATA/g, (part) => parts[part]);
}
async function go(drawn) {
  byId("drawn").hidden = true;
  byId("ended").textContent = "running";
  try {
    if (drawn && FORMS[byId("order").value][1]) byId("history").checked = true;
    const words = wordsNow(), result = await runBy(words);
    show(words, result);
    if (drawn && result.status === 0) showPicture(pictureOf(words, byId("printed").textContent, byId("traces").value));
  } catch (fault) {
    byId("ended").textContent = String(fault);
  }
}
for (const [name] of data.traces) byId("traces").append(new Option(name));
byId("traces").onchange = () => { byId("trace").value = data.traces.find(([name]) => name === byId("traces").value)[1]; };
byId("file").onchange = async (event) => { if (event.target.files.length) byId("trace").value = await event.target.files[0].text(); };
byId("order").onchange = showForm;
byId("form").onsubmit = (event) => { event.preventDefault(); go(false); };
byId("draw").onclick = () => go(true);
byId("traces").onchange();
showForm();
go(false);
