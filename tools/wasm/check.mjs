// Runs the program's module in node, as the page does. Each line of the input is a task: [words, file]; or [name, trace, text, data] of a picture, or
// [name, text, template] of curves. A line is printed for each: [status, what it printed, what it said]; or what differs of the data that drawn.js
// makes and of that of tools/picture, or null; or the curves' page.
//
//     node check.mjs SCRIPT STATE [MODULE]
//
// SCRIPT has the page's scripts, and STATE is the first script of tools/picture's pages, which unpacks their entries.
import { readFileSync } from "node:fs";
import { createInterface } from "node:readline";
import { inflateSync } from "node:zlib";

const [script, state, path] = process.argv.slice(2);
const names = "HOST, ran, runFrom, dataOf, curvesFrom, curvesPage";
const { HOST, ran, runFrom, dataOf, curvesFrom, curvesPage } = new Function(`${readFileSync(script, "utf8")}\nreturn { ${names} };`)();
const compiled = path && new WebAssembly.Module(readFileSync(path));

function runOf(words, file) {
  const { status, printed, said } = ran(new WebAssembly.Instance(compiled, HOST), words, readFileSync(file));
  return [status, Buffer.from(printed).toString("base64"), Buffer.from(said).toString("base64")];
}

// What state.js makes of the data, without a page round it.
function unpackerOf(data) {
  const text = readFileSync(state, "utf8").replace(/^const data = .*$/m, "").replace(/^const byId = .*$/m, "");
  return new Function("data", `${text}\nreturn { entriesOf, bytesOf };`)(data);
}
const ordered = (rows) => rows && rows.map((row) => JSON.stringify(row)).sort();
// Each entry as one text. What is told of several pages or frames comes in any order.
function entriesFrom(data) {
  const { entriesOf, bytesOf } = unpackerOf(data), parts = data.chunks.map(([first, part]) => [first, typeof part === "string"
    ? JSON.parse(inflateSync(Buffer.from(bytesOf(part)))) : part]);
  const said = ([kind, ...numbers]) => numbers.reduce((text, number) => text.replace("#", () => number), data.sentences[kind]);
  const leftSaid = (row) => [...row.slice(0, 4), said(row[4])];
  return parts.flatMap(([first, part]) => entriesOf(first, part)).map((entry) => JSON.stringify({
    ...entry, meaning: entry.meaning.map(said), why: (entry.why || []).map(said), outlines: ordered(entry.outlines),
    tiles: (entry.tiles || []).map(([space, rows]) => [space, ordered(rows)]), left: ordered((entry.left || []).map(leftSaid)),
  }));
}
// What differs of two pages' data, or null.
function differs(one, other) {
  const entries = entriesFrom(one), others = entriesFrom(other), at = entries.findIndex((entry, place) => entry !== others[place]);
  if (entries.length !== others.length) return `${entries.length} entries, and not ${others.length}`;
  if (at >= 0) return `entry ${at}: ${entries[at]}, and not ${others[at]}`;
  const name = Object.keys(other).find((key) => !["chunks", "sentences"].includes(key) && JSON.stringify(one[key]) !== JSON.stringify(other[key]));
  return name ? `${name}: ${JSON.stringify(one[name])}, and not ${JSON.stringify(other[name])}` : null;
}
const pictured = (name, trace, text, data) => differs(JSON.parse(JSON.stringify(dataOf(runFrom(trace, text), name, data.about))), data);
const drawn = (name, text, template) => curvesPage(template, curvesFrom(text), name);

for await (const line of createInterface({ input: process.stdin })) {
  const task = JSON.parse(line), does = { 2: runOf, 3: drawn, 4: pictured }[task.length];
  console.log(JSON.stringify(does(...task)));
}
