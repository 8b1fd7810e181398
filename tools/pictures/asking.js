// The page asks before it shows: of the next entry, what the reader can know from what is drawn. Right answers are counted.
let asking = false, question = null, told = null, right = 0, answers = 0;
const asks = () => asking;
const MOVES = ["neither", "a promotion", "a demotion"];
const MOVED = ["It neither promotes nor demotes pages", "It promotes pages", "It demotes pages"];
const sizesThere = () => data.sizes.map((size) => data.tiles[size][1]);

// What is asked of an entry, each as what is asked, what may be answered (or null, where it is a number), the right answer, and a sentence that has it.
function askedOfAccess(entry) {
  const hit = isHit(entry) ? "a hit" : "a miss", size = data.tiles[Number(entry.line.slice(-1))][1];
  return [
    ["Is it a hit or a miss?", ["a hit", "a miss"], hit, `It is ${hit}`],
    ["What size has the page's translation after it?", sizesThere(), size, `The page's translation is of ${size} after it`],
  ];
}
function askedOfTaking(entry) {
  const frame = Number(entry.line.split(" ")[4]), reservation = (entry.outlines || []).filter(([, size]) => size !== undefined).slice(-1)[0];
  const size = data.tiles[reservation[1]][1], broken = entry.broken ? String(entry.broken[0]) : "none";
  return [
    ["Which frame does it get?", null, String(frame), `It gets frame ${frame}`],
    ["What size has the reservation that it lies in?", sizesThere(), size, `The reservation that it lies in is of ${size}`],
    ["Which reservation is broken for it (its first frame, or none)?", null, broken,
      entry.broken ? `The reservation from frame ${broken} on is broken for it` : "No reservation is broken for it"],
  ];
}
const raised = (entry, name) => Boolean(entry.counts && entry.counts.includes(data.names.indexOf(name)));
function askedOf(entry) {
  const moved = raised(entry, "promotions") ? 1 : raised(entry, "demotions") ? 2 : 0, written = entry.line.includes("written") ? "written" : "clean";
  const kind = kindOf(entry), moves = ["Does it promote or demote pages?", MOVES, MOVES[moved], MOVED[moved]], claimed = entry.line.split(" ")[5];
  if (entry.used) return [...askedOfAccess(entry), moves];
  if (kind === "take" || kind === "use") return askedOfTaking(entry);
  if (kind === "claim") return [["Which frame is claimed?", null, claimed, `Frame ${claimed} is claimed`]];
  return /^(answer [0-9]+ (written|clean)|out)/.test(entry.line.split(" ").slice(2).join(" ")) ? [
    ["Is the page written, or clean?", ["written", "clean"], written, `The page is ${written}`], moves] : [];
}
// What the reader is told of the entry before it is shown.
function announced(entry) {
  const who = `Processor ${entry.processor}`, kind = kindOf(entry), call = entry.call.replace(/^[0-9]+ /, "");
  const page = entry.page ? `page ${entry.page[1]} of space ${entry.page[0]}` : "";
  if (kind === "take" || kind === "use") return `${who}, for its call ${call}: ${page} gets a frame.`;
  if (kind === "claim") return `${who}${call ? `, for its call ${call}` : ", the daemon"}: no frame is to be had, so one is claimed.`;
  if (isAnswer(entry)) return `${who} answers its call ${call}${page ? `, of ${page}` : ""}.`;
  return `${who}, for its call ${call}: ${page} is about to be paged out.`;
}

// Asks of the next entry, where there is something to ask, and it isn't being asked already; answers whether it does.
function asked() {
  if (!asking || question || entries !== wanted) return false;
  const entry = entryAt(entries), all = entry ? askedOf(entry) : [];
  if (!all.length) return false;
  stop();
  question = { at: entries, entry, all };
  showAsked();
  return true;
}
function field([text, choices], at) {
  const label = element("label", text + " "), name = "asked" + at;
  if (!choices) {
    const input = document.createElement("input");
    [input.name, input.autocomplete, input.size] = [name, "off", 8];
    label.append(input);
    return label;
  }
  const select = document.createElement("select");
  select.name = name;
  select.append(...["", ...choices].map((choice) => element("option", choice)));
  label.append(select);
  return label;
}
function form() {
  const part = element("form", ""), skip = element("button", "show it");
  skip.type = "button";
  skip.onclick = () => visit(question.at + 1);
  part.append(element("div", `Entry ${question.at}: ${announced(question.entry)}`, "change"), ...question.all.map(field), element("button", "answer"), skip);
  part.onsubmit = (event) => { event.preventDefault(); check(part); };
  return part;
}
function check(part) {
  const given = question.all.map((_, at) => part.elements["asked" + at].value.trim());
  const marks = question.all.map(([, , is, sentence], at) => [sentence, given[at], given[at].toLowerCase() === is.toLowerCase()]);
  answers += marks.length;
  right += marks.filter((mark) => mark[2]).length;
  told = { at: question.at + 1, marks };
  visit(question.at + 1);
}
function outcome([sentence, given, isRight]) {
  return element("div", `${isRight ? "✓" : "✗"} ${sentence}${isRight || !given ? "" : `, not ${given}`}.`, isRight ? "is-hit" : "is-miss");
}
// The question, or what came of it; both go where another entry is shown.
function showAsked() {
  if (question && question.at !== entries) question = null;
  if (told && told.at !== entries) told = null;
  const part = byId("asked");
  part.replaceChildren(...(question ? [form()] : told ? told.marks.map(outcome) : []));
  if (asking && !question && !told) part.append(element("div", "Step on (→), and you are asked what the next entry does.", "none"));
  part.hidden = !asking;
  byId("score").textContent = asking ? `right: ${right} of ${answers}` : "";
  byId("ask").className = asking ? "on" : "";
  if (question) part.querySelector("input, select").focus();
}
function fillAsked(frame) {
  const input = byId("asked").querySelector("input");
  if (input) input.value = frame;
}
function switchAsking() {
  asking = !asking;
  [question, told, right, answers] = [null, null, 0, 0];
  goTo(wanted);
  show();
}
