// The page of a run's miss curves, as tools/pictures/curves.py makes it. CURVES has what is the same in all of them.

// A number as C's %.1f and %g write it. Only a number of odd quarters lies between two tenths, and then the even one is taken.
function tenths(number) {
  const low = Math.floor(number * 10);
  return Math.abs(number * 4 % 2) === 1 ? ((low % 2 === 0 ? low : low + 1) / 10).toFixed(1) : number.toFixed(1);
}
const ESCAPED = { "&": "&amp;", "<": "&lt;", ">": "&gt;", '"': "&quot;", "'": "&#x27;" };
const escaped = (text) => text.replace(/[&<>"']/g, (letter) => ESCAPED[letter]);
const short = (number) => String(Number(number.toPrecision(6)));
const textAt = (x, y, said, kind) => `<text x="${short(x)}" y="${short(y)}" class="${kind}">${escaped(String(said))}</text>`;
const placeOf = (capacity) => CURVES.left + CURVES.wide * Math.log2(capacity) / Math.log2(CURVES.most);
const heightOf = (misses, top) => CURVES.top + CURVES.high * (1 - misses / top);

// The curves that the program printed: by capacity from 1 on the misses, with the run's translations and with base pages alone.
function curvesFrom(text) {
  const rows = text.split("\n").slice(0, CURVES.most).map((row) => row.split(" ").map(Number));
  return [1, 2].map((at) => rows.map((row) => row[at]));
}
// The misses at the upper end of the drawing, and how far the lines across are apart: one, two or five times a power of ten.
function scaleOf(curves) {
  const most = Math.max(...curves.flat()) || 1, steps = upTo(20).flatMap((power) => [1, 2, 5].map((digit) => digit * 10 ** power));
  const step = steps.find((one) => one * CURVES.across >= most);
  return [step * Math.ceil(most / step), step];
}
// The line of a curve, which changes at a capacity and stays up to the next.
function pathOf(curve, top) {
  const changes = upTo(CURVES.most).filter((at) => at > 0 && curve[at] !== curve[at - 1]);
  const parts = changes.map((at) => `H${tenths(placeOf(at + 1))}V${tenths(heightOf(curve[at], top))}`);
  return `M${short(placeOf(1))} ${tenths(heightOf(curve[0], top))}${parts.join("")}H${short(placeOf(CURVES.most))}`;
}
// The body of the drawing, line by line.
function drawingOf(curves, name) {
  const [top, step] = scaleOf(curves), under = CURVES.top + CURVES.high, usual = placeOf(CURVES.usual);
  const across = upTo(Math.floor(top / step) + 1).flatMap((at) => {
    const y = heightOf(at * step, top);
    return [`<path class="g" d="M${CURVES.left} ${tenths(y)}h${CURVES.wide}"/>`, textAt(CURVES.left - 6, y + 4, at * step, "t e")];
  });
  const legend = curves.flatMap((curve, at) => {
    const x = CURVES.left + Math.floor(at * CURVES.wide / 2), y = under + 3 * CURVES.line + 6;
    const said = `${CURVES.names[at]}: ${curve[CURVES.usual - 1]} misses at ${CURVES.usual}`;
    return [`<path class="c${at}" d="M${x} ${y - 4}h24"/>`, textAt(x + 30, y, said, "")];
  });
  return [
    textAt(0, 14, `${name}: misses at each capacity`, "h"), ...across, ...CURVES.chosen.map((k) => textAt(placeOf(k), under + CURVES.line, k, "t m")),
    `<path class="u" d="M${short(usual)} ${CURVES.top - 6}V${under}"/>`,
    textAt(usual, CURVES.top - 10, `${CURVES.usual}, the usual capacity`, "t m"),
    ...[1, 0].map((at) => `<path class="c${at}" d="${pathOf(curves[at], top)}"/>`), ...legend,
    textAt(CURVES.left + CURVES.wide / 2, under + 2 * CURVES.line, "capacity: how many translations an image holds", "t m"), CURVES.here,
  ].map((line) => line.replace(' class=""', "")).join("\n");
}
// The text of the page, from its template.
function curvesPage(template, curves, name) {
  const rows = CURVES.chosen.map((k) => `<tr><td>${k}</td><td>${curves[0][k - 1]}</td><td>${curves[1][k - 1]}</td></tr>`);
  const parts = {
    TITLE: escaped(name), SVG: `${CURVES.begin}\n${drawingOf(curves, name)}\n</g>\n</svg>\n`, ROWS: rows.join("\n"),
    DATA: JSON.stringify({ curves, known: 1, ...CURVES.data }),
  };
  return template.replace(/TITLE|SVG|ROWS|DATA/g, (part) => parts[part]);
}
