// Drawing. A grid is boxes as [space, first, count, columns, x, y, title]; the frames are those of space -1.
const boxesAt = (grid, space, number) => grid.boxes.filter((box) => box[0] === space && number >= box[1] && number < box[1] + box[2]);
const placeOf = (grid, box, number) => [box[4] + (number - box[1]) % box[3] * grid.cell, box[5] + Math.floor((number - box[1]) / box[3]) * grid.cell];
function canvasOf(id, grid) {
  const canvas = byId(id), ratio = window.devicePixelRatio || 1, context = canvas.getContext("2d");
  canvas.width = (grid.width + 4) * ratio;
  canvas.height = (grid.height + 4) * ratio;
  canvas.style.width = grid.width + 4 + "px";
  canvas.style.height = grid.height + 4 + "px";
  context.setTransform(ratio, 0, 0, ratio, 2 * ratio, 2 * ratio);
  return context;
}
function extent(context, grid, space, first, count, colour, width) {
  context.strokeStyle = colour;
  context.lineWidth = width;
  for (const box of boxesAt(grid, space, first)) {
    const [x, y] = placeOf(grid, box, first);
    context.strokeRect(x, y, Math.min(count, box[3]) * grid.cell, Math.max(1, Math.floor(count / box[3])) * grid.cell);
  }
}
function lattice(context, grid, box, colour) {
  const rows = Math.ceil(box[2] / box[3]);
  context.fillStyle = colour;
  for (let at = 1; at < box[3]; at++) context.fillRect(box[4] + at * grid.cell, box[5], 1, rows * grid.cell);
  for (let at = 1; at < rows; at++) context.fillRect(box[4], box[5] + at * grid.cell, box[3] * grid.cell, 1);
}
function border(context, grid, box) {
  context.fillStyle = "#5a6572";
  context.font = "11px system-ui, sans-serif";
  context.fillText(box[6], box[4], box[5] - 4);
  context.strokeStyle = data.border;
  context.lineWidth = 1;
  context.strokeRect(box[4], box[5], box[3] * grid.cell, Math.ceil(box[2] / box[3]) * grid.cell);
}
const lineWidth = (grid) => grid.cell >= 13 ? 2 : 1;
// Where cells are small, there is room for the outlines of superpages alone.
function outline(context, grid, space, table) {
  for (const [first, [size]] of table) {
    if (size > 0 || grid.cell >= 6) extent(context, grid, space, first, pagesOf(size), data.outline, lineWidth(grid));
  }
}
function drawFrameBox(context, grid, box) {
  for (let at = box[1]; at < box[1] + box[2]; at++) {
    const [x, y] = placeOf(grid, box, at);
    context.fillStyle = data.codes[codes[at]][0];
    context.fillRect(x, y, grid.cell, grid.cell);
  }
  if (grid.cell >= 6) lattice(context, grid, box, "#fff");
  border(context, grid, box);
}
function drawFrames() {
  const grid = data.frames, context = canvasOf("frames", grid), frame = focusFrame();
  for (const box of grid.boxes) drawFrameBox(context, grid, box);
  outline(context, grid, -1, outlines);
  if (frame !== null) extent(context, grid, -1, frame, 1, data.focus, 2.5);
}
// The colour of each page of a box, and if it is dirty.
function pageColours(box) {
  const colours = new Array(box[2]).fill(data.unmapped), dirty = new Array(box[2]).fill(false);
  const fill = (row, value, first, count) => row.fill(value, Math.max(0, first - box[1]), Math.max(0, first - box[1] + count));
  regions[box[0]].forEach(([first, length]) => fill(colours, data.mapped, first, length));
  for (const [first, [size, , isDirty]] of tiles[box[0]]) {
    fill(colours, data.tiles[size][0], first, pagesOf(size));
    fill(dirty, isDirty, first, pagesOf(size));
  }
  return [colours, dirty];
}
function drawBox(context, grid, box) {
  const [colours, dirty] = pageColours(box);
  const each = (draw) => colours.forEach((colour, at) => draw(...placeOf(grid, box, box[1] + at), colour, at));
  each((x, y, colour) => { context.fillStyle = colour; context.fillRect(x, y, grid.cell, grid.cell); });
  if (grid.cell >= 6) lattice(context, grid, box, data.lattice);
  context.fillStyle = data.dirty;
  each((x, y, colour, at) => { if (dirty[at]) context.fillRect(x, y + grid.cell * 0.8, grid.cell, grid.cell * 0.2); });
  border(context, grid, box);
  if (grid.cell < 24) return;
  context.fillStyle = data.outline;
  context.font = "10px system-ui, sans-serif";
  each((x, y, colour, at) => context.fillText(box[1] + at, x + 5, y + 15));
}
function drawPages() {
  const grid = data.pages, context = canvasOf("pages", grid);
  for (const box of grid.boxes) drawBox(context, grid, box);
  tiles.forEach((some, space) => outline(context, grid, space, some));
  if (now && now.page) extent(context, grid, now.page[0], now.page[1], 1, data.focus, 2.5);
}
// The frame that the last entry is about: the one that it painted, or that its page has.
function focusFrame() {
  if (!now) return null;
  const last = (now.paints || []).slice(-1)[0];
  if (last && last[1] === 1) return last[0];
  return now.page ? frameOf(...now.page) : null;
}
