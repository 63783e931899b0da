// ---- lines that are too long to be painted whole: where their characters stand, and which of them can be seen ----

// A line of so many characters is painted in part, where lines aren't wrapped.
const WHOLE = 4000;
// The width is known before each so many characters.
const STRIDE = 1000;
const pen = make('canvas').getContext('2d');
let layouts = new Map(), cell = 8;

// The font of the text and the width of one of its cells.
function takeFont() {
  const style = getComputedStyle(text);
  pen.font = `${style.fontStyle} ${style.fontWeight} ${style.fontSize} ${style.fontFamily}`;
  cell = pen.measureText('x'.repeat(100)).width / 100;
  layouts = new Map();
}

// How far a piece reaches that begins at this width. A tab goes on to the next of the stops, which stand two cells apart.
function reach(piece, width) {
  for (const [k, part] of piece.split('\t').entries()) {
    if (k) width = (Math.floor(width / (2 * cell) + 1e-6) + 1) * 2 * cell;
    if (part) width += pen.measureText(part).width;
  }
  return width;
}

// Of a long line the widths before its stops, its colours and what of it can't be seen; until the text changes.
function layoutOf(line) {
  if (layouts.has(line)) return layouts.get(line);
  const stops = [[0, 0]];
  for (let from = 0, width = 0; from < line.length;) {
    let to = Math.min(from + STRIDE, line.length);
    if (/[\udc00-\udfff]/.test(line[to] ?? '')) to++;
    width = reach(line.slice(from, to), width);
    stops.push([to, width]);
    from = to;
  }
  const layout = { stops, colours: coloursOf(line), unseen: unseenIn(line) };
  layouts.set(line, layout);
  return layout;
}

// The part of a long line that can be seen between two widths: [from, to, the width before it].
function partOf(line, left, right) {
  const { stops } = layoutOf(line), after = stops.findIndex(it => it[1] > left), first = stops[Math.max(0, (after < 0 ? stops.length : after) - 1)];
  const last = stops.find(it => it[1] >= right) ?? stops.at(-1);
  return [first[0], last[0], first[1]];
}

// How far from its begin a character of a line stands.
function widthBefore(line, at) {
  if (line.length <= WHOLE) return reach(line.slice(0, at), 0);
  const [from, width] = layoutOf(line).stops.filter(it => it[0] <= at).at(-1);
  return reach(line.slice(from, at), width);
}
