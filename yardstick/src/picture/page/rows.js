// Drawing the rows: the states of the cards, and what home has. Texts come after
// the messages' lines, so that no line goes through a text.

function drawAll() {
  const { pen } = view;
  pen.fillStyle = style.colours.back;
  pen.fillRect(0, 0, view.width, view.height);
  pen.textBaseline = "middle";
  const rows = view.rows.filter(isRowShown), drawns = [...new Set(rows.map((row) => row.drawn))];
  const messages = drawns.flatMap((drawn) => messagesShown(drawn).map((message) => [drawn, message]));
  for (const row of rows) drawRow(pen, row);
  drawInside(pen, () => messages.forEach((each) => drawLine(pen, ...each)));
  for (const row of rows) drawTexts(pen, row);
  drawInside(pen, () => messages.forEach((each) => drawNumber(pen, ...each)));
  if (view.zoom > FAR_OUT) drawInside(pen, () => messages.forEach((each) => drawEnds(pen, ...each)));
  drawDamage(pen);
  drawSelection(pen);
  drawGutter(pen, rows);
  drawFolded(pen);
  drawAxis(pen);
}

const yOf = (row) => row.top - scroller.scrollTop;
const isRowShown = (row) => yOf(row) + row.height > AXIS && yOf(row) < view.height;

// What a row is made of: its segments, how far below its top they are, how
// high, and what they say. Cards that stay in I are one segment together.
const TRACKS = {
  owner: ({ drawn }) => ({ segments: drawn.owners, above: 1, height: HOME_ROW - 2, labels: ownerLabels }),
  memory: ({ drawn }) => ({ segments: drawn.owners, above: 1, height: HOME_ROW - 2, labels: memoryLabels }),
  card: ({ drawn, card }) => ({ segments: drawn.cards[card].segments, above: MARKS, height: view.bar, labels: cellLabels }),
  quiet: ({ drawn: { quiet } }) => ({
    segments: [{ at: 0, cell: [0, 0, 0] }], above: 4, height: QUIET - 6, labels: () => ["cards " + runsOf(quiet) + " stay in I", "I"],
  }),
};

function drawRow(pen, row) {
  if (row.kind === "orders") drawBand(pen, row, style.colours.soft, row.height - 2);
  if (row.kind === "card") drawBand(pen, row, style.colours.edge, 1);
  drawSegments(row, (segment, from, to, { top, height }) => {
    pen.fillStyle = fillOf(segment);
    pen.fillRect(from, top, Math.max(0.7, to - from - (view.zoom > 6 ? 1 : 0)), height);
  });
}

function drawTexts(pen, row) {
  drawSegments(row, (segment, from, to, { top, height, labels }) => drawLabel(pen, labels(segment), from, to, top + height / 2, segment));
  if (row.kind === "orders") drawOrders(pen, row);
  if (row.kind === "card") drawMarks(pen, row);
}

function drawBand(pen, row, colour, height, width = view.width) {
  pen.fillStyle = colour;
  pen.fillRect(0, yOf(row), width, height);
}

// The place of the last item at or before a record, in a list by `key`.
function lastAt(list, number, key) {
  let low = 0, high = list.length;
  while (low < high) {
    const middle = (low + high) >> 1;
    if (key(list[middle]) <= number) low = middle + 1; else high = middle;
  }
  return low - 1;
}

// Calls `draw` for the segments of a row in sight. Those narrower than a pixel
// share one.
function drawSegments(row, draw) {
  if (!TRACKS[row.kind]) return;
  const track = TRACKS[row.kind](row), { segments } = track, last = lastShown();
  track.top = yOf(row) + track.above;
  let drawnTo = -1;
  for (let at = Math.max(0, lastAt(segments, firstShown(), (each) => each.at)); at < segments.length; at++) {
    const segment = segments[at];
    if (segment.at > last) break;
    const end = at + 1 < segments.length ? segments[at + 1].at : count;
    const from = Math.max(GUTTER - 2, xOf(segment.at)), to = Math.min(view.width + 2, xOf(end));
    if (to - drawnTo < 0.7) continue;
    drawnTo = to;
    draw(segment, from, to, track);
  }
}

const fillOf = ({ cell, home }) => (cell ? style.patterns[cell[0]] : style.colours[home[1] === HOME ? "none" : "edge"]);

// What a segment says, the longest first.
function cellLabels(segment) {
  const [state, value, awaited] = segment.cell, [name, , loads] = data.states[state];
  const held = loads ? name + " = " + value : name;
  return awaited ? [held + " awaits #" + awaited, name + " #" + awaited, name] : [held, name];
}

const cardsOf = (mask) => Array.from({ length: 8 }, (_, card) => card).filter((card) => (mask >> card) & 1);
const sharersOf = (mask) => (mask ? "{" + cardsOf(mask).join(",") + "}" : "none");
const holderOf = (holder) => (holder === HOME ? "home" : "card " + holder);

function ownerLabels({ home: [, owner, sharers] }) {
  const shared = sharers ? " " + sharersOf(sharers) : "", brief = owner === HOME ? "h" : "c" + owner;
  return ["owner " + holderOf(owner) + ", sharers " + sharersOf(sharers), "owner " + holderOf(owner) + shared,
    holderOf(owner) + shared, brief + shared, brief];
}

const memoryLabels = ({ home: [memory] }) => ["memory " + memory, String(memory)];

// The first label that fits, on a ground of its own: its segment's colour, or a
// light one where a pattern is behind.
function drawLabel(pen, labels, from, to, y, segment) {
  const label = fitting(pen, FONT, labels, to - from - 7);
  if (!label) return;
  const state = segment.cell ? segment.cell[0] : -1, fill = fillOf(segment);
  pen.fillStyle = typeof fill === "string" ? fill : "rgba(255,255,255,0.88)";
  pen.fillRect(from + 3, y - 7, widthOf(pen, FONT, label) + 4, 14);
  pen.fillStyle = state > 0 ? "#111" : state === 0 ? style.colours.dim : style.colours.ink;
  pen.fillText(label, from + 5, y + 0.5);
}

// The first label that fits into the room, if any, in a font. Widths are kept,
// for measuring is slow.
const widths = { [FONT]: new Map(), [SMALL]: new Map(), [BOLD]: new Map() };
function fitting(pen, font, labels, room) {
  if (room < 6) return undefined;
  pen.font = font;
  pen.textAlign = "left";
  return labels.find((label) => widthOf(pen, font, label) <= room);
}

function widthOf(pen, font, text) {
  const known = widths[font];
  if (!known.has(text)) known.set(text, pen.measureText(text).width);
  return known.get(text);
}
