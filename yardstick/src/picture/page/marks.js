// Drawing the marks: events above a card's bar, orders above home's rows.

// Calls `draw` for the items of a lane in sight, with their place and the room
// up to the next one. Those that share a pixel are drawn once, a refusal first.
function drawItems(items, recordIn, draw) {
  const numberOf = (item) => recordIn(item).number, last = lastShown();
  let shared = { x: -9, isNo: false };
  for (let at = Math.max(0, lastAt(items, firstShown() - 1, numberOf)); at < items.length; at++) {
    const { number, refusal } = recordIn(items[at]);
    if (number > last) break;
    const next = at + 1 < items.length ? numberOf(items[at + 1]) : count;
    const x = xOf(number), isNo = refusal !== 0;
    if (x + view.zoom < GUTTER || (x - shared.x < 0.7 && (shared.isNo || !isNo))) continue;
    shared = { x, isNo };
    draw(items[at], x, Math.min(WIDEST_MARK, (next - number) * view.zoom));
  }
}
const WIDEST_MARK = 180;

// Marks above a card's bar.
function drawMarks(pen, row) {
  const y = yOf(row) + MARKS - 6;
  drawItems(row.drawn.cards[row.card].marks, (record) => record, (record, x, room) => drawMark(pen, record, x, y, room));
}

const BRIEF = ["strt", "ld", "st", "ask", "drp", "ord", "dlv", "cpy", "rj", ""];

function markLabels(record) {
  if (record.refusal === 0) return [record.mark, BRIEF[record.kind]];
  return ["\u2715" + record.refusal + " " + record.mark, "\u2715" + record.refusal, "\u2715"];
}

// The record in words if there is room, else a tick.
function drawMark(pen, record, x, y, room) {
  const isNo = record.refusal !== 0;
  pen.fillStyle = isNo ? style.colours.bad : record.mark === "stale" ? style.colours.stale : style.colours.ink;
  const label = fitting(pen, SMALL, markLabels(record), room - 3);
  if (!label) return pen.fillRect(x + view.zoom / 2 - 1, y - 3, Math.max(1, Math.min(2, view.zoom)), 7);
  pen.strokeStyle = style.colours.back;
  pen.lineWidth = 3;
  pen.strokeText(label, x + 3, y);
  pen.fillText(label, x + 3, y);
}

// The outcomes of an Order. Those that give nobody anything are hollow.
const OUTCOMES = [
  null, { name: "granted", colour: "granted", sign: "\u2713" }, { name: "mask too small", colour: "back-to-line", sign: "\u21a9", isHollow: true },
  { name: "put taken", colour: "put", sign: "\u2193" }, { name: "put lapsed", colour: "back-to-line", sign: "\u2205", isHollow: true },
];

// The orders of a block with their numbers, and copies of its messages.
function drawOrders(pen, row) {
  const y = yOf(row) + 2;
  drawItems(row.drawn.orders, (order) => order.record, (order, x, room) => drawOrder(pen, order, x, y, room));
}

function drawOrder(pen, order, x, y, room) {
  const { record } = order, height = ORDERS - 6;
  if (record.refusal !== 0) return drawMark(pen, record, x, y + height / 2, room);
  const outcome = record.kind === KIND.order ? OUTCOMES[record.value] : { colour: "message", name: "copy" };
  const { isHollow } = outcome, colour = style.colours[outcome.colour], ground = style.colours.back;
  const label = fitting(pen, SMALL, orderLabels(order, outcome), room - 8);
  pen.fillStyle = label && isHollow ? ground : colour;
  if (!label) return pen.fillRect(x + view.zoom / 2 - 1.5, y, Math.max(1, Math.min(3, view.zoom)), isHollow ? height / 2 : height);
  pen.beginPath();
  pen.roundRect(x + 1, y + 0.5, widthOf(pen, SMALL, label) + 6, height - 1, 4);
  pen.fill();
  strokeWith(pen, colour, 1, []);
  pen.fillStyle = isHollow ? style.colours.ink : ground;
  pen.fillText(label, x + 3.5, y + height / 2 + 0.5);
}

function orderLabels({ record, head, number }, outcome) {
  if (record.kind === KIND.copy) return ["copy of a message", "copy", "c"];
  const what = REQUESTS[head[2]], plain = "#" + number;
  return [
    plain + " " + what + " card " + head[0] + " " + outcome.name, plain + " " + what + " c" + head[0] + " " + outcome.name,
    plain + " " + what + " c" + head[0] + " " + outcome.sign, plain + " " + what + " " + outcome.sign,
    plain + outcome.sign, plain, String(number),
  ];
}
