// Drawing the messages. Each lies in a lane of its block's pool, from the record
// that put it there to the one that took it out. A line leads to it from the
// sender's row and, if it is taken, on to the receiver's bar.

// The messages of a block in sight. Far out only long ones can be seen.
function messagesShown(drawn) {
  const first = firstShown(), last = lastShown(), { messages } = drawn;
  const shown = pool.filter(({ block, sent }) => block === drawn.block && sent < first - longest);
  for (let at = Math.max(0, lastAt(messages, first - longest - 1, (each) => each.sent)); at < messages.length; at++) {
    const message = messages[at];
    if (message.sent > last) break;
    if (message.ended >= first) shown.push(message);
  }
  return shown.filter(({ sent, ended }) => (ended - sent) * view.zoom >= 3);
}

// Where a message comes from, its lane, and where it goes. It starts inside the
// column that sent it and is taken at the edge of the one that delivers it.
function placesOf(drawn, { sender, receiver, sent, ended, fate, lane }) {
  const inset = Math.min(view.zoom / 2, 5), barOf = (card) => drawn.tops[card] + MARKS - scroller.scrollTop;
  const top = drawn.pool - scroller.scrollTop;
  return {
    x1: xOf(sent) + inset, x2: xOf(ended) + (fate === "stale" ? inset : 0), lane: top + 3 + (lane + 0.5) * LANE,
    from: sender === HOME ? top - 1 : barOf(sender) + 1, to: barOf(receiver) + 9,
  };
}

// Draws inside the part of the drawing that is neither names nor numbers.
function drawInside(pen, draw) {
  pen.save();
  pen.beginPath();
  pen.rect(GUTTER, AXIS, view.width, view.height);
  pen.clip();
  draw();
  pen.restore();
}

const DASHES = { taken: [], stale: [5, 4], waiting: [2, 4] };
const FAR_OUT = 3;
const colourOf = ({ fate }) => style.colours[fate === "stale" ? "stale" : "message"];

// The line of a message, as far as it is in sight. A copy begins in the pool. Far
// out only the lane is drawn, for the rest would hide the bars. Dashes stand at
// the same places in every line, so that lines over each other are still dashed.
function drawLine(pen, drawn, message) {
  const { x1, x2, lane, from, to } = placesOf(drawn, message), isNear = view.zoom > FAR_OUT;
  const left = Math.max(x1, GUTTER - 9), right = Math.min(x2, view.width + 9);
  const start = isNear && !message.isCopy && left === x1 ? from : lane;
  pen.beginPath();
  pen.moveTo(left, start);
  pen.lineTo(left, lane);
  pen.lineTo(right, lane);
  if (isNear && message.fate === "taken" && right === x2) pen.lineTo(x2, to - 6);
  pen.lineJoin = "round";
  pen.lineDashOffset = left - xOf(0) - Math.abs(lane - start);
  strokeWith(pen, colourOf(message), message.isCopy ? 1.2 : 2, DASHES[message.fate]);
}

// The number of a message on its lane, with where it goes if there is room. If
// it is too short even for the number, that stands after its end.
function drawNumber(pen, drawn, message) {
  const { x1, x2, lane } = placesOf(drawn, message), x = Math.max(GUTTER, x1) + 7;
  const number = "#" + message.number, to = " to card " + message.receiver;
  const labels = [number + " " + holderOf(message.sender) + to, number + to, number];
  const label = fitting(pen, BOLD, labels, xOf(Math.min(message.ended, message.next)) - x - 4);
  if (label) drawGrounded(pen, label, x, lane, colourOf(message));
  else if (fitting(pen, BOLD, [number], xOf(message.next) - x2 - 10)) drawGrounded(pen, number, x2 + 7, lane, colourOf(message));
}

// A bold text on the page's ground, so that no line goes through it.
function drawGrounded(pen, text, x, y, colour) {
  pen.fillStyle = style.colours.back;
  pen.fillRect(x - 2, y - 6, widthOf(pen, BOLD, text) + 4, LANE);
  pen.fillStyle = colour;
  pen.fillText(text, x, y + 0.5);
}

function strokeWith(pen, colour, width, dashes) {
  pen.strokeStyle = colour;
  pen.lineWidth = width;
  pen.setLineDash(dashes);
  pen.stroke();
  pen.setLineDash([]);
}

// The ends of a message: a dot where it was sent (open for a copy), an arrowhead
// where it was taken, a cross where it was found stale.
function drawEnds(pen, drawn, message) {
  const { x1, x2, lane, from, to } = placesOf(drawn, message), colour = colourOf(message);
  drawDot(pen, message, colour, x1, message.isCopy ? lane : from);
  if (message.fate === "taken") drawHead(pen, colour, x2, to);
  if (message.fate === "stale") drawCross(pen, colour, x2, lane);
}

function drawDot(pen, { isCopy }, colour, x, y) {
  pen.fillStyle = isCopy ? style.colours.back : colour;
  pen.beginPath();
  pen.arc(x, y, 3.2, 0, 7);
  pen.fill();
  strokeWith(pen, colour, 1.4, []);
}

// An arrowhead that points down to a place.
function drawHead(pen, colour, x, y) {
  pen.fillStyle = colour;
  pen.beginPath();
  pen.moveTo(x, y);
  pen.lineTo(x - 4, y - 8);
  pen.lineTo(x + 4, y - 8);
  pen.closePath();
  pen.fill();
  strokeWith(pen, style.colours.back, 1, []);
}

function drawCross(pen, colour, x, y) {
  pen.beginPath();
  for (const side of [1, -1]) {
    pen.moveTo(x - 4, y - 4 * side);
    pen.lineTo(x + 4, y + 4 * side);
  }
  strokeWith(pen, colour, 2.4, []);
}
