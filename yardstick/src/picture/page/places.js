// Where things are, and when they are drawn.

// Sizes in pixels: the names at the left, the record numbers on top, then the
// rows. The pool's row has lanes. A card's row has a rule, its marks, and right
// under them its bar, which is low or high; then a space up to the next card.
const GUTTER = 100, AXIS = 34, ORDERS = 22, HOME_ROW = 19, LANE = 12, MARKS = 15, SPACE = 6, QUIET = 22, GAP = 14, BARS = [19, 36];
const FONT = "11px system-ui, 'Segoe UI', 'DejaVu Sans', sans-serif";
const SMALL = "10px system-ui, 'Segoe UI', 'DejaVu Sans', sans-serif";
const BOLD = "bold " + SMALL;
const scroller = element("scroller"), drawing = element("drawing"), overview = element("overview");

// What is in sight and what is selected. `zoom` is the width of a column.
// `steps` and `refusals` are the records that stepping goes over.
const view = {
  zoom: 20, width: 0, height: 0, selected: 0, block: 0, steps: [], refusals: [], rows: [], bar: 0, tall: 0, asked: false,
};

// The widest column, and the narrowest and the widest that the page begins with.
const MOST = 150, USUAL = 26, WIDEST_AT_FIRST = 118;

// How high the rows above a block's cards are.
const homeHeight = (drawn) => ORDERS + 2 * HOME_ROW + 3 + poolHeight(drawn);
const poolHeight = ({ lanes }) => (lanes > 0 ? lanes * LANE + 6 : 0);

// The block that is chosen to be shown alone, or -1.
const shownAlone = () => (element("shown").value === "all" ? -1 : Number(element("shown").value));

function blocksShown() {
  const only = shownAlone();
  return blocks.filter((drawn) => (only < 0 ? drawn.happens : drawn.block === only));
}

// The cards of a block that share one row, for several of them stay in I.
const sharedRow = (drawn) => (element("every").checked || drawn.quiet.length < 2 ? [] : drawn.quiet);

// Where there is room to spare, the cards' bars are higher.
function barHeight(shown) {
  const cards = shown.reduce((sum, drawn) => sum + data.cards - sharedRow(drawn).length, 0);
  const others = shown.reduce((sum, drawn) => sum + homeHeight(drawn) + QUIET + GAP, 0);
  const spare = (view.height - AXIS - 40 - others) / Math.max(1, cards);
  return Math.min(BARS[1], Math.max(BARS[0], Math.floor(spare) - MARKS - SPACE));
}

// The rows from top to bottom, each with its block and its place.
function layRows() {
  const shown = blocksShown();
  let top = AXIS + 4;
  view.bar = barHeight(shown);
  view.rows = [];
  const add = (kind, height, drawn, card) => {
    view.rows.push({ kind, height, top, drawn, card });
    top += height;
  };
  for (const drawn of shown) {
    const shared = sharedRow(drawn);
    drawn.top = top;
    drawn.tops = [];
    add("orders", ORDERS, drawn);
    add("owner", HOME_ROW, drawn);
    add("memory", HOME_ROW + 3, drawn);
    drawn.pool = top;
    if (drawn.lanes > 0) add("pool", poolHeight(drawn), drawn);
    for (let card = 0; card < data.cards; card++) {
      drawn.tops[card] = top;
      if (!shared.includes(card)) add("card", MARKS + view.bar + SPACE, drawn, card);
    }
    if (shared.length > 0) add("quiet", QUIET, drawn);
    drawn.end = top;
    top += GAP;
  }
  view.tall = top + 26;
}

const widest = () => Math.max(50, view.width - GUTTER - 16);
const leastZoom = () => Math.min(MOST, widest() / Math.max(1, count));
const xOf = (number) => GUTTER + number * view.zoom - scroller.scrollLeft;
const firstShown = () => Math.max(0, Math.floor(scroller.scrollLeft / view.zoom));
const lastShown = () => Math.min(count - 1, Math.ceil((scroller.scrollLeft + view.width - GUTTER) / view.zoom));

// Makes a canvas sharp at this size and answers its pen.
function fitCanvas(canvas, width, height) {
  const scale = window.devicePixelRatio || 1;
  canvas.width = Math.round(width * scale);
  canvas.height = Math.round(height * scale);
  const pen = canvas.getContext("2d");
  pen.setTransform(scale, 0, 0, scale, 0, 0);
  return pen;
}

function resize() {
  view.width = scroller.clientWidth;
  view.height = scroller.clientHeight;
  drawing.style.width = view.width + "px";
  drawing.style.height = view.height + "px";
  view.pen = fitCanvas(drawing, view.width, view.height);
  view.small = fitCanvas(overview, overview.clientWidth, overview.clientHeight);
  view.strip = makeStrip();
  layAgain();
}

function layAgain() {
  layRows();
  sizeRoom();
  askDrawing();
}

// Gives the scrolled element the size of all that could be drawn.
function sizeRoom() {
  const room = element("room");
  room.style.width = Math.max(view.width, GUTTER + count * view.zoom + 16) + "px";
  room.style.height = Math.max(view.height, view.tall) + "px";
}

// Draws at the next frame, once however often it is asked for.
function askDrawing() {
  if (view.asked) return;
  view.asked = true;
  requestAnimationFrame(() => {
    view.asked = false;
    drawAll();
    drawOverview();
  });
}
