// Moving about: by mouse, by key, by button and by address.

let told = 0;

// Selects a record and shows it in the panel, with a block, with the one that is
// shown alone, or with its own.
function select(number, block) {
  if (count === 0) return;
  view.selected = Math.min(count - 1, Math.max(0, Math.round(number) || 0));
  const own = shownAlone() >= 0 ? shownAlone() : records[view.selected].block;
  if (block !== undefined) view.block = block; else if (own >= 0) view.block = own;
  element("jump").value = view.selected;
  tellSteps();
  showPanel();
  askDrawing();
  clearTimeout(told);
  told = setTimeout(tellAddress, 250);
}

// Puts the record into the address, so that a link to it can be sent.
function tellAddress() {
  try {
    history.replaceState(null, "", "#record=" + view.selected);
  } catch (refused) {
    // Some browsers forbid this for files; the page works without it.
  }
}

// Says where the selected record is among those that stepping goes over.
function tellSteps() {
  const { refusals: numbers } = view, before = lastAt(numbers, view.selected, itself), isOne = numbers[before] === view.selected;
  element("refusals").textContent = isOne ? "refusal " + (before + 1) + " of " + numbers.length
    : numbers.length + (numbers.length === 1 ? " refusal" : " refusals");
  for (const [id, list, step] of [["previous", view.steps, -1], ["next", view.steps, 1],
    ["previous-refusal", numbers, -1], ["next-refusal", numbers, 1]]) {
    element(id).disabled = besides(list, step) === undefined;
  }
}

// Stepping goes over every record or, if one block is shown, over those that
// are about it or about no single block.
function chooseSteps() {
  const only = shownAlone(), isStep = ({ block }) => only < 0 || block < 0 || block === only;
  view.steps = records.filter(isStep).map(({ number }) => number);
  view.refusals = refusals.filter((number) => isStep(records[number]));
  element("stepped").textContent = only < 0 ? "" : ", about block " + only + " or no single block";
}

// Shows the blocks chosen, in the panel too.
function showChosen() {
  chooseSteps();
  resize();
  select(view.selected);
  showRow();
}

const itself = (number) => number;

// The number before or after the selected record in a list of records, if any.
function besides(numbers, step) {
  const before = lastAt(numbers, step > 0 ? view.selected : view.selected - 1, itself);
  return numbers[step > 0 ? before + 1 : before];
}

function goAlong(numbers, step, block) {
  const found = besides(numbers, step);
  if (found !== undefined) goTo(found, block);
}

const goInBlock = (step) => goAlong(blocks[view.block].numbers, step, view.block);

// Selects a record and scrolls to it if it is out of sight. If its block is not
// shown, all are.
function goTo(number, block) {
  select(number, block);
  if (view.steps[lastAt(view.steps, view.selected, itself)] !== view.selected) {
    element("shown").value = "all";
    showChosen();
  }
  const left = view.selected * view.zoom, room = view.width - GUTTER;
  const isSeen = left >= scroller.scrollLeft && left + view.zoom <= scroller.scrollLeft + room;
  if (!isSeen) scroller.scrollLeft = left - room / 2;
  showRow();
}

// The row that the selected record is marked in, in the panel's block if it is
// marked in several.
function markedRow() {
  const record = records[view.selected], kind = record.kind !== KIND.rejoin && isHomes(record) ? "orders" : "card";
  const isIn = ({ numbers }) => numbers[lastAt(numbers, record.number, itself)] === record.number;
  const rows = view.rows.filter((row) => row.kind === kind && (kind === "orders" || row.card === record.card) && isIn(row.drawn));
  return rows.find(({ drawn }) => drawn.block === view.block) || rows[0];
}

// Scrolls down or up until that row is in sight, and its block's name if there
// is room for both.
function showRow() {
  const row = markedRow();
  if (!row) return;
  const room = view.height - AXIS, end = row.top + row.height;
  const top = end - row.drawn.top <= room ? row.drawn.top : row.top;
  if (top < scroller.scrollTop + AXIS) scroller.scrollTop = top - AXIS - 4;
  else if (end > scroller.scrollTop + view.height) scroller.scrollTop = end - view.height;
}

// Zooms and keeps the record under a place where it is.
function zoomTo(zoom, x) {
  const at = x === undefined ? placeToKeep() : x;
  const record = (scroller.scrollLeft + at - GUTTER) / view.zoom;
  view.zoom = Math.min(MOST, Math.max(leastZoom(), zoom));
  sizeRoom();
  scroller.scrollLeft = record * view.zoom - at + GUTTER;
  askDrawing();
}

// The selected record if it is in sight, else the middle.
function placeToKeep() {
  const x = xOf(view.selected) + view.zoom / 2;
  return x >= GUTTER && x <= view.width ? x : (GUTTER + view.width) / 2;
}

function recordUnder(event) {
  const x = event.offsetX;
  if (x < GUTTER) return -1;
  const number = Math.floor((x - GUTTER + scroller.scrollLeft) / view.zoom);
  return number < count ? number : -1;
}

const rowUnder = ({ offsetY }) => view.rows.find((row) => offsetY >= Math.max(AXIS, yOf(row)) && offsetY < yOf(row) + row.height);

function hint(event) {
  const number = recordUnder(event), row = rowUnder(event);
  const parts = [];
  if (number >= 0) parts.push("Record " + number + ": " + records[number].text + ". " + records[number].words + ".");
  if (row && row.kind === "card" && number >= 0) {
    const { segments } = row.drawn.cards[row.card];
    const [state] = segments[lastAt(segments, number, (each) => each.at)].cell;
    parts.push("Card " + row.card + ", block " + row.drawn.block + ": " + stateName(state) + ", " + data.states[state][1] + ".");
  }
  element("hint").textContent = parts.join("  ");
}

function pick(event) {
  const number = recordUnder(event), row = rowUnder(event);
  if (number >= 0) select(number, row ? row.drawn.block : undefined);
  scroller.focus({ preventScroll: true });
}

// Selects the record under the pointer and moves it to the middle.
function dragOverview(event) {
  if (event.type === "pointermove" && event.buttons === 0) return;
  select(Math.floor((event.offsetX - 8) / overviewScale()));
  scroller.scrollLeft = view.selected * view.zoom - (view.width - GUTTER) / 2;
}

const KEYS = {
  ArrowLeft: (event) => (event.shiftKey ? goInBlock(-1) : goAlong(view.steps, -1)),
  ArrowRight: (event) => (event.shiftKey ? goInBlock(1) : goAlong(view.steps, 1)),
  Home: () => goTo(view.steps[0]),
  End: () => goTo(view.steps[view.steps.length - 1]),
  n: () => goAlong(view.refusals, 1),
  p: () => goAlong(view.refusals, -1),
  "+": () => zoomTo(view.zoom * 1.4),
  "=": () => zoomTo(view.zoom * 1.4),
  "-": () => zoomTo(view.zoom / 1.4),
  0: () => zoomTo(leastZoom()),
};

function onKey(event) {
  const isTyped = event.target.matches("input, select, textarea");
  if (isTyped || event.ctrlKey || event.metaKey || event.altKey || !KEYS[event.key]) return;
  event.preventDefault();
  KEYS[event.key](event);
}

function onWheel(event) {
  if (!event.ctrlKey && !event.metaKey) return;
  event.preventDefault();
  zoomTo(view.zoom * Math.exp(-event.deltaY / 300), Math.max(GUTTER, event.offsetX));
}
