// Drawing what frames the rows: names, record numbers, the selected record, the
// end of the run, and the strip of the whole journal.

// The record that ends the run, hatched over what is there.
function drawDamage(pen) {
  if (!data.ends) return;
  pen.fillStyle = style.hatch;
  pen.fillRect(xOf(count - 1), AXIS, Math.max(3, view.zoom), view.height);
  pen.fillStyle = style.colours.bad;
  pen.fillRect(xOf(count - 1), AXIS, 2, view.height);
}

// The byte place at which the run ends, above that record.
function drawDamageSign(pen) {
  if (!data.ends) return;
  const label = "ends at byte " + records[count - 1].place + " \u25bc";
  pen.font = BOLD;
  const width = pen.measureText(label).width + 8, x = xOf(count - 1) + Math.max(3, view.zoom) - width;
  pen.fillStyle = style.colours.bad;
  pen.fillRect(x, 0, width, 15);
  pen.fillStyle = style.colours.back;
  pen.textAlign = "left";
  pen.fillText(label, x + 4, 8);
}

function drawSelection(pen) {
  const x = xOf(view.selected), width = Math.max(2, view.zoom);
  if (x + width < GUTTER || x > view.width) return;
  pen.strokeStyle = style.colours.accent;
  pen.lineWidth = 2;
  pen.globalAlpha = 0.10;
  pen.fillStyle = style.colours.accent;
  pen.fillRect(x, AXIS, width - 1, view.height);
  pen.globalAlpha = 1;
  pen.strokeRect(x - 0.5, AXIS - 2, width, view.height);
}

const ROW_NAMES = {
  orders: ({ drawn }) => "Block " + drawn.block, owner: () => "home: owner", memory: () => "home: memory", pool: () => "pool",
  card: ({ card }) => "card " + card, quiet: ({ drawn }) => drawn.quiet.length + " cards",
};

// The names of the rows, over whatever has been scrolled under them.
function drawGutter(pen, rows) {
  pen.fillStyle = style.colours.back;
  pen.fillRect(0, AXIS, GUTTER, view.height);
  pen.textAlign = "left";
  for (const row of rows) {
    const y = yOf(row);
    const isBlock = row.kind === "orders";
    if (isBlock) drawBand(pen, row, style.colours.soft, row.height - 2, GUTTER);
    pen.font = isBlock ? "bold 12px system-ui, 'DejaVu Sans', sans-serif" : FONT;
    pen.fillStyle = isBlock ? style.colours.ink : style.colours.dim;
    const middle = row.kind === "card" ? MARKS + view.bar / 2 : row.height / 2 - (row.kind === "quiet" ? 0 : 1);
    pen.fillText(ROW_NAMES[row.kind](row), 10, y + middle + 0.5);
  }
  pen.fillStyle = style.colours.edge;
  pen.fillRect(GUTTER - 1, AXIS, 1, view.height);
}

// Says which blocks are folded away.
function drawFolded(pen) {
  const folded = blocks.filter((each) => !each.happens).map((each) => each.block);
  if (folded.length === 0 || shownAlone() >= 0) return;
  const names = folded.length === 1 ? "block " + folded[0] : "blocks " + runsOf(folded);
  pen.font = FONT;
  pen.fillStyle = style.colours.dim;
  pen.textAlign = "left";
  pen.fillText("Folded away, for nothing ever happens there: " + names, 10, view.tall - 18 - scroller.scrollTop);
}

// Numbers with runs of neighbours drawn together: 1, 3 to 7.
function runsOf(numbers) {
  const runs = [];
  for (const number of numbers) {
    const last = runs[runs.length - 1];
    if (last && last[1] === number - 1) last[1] = number; else runs.push([number, number]);
  }
  return runs.map(([from, to]) => from + (from === to ? "" : (to === from + 1 ? ", " : " to ") + to)).join(", ");
}

// Record numbers, and under them each record by a tick or its name.
function drawAxis(pen) {
  const { colours } = style;
  pen.fillStyle = colours.back;
  pen.fillRect(0, 0, view.width, AXIS);
  const step = niceStep(46 / view.zoom), first = firstShown(), last = lastShown();
  for (let number = Math.floor(first / step) * step; number <= last; number += step) {
    const x = xOf(number);
    pen.font = SMALL;
    pen.fillStyle = colours.dim;
    pen.textAlign = "left";
    if (x >= GUTTER - 1) pen.fillText(String(number), x + 2, 8);
    pen.fillRect(x, 2, 1, AXIS - 4);
  }
  drawAxisMarks(pen);
  drawDamageSign(pen);
  pen.fillStyle = colours.back;
  pen.fillRect(0, 0, GUTTER - 1, AXIS);
  pen.fillStyle = colours.dim;
  pen.font = FONT;
  pen.textAlign = "left";
  pen.fillText("record", 10, AXIS / 2);
  pen.fillStyle = colours.edge;
  pen.fillRect(0, AXIS - 1, view.width, 1);
}

function drawAxisMarks(pen) {
  const x = xOf(view.selected);
  pen.fillStyle = style.colours.accent;
  pen.fillRect(x, AXIS - 18, Math.max(2, view.zoom - 1), 16);
  drawItems(records, (record) => record, (record, at) => drawAxisMark(pen, record, at));
}

function drawAxisMark(pen, record, x) {
  const isNo = record.refusal !== 0;
  const label = fitting(pen, SMALL, markLabels(record), view.zoom - 3);
  pen.fillStyle = record.number === view.selected ? style.colours.back : isNo ? style.colours.bad : style.colours.dim;
  if (label) pen.fillText(label, x + 2, AXIS - 9.5);
  else if (isNo || view.zoom > 2) drawTick(pen, x, isNo ? 12 : 4);
}

function drawTick(pen, x, height) {
  pen.fillRect(x + view.zoom / 2 - 0.5, AXIS - 3 - height, Math.max(1, Math.min(2, view.zoom)), height);
}

// A round number of records, at least so many.
function niceStep(least) {
  let step = 1;
  for (let at = 0; step < least; at++) step *= at % 3 === 1 ? 2.5 : 2;
  return Math.ceil(step);
}

const overviewScale = () => (overview.clientWidth - 16) / Math.max(1, count);

// The whole journal in one strip: grants above, refusals below. It is drawn
// once and kept.
function makeStrip() {
  const scale = overviewScale(), thick = Math.max(1, Math.min(3, scale));
  return picture(overview.clientWidth, overview.clientHeight, (pen, width, height) => {
    pen.fillStyle = style.colours.soft;
    pen.fillRect(0, 0, width, height);
    for (const record of records) {
      const isGrant = record.kind === KIND.order && record.refusal === 0 && record.value === 1;
      if (record.refusal === 0 && !isGrant) continue;
      pen.fillStyle = isGrant ? style.colours.granted : style.colours.bad;
      pen.fillRect(8 + record.number * scale, isGrant ? 5 : 17, thick, 9);
    }
  });
}

// The strip with the selected record, and with what is in sight framed.
function drawOverview() {
  const pen = view.small, width = overview.clientWidth, height = overview.clientHeight, scale = overviewScale();
  pen.drawImage(view.strip, 0, 0, width, height);
  pen.fillStyle = style.colours.accent;
  pen.fillRect(7 + view.selected * scale, 0, 3, height);
  const from = scroller.scrollLeft / view.zoom, to = Math.min(count, from + (view.width - GUTTER) / view.zoom);
  pen.strokeStyle = style.colours.ink;
  pen.lineWidth = 1.5;
  pen.strokeRect(8.5 + from * scale, 1.5, Math.max(6, (to - from) * scale - 1), height - 3);
}
