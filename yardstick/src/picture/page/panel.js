// The panel: the record, its answer and the state after it.

function make(tag, text, name) {
  const made = document.createElement(tag);
  if (text !== undefined) made.textContent = text;
  if (name) made.className = name;
  return made;
}

function tableOf(titles, rows) {
  const table = make("table"), head = table.createTHead().insertRow(), body = table.createTBody();
  for (const title of titles) {
    const cell = make("th", title);
    cell.scope = "col";
    head.append(cell);
  }
  for (const { cells, isChanged } of rows) {
    const row = body.insertRow();
    if (isChanged) row.className = "changed";
    for (const cell of cells) {
      const place = row.insertCell();
      if (cell instanceof Array) place.append(...cell); else place.textContent = cell;
    }
  }
  return table;
}

function showPanel() {
  const record = records[view.selected];
  if (!record) return;
  const title = make("h2", "Record " + record.number + " ");
  title.append(make("small", "of " + (count - 1) + ", at byte " + record.place));
  const answer = make("p", record.words, "answer" + (record.refusal !== 0 ? " no" : ""));
  const value = isEnd(record) ? record.place : record.value;
  answer.append(make("code", "output line: " + [record.number, record.refusal, value].join(" "), "line"));
  element("told").replaceChildren(title, make("code", record.text, "record"), answer);
  if (data.blocks > 0) showState(record, stateAfter(record.number));
}

function showState(record, state) {
  const changed = (what, block, card) => record.changes.some(
    (change) => change[0] === what && change[1] === block && (card === undefined || change[2] === card));
  const [memory, owner, sharers] = state.home[view.block];
  const home = { isChanged: changed(HOME_PART, view.block), cells: [holderOf(owner), sharersOf(sharers), memory] };
  element("state").replaceChildren(
    blockTitle(), cellTable(state, changed),
    make("h3", "Home's part of block " + view.block), tableOf(["owner", "sharers", "memory"], [home]),
    make("h3", "Last order number"), make("p", String(state.last)),
    make("h3", "Line: " + state.line.length + " of 64, the head first"), lineTable(state, gains(record, LINE_GAINS)),
    make("h3", "Pool: " + state.pool.length + " of 64"), poolTable(state, gains(record, POOL_GAINS)),
  );
}

function blockTitle() {
  const title = make("h3", "After it, cells of ");
  const choice = make("select");
  choice.setAttribute("aria-label", "Block");
  for (let block = 0; block < data.blocks; block++) choice.append(new Option("block " + block, block));
  choice.value = view.block;
  choice.addEventListener("change", () => {
    view.block = Number(choice.value);
    showPanel();
    element("state").querySelector("select").focus();
  });
  title.append(choice);
  return title;
}

function cellTable(state, changed) {
  const rows = state.cells[view.block].map(([code, value, awaited], card) => ({
    isChanged: changed(CELL, view.block, card),
    cells: ["card " + card, [swatch(code), stateName(code)], value, awaited ? "order " + awaited : ""],
  }));
  return tableOf(["card", "state", "value", "awaits"], rows);
}

// Whether a record put something at the tail of the line or the pool.
const gains = (record, what) => record.changes.some((change) => change[0] === what);

const maskOf = (mask) => mask.toString(2).padStart(8, "0");

function lineTable({ line }, hasNew) {
  if (line.length === 0) return make("p", "empty", "empty");
  const rows = line.map(([card, block, kind, mask, retry], position) => ({
    isChanged: hasNew && position === line.length - 1,
    cells: ["card " + card, block, REQUESTS[kind], maskOf(mask), retry],
  }));
  return tableOf(["from", "block", "kind", "mask", "retry"], rows);
}

function poolTable({ pool: messages }, hasNew) {
  if (messages.length === 0) return make("p", "empty", "empty");
  const rows = messages.map(([sender, receiver, block, value, number], position) => ({
    isChanged: hasNew && position === messages.length - 1,
    cells: [position, holderOf(sender), holderOf(receiver), block, value, number],
  }));
  return tableOf(["at", "from", "to", "block", "value", "order"], rows);
}
