// The legend, and how the page begins.

function legendItem(image, name, meaning) {
  const item = make("li");
  item.append(image, make("b", name), make("span", meaning));
  return item;
}

function fillLegend() {
  const states = data.states.map(([, meaning], code) => legendItem(swatch(code), stateName(code), meaning));
  element("legend-states").replaceChildren(...states);
  const order = (value, number) => picture(34, 16, (pen) => {
    pen.textBaseline = "middle";
    drawOrder(pen, { record: { kind: KIND.order, refusal: 0, value }, head: [0, 0, 1], number }, 0, 0, 34);
  });
  const refusal = make("b", "\u27153");
  refusal.style.color = "var(--bad)";
  element("legend-marks").replaceChildren(
    legendItem(order(1, 6), "granted", "outcome 1"), legendItem(order(2, 7), "mask too small", "2"),
    legendItem(order(3, 8), "put taken", "3"), legendItem(order(4, 9), "put lapsed", "4"),
    legendItem(messageImage("taken"), "message", "taken"), legendItem(messageImage("stale"), "stale", ""),
    legendItem(messageImage("waiting"), "never delivered", ""), legendItem(messageImage("taken", true), "copy", ""),
    legendItem(refusal, "refusal 3", "of the paper"),
  );
}

// A message as the timeline draws it, but from its lane on.
const messageImage = (fate, isCopy) => picture(36, 16, (pen) => {
  const colour = colourOf({ fate }), isTaken = fate === "taken", y = isTaken ? 4 : 8;
  pen.beginPath();
  pen.moveTo(5, y);
  pen.lineTo(30, y);
  if (isTaken) pen.lineTo(30, 8);
  strokeWith(pen, colour, isCopy ? 1.2 : 2, DASHES[fate]);
  drawDot(pen, { isCopy }, colour, 5, y);
  if (isTaken) drawHead(pen, colour, 30, 15);
  if (fate === "stale") drawCross(pen, colour, 30, y);
});

function fillShown() {
  const shown = element("shown");
  shown.append(new Option("every block that is used", "all"));
  for (const { block, happens } of blocks) if (happens) shown.append(new Option("block " + block, block));
  element("every").parentElement.hidden = !blocks.some(({ quiet, happens }) => happens && quiet.length > 1);
}

function listen() {
  const on = (id, type, action) => element(id).addEventListener(type, action);
  on("tools", "submit", (event) => { event.preventDefault(); goTo(element("jump").valueAsNumber); });
  on("previous", "click", () => goAlong(view.steps, -1));
  on("next", "click", () => goAlong(view.steps, 1));
  on("previous-refusal", "click", () => goAlong(view.refusals, -1));
  on("next-refusal", "click", () => goAlong(view.refusals, 1));
  on("zoom-in", "click", () => zoomTo(view.zoom * 1.4));
  on("zoom-out", "click", () => zoomTo(view.zoom / 1.4));
  on("zoom-fit", "click", () => zoomTo(leastZoom()));
  on("shown", "change", showChosen);
  on("every", "change", layAgain);
  on("scroller", "scroll", askDrawing);
  drawing.addEventListener("click", pick);
  drawing.addEventListener("mousemove", hint);
  scroller.addEventListener("wheel", onWheel, { passive: false });
  for (const type of ["pointerdown", "pointermove"]) overview.addEventListener(type, dragOverview);
  document.addEventListener("keydown", onKey);
  new ResizeObserver(resize).observe(scroller);
  window.addEventListener("hashchange", () => goTo(addressed()));
  window.matchMedia("(prefers-color-scheme: dark)").addEventListener("change", recolour);
}

// Where the style puts the panel under the timeline, there is no room for the
// legend at first.
const NARROW = "(max-width: 900px)";

function recolour() {
  readColours();
  fillLegend();
  showPanel();
  resize();
}

// The record that the address names, else the first.
function addressed() {
  const found = /^#record=(\d{1,6})$/.exec(location.hash);
  return found ? Number(found[1]) : 0;
}

function begin() {
  readColours();
  if (data.blocks === 0) {
    document.body.classList.add("nothing");
    showPanel();
    return;
  }
  fillLegend();
  element("legend").open = !window.matchMedia(NARROW).matches;
  fillShown();
  chooseSteps();
  element("last").textContent = "of " + (count - 1);
  element("jump").max = count - 1;
  element("hint").textContent = "Point at a column to see its record here.";
  listen();
  // Once for the columns' width, and again when that has brought a scroll bar.
  resize();
  view.zoom = Math.min(WIDEST_AT_FIRST, Math.max(USUAL, leastZoom()));
  sizeRoom();
  resize();
  goTo(addressed());
}
begin();
requestAnimationFrame(() => { document.documentElement.dataset.drawnAfterMs = Math.round(performance.now()); });
