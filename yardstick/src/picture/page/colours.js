// Colours: a hue for each right, stripes while a request waits to be ordered,
// dots while data is awaited.

const style = { colours: {}, patterns: [] };
const HUES = [
  ["none"], ["loads"], ["stores"], ["loads", "rise"], ["stores", "rise"], ["loads", "rise", "stores"],
  ["loads", "dots"], ["stores", "dots"], ["loads", "dots", "stores"], ["stores", "fall", "leaves"], ["leaves", "fall"],
  ["owns"], ["owns", "rise", "stores"], ["owns", "fall", "leaves"],
];
const TILE = 8;

function readColours() {
  const computed = getComputedStyle(document.documentElement);
  for (const name of ["back", "soft", "ink", "dim", "edge", "accent", "bad", "bad-back", "none", "loads", "stores", "leaves", "owns",
    "granted", "back-to-line", "put", "message", "stale", "pale"]) {
    style.colours[name] = computed.getPropertyValue("--" + name).trim();
  }
  style.patterns = HUES.map(makePattern);
  style.hatch = tiled((pen) => {
    pen.globalAlpha = 0.5;
    pen.strokeStyle = style.colours.bad;
    drawFigure(pen, "rise");
  });
}

// A pattern from what is drawn on one tile of it.
function tiled(draw) {
  const tile = document.createElement("canvas");
  tile.width = tile.height = TILE;
  const pen = tile.getContext("2d");
  draw(pen);
  return pen.createPattern(tile, "repeat");
}

// The fill of a state: a hue, or a pale one with stripes or dots of a hue.
function makePattern([base, figure, over]) {
  const { colours } = style;
  if (!figure) return colours[base];
  return tiled((pen) => {
    pen.fillStyle = colours.back;
    pen.fillRect(0, 0, TILE, TILE);
    pen.globalAlpha = over ? 0.85 : Number(colours.pale);
    pen.fillStyle = colours[base];
    pen.fillRect(0, 0, TILE, TILE);
    pen.globalAlpha = 1;
    pen.fillStyle = pen.strokeStyle = colours[over || base];
    drawFigure(pen, figure);
  });
}

function drawFigure(pen, figure) {
  if (figure === "dots") {
    for (const [x, y] of [[2, 2], [6, 6]]) pen.fillRect(x - 1, y - 1, 3, 3);
    return;
  }
  pen.lineWidth = 2.2;
  pen.beginPath();
  for (const shift of [-TILE, 0, TILE]) {
    const [from, to] = figure === "rise" ? [TILE, 0] : [0, TILE];
    pen.moveTo(shift - 1, from + (figure === "rise" ? 1 : -1));
    pen.lineTo(shift + TILE + 1, to + (figure === "rise" ? -1 : 1));
  }
  pen.stroke();
}

// A small canvas, sharp on every screen, with something drawn on it.
function picture(width, height, draw) {
  const canvas = document.createElement("canvas");
  const scale = window.devicePixelRatio || 1;
  canvas.width = width * scale;
  canvas.height = height * scale;
  canvas.style.width = width + "px";
  canvas.style.height = height + "px";
  const pen = canvas.getContext("2d");
  pen.scale(scale, scale);
  draw(pen, width, height);
  canvas.setAttribute("aria-hidden", "true");
  return canvas;
}

const swatch = (state) => picture(22, 13, (pen, width, height) => {
  pen.fillStyle = style.patterns[state];
  pen.fillRect(0, 0, width, height);
  pen.strokeStyle = style.colours.dim;
  pen.strokeRect(0.5, 0.5, width - 1, height - 1);
});
