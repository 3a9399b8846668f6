// The state after each record, rebuilt from the changes that the engine
// recorded. Nothing here, nor in the other scripts, knows the rules.

const data = JSON.parse(document.getElementById("data").textContent);
const HOME = 255;
const KIND = { start: 0, load: 1, store: 2, ask: 3, drop: 4, order: 5, deliver: 6, copy: 7, rejoin: 8, damage: 9 };
const REQUESTS = ["", "GETS", "GETX", "PUTX"];
const element = (id) => document.getElementById(id);

// A record by names instead of places.
function recordOf(row, number) {
  const [kind, place, text, mark, words, refusal, value, block, card, changes] = row;
  return {
    number, kind, place, refusal, value, block, card, changes,
    text: data.texts[text], mark: data.texts[mark], words: data.texts[words],
  };
}
const records = data.records.map(recordOf);
const count = records.length;
const stateName = (code) => data.states[code][0] + " (" + code + ")";
const isEnd = (record) => data.ends && record.number === count - 1;

function startState() {
  const cells = [], home = [];
  for (let block = 0; block < data.blocks; block++) {
    cells.push(Array.from({ length: data.cards }, () => [0, 0, 0]));
    home.push([0, HOME, 0]);
  }
  return { cells, home, line: [], pool: [], last: 0 };
}

function copyOf(state) {
  return {
    cells: state.cells.map((cells) => cells.slice()), home: state.home.slice(),
    line: state.line.slice(), pool: state.pool.slice(), last: state.last,
  };
}

// The changes by their number: what each does to a state.
const CHANGES = [
  (state, [block, card, ...cell]) => { state.cells[block][card] = cell; },
  (state, [block, ...home]) => { state.home[block] = home; },
  (state, [position]) => { state.line.splice(position, 1); },
  (state, request) => { state.line.push(request); },
  (state, [position]) => { state.pool.splice(position, 1); },
  (state, message) => { state.pool.push(message); },
  (state, [number]) => { state.last = number; },
];
const CELL = 0, HOME_PART = 1, LINE_GAINS = 3, POOL_LOSES = 4, POOL_GAINS = 5, LAST_ORDER = 6;

function applyRecord(state, record) {
  for (const [what, ...numbers] of record.changes) CHANGES[what](state, numbers);
}

// States kept on the way, so that any other is near one of them.
const KEEP_EVERY = 256;
const kept = [];

function stateAfter(number) {
  const from = Math.floor(number / KEEP_EVERY);
  const state = copyOf(kept[from]);
  for (let at = from * KEEP_EVERY + 1; at <= number; at++) applyRecord(state, records[at]);
  return state;
}
