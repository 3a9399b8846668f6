// What is drawn: for each block its segments, marks and messages.

const blocks = Array.from({ length: data.blocks }, (_, block) => ({
  block, happens: false, orders: [], messages: [], numbers: [],
  owners: [{ at: 0, home: [0, HOME, 0] }],
  cards: Array.from({ length: data.cards }, () => ({ segments: [{ at: 0, cell: [0, 0, 0] }], marks: [] })),
}));
const pool = [];
const refusals = [];
let longest = 1;

// A new segment, or another content if it begins at the same record.
function addSegment(segments, segment) {
  if (segments[segments.length - 1].at === segment.at) segments.pop();
  segments.push(segment);
}

function followChange(record, [what, ...numbers]) {
  const at = record.number;
  if (what === CELL) {
    const [block, card, ...cell] = numbers;
    addSegment(blocks[block].cards[card].segments, { at, cell });
    blocks[block].happens = true;
  } else if (what === HOME_PART) {
    const [block, ...home] = numbers;
    addSegment(blocks[block].owners, { at, home });
    blocks[block].happens = true;
  } else if (what === POOL_LOSES) {
    const [message] = pool.splice(numbers[0], 1);
    message.ended = at;
    message.fate = record.value === 1 ? "taken" : "stale";
    longest = Math.max(longest, at - message.sent);
  } else if (what === POOL_GAINS) {
    const [sender, receiver, block, , number] = numbers;
    const message = { sender, receiver, block, number, sent: at, ended: count, fate: "waiting", isCopy: record.kind === KIND.copy };
    pool.push(message);
    blocks[block].messages.push(message);
  }
}

// Whether a record of a block is marked in home's part and not in a card's.
const isHomes = ({ kind, card }) => kind === KIND.order || kind === KIND.copy || card < 0;

// Puts a record's mark into the rows that it is about.
function followMark(record, head) {
  const { kind, block, card } = record;
  if (kind === KIND.rejoin) followRejoin(record);
  if (block < 0) return;
  blocks[block].happens = true;
  blocks[block].numbers.push(record.number);
  if (isHomes(record)) {
    const given = record.changes.find((change) => change[0] === LAST_ORDER);
    blocks[block].orders.push({ record, head, number: given ? given[1] : 0 });
  } else {
    blocks[block].cards[card].marks.push(record);
  }
}

// A rejoin is marked in every block that it changes.
function followRejoin(record) {
  const changed = record.changes.filter(([what]) => what === CELL || what === HOME_PART).map(([, block]) => block);
  for (const block of new Set(changed)) {
    blocks[block].cards[record.card].marks.push(record);
    blocks[block].numbers.push(record.number);
  }
}

// The cards that stay in I all the time and are never spoken to.
function quietCards({ cards }) {
  return cards.flatMap(({ segments, marks }, card) => (segments.length === 1 && marks.length === 0 ? [card] : []));
}

// Gives each message of a block a lane of the pool's row. Those never delivered
// share the last one, and so do those that find no other free.
function giveLanes(drawn) {
  const ends = [], isWaiting = ({ fate }) => fate === "waiting";
  for (const message of drawn.messages) {
    if (isWaiting(message)) continue;
    const free = ends.findIndex((end) => end < message.sent);
    message.lane = free >= 0 ? free : Math.min(ends.length, LANES - 1);
    ends[message.lane] = Math.max(message.ended, ends[message.lane] || 0);
  }
  const waiting = drawn.messages.filter(isWaiting);
  drawn.lanes = Math.min(LANES, ends.length + (waiting.length > 0 ? 1 : 0));
  for (const message of waiting) message.lane = drawn.lanes - 1;
  findNext(drawn);
}
const LANES = 4;

// Tells each message which record puts the next one into its lane.
function findNext({ messages, lanes }) {
  const next = Array(lanes).fill(count);
  for (const message of messages.slice().reverse()) {
    message.next = next[message.lane];
    next[message.lane] = message.sent;
  }
}

function followAll() {
  const state = startState();
  for (const record of records) {
    if (record.refusal !== 0) refusals.push(record.number);
    followMark(record, state.line[0]);
    for (const change of record.changes) followChange(record, change);
    applyRecord(state, record);
    if (record.number % KEEP_EVERY === 0) kept.push(copyOf(state));
  }
  for (const drawn of blocks) {
    drawn.quiet = quietCards(drawn);
    giveLanes(drawn);
  }
}
followAll();
