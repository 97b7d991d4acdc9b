// The frames: each state's lines by key, which steps lead to from the state before, and what the lines say.

const RUN = JSON.parse(document.getElementById('data').textContent);
const [WIDTH, HEIGHT] = RUN.mesh;
const NODES = WIDTH * HEIGHT;
const WORDS = /(?:hold|wait|trapped) \S+|\S+/g;
const STEP = /^([^-=~+<]+)([-=~+<])(.*)$/;
const LINE_AT = { pending: 1, cache: 2, home: 1, packet: 2, link: 4 };
const RANKS = 'ncpahq';
const MOST_KEPT = 64;
const LAST = RUN.frames.length - 1;
const EVERY = Math.ceil(RUN.frames.length / MOST_KEPT);

// ---- steps

/** A word of a step as a checkpoint has it. */
function lengthened(word) {
  return word[0] === 'x' ? '0x' + word.slice(1).padStart(8, '0') : word;
}

/** A line of a step as a checkpoint has it. Of a message on a link the step has kind, line and stamp, and bytes that aren't zero. */
function lineOf(key, text) {
  const words = text.split(' ').map(lengthened);
  if (key[0] !== 'l') return words.join(' ');
  const [from, to] = key.slice(1).split('.'), body = words.length > 3 ? words.slice(3) : Array(4).fill('0x00000000');
  return ['link', from, to, words[0], words[1], from, words[2], ...body].join(' ');
}

/** A word some bytes beyond another one. */
function beyond(word, bytes) {
  return '0x' + ((Number(word) + bytes) % 2 ** 32).toString(16).padStart(8, '0');
}

/** A line after a step that changes words of it. */
function changedLine(line, changes) {
  const words = line.match(WORDS);
  for (const change of changes.split(';')) {
    if (change === '>') {
      [words[3], words[4]] = [words[4], beyond(words[4], 4)];
      continue;
    }
    const gap = change.indexOf(' ');
    words[Number(change.slice(0, gap))] = lengthened(change.slice(gap + 1));
  }
  return words.join(' ');
}

/** Does a step: its key and its sign, and the lines that are there no more, and those that are new. */
function doStep(lines, step) {
  const [, key, sign, text] = step.match(STEP);
  const old = lines.get(key);
  if (sign === '+') {
    const added = lineOf(key, text);
    lines.set(key, [...(old ?? []), added]);
    return { key, sign, gone: undefined, added };
  }
  if (sign === '<') {
    if (old.length > 1) lines.set(key, old.slice(1));
    else lines.delete(key);
    return { key, sign, gone: old[0], added: undefined };
  }
  if (sign === '-') lines.delete(key);
  else lines.set(key, sign === '~' ? changedLine(old, text) : lineOf(key, text));
  return { key, sign, gone: old, added: lines.get(key) };
}

/** Gives the nodes of events their stamp as clock, and the slots of instructions. */
function tick(lines, stamp, events) {
  for (const event of events) {
    const [letter, first, second] = event.split(' ', 3), key = `n${letter === 'D' ? second : first}`, words = lines.get(key).split(' ');
    words[3] = stamp;
    if (letter === 'I') words[5] = second;
    lines.set(key, words.join(' '));
  }
}

/** The line of shared data that a line of a state is about, or none. */
function aboutLine(text) {
  if (text === undefined) return null;
  const words = text.split(' ', 5);
  if (words[0] === 'context') return words[2] === 'hold' || words[2] === 'wait' ? Number(words[3]) : null;
  return words[0] in LINE_AT ? Number(words[LINE_AT[words[0]]]) : null;
}

/** The neighbours that a message goes through: along the row, then along the column. */
function route(from, to) {
  const wires = [];
  let at = from;
  while (at !== to) {
    const across = (to % WIDTH) - (at % WIDTH);
    const next = across ? at + Math.sign(across) : at + Math.sign(to - at) * WIDTH;
    wires.push(`${at} ${next}`);
    at = next;
  }
  return wires;
}

/** Adds a message that was sent to the loads of its wires. */
function addLoad(loads, text) {
  const [, from, to] = text.split(' ', 3);
  for (const wire of route(Number(from), Number(to))) loads.set(wire, (loads.get(wire) ?? 0) + 1);
}

// ---- what all frames have

/** The node that a key is of. */
function nodeOf(key) {
  const first = Number(key.slice(1).split('.')[0]);
  return Math.floor(first / ({ c: RUN.contexts, h: RUN.lines }[key[0]] ?? 1));
}

/** Adds a number of a list's frame, once. */
function addPlace(places, name, at) {
  const list = places.get(name) ?? places.set(name, []).get(name);
  if (list.at(-1) !== at) list.push(at);
}

/** Counts how many lines of a kind a node has, and keeps the most. */
function countLines(index, key, more) {
  const name = key[0] + nodeOf(key);
  index.numbers.set(name, (index.numbers.get(name) ?? 0) + more);
  index.most[key[0]] = Math.max(index.most[key[0]] ?? 0, index.numbers.get(name));
}

/** Takes a step into what all frames have. */
function indexStep(index, at, { key, sign, gone, added }) {
  if (gone === undefined) countLines(index, key, 1);
  if (added === undefined) countLines(index, key, -1);
  if (key[0] === 'l' && sign === '+') index.first ??= at;
  for (const text of [gone, added]) {
    const line = aboutLine(text);
    if (line !== null && at > 0) addPlace(index.changes, line, at);
    if (line !== null) index.lines.add(line);
  }
  if (sign === '+' && key[0] === 'l' && at > 0) addLoad(index.loads, added);
}

/** What is known of all frames: some states, where each line changes, the most lines of each kind that a node has, where a message is first, and counts. */
function indexed() {
  const index = { kept: [], changes: new Map(), lines: new Set(), most: {}, numbers: new Map(), first: null, loads: new Map(), counts: new Map() };
  const lines = new Map();
  RUN.frames.forEach(([stamp, events, steps], at) => {
    for (const step of steps) indexStep(index, at, doStep(lines, step));
    tick(lines, stamp, events);
    if (at > 0) for (const event of events) for (const [name, line] of counted(eventOf(event))) { addPlaces(index.counts, name, line, at); }
    if (at % EVERY === 0) index.kept.push({ lines: new Map(lines), loads: new Map(index.loads) });
  });
  return index;
}

/** Adds a count of a line at a frame, for the line and for all. */
function addPlaces(counts, name, line, at) {
  for (const key of [name, `${name} ${line}`]) {
    if (!counts.has(key)) counts.set(key, []);
    counts.get(key).push(at);
  }
}

// ---- one frame

/** The state that is at hand: the place of its frame, its lines and its loads. */
const HAND = { at: -1, lines: new Map(), loads: new Map() };

/** Brings the state of a frame to hand, from the one at hand or from a kept one before it. */
function bring(at) {
  const kept = Math.floor(at / EVERY);
  if (HAND.at > at || HAND.at < kept * EVERY) {
    HAND.at = kept * EVERY;
    HAND.lines = new Map(INDEX.kept[kept].lines);
    HAND.loads = new Map(INDEX.kept[kept].loads);
  }
  while (HAND.at < at) {
    const [stamp, events, steps] = RUN.frames[++HAND.at];
    for (const step of steps) {
      const { key, sign, added } = doStep(HAND.lines, step);
      if (sign === '+' && key[0] === 'l') addLoad(HAND.loads, added);
    }
    tick(HAND.lines, stamp, events);
  }
}

/** Where a key's lines stand in a state. */
function placesOf(key) {
  const numbers = key.slice(1).split('.').map(Number);
  return key[0] === 'l' ? [NODES, ...numbers] : [nodeOf(key), RANKS.indexOf(key[0]), ...numbers];
}

/** How two lists of numbers are ordered. */
function ordered(a, b) {
  const at = a.findIndex((number, place) => number !== b[place]);
  return at < 0 ? 0 : a[at] - b[at];
}

/** The keys that the steps of a frame touch, each with how many lines are new behind it. */
function touchedAt(at) {
  const touched = new Map();
  if (at === 0) return touched;
  for (const step of RUN.frames[at][2]) {
    const [, key, sign] = step.match(STEP);
    if (sign !== '<' && sign !== '-') touched.set(key, (touched.get(key) ?? 0) + 1);
  }
  return touched;
}

/** The lines of a state by key in a checkpoint's order, each with whether it is new. */
function inOrder(lines, touched) {
  const keys = [...lines.keys()].map((key) => [placesOf(key), key]).sort(([a], [b]) => ordered(a, b));
  return keys.flatMap(([, key]) => {
    const value = lines.get(key), fresh = touched.get(key) ?? 0;
    return Array.isArray(value) ? value.map((text, at) => ({ text, fresh: at >= value.length - fresh })) : [{ text: value, fresh: fresh > 0 }];
  });
}

/** The loads of a frame. */
function loadsAt(at) {
  bring(at);
  return new Map(HAND.loads);
}

/** A frame: its stamp, its events, its lines, and the loads so far. */
function frameAt(at) {
  bring(at);
  const [stamp, events] = RUN.frames[at];
  return { stamp, events: events.map(eventOf), lines: inOrder(HAND.lines, touchedAt(at)), loads: new Map(HAND.loads) };
}

/** What a line of a state says, as an object with its kind. */
function said(text) {
  const words = text.match(WORDS);
  const number = (at) => Number(words[at]);
  switch (words[0]) {
    case 'node': return { clock: number(3), slot: number(5) };
    case 'context': return { number: number(1), status: words[2], pc: words[3], npc: words[4], y: words[5], codes: words[6], registers: words.slice(7) };
    case 'pending': return { line: number(1), mode: words[2], slot: number(3) };
    case 'cache': return { set: number(1), line: number(2), mode: words[3], body: words.slice(4) };
    case 'home': return { line: number(1), state: words[2], meta: words[3], hw: words[5], sw: words[7], acks: number(9), body: words.slice(10) };
    case 'packet': return { kind: words[1], line: number(2), from: number(3), stamp: number(4), body: words.slice(5) };
    default: return { from: number(1), to: number(2), kind: words[3], line: number(4), stamp: number(6), body: words.slice(7) };
  }
}

/** A state of lines: its nodes, each with what it has, the messages on each link, and the nodes with a copy of each line. Members know whether they are new. */
function stateOf(lines) {
  const nodes = [], links = new Map(), copies = new Map();
  for (const { text, fresh } of lines) {
    const kind = text.slice(0, text.indexOf(' '));
    const each = { ...said(text), fresh };
    if (kind === 'node') {
      nodes.push({ ...each, context: [], pending: [], cache: [], home: [], packet: [] });
    } else if (kind === 'link') {
      const name = `${each.from} ${each.to}`;
      links.set(name, [...(links.get(name) ?? []), each]);
    } else {
      nodes[nodes.length - 1][kind].push(each);
      if (kind === 'cache') copies.set(each.line, [...(copies.get(each.line) ?? []), { ...each, node: nodes.length - 1 }]);
    }
  }
  return { nodes, links, copies };
}

/** A home line as it is at the start. */
function startOfHome(line) {
  const body = (RUN.bodies[line] ?? '0x00000000 0x00000000 0x00000000 0x00000000').split(' ');
  return { line, state: 'RO', meta: RUN.always.includes(line) ? 'trap-always' : 'normal', hw: '-', sw: '-', acks: 0, body, fresh: false };
}

/** The home line of a number in a state. */
function homeOf(state, line) {
  return state.nodes[Math.floor(line / RUN.lines)].home.find((home) => home.line === line) ?? startOfHome(line);
}
