// The events: what the log says of each, as an object, as a sentence, and as two rows of a box; and the counts.

const FIELDS = { sets: 2, reads: 3, writes: 3, taken: 1, annuls: 0, prints: 1, halts: 0, misses: 3, 'ends-hold': 1, wakes: 1, holds: 1, replaces: 2, copy: 2,
  before: 8, after: 8, spill: 0, sends: 3 };
const MOST_NAMED = 3, SHARED = 0x40000000, LINE_BYTES = 16;
const HEADS = { I: ['node', 'slot', 'pc'], D: ['from', 'node', 'kind', 'line'], H: ['node', 'kind', 'line', 'from'], E: ['node', 'set', 'line', 'mode'] };

/** A hexadecimal word without leading zeros. */
function short(word) {
  return '0x' + Number(word[0] === 'x' ? '0' + word : word).toString(16);
}

/** An event, with the fields of its pieces by their words. Messages that it sends, and slots that wake, are lists. */
function eventOf(text) {
  const [told, why] = text.split('|'), [letter, ...words] = told.split(' ');
  const event = { letter, why, sends: [], wakes: [] };
  for (const name of HEADS[letter]) event[name] = words.shift();
  while (words.length) {
    const name = words.shift(), count = name === 'traps' ? Number(letter === 'I') : FIELDS[name];
    const fields = words.splice(0, count);
    if (name === 'sends' || name === 'wakes') event[name].push(fields);
    else event[name] = fields;
  }
  return event;
}

/** What an event adds to the counts: pairs of a count's name and a line. */
function counted(event) {
  const sent = event.sends.filter(([kind]) => RUN.counted.includes(kind)).map(([kind, line]) => [kind, line]);
  if (event.letter === 'H') sent.push(['handlers', event.line]);
  if (event.misses) sent.push(['misses', event.misses[0]]);
  return sent;
}

// ---- names

/** A line with the names of what lies there. */
function lineName(line) {
  return RUN.names[line] ? `${line} (${RUN.names[line]})` : `${line}`;
}

/** The statement at a PC, and its place in the source. */
function statementAt(pc) {
  return RUN.statements['x' + Number(pc[0] === 'x' ? '0' + pc : pc).toString(16)] ?? ['', ''];
}

/** The part of a place that is short: of calls that are inlined the innermost one that isn't in a header. */
function shortPlace(place) {
  const parts = place.split(' in ').map((part) => part.split(' ')[0]);
  return parts.find((part) => !/\.h:/.test(part)) ?? parts[0];
}

/** A statement and where it is in the source, short or whole. */
function statementText(pc, whole = false) {
  const [statement, place] = statementAt(pc);
  return [statement || `pc ${short(pc)}`, whole ? place : shortPlace(place)].filter(Boolean).join(whole ? ' at ' : '  ');
}

// ---- sentences

/** The entry of the fields of a piece. */
function entryOf([state, meta, , hw, , sw, , acks]) {
  return { state, meta, hw, sw, acks: Number(acks) };
}

/** An entry in few words. */
function entryText({ state, meta, hw, sw, acks }) {
  return [state, meta === 'normal' ? '' : meta, `H ${hw}`, sw === '-' ? '' : `S ${sw}`, acks ? `n ${acks}` : ''].filter(Boolean).join(' ');
}

/** An entry for a box, where sets of many nodes are told by their numbers. */
function shortEntry(entry) {
  const few = (set) => (set.split(',').length > MOST_NAMED ? `${set.split(',').length} nodes` : set);
  return entryText({ ...entry, hw: few(entry.hw), sw: few(entry.sw) });
}

/** How an entry changes. */
function changeText({ before, after }, told) {
  const [old, now] = [told(entryOf(before)), told(entryOf(after))];
  return old === now ? `stays ${old}` : `${old} → ${now}`;
}

/** Bytes that were read or written. */
function bytesText([address, , value]) {
  const line = Math.floor((Number('0' + address) - SHARED) / LINE_BYTES);
  return `${short(value)} at ${short(address)}, line ${lineName(line)}`;
}

/** What was sent: messages of a kind and a line together. */
function sentText(event) {
  const sent = new Map();
  for (const [kind, line, to] of event.sends) {
    const name = `${kind}${line === (event.misses?.[0] ?? event.line) ? '' : ` of line ${lineName(line)}`}`;
    sent.set(name, [...(sent.get(name) ?? []), to]);
  }
  return sent.size ? [`sends ${[...sent].map(([name, nodes]) => `${name} to ${nodes.join(', ')}`).join(', ')}`] : [];
}

/** What became of an instruction. */
function turnTexts(event) {
  const { misses, reads, writes, sets, taken, annuls, prints, halts, traps, why } = event;
  if (misses) return [`misses line ${lineName(misses[0])} to ${misses[1]}: ${why ?? 'why isn’t known'}`];
  const held = event['ends-hold'];
  return [
    reads && `reads ${bytesText(reads)}`, writes && `writes ${bytesText(writes)}`, sets && `${sets[0]} is ${short(sets[1])}`,
    taken && `goes to ${short(taken[0])}`, annuls && 'leaves the next one out',
    prints && `prints ${short(prints[0])}`, halts && 'halts', traps && `traps ${short(traps[0])}`,
    held && `no longer holds line ${lineName(held[0])}`,
  ].filter(Boolean);
}

/** What a message does to a cache. */
function cacheTexts(event) {
  const woken = event.wakes.map(([slot]) => `slot ${slot} wakes${event.holds?.[0] === slot ? ' and holds the line' : ''}`);
  const left = event.replaces ? [`the copy of line ${lineName(event.replaces[0])} leaves`] : [];
  const [old, now] = event.copy;
  return [...woken, ...left, old === now ? `copy stays ${old}` : `copy ${old} → ${now}`];
}

/** What an event did, in parts of a sentence. */
function didTexts(event) {
  if (event.letter === 'I') return turnTexts(event);
  if (event.letter === 'E') return [];
  if (event.copy) return cacheTexts(event);
  if (event.traps) return ['traps: a packet for the handler'];
  return [`entry ${changeText(event, entryText)}`, ...(event.spill ? ['pointers go to software'] : [])];
}

/** What an event is. */
function isText(event, whole) {
  const line = `${event.kind} of line ${lineName(event.line)} from ${event.from}`;
  if (event.letter === 'I') return `${RUN.contexts > 1 ? `slot ${event.slot} ` : ''}${statementText(event.pc, whole)}`;
  if (event.letter === 'E') return `evicts line ${lineName(event.line)} (${event.mode})`;
  return event.letter === 'H' ? `handles ${line}` : `takes ${line}${whole && event.why ? `, ${event.why}` : ''}`;
}

/** An event as a sentence. */
function sentence(event) {
  const did = [...didTexts(event), ...sentText(event)].join('; ');
  return `node ${event.node}: ${isText(event, true)}${did && `: ${did}`}`;
}

/** What was sent, in few words. */
function shortSent(event) {
  if (event.sends.length > MOST_NAMED) return `sends ${event.sends.length} ${event.sends[0][0]}`;
  return event.sends.length ? `sends ${event.sends.map(([kind, , to]) => `${kind} to ${to}`).join(', ')}` : '';
}

/** What an event did, in few words. */
function shortDid(event) {
  if (event.before) return changeText(event, shortEntry);
  return event.copy ? cacheTexts(event).at(-1) : didTexts(event)[0] ?? '';
}

/** An event as rows of its node's box: what it is, what it did, and what was sent. */
function rowsOfEvent(event) {
  const did = event.misses ? `misses ${lineName(event.misses[0])}: ${event.why ?? ''}`.split(' for node')[0] : shortDid(event);
  return [isText(event), did, shortSent(event)];
}

// ---- all frames

const INDEX = indexed();
const LINES = [...new Set([...INDEX.lines, ...Object.keys(RUN.bodies).map(Number), ...RUN.always])].sort((a, b) => a - b);

/** How many of a list's places are at most a frame's. */
function countUpTo(places, at) {
  let low = 0, high = places.length;
  while (low < high) {
    const middle = (low + high) >> 1;
    if (places[middle] <= at) low = middle + 1;
    else high = middle;
  }
  return low;
}

/** A count up to a frame and in the whole run, of a line or of all. */
function countOf(name, line, at) {
  const place = RUN.counted.indexOf(name);
  const of = (counts) => (line === null ? Object.values(counts) : [counts[line]]).reduce((sum, each) => sum + (each?.[place] ?? 0), 0);
  return [of(RUN.before) + countUpTo(INDEX.counts.get(line === null ? name : `${name} ${line}`) ?? [], at), of(RUN.whole)];
}

/** The table of counts: of all lines, and of the followed one. */
function drawCounts(at, line) {
  const of = line === null ? [null] : [null, line];
  const heads = of.map((each) => `<th scope="col">${each === null ? 'all lines' : escaped(`line ${lineName(each)}`)}</th>`).join('');
  const rows = RUN.counted.map((name) => {
    const cells = of.map((each) => `<td>${countOf(name, each, at).join(' of ')}</td>`).join('');
    return `<tr><td>${name}</td>${cells}</tr>`;
  });
  return `<table><caption>So far, and in all</caption><thead><tr><th></th>${heads}</tr></thead><tbody>${rows.join('')}</tbody></table>`;
}

const MOST_PRINTS = 400;

/** The list of printed words, those around a stamp where there are very many. */
function drawPrints(stamp) {
  if (!RUN.prints.length) return '';
  const near = RUN.prints.findIndex(([each]) => each > stamp), place = near < 0 ? RUN.prints.length : near;
  const first = Math.max(0, Math.min(place - MOST_PRINTS / 2, RUN.prints.length - MOST_PRINTS));
  const rows = RUN.prints.slice(first, first + MOST_PRINTS).map(([at, context, word]) => {
    const there = at >= RUN.frames[0][0] && at <= RUN.frames[LAST][0];
    const button = there ? `<button type="button" data-stamp="${at}">${at}</button>` : at;
    return `<tr${at === stamp ? ' aria-current="true"' : ''}><td>${button}</td><td>${context}</td><td>${word} ${Number(word)}</td></tr>`;
  });
  const note = rows.length < RUN.prints.length ? `${rows.length} of ${RUN.prints.length}` : RUN.prints.length;
  return scrolled(`Printed words: ${note}`, ['stamp', 'context', 'word'].map((name) => `<th scope="col">${name}</th>`).join(''), rows.join(''));
}
