// The tables: homes, contexts, caches, messages and wires of a state, and a followed line over the stamps.

/** A row of a table: its cells, the line of shared data that it is about, and whether it changed at this stamp. */
function row(cells, line, fresh) {
  return { cells, line, fresh };
}

/** A cell as markup, with the colour of a copy's or an entry's state. */
function drawCell(cell) {
  if (TINTED.has(cell)) return `<td><span class="tint" style="background:var(--${cell})">${cell}</span></td>`;
  return `<td${String(cell).length > 60 ? ' class="wide"' : ''}>${escaped(cell)}</td>`;
}

/** A row as markup, with marks where it changed or is followed. */
function drawRow({ cells, line, fresh }) {
  const followed = line !== undefined && line === VIEW.line;
  const kind = `${fresh ? 'changed ' : ''}${followed ? 'followed' : ''}`;
  const mark = `${followed ? '▶' : ''}${fresh ? '•' : ''}`;
  const name = [followed ? 'followed' : '', fresh ? 'changed' : ''].filter(Boolean).join(', ');
  const sign = mark && `<span role="img" aria-label="${name}">${mark}</span>`;
  const button = line === undefined ? '' : `<button type="button" data-line="${line}" aria-label="follow line ${line}">${escaped(lineName(line))}</button>`;
  const drawn = cells.map((cell) => (cell === LINE ? `<td>${button}</td>` : drawCell(cell)));
  return `<tr class="${kind}"><td>${sign}</td>${drawn.join('')}</tr>`;
}

const LINE = Symbol('line');
const TINTED = new Set(['read', 'write', 'RO', 'RW', 'RT', 'WT']);

const MOST_SHOWN = 300;

/** A table, of the rows that are asked for: the first of them, where there are very many, and those of the followed line. */
function drawTable(caption, heads, rows) {
  const wanted = { all: () => true, changed: (each) => each.fresh, followed: (each) => each.line !== undefined && each.line === VIEW.line }[VIEW.rows];
  const shown = rows.filter(wanted).filter((each, at) => at < MOST_SHOWN || (each.line !== undefined && each.line === VIEW.line));
  const note = shown.length === rows.length ? '' : ` (${shown.length} of ${rows.length})`;
  const head = ['', ...heads].map((name) => `<th scope="col">${name}</th>`).join('');
  const body = shown.map(drawRow).join('') || `<tr><td></td><td colspan="${heads.length}">none</td></tr>`;
  return `<section><table><caption>${caption}${note}</caption><thead><tr>${head}</tr></thead><tbody>${body}</tbody></table></section>`;
}

/** The four words of a line. */
function bodyText(body) {
  return body.map((word) => word.slice(2)).join(' ');
}

const CARRIERS = new Set(['REPM', 'UPDATE', 'RDATA', 'WDATA']);

/** The four words of a message's line, where its kind carries one. */
function carriedText(message) {
  return CARRIERS.has(message.kind) ? bodyText(message.body) : '-';
}

/** The registers that aren't 0, and the condition codes. */
function registersText(context) {
  const names = ['g', 'o', 'l', 'i'].flatMap((letter) => [...Array(8).keys()].map((at) => `%${letter}${at}`));
  const set = context.registers.map((word, at) => [names[at + 1], short(word)]).filter(([, word]) => word !== '0x0');
  if (context.y !== '0x00000000') set.push(['%y', short(context.y)]);
  const codes = [...'nzvc'].filter((_, at) => context.codes[at] === '1').join('');
  return set.map(([name, word]) => `${name}=${word}`).join(' ') + (codes ? ` codes=${codes}` : '');
}

/** The words of a line up to its last one that isn't 0. */
function wordsText(body) {
  return body.slice(0, 1 + Math.max(0, body.findLastIndex((word) => word !== '0x00000000'))).map(short).join(' ');
}

/** Who has a copy of a line, by the caches, with its words, and whether a context holds it. */
function copiesText(state, line) {
  const told = (state.copies.get(line) ?? []).map(({ node, mode, body }) => {
    const held = state.nodes[node].context.some((each) => each.status === `hold ${line}`) ? ' held' : '';
    return `${node} ${mode}${held} ${wordsText(body)}`;
  });
  return told.join(', ') || '-';
}

/** The table of homes. */
function homes(state) {
  const rows = LINES.map((line) => {
    const home = homeOf(state, line);
    const cells = [LINE, Math.floor(line / RUN.lines), home.state, home.meta, home.hw, home.sw, home.acks, bodyText(home.body), copiesText(state, line)];
    return row(cells, line, home.fresh);
  });
  return drawTable('Home lines', ['line', 'home', 'state', 'meta state', 'H', 'S', 'counter', 'words', 'copies (node, mode, words)'], rows);
}

/** The table of contexts. */
function contexts(state) {
  const rows = state.nodes.flatMap((node, number) => node.context.map((each, slot) => {
    const [status, line] = each.status.split(' ');
    const about = status === 'hold' || status === 'wait' ? Number(line) : undefined;
    const [statement, place] = statementAt(each.pc);
    const cells = [number, slot + (slot === node.slot ? ' *' : ''), each.status, short(each.pc), statement, place, short(each.npc), registersText(each)];
    return row(cells, about, each.fresh);
  }));
  return drawTable('Contexts', ['node', 'slot (* current)', 'status', 'PC', 'statement', 'source', 'nPC', 'registers that aren’t 0'], rows);
}

/** The table of caches. */
function caches(state) {
  const cells = (each, number) => [number, each.set, LINE, each.mode, bodyText(each.body)];
  const rows = state.nodes.flatMap((node, number) => node.cache.map((each) => row(cells(each, number), each.line, each.fresh)));
  return drawTable('Caches', ['node', 'set', 'line', 'mode', 'words'], rows);
}

/** The table of transactions. */
function transactions(state) {
  const rows = state.nodes.flatMap((node, number) => node.pending.map((each) => row([number, LINE, each.mode, each.slot], each.line, each.fresh)));
  return drawTable('Transactions', ['node', 'line', 'mode', 'opened by slot'], rows);
}

/** The table of messages on their way, and of packets. */
function messages(state) {
  const drawn = (each, place, at) => row([place, at + 1, each.kind, LINE, each.stamp, carriedText(each)], each.line, each.fresh);
  const links = [...state.links.values()].flatMap((link) => link.map((each, at) => drawn(each, `${each.from} to ${each.to}`, at)));
  const packets = state.nodes.flatMap((node, number) => node.packet.map((each, at) => drawn(each, `queue of ${number}, from ${each.from}`, at)));
  return drawTable('Messages on their way, and packets for the handler', ['link', 'place', 'kind', 'line', 'stamp', 'words'], [...links, ...packets]);
}

/** The table of wires. */
function wires(frame, before) {
  const rows = neighbours().map(([from, to]) => {
    const name = `${from} ${to}`, sent = frame.loads.get(name) ?? 0;
    const crossing = sent !== (before.get(name) ?? 0);
    return row([`${from} to ${to}`, sent, RUN.loads ? TOTALS.get(name) ?? 0 : 'not told'], undefined, crossing);
  });
  return drawTable('Wires', ['from, to', 'sent so far', 'in all'], rows);
}

/** All tables of a state. */
function drawTables(state, frame, before) {
  return [homes(state), messages(state), contexts(state), caches(state), transactions(state), wires(frame, before)].join('');
}

// ---- a followed line

/** The places of the frames in which a line changes. */
function changesOf(line) {
  return INDEX.changes.get(line) ?? [];
}

/** The lines of a frame that are about a line, and those of nodes. */
function linesAbout(line) {
  const found = new Map();
  for (const [key, value] of HAND.lines) {
    const kept = Array.isArray(value) ? value.filter((text) => aboutLine(text) === line) : value;
    if (key[0] === 'n' || (Array.isArray(kept) ? kept.length : aboutLine(kept) === line)) found.set(key, kept);
  }
  return inOrder(found, new Map());
}

/** The cells of the followed line that are known, by frame. */
const CELLS = { line: null, rows: new Map() };

/** What a frame says of a line, as the cells of a row, found once as long as the line is followed. */
function lineCells(at, line) {
  if (CELLS.line !== line) Object.assign(CELLS, { line, rows: new Map() });
  if (!CELLS.rows.has(at)) CELLS.rows.set(at, foundCells(at, line));
  return CELLS.rows.get(at);
}

/** The same, found in the frame. */
function foundCells(at, line) {
  bring(at);
  const state = stateOf(linesAbout(line));
  const home = homeOf(state, line);
  const asking = state.nodes.flatMap((node, number) => node.pending.map((each) => `${number} ${each.mode}`)).join(', ') || '-';
  const way = [...state.links.values()].flat().map((each) => `${each.kind} ${each.from} to ${each.to}`);
  const queue = state.nodes.flatMap((node, number) => node.packet.map((each) => `${each.kind} from ${each.from} in the queue of ${number}`));
  return [home.state, home.meta, home.hw, home.sw, home.acks, wordsText(home.body), copiesText(state, line), asking, [...way, ...queue].join(', ') || '-'];
}

const MOST_CHANGES = 200;

/** A table that scrolls below its name. */
function scrolled(name, heads, rows) {
  const table = `<table><thead><tr>${heads}</tr></thead><tbody>${rows}</tbody></table>`;
  return `<h2>${escaped(name)}</h2><div class="scroll" tabindex="0" role="region" aria-label="${escaped(name)}">${table}</div>`;
}

/** The table of a followed line: a row for each frame in which it changes, those around the one that is shown where there are too many. */
function drawHistory(line, at) {
  const all = changesOf(line);
  const first = Math.max(0, Math.min(all.findLastIndex((each) => each <= at) - MOST_CHANGES / 2, all.length - MOST_CHANGES));
  const shown = all.slice(first, first + MOST_CHANGES);
  const rows = shown.map((each) => {
    const cells = lineCells(each, line).map(drawCell).join('');
    return `<tr data-at="${each}"><td></td><td><button type="button" data-at="${each}">${RUN.frames[each][0]}</button></td>${cells}</tr>`;
  });
  const names = ['', 'stamp', 'state', 'meta state', 'H', 'S', 'counter', 'words', 'copies', 'asked for by', 'on the way'];
  const heads = names.map((name) => `<th scope="col">${name}</th>`).join('');
  const note = shown.length < all.length ? `${shown.length} of ${all.length} changes` : `${all.length} changes`;
  return scrolled(`Line ${lineName(line)}, home ${Math.floor(line / RUN.lines)}: ${note}`, heads, rows.join(''));
}
