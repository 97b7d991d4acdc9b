// The map: the mesh with a box for each node, large where something moved, wires with their loads, and the messages on their way, along their routes.

const BOX = { places: [] };
const SIZES = {
  wide: { width: 232, small: 158, across: 86, down: 42, margin: 20 },
  narrow: { width: 196, small: 140, across: 56, down: 40, margin: 20 },
};
const NARROW = 700, MOST_LABELLED = 16, MOST_SCALE = 1.15, LEAST_HEIGHT = 320;
const ROW = 14, LETTER = 7.25, MOST_ROWS = 8, FEW_LINES = 4, MOST_NAMES = 2;
const NEAR = { row: ROW, letter: LETTER, kind: '' };
const FAR = { row: 24, letter: 12.1, kind: 'far' };
const IS_FAR = NODES > MOST_LABELLED, SMALL = IS_FAR ? FAR : NEAR, LARGE = IS_FAR ? { row: 17, letter: 9.1, kind: 'names' } : NEAR;
const HEAVY = new Set(['RDATA', 'WDATA']);
BOX.height = LARGE.row * (1 + MOST_ROWS) + 8;

/** Takes the sizes that suit the window, and the edges of the whole map. */
function measure() {
  Object.assign(BOX, SIZES[document.documentElement.clientWidth < NARROW ? 'narrow' : 'wide'], { places: [] });
  if (IS_FAR) BOX.down = 26;
  BOX.large = BOX.width + (IS_FAR ? Math.round(BOX.across * 0.8) : 0);
  const last = cellOf(NODES - 1), aside = (BOX.large - BOX.width) / 2 + 6;
  BOX.edges = { left: -aside, top: -BOX.margin, right: last.right + aside, bottom: last.bottom + BOX.margin };
}

/** The cell of a node, in which its box stands in the middle. */
function cellOf(node) {
  const left = (node % WIDTH) * (BOX.width + BOX.across), top = Math.floor(node / WIDTH) * (BOX.height + BOX.down);
  return { left, top, right: left + BOX.width, bottom: top + BOX.height, x: left + BOX.width / 2, y: top + BOX.height / 2 };
}

/** The place of a node's box, or of its cell before anything is drawn. */
function placeOf(node) {
  return BOX.places[node] ?? cellOf(node);
}

/** A text that stands in markup. */
function escaped(text) {
  return String(text).replace(/[&<>"]/g, (letter) => `&#${letter.charCodeAt(0)};`);
}

/** A text of the map. */
function svgText(x, y, text, kind = '', extra = '') {
  return `<text x="${x}" y="${y}" class="${kind}" ${extra}>${escaped(text)}</text>`;
}

// ---- what a box says

/** How much a row is wanted: the followed line's first, then what changed, then lines that are asked for or on their way. */
function wanted(row, moving) {
  return 4 * isFollowed(row) + 2 * row.fresh + moving.has(row.line);
}

/** Whether a row is of the followed line. */
function isFollowed(row) {
  return row.line !== undefined && row.line === VIEW.line;
}

/** The rows of what a node asks for, has, is the home of, and has in its queue, each with the state that gives it a colour. */
function rowsOfLines(node) {
  const rows = (kind, each, text, tint) => ({ kind, text, line: each.line, fresh: each.fresh, tint });
  return [
    ...node.pending.map((each) => rows('asks', each, `asks  ${lineName(each.line)} ${each.mode}`)),
    ...node.home.map((each) => rows('home', each, `home  ${lineName(each.line)} ${shortEntry(each)}`, each.state)),
    ...node.packet.map((each) => rows('queue', each, `queue ${each.kind} ${lineName(each.line)} from ${each.from}`)),
    ...node.cache.map((each) => rows('cache', each, `cache ${lineName(each.line)} ${each.mode} ${short(each.body[0])}`, each.mode)),
  ];
}

/** The row of a context: what it does. */
function rowOfContext(each, slot, node) {
  const [status, line] = each.status.split(' ');
  const about = status === 'hold' || status === 'wait' ? Number(line) : undefined;
  const does = about === undefined ? each.status : `${status} ${lineName(about)}`;
  return { text: `${slot === node.slot ? '*' : ' '}${slot} ${does}`, line: about, fresh: each.fresh };
}

/** The statement at which a node's context is, where its event doesn't say it. */
function rowsOfStatement(node, event) {
  return event?.letter === 'I' ? [] : [{ text: `   ${statementText(node.context[node.slot].pc)}` }];
}

/** How many rows of each kind have no room, as a row. */
function rowsOfRest(rest) {
  const counts = new Map();
  for (const { kind } of rest) counts.set(kind, (counts.get(kind) ?? 0) + 1);
  return counts.size ? [{ text: ` and ${[...counts].map(([kind, count]) => `${count} ${kind}`).join(', ')}`, soft: true }] : [];
}

/** The rows of a large box: its event, its contexts, and of its lines those that are wanted most. */
function rowsOfLarge(node, event, moving) {
  const told = (event ? rowsOfEvent(event) : []).filter(Boolean).map((text) => ({ text: ` ${text}`, inverse: true }));
  const contexts = node.context.map((each, slot) => rowOfContext(each, slot, node)).slice(0, 3);
  const head = [...told, ...contexts, ...rowsOfStatement(node, event)].slice(0, MOST_ROWS - 2);
  const lines = rowsOfLines(node).sort((a, b) => wanted(b, moving) - wanted(a, moving));
  const useful = lines.length <= FEW_LINES ? lines.length : lines.filter((row) => wanted(row, moving)).length;
  const room = MOST_ROWS - head.length - 1, shown = lines.slice(0, Math.min(useful, lines.length <= room + 1 ? room + 1 : room));
  return [...head, ...shown, ...rowsOfRest(lines.slice(shown.length))];
}

/** The rows of a small box: what its context does, and the followed line. */
function rowsOfSmall(node) {
  const context = node.context[node.slot], row = rowOfContext(context, node.slot, node);
  const status = { ...row, text: ` ${RUN.contexts > 1 ? row.text.slice(1) : row.text.slice(3)}` };
  return [status, ...rowsOfLines(node).filter(isFollowed).slice(0, IS_FAR ? 1 : 3)];
}

/** Whether a node's event moves something: in a large mesh instructions that need no message don't. */
function moves(event) {
  return Boolean(event) && (!IS_FAR || event.letter !== 'I' || Boolean(event.misses) || event.sends.length > 0);
}

/** What is drawn of each node: its place, its rows and its letters. */
function boxesOf(state, events, moving) {
  return state.nodes.map((node, number) => {
    const event = events.get(number), isLarge = moves(event), { x, y } = cellOf(number), style = isLarge ? LARGE : SMALL;
    const rows = isLarge ? rowsOfLarge(node, event, moving) : rowsOfSmall(node);
    const width = isLarge ? BOX.large : IS_FAR ? BOX.width : BOX.small, height = style.row * (1 + rows.length) + 8;
    const place = { x, y, left: x - width / 2, right: x + width / 2, top: y - height / 2, bottom: y + height / 2 };
    return { node, number, event, isLarge, rows, style, width, height, place };
  });
}

// ---- boxes

/** A text of a box, which is pressed together where it is too long. */
function boxText({ place, width, style }, top, text, kind, extra) {
  const long = text.length * style.letter > width - 8 ? `textLength="${width - 10}" lengthAdjust="spacingAndGlyphs"` : '';
  return svgText(place.left + 5, top, text, `${style.kind} ${kind}`, `xml:space="preserve" ${long} ${extra}`);
}

/** A row of a box, on the colour of its copy or entry. */
function drawRowOfBox(box, row, at) {
  const { place, width, style } = box, top = place.top + style.row * (at + 1) + 4;
  const followed = isFollowed(row), mark = row.inverse || row.soft ? '' : followed ? '▶' : row.fresh ? '•' : ' ';
  const ground = row.inverse ? 'class="event"' : row.tint ? `style="fill:var(--${row.tint})"` : '';
  const drawn = ground ? `<rect ${ground} x="${place.left + 1}" y="${top}" width="${width - 2}" height="${style.row}"/>` : '';
  const kind = `${row.inverse ? 'inverse' : ''} ${row.soft ? 'soft' : ''} ${followed ? 'bold' : ''} ${row.line === undefined ? '' : 'pick'}`;
  const pick = row.line === undefined ? '' : `data-line="${row.line}"`;
  return drawn + boxText(box, top + style.row * 0.8, `${mark}${row.text}`, kind, pick);
}

/** A node's box: its head is black where it has an event, its edge thick where it has something of the followed line. */
function drawBox(box) {
  const { node, number, event, isLarge, rows, style, width, height, place } = box;
  const thick = rows.some(isFollowed) ? 4 : 1.5, ink = event ? 'inverse' : '';
  const head = event ? `<rect class="event" x="${place.left}" y="${place.top}" width="${width}" height="${style.row + 4}"/>` : '';
  const clock = isLarge ? svgText(place.right - 6, place.top + style.row - 1, `clock ${node.clock}`, `${ink} ${style.kind}`, 'text-anchor="end"') : '';
  const outer = `x="${place.left}" y="${place.top}" width="${width}" height="${height}"`;
  const name = svgText(place.left + 6, place.top + style.row - 1, `node ${number}`, `bold ${ink} ${style.kind}`);
  const inner = rows.map((row, at) => drawRowOfBox(box, row, at)).join('');
  return `<rect class="box" ${outer} stroke="none"/>${head}${name}${clock}${inner}<rect class="edge" ${outer} stroke-width="${thick}"/>`;
}

// ---- wires and messages

/** Where a wire from a node to a neighbour runs: its ends in the middles of boxes, where it leaves and meets them, and its lane, so far aside. */
function laneOf(from, to, aside) {
  const a = placeOf(from), b = placeOf(to), forward = from < to, level = Math.floor(from / WIDTH) === Math.floor(to / WIDTH);
  if (level) {
    const y = a.y + (forward ? -1 : 1) * (6 + aside);
    return { level, forward, x1: a.x, y1: y, x2: forward ? b.left : b.right, y2: y, middle: ((forward ? a.right + b.left : a.left + b.right)) / 2 };
  }
  const x = a.x + (forward ? 1 : -1) * (11 + aside);
  return { level, forward, x1: x, y1: a.y, x2: x, y2: forward ? b.top : b.bottom, middle: (forward ? a.bottom + b.top : a.top + b.bottom) / 2 };
}

/** The neighbours of the mesh, each pair both ways. */
function neighbours() {
  const pairs = [];
  for (let node = 0; node < NODES; node++) {
    if ((node + 1) % WIDTH) pairs.push([node, node + 1], [node + 1, node]);
    if (node + WIDTH < NODES) pairs.push([node, node + WIDTH], [node + WIDTH, node]);
  }
  return pairs;
}

/** The messages that cross each wire, those that arrive behind it first. */
function crossings(state) {
  const found = new Map();
  for (const message of [...state.links.values()].flat()) {
    for (const wire of route(message.from, message.to)) found.set(wire, [...(found.get(wire) ?? []), message]);
  }
  for (const [wire, messages] of found) {
    const to = Number(wire.split(' ')[1]);
    messages.sort((a, b) => (a.to !== to) - (b.to !== to) || a.to - b.to);
  }
  return found;
}

/** How a message's arrow looks: colour and dashes by its kind, thick with data, thin and grey where it is of another line than the followed one. */
function strokeOf({ kind, line }) {
  const other = VIEW.line !== null && line !== VIEW.line, width = (HEAVY.has(kind) ? 3.4 : 2) * (other ? 0.6 : 1);
  return `style="stroke:var(--${other ? 'other' : kind});stroke-width:${width};stroke-dasharray:var(--${kind}-dash)"`;
}

/** The arrow of a message over one wire, with a head where it arrives. */
function drawArrow(message, to, lane) {
  const head = message.to === to ? ' marker-end="url(#head)"' : '';
  return `<path class="message" d="M${lane.x1} ${lane.y1}L${lane.x2} ${lane.y2}" ${strokeOf(message)}${head}/>`;
}

/** A message of a node to itself, as a bow over its box. */
function drawLoop(message) {
  const { left, top } = placeOf(message.from);
  return `<path class="message" d="M${left + 70} ${top}C${left + 70} ${top - 15} ${left + 92} ${top - 15} ${left + 92} ${top - 2}" ${strokeOf(message)} marker-end="url(#head)"/>`;
}

/** The names of messages, those of a kind and a line together. */
function namesOf(messages) {
  const counts = new Map();
  for (const { kind, line } of messages.filter((each) => !IS_FAR || VIEW.line === null || each.line === VIEW.line)) {
    const name = `${kind} ${line}`, { count } = counts.get(name) ?? { count: 0 };
    counts.set(name, { kind, line, count: count + 1 });
  }
  const names = [...counts].map(([name, { kind, line, count }]) => {
    const other = VIEW.line !== null && line !== VIEW.line;
    return { text: `${line === VIEW.line ? '▶' : ''}${name}${count > 1 ? ` ×${count}` : ''}`, line, ink: other ? 'other' : kind };
  });
  const rest = names.length - MOST_NAMES;
  return rest > 1 ? [...names.slice(0, MOST_NAMES), { text: `and ${rest} more` }] : names;
}

/** Texts in rows at a place: names of messages in their colours, on paper. */
function drawNames(names, x, y, up, anchor) {
  const step = IS_FAR ? 18 : 13, letter = IS_FAR ? 9.7 : LETTER;
  return names.map(({ text, line, ink }, at) => {
    const width = letter * text.length + 2, top = y + (up ? -at : at) * step, left = { start: x, middle: x - width / 2, end: x - width }[anchor];
    const paper = `<rect class="paper" x="${left}" y="${top - step + 3}" width="${width}" height="${step}"/>`;
    const pick = `style="text-anchor:${anchor}${ink ? `;fill:var(--${ink})` : ''}" ${line === undefined ? '' : `data-line="${line}"`}`;
    return paper + svgText(x, top, text, `name${IS_FAR ? ' names' : ''}${line === undefined ? '' : ' pick'}${text[0] === '▶' ? ' bold' : ''}`, pick);
  }).join('');
}

/** A wire with the arrows that cross it, and as texts apart the names of the messages that begin on it and its load so far and in all. */
function drawWire(from, to, messages, loads, most) {
  const wire = `${from} ${to}`, sent = loads.get(wire) ?? 0, spacing = Math.min(7, 24 / Math.max(1, messages.length - 1));
  const bare = laneOf(from, to, 0), width = 1 + (most ? 7 * sent / most : 0);
  const line = `<path class="wire" d="M${bare.x1} ${bare.y1}L${bare.x2} ${bare.y2}" stroke-width="${width.toFixed(1)}"/>`;
  const arrows = messages.map((message, at) => drawArrow(message, to, laneOf(from, to, at * spacing)));
  const names = namesOf(messages.filter((each) => each.from === from));
  if (!IS_FAR && BOX.across > 60) names.push({ text: RUN.loads ? `${sent} of ${TOTALS.get(wire) ?? 0}` : `${sent}`, ink: 'soft' });
  const outer = laneOf(from, to, Math.max(0, messages.length - 1) * spacing + 7), { level, forward } = bare;
  const rows = level ? drawNames(names, bare.middle, outer.y1 + (forward ? 0 : 10), forward, 'middle')
    : drawNames(names, outer.x1, bare.middle + 4 - 6.5 * (names.length - 1), false, forward ? 'start' : 'end');
  return { shafts: [line, ...arrows].join(''), names: rows };
}

const MARKER = 'viewBox="0 0 10 10" refX="9" refY="5" markerUnits="userSpaceOnUse" orient="auto"';
const HEADS_OF_ARROWS = `<defs><marker id="head" ${MARKER} markerWidth="12" markerHeight="12"><path d="M0 0L10 5L0 10z" fill="context-stroke"/></marker></defs>`;
const TOTALS = new Map((RUN.loads ?? []).map(([from, to, count]) => [`${from} ${to}`, count]));

/** The lines that are asked for, on their way or in a queue. */
function movingIn(state) {
  const found = [...state.links.values(), ...state.nodes.flatMap((node) => [node.pending, node.packet])].flat();
  return new Set(found.map((each) => each.line));
}

/** How large the map is drawn: as it says, or so that the whole of it fits the window below what stands above it. */
function scaleOf(size, width, height) {
  if (size !== 'fit') return Number(size);
  const room = Math.max(LEAST_HEIGHT, innerHeight - part('map').getBoundingClientRect().top - window.scrollY - 8), across = document.body.clientWidth - 24;
  return Math.min(MOST_SCALE, across / width, room / height);
}

/** The map of a state. */
function drawMap(state, frame, size) {
  const { left, top, right, bottom } = BOX.edges, width = right - left, height = bottom - top, scale = scaleOf(size, width, height);
  const moving = movingIn(state), events = new Map(frame.events.map((event) => [Number(event.node), event])), boxes = boxesOf(state, events, moving);
  BOX.places = boxes.map(({ place }) => place);
  const most = Math.max(1, ...TOTALS.values(), ...frame.loads.values()), crossing = crossings(state);
  const wires = neighbours().map(([from, to]) => drawWire(from, to, crossing.get(`${from} ${to}`) ?? [], frame.loads, most));
  const own = [...state.links.values()].filter(([{ from, to }]) => from === to);
  const loops = own.map((each) => {
    const { left: x, top: y } = placeOf(each[0].from);
    const [name, ...more] = namesOf(each), names = name ? [{ ...name, text: `${name.text}${more.length ? ` and ${more.length} more` : ''}` }] : [];
    return { bow: drawLoop(each[0]), names: drawNames(names, x + 98, y - 4, true, 'start') };
  });
  const parts = [HEADS_OF_ARROWS, ...wires.map((wire) => wire.shafts), ...loops.map((loop) => loop.bow), ...boxes.map(drawBox),
    ...wires.map((wire) => wire.names), ...loops.map((loop) => loop.names)];
  const scaled = `width="${(width * scale).toFixed(1)}" height="${(height * scale).toFixed(1)}"`;
  return `<svg xmlns="http://www.w3.org/2000/svg" ${scaled} viewBox="${left} ${top} ${width} ${height}" aria-hidden="true">${parts.join('\n')}</svg>`;
}
