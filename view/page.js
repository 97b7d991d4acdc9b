// The page: what is shown, and the controls and keys that change it.

/** What is shown: the place of the frame, the followed line, and which rows and what size. */
const VIEW = { at: 0, line: null, rows: NODES > MOST_LABELLED ? 'changed' : 'all', size: 'fit' };
const SHOWN = { history: null, address: 0 };
const part = (name) => document.getElementById(name);

/** Shows why the page doesn't work. */
function fail(text) {
  part('fault').hidden = false;
  part('fault').textContent = `This page failed: ${text}`;
}

/** The place of the last frame whose stamp isn't above a number. */
function placeOfStamp(stamp) {
  return Math.max(0, RUN.frames.findLastIndex(([each]) => each <= stamp));
}

/** Takes what the address asks for, as #stamp=12&line=0. */
function readAddress() {
  const asked = new URLSearchParams(location.hash.slice(1));
  VIEW.at = asked.has('stamp') ? placeOfStamp(Number(asked.get('stamp'))) : VIEW.at;
  const line = Number(asked.get('line'));
  VIEW.line = asked.has('line') && LINES.includes(line) ? line : null;
  if (['all', 'changed', 'followed'].includes(asked.get('rows'))) VIEW.rows = asked.get('rows');
  if (['1', '0.6', 'fit'].includes(asked.get('size'))) VIEW.size = asked.get('size');
}

/** Puts what is shown into the address, when nothing has changed for a moment: a browser takes few addresses a second. */
function writeAddress() {
  clearTimeout(SHOWN.address);
  SHOWN.address = setTimeout(putAddress, 200);
}

/** Puts what is shown into the address. */
function putAddress() {
  const words = [`stamp=${RUN.frames[VIEW.at][0]}`];
  if (VIEW.line !== null) words.push(`line=${VIEW.line}`);
  words.push(`rows=${VIEW.rows}`, `size=${VIEW.size}`);
  history.replaceState(null, '', `#${words.join('&')}`);
}

/** Stamps in a sentence, as buttons that lead there. */
function withStamps(text) {
  return escaped(text).replace(/\bat (\d+)\b/g, 'at <button type="button" data-stamp="$1" aria-label="stamp $1">$1</button>');
}

/** Says the stamp and its events, those of the followed line first. */
function showNow(frame) {
  const line = String(VIEW.line), first = (event) => [event.line, event.misses?.[0]].includes(line);
  const events = [...frame.events].sort((a, b) => first(b) - first(a) || Number(a.node) - Number(b.node));
  part('now').innerHTML = `<b>Stamp ${frame.stamp}</b> of ${RUN.last} (frame ${VIEW.at + 1} of ${LAST + 1})`;
  const rows = events.map((event) => `<li${first(event) ? ' class="followed"' : ''}>${withStamps(sentence(event))}</li>`);
  part('events').innerHTML = rows.join('') || '<li>the start, before any event</li>';
}

/** Sets the controls to what is shown. */
function showControls(frame) {
  part('slider').value = VIEW.at;
  part('slider').setAttribute('aria-valuetext', `stamp ${frame.stamp}`);
  part('follow').value = VIEW.line === null ? '' : String(VIEW.line);
  part('rows').value = VIEW.rows;
  part('size').value = VIEW.size;
  const changes = VIEW.line === null ? [] : changesOf(VIEW.line);
  const disabled = { first: VIEW.at === 0, back: VIEW.at === 0, next: VIEW.at === LAST, last: VIEW.at === LAST };
  disabled.quieter = !BUSY_FRAMES.some((at) => at < VIEW.at);
  disabled.busier = !BUSY_FRAMES.some((at) => at > VIEW.at);
  disabled.before = !changes.some((at) => at < VIEW.at);
  disabled.after = !changes.some((at) => at > VIEW.at);
  for (const [name, value] of Object.entries(disabled)) part(name).setAttribute('aria-disabled', value);
}

/** Shows the followed line over the stamps, and marks where in it the frame is. */
function showHistory() {
  const name = VIEW.line === null ? '' : `${VIEW.line} ${changesOf(VIEW.line).length > MOST_CHANGES ? VIEW.at : ''}`;
  if (SHOWN.history !== name) part('history').innerHTML = VIEW.line === null ? '' : drawHistory(VIEW.line, VIEW.at);
  SHOWN.history = name;
  const rows = [...part('history').querySelectorAll('tbody tr')];
  const current = rows.findLast((each) => Number(each.dataset.at) <= VIEW.at);
  for (const each of rows) {
    each.cells[0].textContent = each === current ? '▶' : '';
    if (each === current) each.setAttribute('aria-current', 'true');
    else each.removeAttribute('aria-current');
  }
}

/** A button in a part that is drawn anew, as what finds its like there: its part, and what it is about. */
function focusedButton() {
  const button = document.activeElement?.closest('button[data-line], button[data-at], button[data-stamp]');
  const within = button?.closest('#tables > section, #history, #prints');
  if (!within) return null;
  const [name, value] = Object.entries(button.dataset)[0];
  const place = [...part('tables').children].indexOf(within);
  return () => (place < 0 ? part(within.id) : part('tables').children[place]).querySelector(`button[data-${name}="${value}"]`);
}

/** Shows the frame. The focus stays where it was, also on a button that is drawn anew. */
function show() {
  const focused = focusedButton();
  const before = loadsAt(Math.max(0, VIEW.at - 1)), frame = frameAt(VIEW.at), state = stateOf(frame.lines);
  showNow(frame);
  showControls(frame);
  part('map').classList.toggle('fit', VIEW.size === 'fit');
  part('map').innerHTML = drawMap(state, frame, VIEW.size);
  part('counts').innerHTML = drawCounts(VIEW.at, VIEW.line);
  part('tables').innerHTML = drawTables(state, frame, before);
  part('text').textContent = frame.lines.map(({ text }) => text).join('\n') + '\n';
  part('prints').innerHTML = drawPrints(frame.stamp);
  showHistory();
  showMark();
  scrollParts();
  if (focused && !document.activeElement?.closest('button')) focused()?.focus({ preventScroll: true });
  writeAddress();
}

/** Scrolls the events to their begin, and the lists of words and of changes to their rows of the frame, when all is drawn. */
function scrollParts() {
  part('events').scrollTop = 0;
  for (const name of ['prints', 'history']) {
    const scrolled = part(name).lastElementChild, row = part(name).querySelector('tr[aria-current]');
    if (row) scrolled.scrollTop = row.offsetTop - scrolled.clientHeight / 2;
  }
}

/** Goes to a frame, or to the end that is nearer. */
function go(at) {
  VIEW.at = Math.min(Math.max(at, 0), LAST);
  show();
}

/** Goes to where the followed line changes before or after this frame. */
function goToChange(forward) {
  const changes = VIEW.line === null ? [] : changesOf(VIEW.line);
  const at = forward ? changes.find((each) => each > VIEW.at) : changes.findLast((each) => each < VIEW.at);
  if (at !== undefined) go(at);
}

/** Scrolls the map to a node, where it doesn't show the whole of it. */
function bringToView(node) {
  const map = part('map'), scale = map.scrollWidth / (BOX.edges.right - BOX.edges.left), { left, right, top, bottom } = placeOf(node);
  if (left * scale < map.scrollLeft || right * scale > map.scrollLeft + map.clientWidth) map.scrollLeft = left * scale - map.clientWidth / 3;
  if (top * scale < map.scrollTop || bottom * scale > map.scrollTop + map.clientHeight) map.scrollTop = top * scale - map.clientHeight / 3;
}

/** Follows a line, or none. */
function followLine(line) {
  VIEW.line = line;
  show();
  if (line !== null) bringToView(Math.floor(line / RUN.lines));
}

const KEYS = {
  ArrowLeft: () => go(VIEW.at - 1), ArrowRight: () => go(VIEW.at + 1), '[': () => go(VIEW.at - 10), ']': () => go(VIEW.at + 10),
  ',': () => goToBusy(false), '.': () => goToBusy(true), n: () => goToChange(true), p: () => goToChange(false), f: () => part('follow').focus(),
};

/** Does what a key says. Lists, the slider and parts that scroll keep the keys that move in them. */
function press(event) {
  const letter = event.key.length === 1;
  const keeps = event.target.matches('select') || (!letter && event.target.matches('#slider, #map, .scroll, #text'));
  if (event.ctrlKey || event.metaKey || event.altKey || keeps || !(event.key in KEYS)) return;
  event.preventDefault();
  KEYS[event.key]();
}

/** Follows the line, or goes to the frame, of what was clicked on. */
function click(event) {
  const picked = event.target.closest('[data-line]'), frame = event.target.closest('button[data-at]'), stamp = event.target.closest('button[data-stamp]');
  if (picked) followLine(Number(picked.dataset.line));
  if (stamp) go(placeOfStamp(Number(stamp.dataset.stamp)));
  if (frame) go(Number(frame.dataset.at));
}

/** Ties the controls. */
function tie() {
  part('slider').max = LAST;
  part('slider').addEventListener('input', () => go(Number(part('slider').value)));
  const places = { first: () => go(0), back: () => go(VIEW.at - 1), next: () => go(VIEW.at + 1), last: () => go(LAST) };
  part('strip').innerHTML = drawStrip();
  for (const name of ['pointerdown', 'pointermove']) part('strip').addEventListener(name, pointAt);
  part('strip').addEventListener('click', pointAt);
  part('strip-names').innerHTML = drawStripNames();
  part('kinds').innerHTML = drawKinds();
  const buttons = { ...places, quieter: () => goToBusy(false), busier: () => goToBusy(true), before: () => goToChange(false), after: () => goToChange(true) };
  for (const [name, action] of Object.entries(buttons)) part(name).addEventListener('click', action);
  part('follow').innerHTML = '<option value="">none</option>' + LINES.map((line) => `<option value="${line}">${escaped(lineName(line))}</option>`).join('');
  part('follow').addEventListener('change', () => followLine(part('follow').value === '' ? null : Number(part('follow').value)));
  for (const name of ['rows', 'size']) part(name).addEventListener('change', () => { VIEW[name] = part(name).value; show(); });
  document.addEventListener('keydown', press);
  document.addEventListener('click', click);
  window.addEventListener('hashchange', () => { readAddress(); show(); });
  window.addEventListener('resize', () => { measure(); show(); });
}

/** The kinds of messages with their strokes, and the states of copies and entries with their colours. */
function drawKinds() {
  const kinds = ['RREQ', 'RDATA', 'WREQ', 'WDATA', 'INV', 'ACKC', 'UPDATE', 'REPM', 'BUSY'].map((kind) => {
    const stroke = `style="stroke:var(--${kind});stroke-width:${HEAVY.has(kind) ? 3.4 : 2};stroke-dasharray:var(--${kind}-dash)"`;
    return `<span class="pair"><svg width="40" height="10"><path d="M0 5h40" ${stroke}/></svg> <b style="color:var(--${kind})">${kind}</b></span>`;
  });
  const states = ['read', 'write', 'RO', 'RW', 'RT', 'WT'].map((name) => `<span class="tint" style="background:var(--${name})">${name}</span>`);
  return [...kinds, ...states].join(' ');
}

/** A number of things, in words. */
function numbered(number, name) {
  return `${number} ${name}${number === 1 ? '' : 's'}`;
}

/** Begins. */
function begin() {
  const { pointers, sets, limit } = RUN.params;
  document.title = `${RUN.name}: a run of alewife`;
  part('name').textContent = RUN.name;
  const node = `${numbered(RUN.contexts, 'context')} and ${numbered(RUN.lines, 'home line')} a node`;
  const [first, last] = [RUN.frames[0][0], RUN.frames[LAST][0]];
  const begin = (first ? `, from stamp ${first} on, where loads so far count from 0` : '') + (last < RUN.last ? `, up to stamp ${last} of ${RUN.last}` : '');
  const end = RUN.loads ? '' : '; the trace has no end, so that no wire’s load in all is told';
  part('about').textContent = `Mesh ${WIDTH} by ${HEIGHT}, ${node}, ${numbered(pointers, 'hardware pointer')}, ${sets} sets, limit ${limit}; `
    + `${numbered(RUN.entries, 'event')}, ${numbered(LAST + 1, 'frame')}${begin}${end}.`;
  measure();
  VIEW.at = INDEX.first ?? 0;
  readAddress();
  tie();
  show();
  if (VIEW.line !== null) bringToView(Math.floor(VIEW.line / RUN.lines));
  document.body.dataset.shown = 'yes';
}

window.addEventListener('error', (event) => fail(event.message));
begin();
