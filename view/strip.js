// The strip above the slider: how many misses, INV and handlers there are over the run, in which one can click.

const SHOWN_IN_STRIP = [['handlers', 'BUSY'], ['INV', 'INV'], ['misses', 'RREQ']];
const MOST_BINS = 320, STRIP_HEIGHT = 34;
const BINS = Math.min(MOST_BINS, LAST + 1);
const BUSY_FRAMES = [...new Set(SHOWN_IN_STRIP.flatMap(([name]) => INDEX.counts.get(name) ?? []))].sort((a, b) => a - b);

/** How many of a count fall into each part of the strip. */
function binned(name) {
  const bins = Array(BINS).fill(0);
  for (const at of INDEX.counts.get(name) ?? []) bins[Math.floor(at * BINS / (LAST + 1))] += 1;
  return bins;
}

/** The strip: bars of counts one on another, the highest of which fills it, and a mark for the frame. */
function drawStrip() {
  const counts = SHOWN_IN_STRIP.map(([name]) => binned(name));
  const most = Math.max(1, ...counts[0].map((_, bin) => counts.reduce((sum, each) => sum + each[bin], 0)));
  const tops = Array(BINS).fill(STRIP_HEIGHT);
  const bars = counts.map((each, which) => {
    const drawn = each.map((count, bin) => {
      const height = (STRIP_HEIGHT - 2) * count / most;
      tops[bin] -= height;
      return count ? `M${bin} ${tops[bin].toFixed(2)}h1v${height.toFixed(2)}h-1z` : '';
    });
    return `<path d="${drawn.join('')}" style="fill:var(--${SHOWN_IN_STRIP[which][1]})"/>`;
  });
  const mark = `<rect id="mark" y="0" width="${(BINS / 400).toFixed(2)}" height="${STRIP_HEIGHT}"/>`;
  return `<svg viewBox="0 0 ${BINS} ${STRIP_HEIGHT}" preserveAspectRatio="none" width="100%" height="${STRIP_HEIGHT}">${bars.join('')}${mark}</svg>`;
}

/** Puts the mark of the strip where the frame is. */
function showMark() {
  part('mark').setAttribute('x', ((VIEW.at + 0.5) * BINS / (LAST + 1)).toFixed(2));
}

/** Goes to the frame of the place in the strip at which a pointer is. */
function pointAt(event) {
  const { left, width } = part('strip').getBoundingClientRect();
  if (event.buttons || event.type === 'click') go(Math.floor((event.clientX - left) / width * (LAST + 1)));
}

/** Goes to where something missed, was invalidated or handled before or after this frame. */
function goToBusy(forward) {
  const at = forward ? BUSY_FRAMES.find((each) => each > VIEW.at) : BUSY_FRAMES.findLast((each) => each < VIEW.at);
  if (at !== undefined) go(at);
}

/** What the colours of the strip mean. */
function drawStripNames() {
  return [...SHOWN_IN_STRIP].reverse().map(([name, colour]) => `<span class="chip" style="background:var(--${colour})"></span>${name}`).join(' ');
}
