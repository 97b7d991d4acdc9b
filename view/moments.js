// The cycles of events, of a page that is made with moments. No other page has this part: it takes the place of what says an event and a frame.

const WITHOUT = { eventOf, sentence, showNow };
const CYCLES_HELP = `<li>Before an event stand the cycles in which it starts and finishes, and behind the stamp those that its events cover, of the whole run.
  They are of a model, by its costs. Frames go by stamps: an event of a later stamp may start in an earlier cycle.</li>`;

/** An event with the cycles in which it starts and finishes, as texts: a number of cycles may have more digits than a number here. */
eventOf = (text) => {
  const [told, why, cycles] = text.split('|');
  return { ...WITHOUT.eventOf(why ? `${told}|${why}` : told), cycles: cycles.split(' ') };
};

/** An event as a sentence, its cycles first. */
sentence = (event) => `${event.cycles.join(' to ')}, ${WITHOUT.sentence(event)}`;

/** The cycles that events cover: from the least start to the greatest finish. */
function coveredText(events) {
  const [starts, finishes] = [0, 1].map((end) => events.map(({ cycles }) => BigInt(cycles[end])));
  return `${starts.reduce((one, other) => (one < other ? one : other))} to ${finishes.reduce((one, other) => (one > other ? one : other))}`;
}

/** Says the stamp and its events, with the cycles that they cover. */
showNow = (frame) => {
  WITHOUT.showNow(frame);
  if (frame.events.length) document.getElementById('now').append(`, cycles ${coveredText(frame.events)} of ${RUN.cycles}`);
};

document.getElementById('kinds').closest('ul').firstElementChild.insertAdjacentHTML('afterend', CYCLES_HELP);
