// The answers of a run, as the listing has them. Of a long one a part is shown, around the event that one looks at; all of it is saved.

/** So many lines stand in the page at once. */
const ANSWERS_SHOWN = 96;

/** @type {{lines: string[], first: number}} */
const answers = { lines: [], first: -1 };

/** @param {Uint8Array} trace */
function showAnswers(trace) {
  answers.lines = textOf(ask('listing', trace)).trimEnd().split('\n');
  answers.first = -1;
}

/**
 * Shows the answers around an event, and marks its own. The first line of the listing is the address and the count.
 * @param {number} event
 */
function markAnswers(event) {
  const most = Math.max(0, answers.lines.length - 1 - ANSWERS_SHOWN);
  const inside = answers.first >= 0 && answers.first < event && event <= answers.first + ANSWERS_SHOWN;
  if (!inside) drawAnswers(Math.min(most, Math.max(0, event - ANSWERS_SHOWN / 2)));
  const place = byId('answers');
  place.querySelector('.now')?.classList.remove('now');
  if (event > 0) place.children[event - answers.first]?.classList.add('now');
}

/**
 * Lines stand still and their words change, as far as there are as many as before.
 * @param {number} first how many answers stand before those that are shown
 */
function drawAnswers(first) {
  answers.first = first;
  const { lines } = answers;
  const place = byId('answers');
  const shown = [lines[0], ...lines.slice(1 + first, 1 + first + ANSWERS_SHOWN)];
  while (place.children.length > shown.length) place.lastElementChild.remove();
  while (place.children.length < shown.length) place.append(make('span', { class: place.children.length === 0 ? 'head' : null }));
  shown.forEach((line, number) => setWords(place.children[number], line));
  const [from, to, all] = [first + 1, first + shown.length - 1, lines.length - 1];
  byId('answers-part').textContent = to - first < all ? `Answers ${from} to ${to} of ${all} are shown, around the event above.` : '';
}
