// The story of a run, a row an event; ticks in which nothing changes share one. Of a long story a part is shown, around the event that one looks at.

/** @typedef {{from: number, to: number, tick: number, came: string, outcome: string, refused: boolean, after: string, more: string}} Row */
/** @typedef {{head: string[], rows: Row[], end: string[], first: number, count: number}} Story `first` rows stand before those that are there, of `count` */

/** So many rows stand in the page at once. */
const ROWS_SHOWN = 24;

/** @type {WeakMap<HTMLElement, {trace: Uint8Array, story: Story, go: (event: number) => void}>} */
const stories = new WeakMap();

/**
 * Shows the story of a trace, from the row on that was the first before. `go` is called with the event of a row that is pressed.
 * @param {HTMLElement} place
 * @param {Uint8Array} trace
 * @param {(event: number) => void} go
 * @param {number} [event] whose row is to be among those that are shown
 */
function showStory(place, trace, go, event) {
  askStory(place, trace, go, stories.get(place)?.story.first ?? 0, event);
}

/**
 * @param {HTMLElement} place
 * @param {Uint8Array} trace
 * @param {(event: number) => void} go
 * @param {number} first
 * @param {number} [event]
 */
function askStory(place, trace, go, first, event) {
  const answer = ask('story', trace, '', String(Math.max(0, first)), String(ROWS_SHOWN), event ? String(event) : '');
  if (!answer.ok) {
    put(place, make('p', { class: 'told' }, textOf(answer)));
    stories.delete(place);
    return;
  }
  stories.set(place, { trace, story: jsonOf(answer), go });
  drawStory(place);
}

/**
 * Rows stand still and their words change, as far as there are as many as before: the browser does not lay out again what is the same.
 * @param {HTMLElement} place
 */
function drawStory(place) {
  const shown = stories.get(place);
  if (!shown) return;
  const { trace, story, go } = shown;
  const { first, count } = story;
  const last = first + story.rows.length;
  const turn = (/** @type {string} */ words, /** @type {number} */ to) => button(words, () => askStory(place, trace, go, to));
  const [before, body, after] = partsOf(place);
  put(before, ...story.head.map((words) => make('p', {}, words)), first > 0 ? turn(`Rows before these (${first})`, first - ROWS_SHOWN) : null);
  put(after, last < count ? turn(`Rows after these (${count - last})`, last) : null, make('ul', { class: 'end' }, ...story.end.map((words) => make('li', {}, words))));
  while (body.rows.length > story.rows.length) body.deleteRow(-1);
  while (body.rows.length < story.rows.length) body.append(storyRow(place));
  story.rows.forEach((row, number) => fillRow(body.rows[number], row));
}

/**
 * What stands before the rows, the rows, and what stands after them.
 * @param {HTMLElement} place
 * @returns {any[]}
 */
function partsOf(place) {
  if (!place.querySelector('table')) {
    const heads = ['Event', 'Tick', 'What came', 'What was answered, and who has the bus then'];
    const head = make('tr', {}, ...heads.map((words) => make('th', { scope: 'col' }, words)));
    put(place, make('div', {}), make('table', { class: 'story' }, make('thead', {}, head), make('tbody', {})), make('div', {}));
  }
  return [place.firstElementChild, place.querySelector('tbody'), place.lastElementChild];
}

/**
 * A row without words.
 * @param {HTMLElement} place
 * @returns {HTMLElement}
 */
function storyRow(place) {
  const row = make('tr', {});
  const press = make('button', { type: 'button', class: 'go', onclick: () => stories.get(place)?.go(Number(row.dataset.to)) });
  put(row, make('td', {}, press), make('td', {}), make('td', {}), make('td', {}));
  return row;
}

/**
 * @param {any} line
 * @param {Row} row
 */
function fillRow(line, row) {
  const press = line.querySelector('button');
  const [, tick, came, told] = line.cells;
  const words = [row.from === row.to ? String(row.from) : `${row.from} to ${row.to}`, String(row.tick), row.came, [row.outcome, row.after, row.more].filter(Boolean).join('; ')];
  line.classList.remove('now');
  line.classList.toggle('refused', row.refused);
  Object.assign(line.dataset, { from: row.from, to: row.to });
  press.setAttribute('aria-label', `Show the state after event ${row.to}`);
  [press, tick, came, told].forEach((one, number) => setWords(one, words[number]));
}

/**
 * Marks the row of an event, and turns to it if it is not shown.
 * @param {HTMLElement} place
 * @param {number} event
 */
function markStory(place, event) {
  const shown = stories.get(place);
  if (!shown) return;
  const { rows, first } = shown.story;
  const inside = event === 0 || (rows.length > 0 && rows[0].from <= event && event <= rows[rows.length - 1].to);
  if (!inside) askStory(place, shown.trace, shown.go, first, event);
  for (const row of place.querySelectorAll('tr[data-from]')) {
    const { from, to } = /** @type {HTMLElement} */ (row).dataset;
    row.classList.toggle('now', Number(from) <= event && event <= Number(to));
  }
}
