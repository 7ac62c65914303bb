// A release: two order sheets and what else the bundle has; the verdict, its reasons, the promised waits; all of it saved.

/** @typedef {{board: Sheet, house: Sheet, others: Given[]}} Bundle */

/** What is judged; `kept` is the bundle that another took the place of. */
/** @type {Bundle & {text: string, report: Uint8Array | null, kept: Bundle | null}} */
const release = { board: /** @type {any} */ (null), house: /** @type {any} */ (null), others: [], text: '', report: null, kept: null };

/** Judges what is there, and shows it. */
function judge() {
  showSheet('board', release.board);
  showSheet('house', release.house);
  const [board, house] = [filled(release.board), filled(release.house)];
  showRefused('board', board);
  showRefused('house', house);
  showOthers();
  if (!board.ok || !house.ok) return showUnjudged(board.ok ? textOf(house) : textOf(board));
  showOrder(ask('sheet', board.fields[0], house.fields[0]));
  /** @type {Given[]} */
  const files = [{ name: 'board.sheet', bytes: board.fields[0] }, { name: 'house.sheet', bytes: house.fields[0] }, ...release.others];
  const named = files.flatMap(({ name, bytes, changed }) => [name, bytes, ...(changed ? ['--changed', String(changed)] : [])]);
  showJudged(ask('release', ...named, ...asked(), '--at', String(Math.floor(Date.now() / 1000))));
}

/** @returns {string[]} what is asked of the release, as the tool's options */
function asked() {
  const most = byId('most').value.trim();
  const [zero, one] = [byId('limit-0').checked, byId('limit-1').checked];
  const without = zero && one ? 'both' : zero ? '0' : one ? '1' : '';
  return [...(most ? ['--most', most] : []), ...(without ? ['--without-limit', without] : [])];
}

/**
 * No verdict: a word of the form, or what is asked, is refused.
 * @param {string} why
 */
function showUnjudged(why) {
  release.report = null;
  release.text = '';
  const verdict = byId('verdict');
  verdict.className = 'verdict not';
  put(verdict, make('strong', {}, 'Nothing is judged yet'), make('span', {}, why));
  put(byId('reasons'));
  showSaves();
}

/** @param {Answer} answer */
function showJudged(answer) {
  if (!answer.ok) return showUnjudged(textOf(answer));
  const judged = jsonOf(answer, 1);
  release.text = textOf(answer, 0);
  release.report = answer.fields[2];
  const verdict = byId('verdict');
  verdict.className = judged.released ? (judged.allowed.length ? 'verdict allowed' : 'verdict released') : 'verdict not';
  put(verdict, make('strong', {}, judged.verdict), ...judged.allowed.map((/** @type {string} */ words) => make('span', {}, words)));
  const reason = (/** @type {any} */ { file, place, what, mend }) =>
    make('li', {}, make('b', {}, [file, place].filter(Boolean).join(', ')), make('p', {}, what), make('p', {}, `To mend it: ${mend}`));
  const head = judged.reasons.length ? [make('h3', {}, 'Every reason against it, the worst first'), make('ol', { class: 'reasons' }, ...judged.reasons.map(reason))] : [];
  put(byId('reasons'), ...head);
  showSaves();
}

function showSaves() {
  byId('release-text').textContent = release.text;
  byId('save-report').disabled = release.report === null;
  byId('save-verdict').disabled = release.text === '';
}

/**
 * What is ordered, and the waits that are promised by it.
 * @param {Answer} answer
 */
function showOrder(answer) {
  const order = answer.ok ? jsonOf(answer, 1) : null;
  showOrdered(order?.boxes ?? []);
  const waits = order?.waits ?? [];
  if (waits.length === 0) return put(byId('waits'));
  put(
    byId('waits'),
    make('h3', {}, 'How long each can wait for the bus after the start, at every handover'),
    ...order.warnings.map((/** @type {string} */ words) => make('p', { class: 'warning' }, words)),
    make('div', { class: 'waits' }, ...waits.map(showWait)),
    order.holds ? make('p', {}, order.holds) : null,
    ...[order.lasting ?? []].flat().map((/** @type {string} */ words) => make('p', {}, words)),
  );
}

/**
 * A promised wait, and the statements that prove it.
 * @param {{words: string, ticks: string[][], statements: {name: string, says: string}[]}} wait
 * @returns {HTMLElement}
 */
function showWait({ words, ticks, statements }) {
  const proved = statements.map(({ name, says }) => make('li', {}, make('code', {}, name), `: ${says}`));
  const figures = ticks.map(([part, figure]) => `${part}: ${figure}`).join(', ');
  return make('section', { class: 'wait' }, make('h4', {}, words), make('p', {}, `In ticks of 1 ms: ${figures}. Proved by:`), make('ul', {}, ...proved));
}

/** What the bundle has besides the sheets. */
function showOthers() {
  const remove = (/** @type {Given} */ file) => () => {
    release.others = release.others.filter((one) => one !== file);
    judge();
  };
  const lines = release.others.map((file) => make('li', {}, `${file.name} `, button(`Take ${file.name} out`, remove(file))));
  const damaged = /** @type {const} */ (['board', 'house']).filter((which) => release[which].damaged).map((which) => make('li', { class: 'bad' }, `The ${which} sheet: ${release[which].told} `, button('Fill it in by hand', () => {
    release[which] = emptySheet();
    judge();
  })));
  put(byId('release-told'), ...damaged, ...lines);
}
