// The state after one event: every register of both controllers, the lines, whose the switch is, the counts.

/**
 * @typedef {object} State
 * @property {number} event
 * @property {number} of
 * @property {number} tick
 * @property {string} came
 * @property {string} script
 * @property {string} outcome
 * @property {boolean} refused
 * @property {string} answer
 * @property {string[]} changed
 * @property {string} stands
 * @property {string[][]} registers name, both values, and the names of their bits
 * @property {string[][]} each name, and a value of each controller
 * @property {string[][]} shared name and value
 */

/** States that were asked for, of one trace. */
/** @type {{trace: Uint8Array | null, known: Map<number, State>}} */
const lastStates = { trace: null, known: new Map() };

/**
 * The state after so many events; null if the module refuses.
 * @param {Uint8Array} trace
 * @param {number} event
 * @returns {State | null}
 */
function stateAt(trace, event) {
  if (lastStates.trace !== trace) Object.assign(lastStates, { trace, known: new Map() });
  const known = lastStates.known.get(event);
  if (known) return known;
  const answer = ask('state', trace, String(event));
  if (!answer.ok) return null;
  if (lastStates.known.size > 100) lastStates.known.clear();
  lastStates.known.set(event, jsonOf(answer));
  return lastStates.known.get(event) ?? null;
}

/**
 * Where the slider stands, in words.
 * @param {State} state
 * @returns {string}
 */
function whereWords(state) {
  return `event ${state.event} of ${state.of}, tick ${state.tick}: ${[state.came, state.outcome].filter(Boolean).join('; ')}`;
}

/**
 * Shows a state. Cells stand still and their words change, so that the slider follows the hand.
 * @param {HTMLElement} place
 * @param {State} state
 * @param {State | null} before for what is new in it
 */
function showState(place, state, before) {
  const shape = [state.registers, state.each, state.shared].map((rows) => rows.map((row) => row[0]).join()).join(';');
  if (place.dataset.shape !== shape) {
    put(place, ...stateTables(state));
    place.dataset.shape = shape;
  }
  const cells = cellsOf(state);
  const old = before ? cellsOf(before) : cells;
  const shown = place.querySelectorAll('[data-cell]');
  shown.forEach((cell, number) => {
    const words = cells[number] ?? '';
    setWords(cell, words);
    cell.classList.toggle('new', words !== old[number]);
  });
  place.querySelectorAll('tr').forEach((row) => row.classList.toggle('new', row.querySelector('.new') !== null));
}

/**
 * Every changing word of a state, in the order of the tables' cells.
 * @param {State} state
 * @returns {string[]}
 */
function cellsOf(state) {
  const registers = state.registers.flatMap(([, zero, one, bits0, bits1]) => [zero, bits0, one, bits1]);
  return [...registers, ...state.each.flatMap(([, zero, one]) => [zero, one]), ...state.shared.map(([, value]) => value)];
}

/**
 * @param {State} state
 * @returns {HTMLElement[]}
 */
function stateTables(state) {
  const cell = (/** @type {string} */ of) => make('span', { 'data-cell': '', class: of });
  const value = () => make('span', {}, cell('value'), make('br'), cell('bits'));
  const registers = state.registers.map(([name]) => [name, value(), value()]);
  const each = state.each.map(([name]) => [name, cell('value'), cell('value')]);
  const shared = state.shared.map(([name]) => [name, cell('value')]);
  return [
    table('Registers, as each controller reads them', ['Register', 'Controller 0', 'Controller 1'], registers),
    table('Of each controller', ['', 'Controller 0', 'Controller 1'], each),
    table('Of the device', ['', 'Is'], shared),
  ];
}
