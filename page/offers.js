// The words that fit where the caret stands in a script.

/** @typedef {{word: string, usage: string, help: string, then: string[][][]}} Word */
/** @typedef {{put: string, says: string}} Offer */

/** @type {{words: Word[], shown: Offer[], at: number, from: number, asked: boolean}} */
const offers = { words: [], shown: [], at: -1, from: 0, asked: false };

/**
 * What fits after these words of a line; the last of them is still being written.
 * @param {string} line up to the caret
 * @returns {{from: number, fitting: Offer[]}} where the written part begins
 */
function fittingIn(line) {
  const from = line.search(/\S*$/);
  const written = line.slice(from).toLowerCase();
  const before = line.slice(0, from).trim().toLowerCase().split(/\s+/).filter(Boolean);
  if (line.includes('#')) return { from, fitting: [] };
  const all = before.length === 0 ? offers.words.map(({ word, usage, help }) => ({ put: word, says: `${usage}: ${help}` })) : argumentsOf(before);
  return { from, fitting: all.filter((offer) => offer.put.toLowerCase().startsWith(written) && offer.put.toLowerCase() !== written) };
}

/**
 * @param {string[]} before
 * @returns {Offer[]}
 */
function argumentsOf([word, ...given]) {
  const choices = offers.words.find((one) => one.word === word)?.then[given.length] ?? [];
  return choices.map(([choice, says]) => ({ put: choice, says }));
}

/**
 * Looks what fits at the caret and shows it. Unasked, nothing is shown before a letter is written.
 * @param {HTMLTextAreaElement} area
 * @param {boolean} asked
 */
function lookForOffers(area, asked) {
  const text = area.value.slice(0, area.selectionStart);
  const start = text.lastIndexOf('\n') + 1;
  const line = text.slice(start);
  const { from, fitting } = fittingIn(line);
  if (fitting.length === 0 || (!asked && from === line.length)) return closeOffers(area);
  Object.assign(offers, { shown: fitting, at: asked ? 0 : -1, from: start + from, asked });
  showOffers(area);
}

/** @param {HTMLTextAreaElement} area */
function showOffers(area) {
  const list = byId('offers');
  const option = (/** @type {Offer} */ offer, /** @type {number} */ number) =>
    make(
      'li',
      { role: 'option', id: `offer-${number}`, 'aria-selected': String(number === offers.at), onmousedown: (/** @type {Event} */ event) => takeByHand(event, area, number) },
      make('b', {}, offer.put),
      ` ${offer.says}`,
    );
  put(list, ...offers.shown.map(option));
  list.hidden = false;
  placeAtCaret(list, area, offers.from);
  markOffer(area);
}

/**
 * @param {Event} event
 * @param {HTMLTextAreaElement} area
 * @param {number} number
 */
function takeByHand(event, area, number) {
  event.preventDefault();
  offers.at = number;
  takeOffer(area);
}

/** @param {HTMLTextAreaElement} area */
function markOffer(area) {
  const list = byId('offers');
  [...list.children].forEach((option, number) => option.setAttribute('aria-selected', String(number === offers.at)));
  if (offers.at >= 0) {
    area.setAttribute('aria-activedescendant', `offer-${offers.at}`);
    list.children[offers.at].scrollIntoView({ block: 'nearest' });
  } else area.removeAttribute('aria-activedescendant');
}

/** @param {HTMLTextAreaElement} area */
function closeOffers(area) {
  offers.shown = [];
  byId('offers').hidden = true;
  area.removeAttribute('aria-activedescendant');
}

/**
 * Puts the chosen word into the script, as typing does, so that it can be undone.
 * @param {HTMLTextAreaElement} area
 */
function takeOffer(area) {
  const chosen = offers.shown[offers.at];
  area.setSelectionRange(offers.from, area.selectionStart);
  closeOffers(area);
  area.focus();
  if (!document.execCommand('insertText', false, `${chosen.put} `)) area.setRangeText(`${chosen.put} `, offers.from, area.selectionEnd, 'end');
  area.dispatchEvent(new Event('input'));
}

/**
 * The keys of the list; true if one was for it. Tab never is, so that the keyboard can always leave.
 * @param {KeyboardEvent} event
 * @param {HTMLTextAreaElement} area
 * @returns {boolean}
 */
function offerKey(event, area) {
  if (event.ctrlKey && event.key === ' ') {
    lookForOffers(area, true);
    return true;
  }
  const count = offers.shown.length;
  if (count === 0) return false;
  if (event.key === 'Escape') closeOffers(area);
  else if (event.key === 'ArrowDown') moveOffer(area, 1);
  else if (event.key === 'ArrowUp' && offers.at >= 0) moveOffer(area, -1);
  else if (event.key === 'Enter' && offers.at >= 0) takeOffer(area);
  else return false;
  return true;
}

/**
 * @param {HTMLTextAreaElement} area
 * @param {number} by
 */
function moveOffer(area, by) {
  offers.at = (offers.at + by + offers.shown.length) % offers.shown.length;
  markOffer(area);
}
