// The four uses as tabs: arrow keys go from one to the next, Home and End to the first and the last; the tab that is chosen is the one that Tab reaches.

const USES = ['release', 'bench', 'field', 'learn'];

/** @type {Record<string, () => void>} */
const whenShown = {};

/**
 * Shows one of the four.
 * @param {string} use
 */
function showUse(use) {
  for (const one of USES) {
    const tab = byId(`tab-${one}`);
    tab.setAttribute('aria-selected', String(one === use));
    tab.tabIndex = one === use ? 0 : -1;
    byId(`panel-${one}`).hidden = one !== use;
  }
  whenShown[use]?.();
}

/** @returns {string} the one that is shown */
function shownUse() {
  return USES.find((one) => !byId(`panel-${one}`).hidden) ?? USES[0];
}

/** @param {KeyboardEvent} event */
function moveTab(event) {
  const at = USES.indexOf(shownUse());
  const to = { ArrowRight: at + 1, ArrowLeft: at + USES.length - 1, Home: 0, End: USES.length - 1 }[event.key];
  if (to === undefined) return;
  event.preventDefault();
  openUse(USES[to % USES.length]);
  byId(`tab-${shownUse()}`).focus();
}

/**
 * Shows one and notes it in the address.
 * @param {string} use
 */
function openUse(use) {
  showUse(use);
  noteAddress();
}

function startTabs() {
  for (const one of USES) {
    byId(`tab-${one}`).addEventListener('click', () => openUse(one));
    byId(`tab-${one}`).addEventListener('keydown', moveTab);
  }
}
