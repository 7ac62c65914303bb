// The script's text area: the numbers of its lines, the line that cannot be read, the line of the event that one looks at.
// What is measured is kept: to ask anew at every key would have the browser lay out the whole page between two changes.

/** A line's height and a letter's width, the padding above and beside, how far it is scrolled and how much is in sight, in pixels. */
const editor = { lines: 0, wrong: 0, now: 0, height: 0, letter: 0, top: 0, left: 0, scrolled: 0, sight: 0 };

/** @param {HTMLTextAreaElement} area */
function measureEditor(area) {
  const style = getComputedStyle(area);
  const probe = make('span', { style: 'position:absolute;visibility:hidden;white-space:pre' }, 'M'.repeat(100));
  probe.style.font = style.font;
  area.parentElement?.append(probe);
  const letter = probe.getBoundingClientRect().width / 100;
  probe.remove();
  Object.assign(editor, { letter, height: parseFloat(style.lineHeight), top: parseFloat(style.paddingTop), left: parseFloat(style.paddingLeft), sight: area.clientHeight });
}

/** The numbers of the lines, as many as there are. */
function numberLines() {
  const count = byId('script').value.split('\n').length;
  if (count === editor.lines) return;
  editor.lines = count;
  byId('gutter').textContent = Array.from({ length: count }, (_, place) => place + 1).join('\n');
}

/**
 * Marks the line that cannot be read, and that of the event; 0 is none.
 * @param {{wrong?: number, now?: number}} marks
 */
function markLines(marks) {
  Object.assign(editor, marks);
  for (const [id, line] of /** @type {[string, number][]} */ ([['mark-wrong', editor.wrong], ['mark-now', editor.now]])) {
    const mark = byId(id);
    mark.hidden = line === 0;
    mark.style.top = `${editor.top + (line - 1) * editor.height}px`;
    mark.style.height = `${editor.height}px`;
  }
}

/** Lays numbers and marks where the text has been scrolled to. */
function followScroll() {
  editor.scrolled = byId('script').scrollTop;
  byId('under').style.transform = `translateY(${-editor.scrolled}px)`;
}

/** Measures anew and lays everything in its place: when the bench is shown, and when the window changes. */
function layEditor() {
  const area = byId('script');
  if (!area.checkVisibility()) return;
  measureEditor(area);
  followScroll();
  markLines({});
}

/**
 * Lays an element under the letter at a place of the text.
 * @param {HTMLElement} element
 * @param {HTMLTextAreaElement} area
 * @param {number} place
 */
function placeAtCaret(element, area, place) {
  const before = area.value.slice(0, place).split('\n');
  const left = editor.left + before[before.length - 1].length * editor.letter - area.scrollLeft;
  element.style.top = `${editor.top + before.length * editor.height - area.scrollTop}px`;
  element.style.left = `${Math.max(0, Math.min(left, area.clientWidth - 200))}px`;
}

/**
 * Brings a line into sight, if it is not.
 * @param {number} line
 */
function showLine(line) {
  const top = (line - 1) * editor.height;
  const inSight = editor.scrolled <= top && top <= editor.scrolled + editor.sight - 2 * editor.height;
  if (line > 0 && !inSight) byId('script').scrollTop = top - editor.sight / 2;
}

/** @param {() => void} changed */
function startEditor(changed) {
  const area = byId('script');
  area.addEventListener('input', () => {
    changed();
    lookForOffers(area, false);
  });
  area.addEventListener('keydown', (/** @type {KeyboardEvent} */ event) => {
    if (offerKey(event, area)) event.preventDefault();
  });
  area.addEventListener('scroll', followScroll);
  area.addEventListener('blur', () => closeOffers(area));
  area.addEventListener('click', () => closeOffers(area));
  new ResizeObserver(layEditor).observe(area);
}
