// A picture as the module draws it, laid into the page. In the dark another look lies over its own. A line in it shows the event that one looks at.

/** What the classes of a picture look like in the dark: there the bars are light and the letters on them dark. */
const DARK = [
  ['text', 'fill: #e8ebef'], ['.verdict', 'fill: #ff9aa2'], ['.bad', 'fill: #ff9aa2'], ['.small', 'fill: #b6c0cc'], ['.middle', 'fill: #b6c0cc'],
  ['.event', 'fill: #d5dbe2'], ['.onbar', 'fill: #0b1220'], ['.onlight', 'fill: #2c1d00'], ['.paper', 'fill: #171c22'], ['.ground', 'fill: #1f262e'],
  ['.apart', 'fill: #2b343f'], ['.c0', 'fill: #6ea8ea'], ['.c1', 'fill: #45bfb0'], ['.open0', 'fill: #2d4a6b'], ['.open1', 'fill: #1d504b'],
  ['.waits', 'fill: #fbc274; stroke: #ffdca8'], ['.nobody', 'fill: #4a5666'], ['.int', 'fill: #b79bff'], ['.low', 'fill: #6b3038'], ['.hung', 'fill: #ff8791'],
  ['.initialising', 'fill: #a3b1c4'], ['.wave', 'stroke: #e8ebef'], ['.paper-line', 'stroke: #171c22'], ['.axis', 'stroke: #9aa5b1'], ['.fold', 'stroke: #9aa5b1'],
  ['.cross', 'stroke: #ff9aa2'], ['.dropped', 'fill: #ffbd66'], ['.end', 'stroke: #e8ebef'], ['.at', 'stroke: #ff7ab8'],
].map(([where, look]) => `svg.run.laid ${where} { ${look} }`);

const LOOK = `:host { position: relative }
  svg { display: block; width: 100%; height: auto; min-width: 38rem }
  svg.over { position: absolute; left: 0; top: 0; pointer-events: none; will-change: transform }
  svg.run.laid .at { stroke: #b0005a; stroke-width: 2 }
  @media (prefers-color-scheme: dark) { ${DARK.join(' ')} }`;

/** @typedef {{from: number, top: number, foot: number, x: number[]}} Strip where the events of a strip stand, the first of which is `from` */
/** @type {WeakMap<HTMLElement, {strips: Strip[], line: Element}>} */
const pictures = new WeakMap();

/**
 * Shows a picture. `told` is its name for those who do not see it; `style` is its look, if it has none of its own.
 * @param {HTMLElement} host
 * @param {string} svg
 * @param {string} told
 * @param {string} [style]
 * @returns {SVGSVGElement | null}
 */
function showPicture(host, svg, told, style = '') {
  const root = host.shadowRoot ?? host.attachShadow({ mode: 'open' });
  const holder = document.createElement('template');
  holder.innerHTML = svg;
  const drawn = holder.content.querySelector('svg');
  if (!drawn) {
    root.replaceChildren();
    return null;
  }
  drawn.removeAttribute('width');
  drawn.removeAttribute('height');
  drawn.classList.add('run', 'laid');
  drawn.setAttribute('role', 'img');
  drawn.setAttribute('aria-label', told);
  const look = `${style}\n${LOOK}`;
  const [own, old] = root.children;
  if (own?.textContent !== look || !(old instanceof SVGSVGElement)) {
    root.replaceChildren(make('style', {}, look), drawn);
    return drawn;
  }
  makeAlike(old, drawn);
  return old;
}

/**
 * Makes a drawing that is shown like a fresh one. What is the same in both is left alone, since the browser lays out what is new: at most keys names, words and
 * signs stay where they are.
 * @param {SVGSVGElement} old
 * @param {SVGSVGElement} fresh
 */
function makeAlike(old, fresh) {
  for (const { name, value } of fresh.attributes) if (old.getAttribute(name) !== value) old.setAttribute(name, value);
  const [was, is] = [[...old.children], [...fresh.children]];
  /** @type {Element | null} */
  let after = null;
  while (was.length && is.length && was[was.length - 1].isEqualNode(is[is.length - 1])) {
    after = was.pop() ?? null;
    is.pop();
  }
  is.forEach((shape, place) => {
    if (place >= was.length) old.insertBefore(shape, after);
    else if (!was[place].isEqualNode(shape)) was[place].replaceWith(shape);
  });
  was.slice(is.length).forEach((shape) => shape.remove());
}

/**
 * Draws a trace there.
 * @param {HTMLElement} host
 * @param {Uint8Array} trace
 * @param {string} title
 * @returns {string} what is told of the run, a line each
 */
function drawTrace(host, trace, title) {
  const answer = ask('sketch', trace, title);
  const told = answer.ok ? textOf(answer, 1) : textOf(answer);
  const drawn = showPicture(host, answer.ok ? textOf(answer, 0) : '', told.replaceAll('\n', '; '), textOf(answer, 3));
  pictures.delete(host);
  if (drawn) pictures.set(host, { strips: jsonOf(answer, 2) ?? [], line: layLine(drawn) });
  return told;
}

/**
 * A line over a picture. It has a drawing of its own, so that the picture is not painted anew when the line moves.
 * @param {SVGSVGElement} drawn
 * @returns {Element}
 */
function layLine(drawn) {
  const over = drawn.nextElementSibling ?? /** @type {SVGSVGElement} */ (drawn.cloneNode(false));
  for (const name of ['role', 'aria-label']) over.removeAttribute(name);
  over.setAttribute('aria-hidden', 'true');
  over.setAttribute('viewBox', drawn.getAttribute('viewBox') ?? '');
  over.classList.add('over');
  if (!over.firstElementChild) over.append(document.createElementNS('http://www.w3.org/2000/svg', 'line'));
  const line = /** @type {Element} */ (over.firstElementChild);
  line.setAttribute('class', 'at');
  if (!drawn.nextElementSibling) drawn.after(over);
  return line;
}

/**
 * Moves the line in a picture to an event; 0 is the start.
 * @param {HTMLElement} host
 * @param {number} event
 */
function markPicture(host, event) {
  const shown = pictures.get(host);
  const at = Math.max(1, event);
  const strip = shown?.strips.find(({ from, x }) => from <= at && at < from + x.length);
  if (!shown || !strip) return;
  const x = strip.x[at - strip.from];
  shown.line.setAttribute('visibility', event === 0 ? 'hidden' : 'visible');
  for (const [name, value] of Object.entries({ x1: x, x2: x, y1: strip.top, y2: strip.foot })) shown.line.setAttribute(name, String(value));
}

/**
 * A place for a picture, which the keyboard can scroll.
 * @param {string} label
 * @returns {HTMLElement}
 */
function makePicture(label) {
  return make('div', { class: 'picture', role: 'region', 'aria-label': label, tabindex: '0' });
}
