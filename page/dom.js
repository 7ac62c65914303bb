// The page's elements: found, made, filled; what is said to a screen reader; a file saved.

/**
 * The element of this name, which the page has.
 * @param {string} id
 * @returns {any}
 */
function byId(id) {
  const found = document.getElementById(id);
  if (!found) throw new Error(`no element ${id}`);
  return found;
}

/**
 * An element with its attributes and what is in it. `on...` are listened to; false and null leave an attribute out.
 * @param {string} tag
 * @param {Record<string, any>} [attributes]
 * @param {...(Node | string | null)} inside
 * @returns {any}
 */
function make(tag, attributes = {}, ...inside) {
  const element = document.createElement(tag);
  for (const [name, value] of Object.entries(attributes)) {
    if (name.startsWith('on')) element.addEventListener(name.slice(2), value);
    else if (value !== false && value !== null) element.setAttribute(name, value === true ? '' : String(value));
  }
  put(element, ...inside);
  return element;
}

/**
 * Puts these in the place of what is in an element.
 * @param {Element} element
 * @param {...(Node | string | null)} inside
 */
function put(element, ...inside) {
  element.replaceChildren(...inside.flatMap((one) => (one === null ? [] : [one])));
}

/**
 * Gives an element other words; if they are the same, it is left alone.
 * @param {Element} element
 * @param {string} words
 */
function setWords(element, words) {
  if (element.textContent !== words) element.textContent = words;
}

/**
 * A button that does something.
 * @param {string} words
 * @param {() => void} press
 * @returns {HTMLButtonElement}
 */
function button(words, press) {
  return make('button', { type: 'button', onclick: press }, words);
}

/**
 * A table with a head for each column; the first cell of a row is the row's own head.
 * @param {string} caption
 * @param {string[]} heads
 * @param {(string | Node)[][]} rows
 * @returns {HTMLTableElement}
 */
function table(caption, heads, rows) {
  const head = make('tr', {}, ...heads.map((words) => make('th', { scope: 'col' }, words)));
  const line = (/** @type {(string | Node)[]} */ [first, ...rest]) =>
    make('tr', {}, make('th', { scope: 'row' }, first), ...rest.map((cell) => make('td', {}, cell)));
  return make('table', {}, make('caption', {}, caption), make('thead', {}, head), make('tbody', {}, ...rows.map(line)));
}

/**
 * Says something to those who do not see what changed.
 * @param {string} words
 */
function say(words) {
  byId('said').textContent = words;
}

/**
 * Hands a file to the browser, which saves it as it saves all files: none is overwritten without asking.
 * @param {string} name
 * @param {Uint8Array | string} data
 * @param {string} type
 */
function save(name, data, type) {
  const address = URL.createObjectURL(new Blob([/** @type {any} */ (data)], { type }));
  const link = make('a', { href: address, download: name });
  document.body.append(link);
  link.click();
  link.remove();
  setTimeout(() => URL.revokeObjectURL(address), 10000);
  say(`${name} is saved`);
}

/**
 * Does something once the next frame is drawn, and once only.
 * @param {() => void} what
 * @returns {() => void}
 */
function afterFrame(what) {
  let waiting = false;
  return () => {
    if (waiting) return;
    waiting = true;
    requestAnimationFrame(() =>
      setTimeout(() => {
        waiting = false;
        what();
      }),
    );
  };
}

/**
 * Does something once the hand has rested so long.
 * @param {number} milliseconds
 * @param {() => void} what
 * @returns {() => void}
 */
function rested(milliseconds, what) {
  let waiting = 0;
  return () => {
    clearTimeout(waiting);
    waiting = setTimeout(what, milliseconds);
  };
}
