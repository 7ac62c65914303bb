// What comes from the field: any files; each is told by what it is. A shelf needs its script, and is run once both are there.

/** @type {{files: {file: Given, kind: string, says: string}[]}} */
const field = { files: [] };

/** @param {Given[]} files */
function takeField(files) {
  const seen = files.map((file) => ({ file, ...whatIs(file) }));
  field.files = [...seen, ...field.files.filter((old) => !seen.some((one) => one.file.name === old.file.name))];
  drawField(seen.length);
  const words = seen.map(({ file, kind, says }) => `${file.name}: ${KINDS[kind] ?? (says || UNKNOWN)}`);
  say(words.join('; '));
}

/**
 * @param {number} fresh so many of them are new; the others stand as they are
 */
function drawField(fresh) {
  const place = byId('field-files-shown');
  const kept = [...place.querySelectorAll(':scope > .file:not(.shelf)')].filter((old) => field.files.slice(fresh).some(({ file }) => file.name === old.getAttribute('aria-label')));
  const made = field.files.slice(0, fresh).map(({ file, kind, says }) => showFile(file, kind, says));
  put(place, ...shelves(), ...orders(), ...made, ...kept);
}

/**
 * The shelf with each of its scripts, or what is missing.
 * @returns {HTMLElement[]}
 */
function shelves() {
  const shelf = field.files.find(({ kind }) => kind === 'shelf');
  const scripts = field.files.filter(({ kind }) => kind === 'shelf script');
  if (shelf && scripts.length) return scripts.map((script) => showShelf(shelf.file, script.file));
  const missing = shelf ? 'A shelf file is there. Drop the script for it too, and it is run over the shelf.' : 'A script for a shelf is there. Drop the shelf file too: a line a device, its address and its part.';
  return shelf || scripts.length ? [make('p', { class: 'file shelf', role: 'status' }, missing)] : [];
}

/**
 * @param {Given} shelf
 * @param {Given} script
 * @returns {HTMLElement}
 */
function showShelf(shelf, script) {
  const answer = ask('shelf', shelf.bytes, script.bytes, shelf.name, script.name);
  const title = `${shelf.name}, run by ${script.name}`;
  const made = answer.ok ? answer.fields : answer.fields.slice(2);
  const refused = answer.ok ? null : make('p', { class: 'bad', role: 'status' }, textOf(answer));
  const place = make('section', { class: 'file shelf', 'aria-label': title }, make('h3', {}, title), refused);
  if (made.length === 0) return place;
  const picture = makePicture(`Picture of ${title}`);
  const told = decoder.decode(made[0]);
  showPicture(picture, decoder.decode(made[1]), `${title}. ${told}`);
  place.append(picture, make('pre', { tabindex: '0', role: 'region', 'aria-label': `What happened: ${title}` }, told));
  return place;
}

/**
 * Two start-up scripts tried in all orders, once both are there by their names.
 * @returns {HTMLElement[]}
 */
function orders() {
  const named = (/** @type {number} */ controller) => field.files.find(({ kind, file }) => kind === 'script' && new RegExp(`start${controller}`, 'i').test(file.name))?.file;
  const [first, second] = [named(0), named(1)];
  if (!first || !second) return [];
  const answer = ask('orders', first.bytes, second.bytes, first.name, second.name);
  const title = `${first.name} and ${second.name} in all orders`;
  const told = answer.ok ? textOf(answer) : [...answer.fields.slice(2, 3).map((text) => decoder.decode(text)), textOf(answer)].join('\n');
  return [make('section', { class: 'file shelf', 'aria-label': title }, make('h3', {}, title), make('pre', { tabindex: '0', role: 'region', 'aria-label': title }, told))];
}

function startField() {
  takeFiles(byId('panel-field'), [byId('field-files')], takeField);
  byId('field-clear').addEventListener('click', () => {
    field.files = [];
    drawField(0);
    say('All is put away');
  });
}
