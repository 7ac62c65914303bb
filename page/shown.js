// One file from the field, by what it is: told, drawn, and handed on to where more is done with it.

/** What can be done something with here; of all else the tool's own words are shown. */
/** @type {Record<string, string>} */
const KINDS = {
  trace: 'a trace', 'old trace': 'a trace from before the kind of part', script: 'a script', capture: 'a capture of both upstream buses', sheet: 'an order sheet',
  'sheet text': 'the text of an order sheet', shelf: 'a shelf file', 'shelf script': 'a script for a shelf',
};
const UNKNOWN = 'nothing that is read here, neither trace nor script, sheet, shelf or capture';

/**
 * What is shown of a file.
 * @param {Given} file
 * @param {string} kind
 * @param {string} says
 * @returns {HTMLElement}
 */
function showFile(file, kind, says) {
  const place = make('section', { class: 'file', 'aria-label': file.name });
  const head = make('h3', {}, file.name);
  const what = make('p', { class: 'what' }, `Seen from its bytes: ${KINDS[kind] ?? (says || UNKNOWN)}.`);
  const body = make('div', {});
  put(place, head, what, body);
  const show = { trace: showTrace, 'old trace': showTrace, script: showScript, capture: showCapture, sheet: offerSheet, 'sheet text': offerSheet }[kind];
  show?.(body, file);
  return place;
}

/**
 * @param {HTMLElement} body
 * @param {Given} file
 */
function showTrace(body, file) {
  const story = make('div', {});
  const picture = makePicture(`Picture of ${file.name}`);
  const script = ask('script', file.bytes);
  if (!script.ok) return showRefusedTrace(body, file, textOf(script));
  const told = drawTrace(picture, file.bytes, file.name);
  put(
    body,
    make('p', { role: 'status' }, told.replaceAll('\n', '; ')),
    make('p', { class: 'row' }, button('Open on the bench', () => toBench(textOf(script), file.name)), ...savesOf(file)),
    picture,
    make('details', {}, make('summary', {}, 'The story'), story),
    make('details', {}, make('summary', {}, 'How the bus was shared'), make('pre', { tabindex: '0' }, textOf(ask('share', file.name, file.bytes), 1))),
  );
  showStory(story, file.bytes, (event) => {
    toBench(textOf(script), file.name);
    goTo(event);
  });
}

/**
 * @param {Given} file
 * @returns {HTMLElement[]}
 */
function savesOf(file) {
  const name = file.name.replace(/^.*\//, '').replace(/\.[^.]*$/, '');
  return [
    button('Save the trace', () => save(`${name}.trace`, file.bytes, 'application/octet-stream')),
    button('Save its VCD', () => save(`${name}.vcd`, textOf(ask('vcd', file.bytes)), 'text/plain')),
  ];
}

/**
 * @param {string} script
 * @param {string} name
 */
function toBench(script, name) {
  putScript(script, name);
  openUse('bench');
  byId('tab-bench').focus();
}

/**
 * A trace that is refused. One from before the kind of part is converted, if that is wanted: which part it was of, nobody guesses.
 * @param {HTMLElement} body
 * @param {Given} file
 * @param {string} why
 */
function showRefusedTrace(body, file, why) {
  const converted = ask('convert', file.bytes);
  put(body, make('p', { class: 'bad', role: 'status' }, why));
  if (converted.ok) body.append(button('Convert it to a trace of a PCA9641', () => showTrace(body, { name: file.name, bytes: converted.fields[0] })));
}

/**
 * @param {HTMLElement} body
 * @param {Given} file
 */
function showScript(body, file) {
  const answer = ask('compose', file.bytes);
  const open = button('Open on the bench', () => toBench(decoder.decode(file.bytes), file.name));
  if (!answer.ok) return put(body, make('p', { class: 'bad', role: 'status' }, textOf(answer)), open);
  showTrace(body, { name: file.name, bytes: answer.fields[0] });
}

/** So that two captures on the page do not share a name. */
let captures = 0;

/**
 * A capture shows neither its device nor the part that is fitted: both are asked for, and neither has a default.
 * @param {HTMLElement} body
 * @param {Given} file
 */
function showCapture(body, file) {
  const id = `capture-${(captures += 1)}`;
  const address = make('input', { id: `${id}-address`, size: 5, autocomplete: 'off' });
  const part = make('select', { id: `${id}-part` }, ...['', 'PCA9641', 'TPT29641'].map((name) => make('option', { value: name }, name || 'choose')));
  const told = make('p', { role: 'status' });
  const made = make('div', {});
  const read = () => {
    const answer = ask('import', file.bytes, address.value.trim(), part.value);
    told.className = answer.ok ? '' : 'bad';
    told.textContent = answer.ok ? textOf(answer, 1) : textOf(answer);
    put(made);
    if (answer.ok) showTrace(made, { name: file.name.replace(/\.[^.]*$/, '') + '.trace', bytes: answer.fields[0] });
  };
  const form = make(
    'form',
    { class: 'row', onsubmit: (/** @type {Event} */ event) => (event.preventDefault(), read()) },
    make('label', { for: `${id}-address` }, 'Address of the device, in hex'),
    address,
    make('label', { for: `${id}-part` }, 'Part that is fitted'),
    part,
    make('button', { type: 'submit' }, 'Import'),
  );
  put(body, form, told, made);
}

/**
 * @param {HTMLElement} body
 * @param {Given} file
 */
function offerSheet(body, file) {
  const take = (/** @type {string} */ which) => () => {
    takeBundle([{ name: `${which}-${file.name}`, bytes: file.bytes }]);
    openUse('release');
    byId('tab-release').focus();
  };
  put(body, make('p', { class: 'row' }, button('Take it as the board sheet', take('board')), button('Take it as the house sheet', take('house'))));
}
