// The form of two order sheets. An empty box stays empty. A reserve of 0 cannot be typed: it is chosen as 'without limit'.

const WITHOUT_LIMIT = 'without limit';

/**
 * Builds the form: for each box its field on either sheet, and what is ordered by the two.
 * @param {(sheet: 'board' | 'house', place: number, word: string) => void} changed
 */
function buildForm(changed) {
  const one = (/** @type {Box} */ box, /** @type {number} */ place) =>
    make(
      'fieldset',
      { class: 'box', id: `box-${place}` },
      make('legend', {}, box.name),
      fieldOf(box, place, 'board', changed),
      fieldOf(box, place, 'house', changed),
      make('p', { class: 'ordered', id: `ordered-${place}` }),
    );
  put(byId('boxes'), ...forms.boxes.map(one));
}

/**
 * @param {Box} box
 * @param {number} place
 * @param {'board' | 'house'} sheet
 * @param {(sheet: 'board' | 'house', place: number, word: string) => void} changed
 * @returns {HTMLElement}
 */
function fieldOf(box, place, sheet, changed) {
  const id = `${sheet}-${place}`;
  const label = make('label', { for: id }, sheet === 'board' ? 'Board sheet' : 'House sheet');
  const wrong = make('span', { class: 'wrong', id: `${id}-wrong` });
  const described = `${id}-wrong ordered-${place}`;
  if (box.kind !== 'ms') {
    const options = [['', 'empty'], ...box.choices].map(([value, says]) => make('option', { value }, value === '' ? says : `${value}: ${says}`));
    const choose = make('select', { id, 'aria-describedby': described, onchange: () => changed(sheet, place, choose.value) }, ...options);
    return make('div', { class: 'field' }, label, choose, wrong);
  }
  const type = make('input', {
    id, size: 8, inputmode: 'numeric', placeholder: 'empty', 'aria-describedby': described, oninput: () => changed(sheet, place, type.value),
  });
  const limit = make('input', {
    id: `${id}-limit`, type: 'checkbox', onchange: () => changed(sheet, place, limit.checked ? WITHOUT_LIMIT : ''),
  });
  return make('div', { class: 'field' }, label, type, make('label', { class: 'limit' }, limit, ' without limit'), wrong);
}

/**
 * Shows the words of a sheet in its fields.
 * @param {'board' | 'house'} which
 * @param {Sheet} sheet
 */
function showSheet(which, sheet) {
  sheet.words.forEach((word, place) => {
    const field = byId(`${which}-${place}`);
    const limit = document.getElementById(`${which}-${place}-limit`);
    const without = word === WITHOUT_LIMIT;
    if (limit) /** @type {HTMLInputElement} */ (limit).checked = without;
    if (limit) field.readOnly = without;
    if (field.value !== word) field.value = word;
    field.disabled = sheet.damaged !== null;
    field.classList.toggle('empty', word.trim() === '');
  });
}

/**
 * Shows which words are refused. The lines of a refusal are those of the form's text, one a box.
 * @param {'board' | 'house'} which
 * @param {Answer} answer
 */
function showRefused(which, answer) {
  const messages = answer.ok ? [] : textOf(answer).split('\n');
  forms.boxes.forEach((_, place) => {
    const line = place + 1;
    const own = messages.filter((words) => new RegExp(`line ${line}\\b`).test(words) || (messages.length === 1 && textOf(answer, 1) === String(line)));
    byId(`${which}-${place}`).setAttribute('aria-invalid', String(own.length > 0));
    byId(`${which}-${place}-wrong`).textContent = own.map((words) => words.replace(/^.*?line \d+:? */, '')).join(' ');
  });
}

/**
 * Shows what the two sheets order, box by box.
 * @param {{from: string, words: string}[]} boxes
 */
function showOrdered(boxes) {
  forms.boxes.forEach((_, place) => {
    const { from, words } = boxes[place] ?? { from: 'neither', words: '' };
    const nobody = from === 'neither';
    byId(`box-${place}`).classList.toggle('nobody', nobody);
    byId(`ordered-${place}`).textContent = nobody ? words : `${from === 'board' ? 'Board sheet' : 'House sheet'}: ${words}`;
  });
}
