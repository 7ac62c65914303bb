// One order sheet as the form has it: a word a box, as the text of a sheet says it; an empty box has none.

/** @typedef {{name: string, section: string, controller: number, kind: string, choices: string[][], unit: string, help: string}} Box */
/** @typedef {{words: string[], damaged: Uint8Array | null, told: string}} Sheet */

/** @type {{boxes: Box[]}} */
const forms = { boxes: [] };

/** @returns {Sheet} a sheet on which nothing is ticked */
function emptySheet() {
  return { words: forms.boxes.map(() => ''), damaged: null, told: '' };
}

/**
 * The text of a sheet, a line a box in the form's order, as `fill` takes it.
 * @param {Sheet} sheet
 * @returns {string}
 */
function linesOf(sheet) {
  return forms.boxes.map((box, place) => `${box.name}: ${sheet.words[place].trim() || 'empty'}\n`).join('');
}

/**
 * The bytes of a sheet, or why a word of it is refused. A file that is no sheet keeps its own bytes.
 * @param {Sheet} sheet
 * @returns {Answer}
 */
function filled(sheet) {
  return sheet.damaged ? { ok: true, fields: [sheet.damaged] } : ask('fill', linesOf(sheet));
}

/**
 * The sheet that these bytes are. If they are none, it is kept as it is, and what is said of it with it.
 * @param {Uint8Array} bytes
 * @returns {Sheet}
 */
function sheetOf(bytes) {
  const answer = ask('sheet_text', bytes);
  if (!answer.ok) return { ...emptySheet(), damaged: bytes, told: textOf(answer) };
  return sheetOfText(textOf(answer));
}

/**
 * The sheet of a text that can be filled in.
 * @param {string} text
 * @returns {Sheet}
 */
function sheetOfText(text) {
  const sheet = emptySheet();
  for (const line of text.split(/\r?\n/)) {
    const [name, word] = line.replace(/#.*/, '').split(':');
    const place = forms.boxes.findIndex((box) => box.name.toLowerCase() === name.trim().replace(/\s+/g, ' ').toLowerCase());
    if (place >= 0 && word !== undefined) sheet.words[place] = word.trim().toLowerCase().replace(/^empty$/, '').replace(/\s+/g, ' ');
  }
  return sheet;
}

/**
 * The text of a sheet as the tool writes it, with its comments.
 * @param {Sheet} sheet
 * @returns {Answer}
 */
function fullText(sheet) {
  const bytes = filled(sheet);
  return bytes.ok ? ask('sheet_text', bytes.fields[0]) : bytes;
}
