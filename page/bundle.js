// The files of a bundle: which of them is which, and what becomes of the others.

/**
 * Takes files that were dropped or chosen into the release.
 * @param {Given[]} files
 */
function takeBundle(files) {
  keepBundle();
  const kinds = files.map((file) => ({ file, ...whatIs(file) }));
  const sheets = kinds.filter(({ file, kind }) => kind === 'sheet' || file.name.endsWith('.sheet'));
  const texts = kinds.filter((one) => one.kind === 'sheet text' && !sheets.includes(one));
  const told = takeSheets(sheets.map(({ file }) => file));
  told.push(...takeTexts(texts.map(({ file }) => file), sheets.length === 0));
  const taken = ['trace', 'old trace', 'script', 'shelf script', 'shelf'];
  for (const one of kinds.filter((one) => !sheets.includes(one) && !texts.includes(one))) {
    const wanted = taken.includes(one.kind) || /\.(trace|script|shelf)$/.test(one.file.name);
    if (wanted) release.others = [...release.others.filter(({ name }) => name !== one.file.name), one.file];
    else told.push(`${one.file.name} is not read${one.says ? `: ${one.says}` : ''}`);
  }
  judge();
  byId('release-told').append(...told.map((words) => make('li', {}, words)));
}

/**
 * Which of the two a file is: by its name, and else the one that was not given yet.
 * @param {string} name
 * @param {('board' | 'house')[]} free
 * @returns {'board' | 'house'}
 */
function whichSheet(name, free) {
  const own = /** @type {const} */ (['board', 'house']).find((which) => name.toLowerCase().includes(which));
  return own && free.includes(own) ? own : (free[0] ?? own ?? 'board');
}

/**
 * @param {Given[]} files
 * @returns {string[]} what is told of them
 */
function takeSheets(files) {
  /** @type {('board' | 'house')[]} */
  let free = ['board', 'house'];
  return files.map((file) => {
    const which = whichSheet(file.name, free);
    free = free.filter((one) => one !== which);
    release[which] = sheetOf(file.bytes);
    return `${file.name} is taken as the ${which} sheet`;
  });
}

/**
 * A text fills in its sheet. Beside a sheet it is held against it, as the tool does.
 * @param {Given[]} files
 * @param {boolean} alone
 * @returns {string[]}
 */
function takeTexts(files, alone) {
  /** @type {('board' | 'house')[]} */
  let free = ['board', 'house'];
  return files.map((file) => {
    const which = whichSheet(file.name, free);
    free = free.filter((one) => one !== which);
    if (!alone) {
      release.others = [...release.others.filter(({ name }) => name !== `${which}.txt`), { name: `${which}.txt`, bytes: file.bytes }];
      return `${file.name} is held against the ${which} sheet`;
    }
    const answer = ask('fill', file.bytes);
    if (!answer.ok) return `${file.name}: ${textOf(answer)}`;
    release[which] = sheetOf(answer.fields[0]);
    return `${file.name} is filled in as the ${which} sheet`;
  });
}

/**
 * A bundle among the samples, in the place of what is there.
 * @param {Given[]} files
 */
function takeSampleBundle(files) {
  keepBundle();
  const { kept } = release;
  release.others = [];
  takeBundle(files);
  release.kept = kept;
}

/** Keeps what is there, so that it can be brought back: what somebody typed is not lost by a press. */
function keepBundle() {
  const { board, house, others } = release;
  if (others.length + [...board.words, ...house.words].filter(Boolean).length === 0 && !board.damaged && !house.damaged) return;
  release.kept = { board: { ...board, words: [...board.words] }, house: { ...house, words: [...house.words] }, others };
  byId('release-back').hidden = false;
}

function bringBackBundle() {
  const { kept } = release;
  release.kept = null;
  keepBundle();
  byId('release-back').hidden = release.kept === null;
  Object.assign(release, kept);
  judge();
}

/** @param {'board' | 'house'} which */
function saveSheet(which) {
  const answer = filled(release[which]);
  if (!answer.ok) return say(textOf(answer));
  save(`${which}.sheet`, answer.fields[0], 'application/octet-stream');
}

/** @param {'board' | 'house'} which */
function saveText(which) {
  const answer = fullText(release[which]);
  if (!answer.ok) return say(textOf(answer));
  save(`${which}.txt`, answer.fields[0], 'text/plain');
}

function startRelease() {
  forms.boxes = jsonOf(ask('boxes'));
  Object.assign(release, { board: emptySheet(), house: emptySheet() });
  buildForm((which, place, word) => {
    release[which].words[place] = word;
    judge();
  });
  byId('form').addEventListener('submit', (/** @type {Event} */ event) => event.preventDefault());
  for (const id of ['most', 'limit-0', 'limit-1']) byId(id).addEventListener('input', judge);
  takeFiles(byId('panel-release'), [byId('release-files'), byId('release-folder')], takeBundle);
  byId('release-incident').addEventListener('click', () => takeSampleBundle(filesOf('releases/incident')));
  byId('release-safe').addEventListener('click', () => takeSampleBundle(filesOf('releases/safe')));
  byId('release-back').addEventListener('click', bringBackBundle);
  byId('release-clear').addEventListener('click', () => {
    keepBundle();
    Object.assign(release, { board: emptySheet(), house: emptySheet(), others: [] });
    judge();
  });
  byId('exchange').addEventListener('click', () => {
    [release.board, release.house] = [release.house, release.board];
    judge();
  });
  for (const which of /** @type {const} */ (['board', 'house'])) {
    byId(`save-${which}`).addEventListener('click', () => saveSheet(which));
    byId(`save-${which}-text`).addEventListener('click', () => saveText(which));
  }
  byId('save-report').addEventListener('click', () => save('report.html', /** @type {Uint8Array} */ (release.report), 'text/html'));
  byId('save-verdict').addEventListener('click', () => save('verdict.txt', release.text, 'text/plain'));
  judge();
}
