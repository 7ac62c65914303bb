// Files that are dropped or chosen: their names and bytes.

/** @typedef {{name: string, bytes: Uint8Array, changed?: number}} Given its last change in seconds since 1970, if it is known */

/** Nothing that is read here is longer; of a longer file so much is looked at that the module can say so. */
const MOST_BYTES = 16 * 1024 * 1024 + 1;

/** So many files of a folder are read, and no more. */
const MOST_FILES = 1000;

/**
 * @param {File} file
 * @param {string} name
 * @returns {Promise<Given>}
 */
async function readFile(file, name) {
  const part = file.size > MOST_BYTES ? file.slice(0, MOST_BYTES) : file;
  return { name, bytes: new Uint8Array(await part.arrayBuffer()), changed: Math.floor(file.lastModified / 1000) };
}

/**
 * Files that were chosen; of a folder with their paths in it.
 * @param {FileList} files
 * @returns {Promise<Given[]>}
 */
function readChosen(files) {
  const few = [...files].slice(0, MOST_FILES);
  return Promise.all(few.map((file) => readFile(file, withoutFolder(file.webkitRelativePath) || file.name)));
}

/**
 * A path without the folder that was chosen.
 * @param {string} path
 * @returns {string}
 */
function withoutFolder(path) {
  return path.slice(path.indexOf('/') + 1);
}

/**
 * Files that were dropped, those of folders with their paths in it. What an item holds has to be asked for at once, in the drop itself.
 * @param {DataTransfer} dropped
 * @returns {Promise<Given[]>}
 */
async function readDropped(dropped) {
  const items = [...dropped.items].filter((item) => item.kind === 'file');
  const held = items.map((/** @type {any} */ item) => {
    const entry = item.webkitGetAsEntry?.() ?? null;
    return { file: item.getAsFile(), entry, handle: entry?.isDirectory ? item.getAsFileSystemHandle?.() : null };
  });
  /** @type {Given[]} */
  const found = [];
  for (const { file, entry, handle } of held) {
    if (!entry?.isDirectory) found.push(await readFile(file, file.name));
    else if (handle) await walkHandle(await handle, '', found);
    else await walkEntry(entry, '', found);
  }
  return found;
}

/**
 * The files of a folder by its handle, which Chromium gives to a page that was opened from disk; of an entry it reads nothing there.
 * @param {any} folder
 * @param {string} path
 * @param {Given[]} found
 */
async function walkHandle(folder, path, found) {
  for await (const one of folder.values()) {
    if (found.length >= MOST_FILES) return;
    if (one.kind === 'file') found.push(await readFile(await one.getFile(), path + one.name));
    else await walkHandle(one, `${path}${one.name}/`, found);
  }
}

/**
 * The same by its entry, where there are no handles.
 * @param {any} folder
 * @param {string} path
 * @param {Given[]} found
 */
async function walkEntry(folder, path, found) {
  const reader = folder.createReader();
  for (;;) {
    const some = await new Promise((done, failed) => reader.readEntries(done, failed));
    if (some.length === 0 || found.length >= MOST_FILES) return;
    for (const one of some) {
      if (one.isFile) found.push(await readFile(await new Promise((done, failed) => one.file(done, failed)), path + one.name));
      else await walkEntry(one, `${path}${one.name}/`, found);
    }
  }
}

/**
 * Has a part of the page take files: dropped on it, or chosen by an input.
 * @param {HTMLElement} place
 * @param {HTMLInputElement[]} inputs
 * @param {(files: Given[]) => void} take
 */
function takeFiles(place, inputs, take) {
  const failed = (/** @type {unknown} */ why) => say(`A file could not be read: ${why}`);
  place.addEventListener('dragover', (event) => {
    event.preventDefault();
    place.classList.add('over');
  });
  place.addEventListener('dragleave', () => place.classList.remove('over'));
  place.addEventListener('drop', (event) => {
    event.preventDefault();
    place.classList.remove('over');
    if (event.dataTransfer) readDropped(event.dataTransfer).then(take, failed);
  });
  for (const input of inputs) {
    input.addEventListener('change', () => {
      if (input.files?.length) readChosen(input.files).then(take, failed);
      input.value = '';
    });
  }
}

/**
 * What a file is, by its bytes, and what the tool says of it.
 * @param {Given} file
 * @returns {{kind: string, says: string}}
 */
function whatIs(file) {
  const answer = ask('what', file.name, file.bytes);
  return answer.ok ? { kind: textOf(answer, 0), says: textOf(answer, 1) } : { kind: 'unknown', says: textOf(answer) };
}
