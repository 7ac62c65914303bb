// The samples that the module has built in.

/** @typedef {{name: string, kind: string, files: string[], says: string}} Sample */

/** @type {{all: Sample[]}} */
const samples = { all: [] };

/**
 * The files of a sample. Those of a bundle have their names in it.
 * @param {string} name
 * @returns {Given[]}
 */
function filesOf(name) {
  const paths = samples.all.find((sample) => sample.name === name)?.files ?? [];
  return paths.map((path) => ({ name: path.startsWith(`${name}/`) ? path.slice(name.length + 1) : path.replace(/^.*\//, ''), bytes: ask('sample', path).fields[0] }));
}

/**
 * Opens a sample where it belongs.
 * @param {Sample} sample
 */
function openSample({ name, kind }) {
  const files = filesOf(name);
  if (kind === 'script') return toBench(decoder.decode(files[0].bytes), name);
  const use = kind === 'sheets' || kind === 'release' ? 'release' : 'field';
  if (use === 'release') takeSampleBundle(files);
  else takeField(files);
  openUse(use);
  byId(`tab-${use}`).focus();
}

/**
 * Offers samples of some kinds in a list to choose from.
 * @param {HTMLSelectElement} select
 * @param {string[]} kinds
 * @param {(name: string) => void} take
 */
function offerSamples(select, kinds, take) {
  const fitting = samples.all.filter(({ kind }) => kinds.includes(kind));
  select.append(...fitting.map(({ name, says }) => make('option', { value: name, title: says }, name)));
  select.addEventListener('change', () => {
    if (select.value) take(select.value);
    select.value = '';
  });
}
