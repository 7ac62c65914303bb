// The bench: a script, and at once its picture, its story, its answers and the state after every event.

/** What is drawn; `kept` is the script that another took the place of, with its name, unless it was left as it came (`given`). */
/** @type {{trace: Uint8Array | null, lines: number[], at: number, name: string, given: string, kept: [string, string] | null}} */
const bench = { trace: null, lines: [], at: 0, name: 'bench', given: '', kept: null };

const sayError = rested(900, () => say(byId('script-told').textContent));
const sayRun = rested(500, () => say(byId('bench-told').innerText));
const noteScript = rested(400, () => noteAddress());

/**
 * Puts a script on the bench.
 * @param {string} script
 * @param {string} name what it is called in the picture and where it is saved
 */
function putScript(script, name) {
  const old = byId('script').value;
  if (old.trim() && old !== bench.given && old !== script) bench.kept = [old, bench.name];
  byId('bench-back').hidden = bench.kept === null;
  bench.given = script;
  bench.name = name.replace(/^.*\//, '').replace(/\.(script|trace)$/, '') || 'bench';
  bench.at = Infinity;
  byId('script').value = script;
  scriptChanged();
}

/** The script that was written here before another came in its place. */
function bringBackScript() {
  if (!bench.kept) return;
  const [script, name] = bench.kept;
  bench.kept = null;
  putScript(script, name);
  byId('script').focus();
}

/** Reads the script anew and shows what it does, or which line cannot be read. */
function scriptChanged() {
  const script = byId('script').value;
  numberLines();
  const answer = ask('compose', script);
  const refused = !answer.ok;
  byId('script-told').textContent = refused ? textOf(answer, 0) : '';
  byId('script').setAttribute('aria-invalid', String(refused));
  byId('stale').hidden = !refused || bench.trace === null;
  markLines({ wrong: refused ? Number(textOf(answer, 1)) || 0 : 0 });
  const warnings = refused ? '' : textOf(answer, 1);
  put(byId('script-warnings'), ...warnings.split('\n').filter(Boolean).map((words) => make('li', {}, words)));
  showReserve(script);
  sayError();
  noteScript();
  if (refused) return;
  bench.trace = answer.fields[0];
  bench.lines = jsonOf(answer, 2) ?? [];
  drawBench();
}

/** Shows the trace: what moves with the slider, and what does not. */
function drawBench() {
  const trace = /** @type {Uint8Array} */ (bench.trace);
  const events = bench.lines.length;
  byId('at').max = String(events);
  bench.at = Math.min(bench.at, events);
  const told = drawTrace(byId('bench-picture'), trace, bench.name);
  put(byId('bench-told'), ...told.split('\n').filter(Boolean).map((words) => make('li', {}, words)));
  goTo(bench.at);
  if (inSight.size > 0) drawBelow();
  else drawBelowLater();
}

/** Whether story and answers are in sight, or nearly. Where they are not, they are drawn after the frame, and the key does not wait for them. */
/** @type {Set<Element>} */
const inSight = new Set();
const sight = new IntersectionObserver(
  (seen) => seen.forEach(({ target, isIntersecting }) => (isIntersecting ? inSight.add(target) : inSight.delete(target))),
  { rootMargin: '300px' },
);

/** The story and the answers, which stand below the rest. */
function drawBelow() {
  if (!bench.trace) return;
  showStory(byId('story'), bench.trace, goTo, bench.at);
  showAnswers(bench.trace);
  follow();
}

const drawBelowLater = afterFrame(() => drawBelow());

/**
 * Looks at the state after an event. What is slower follows when the hand rests: what is new in it, its line, its row, its answer.
 * @param {number} event
 */
function goTo(event) {
  if (!bench.trace) return;
  const state = stateAt(bench.trace, event);
  if (!state) return;
  bench.at = event;
  const words = whereWords(state);
  const slider = byId('at');
  if (slider.value !== String(event)) slider.value = String(event);
  slider.setAttribute('aria-valuetext', `${words}; ${state.stands}`);
  put(byId('at-said'), make('b', { class: state.refused ? 'refused' : null }, words), ` ${[state.stands, ...state.changed].filter(Boolean).join('; ')}`);
  showState(byId('state'), state, null);
  markPicture(byId('bench-picture'), event);
  markLines({ now: event > 0 ? bench.lines[event - 1] : 0 });
  followHand();
}

function follow() {
  const { trace, at } = bench;
  if (!trace) return;
  const state = stateAt(trace, at);
  if (state && at > 0) showState(byId('state'), state, stateAt(trace, at - 1));
  if (document.activeElement !== byId('script')) showLine(editor.now);
  markStory(byId('story'), at);
  markAnswers(at);
}

const followHand = rested(80, follow);

/**
 * Shows box 14, if the script writes controller 0's reserve.
 * @param {string} script
 */
function showReserve(script) {
  const place = findReserve(script);
  const reserve = place && reserveOf(place.word);
  byId('box14').hidden = reserve === null;
  if (reserve === null) return;
  byId('box14-range').value = String(reserve);
  byId('box14-range').setAttribute('aria-valuetext', reserveWords(reserve));
  byId('box14-said').textContent = reserveWords(reserve);
}

/** @param {number} reserve */
function setReserve(reserve) {
  const area = byId('script');
  area.value = withReserve(area.value, reserve);
  scriptChanged();
  sayRun();
}

/** @param {string} form */
function saveBench(form) {
  if (!bench.trace) return say('There is no trace yet: the script cannot be read');
  const { name, trace } = bench;
  if (form === 'trace') save(`${name}.trace`, trace, 'application/octet-stream');
  else if (form === 'script') save(`${name}.script`, byId('script').value, 'text/plain');
  else if (form === 'listing') save(`${name}.listing`, textOf(ask('listing', trace)), 'text/plain');
  else if (form === 'vcd') save(`${name}.vcd`, textOf(ask('vcd', trace)), 'text/plain');
  else save(`${name}.svg`, textOf(ask('picture', trace, name, '', '')), 'image/svg+xml');
}

/**
 * A file for the bench: a script as it is, a trace as its script.
 * @param {Given[]} files
 */
function openOnBench([file]) {
  if (!file) return;
  const { kind, says } = whatIs(file);
  if (kind === 'script') return putScript(decoder.decode(file.bytes), file.name);
  const answer = kind === 'trace' ? ask('script', file.bytes) : null;
  if (answer?.ok) return putScript(textOf(answer), file.name);
  byId('script-told').textContent = `${file.name}: ${answer ? textOf(answer) : says}`;
  say(byId('script-told').textContent);
}

async function copyLink() {
  await noteAddress();
  const done = await navigator.clipboard?.writeText(location.href).then(() => true, () => false);
  const words = done ? 'The link is copied' : 'The link stands in the address';
  const press = byId('copy-link');
  const before = press.textContent;
  say(words);
  press.textContent = words;
  setTimeout(() => (press.textContent = before), 3000);
}

function startBench() {
  startEditor(scriptChanged);
  byId('at').addEventListener('input', () => goTo(Number(byId('at').value)));
  byId('at-less').addEventListener('click', () => goTo(Math.max(0, bench.at - 1)));
  byId('at-more').addEventListener('click', () => goTo(Math.min(bench.lines.length, bench.at + 1)));
  byId('box14-range').addEventListener('input', () => setReserve(Number(byId('box14-range').value)));
  byId('box14-empty').addEventListener('click', () => setReserve(0));
  byId('box14-50').addEventListener('click', () => setReserve(50));
  byId('bench-back').addEventListener('click', bringBackScript);
  byId('copy-link').addEventListener('click', copyLink);
  for (const one of document.querySelectorAll('[data-save]')) {
    one.addEventListener('click', () => saveBench(/** @type {HTMLElement} */ (one).dataset.save ?? ''));
  }
  takeFiles(byId('panel-bench'), [byId('bench-file')], openOnBench);
  for (const id of ['story', 'answers']) sight.observe(byId(id));
  whenShown.bench = layEditor;
}
