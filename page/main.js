// The beginning: the module is started, then the four uses; without it, the page says so in a line and offers nothing.

/** What a fresh bench has. */
const FIRST_SAMPLE = 'box14-rt00';

function startUses() {
  samples.all = jsonOf(ask('samples'));
  offers.words = jsonOf(ask('words')) ?? [];
  byId('identity').textContent = textOf(ask('identity'));
  startTabs();
  startRelease();
  startBench();
  startField();
  startLearn();
  showSamples();
  const toScript = (/** @type {string} */ name) => putScript(decoder.decode(filesOf(name)[0].bytes), name);
  offerSamples(byId('bench-sample'), ['script'], toScript);
  offerSamples(byId('field-sample'), ['script', 'trace', 'capture', 'shelf', 'orders'], (name) => takeField(filesOf(name)));
  toScript(FIRST_SAMPLE);
}

/**
 * Asks what a key asks, in idle moments: the browser compiles a module's functions well only once they were called often.
 * @param {number} rounds
 */
function warmUp(rounds) {
  if (rounds === 0 || !('requestIdleCallback' in window)) return;
  requestIdleCallback(() => {
    const trace = ask('compose', filesOf(FIRST_SAMPLE)[0].bytes).fields[0];
    for (const name of ['sketch', 'story', 'state', 'listing']) ask(name, trace, name === 'state' ? '1' : '');
    warmUp(rounds - 1);
  });
}

/** A file that misses its place is not opened by the browser in the place of this page. */
function keepPage() {
  for (const kind of ['dragover', 'drop']) addEventListener(kind, (event) => event.preventDefault());
}

async function start() {
  keepPage();
  try {
    await startModule();
    byId('main').hidden = false;
    startUses();
  } catch (why) {
    byId('main').hidden = true;
    const line = byId('stopped');
    line.textContent = `Nothing can be judged here: ${why instanceof Error ? why.message : why}. Every answer of this page comes from its WebAssembly module; a current Chromium or Firefox runs it.`;
    line.hidden = false;
    byId('starting').hidden = true;
    document.querySelector('.tabs')?.setAttribute('hidden', '');
    return;
  }
  addEventListener('hashchange', followAddress);
  await followAddress();
  byId('starting').hidden = true;
  document.documentElement.dataset.ready = 'yes';
  warmUp(40);
}

start();
