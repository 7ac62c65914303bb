// The module: taken out of the page, started, and asked. A request and an answer are fields, each its length in four bytes, low byte first, and its bytes.

/** @typedef {{ok: boolean, fields: Uint8Array[]}} Answer */

/** @type {{code: WebAssembly.Module | null, exports: any}} */
const engine = { code: null, exports: null };

const encoder = new TextEncoder();
const decoder = new TextDecoder();

/** Takes the module out of the page and starts it. */
async function startModule() {
  if (typeof WebAssembly !== 'object') throw new Error('this browser runs no WebAssembly');
  const holder = document.getElementById('module');
  if (!holder) throw new Error('the module is not in this file');
  const letters = atob((holder.textContent ?? '').trim());
  let bytes = Uint8Array.from(letters, (letter) => letter.charCodeAt(0));
  if (holder.dataset.encoding === 'gzip') {
    const plain = new Blob([bytes]).stream().pipeThrough(new DecompressionStream('gzip'));
    bytes = new Uint8Array(await new Response(plain).arrayBuffer());
  }
  engine.code = await WebAssembly.compile(bytes);
  await startAnew();
  holder.remove();
}

/** A module with fresh memory: at the start, and after it has stopped. */
async function startAnew() {
  const instance = await WebAssembly.instantiate(/** @type {WebAssembly.Module} */ (engine.code), {});
  engine.exports = instance.exports;
}

/**
 * Asks the module. If it stops, which it never should, the answer says so, and the next request meets a new one.
 * @param {string} name
 * @param {...(Uint8Array | string)} given
 * @returns {Answer}
 */
function ask(name, ...given) {
  const request = [name, ...given].map((one) => (typeof one === 'string' ? encoder.encode(one) : one));
  try {
    return readAnswer(exchange(packed(request)));
  } catch (stopped) {
    engine.exports = new WebAssembly.Instance(/** @type {WebAssembly.Module} */ (engine.code), {}).exports;
    return { ok: false, fields: [encoder.encode(`the module stopped at '${name}' (${stopped}); it is started anew, and nothing was judged`)] };
  }
}

/**
 * @param {Uint8Array[]} fields
 * @returns {Uint8Array}
 */
function packed(fields) {
  const whole = new Uint8Array(fields.reduce((sum, field) => sum + 4 + field.length, 0));
  const view = new DataView(whole.buffer);
  let at = 0;
  for (const field of fields) {
    view.setUint32(at, field.length, true);
    whole.set(field, at + 4);
    at += 4 + field.length;
  }
  return whole;
}

/**
 * The answer's bytes. The memory may have grown meanwhile, so it is looked at anew.
 * @param {Uint8Array} request
 * @returns {Uint8Array}
 */
function exchange(request) {
  const { input, ask: answer, output, memory } = engine.exports;
  const room = input(request.length) >>> 0;
  if (room === 0) throw new Error('there is no room for so much');
  new Uint8Array(memory.buffer).set(request, room);
  const length = answer(request.length) >>> 0;
  const from = output() >>> 0;
  return new Uint8Array(memory.buffer).slice(from, from + length);
}

/**
 * @param {Uint8Array} whole
 * @returns {Answer}
 */
function readAnswer(whole) {
  const view = new DataView(whole.buffer);
  const fields = [];
  for (let at = 0; at < whole.length; ) {
    const length = view.getUint32(at, true);
    fields.push(whole.subarray(at + 4, at + 4 + length));
    at += 4 + length;
  }
  return { ok: decoder.decode(fields[0]) === 'ok', fields: fields.slice(1) };
}

/**
 * A field of an answer as text; one that is not there is empty.
 * @param {Answer} answer
 * @param {number} [place]
 * @returns {string}
 */
function textOf(answer, place = 0) {
  return place < answer.fields.length ? decoder.decode(answer.fields[place]) : '';
}

/**
 * A field of an answer that is JSON.
 * @param {Answer} answer
 * @param {number} [place]
 * @returns {any}
 */
function jsonOf(answer, place = 0) {
  return JSON.parse(textOf(answer, place) || 'null');
}
