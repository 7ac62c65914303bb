// node rust/page/tests/node.mjs [PAGE [CASES]]: takes the module out of the page and asks it. With CASES, a file of requests and the answers of the same
// code on this machine, each after its length in four bytes, every answer has to be the same, byte for byte; and then how long the work of a long
// trace takes. rust/page/tests/node.rs makes the file and runs this.
import fs from 'node:fs';
import zlib from 'node:zlib';

const [, , page = 'gunwaleish.html', cases] = process.argv;

/** The module's bytes, as the page has them. */
function moduleIn(html) {
  const held = html.match(/<script type="application\/wasm" id="module" data-encoding="gzip">([^<]*)<\/script>/);
  if (!held) throw new Error(`${page} has no module`);
  return zlib.gunzipSync(Buffer.from(held[1], 'base64'));
}

const code = new WebAssembly.Module(moduleIn(fs.readFileSync(page, 'utf8')));
const imports = WebAssembly.Module.imports(code);
if (imports.length > 0) throw new Error(`the module wants ${JSON.stringify(imports)}, and it is to want nothing`);
const { input, ask, output, memory } = new WebAssembly.Instance(code, {}).exports;

/** The answer to a request, both as bytes. */
function answerTo(request) {
  const room = input(request.length) >>> 0;
  if (room === 0) throw new Error(`no room for ${request.length} bytes`);
  new Uint8Array(memory.buffer).set(request, room);
  const length = ask(request.length) >>> 0;
  const from = output() >>> 0;
  return Buffer.from(new Uint8Array(memory.buffer).slice(from, from + length));
}

/** Byte strings one after the other, each after its length. */
function split(bytes) {
  const fields = [];
  for (let at = 0; at < bytes.length; ) {
    const length = bytes.readUInt32LE(at);
    fields.push(bytes.subarray(at + 4, at + 4 + length));
    at += 4 + length;
  }
  return fields;
}

function join(...fields) {
  const size = (field) => {
    const length = Buffer.alloc(4);
    length.writeUInt32LE(field.length);
    return length;
  };
  return Buffer.concat(fields.map((field) => Buffer.from(field)).flatMap((field) => [size(field), field]));
}

/** An answer's fields as text. Which library answers stands at the end of the page to file, and is another one here. */
const comparable = (answer) => split(answer).map((field) => field.toString('latin1').split('id="identity"')[0]).join('\0');

function compare(file) {
  const all = split(fs.readFileSync(file));
  let other = 0;
  for (let at = 0; at < all.length; at += 2) {
    const [request, wanted] = all.slice(at, at + 2);
    const given = answerTo(request);
    if (comparable(given) !== comparable(wanted)) {
      other += 1;
      console.error(`'${split(request)[0]}' (request ${at / 2}) is answered otherwise: ${given.subarray(0, 200)}`);
    }
  }
  console.log(`${all.length / 2} requests, ${other} answered otherwise than here`);
  return other === 0 && all.length > 0;
}

/** What no file can be is refused, and the module goes on. */
function refuses() {
  const noise = Buffer.alloc(100 << 20, 'noise');
  for (const name of ['compose', 'explain', 'picture', 'states', 'import', 'sheet', 'fill', 'release', 'shelf', 'orders', 'share', 'diff']) {
    for (const bytes of [noise, Buffer.alloc(0)]) {
      const [kind] = split(answerTo(join(name, bytes)));
      if (kind.toString() !== 'refused') throw new Error(`${name} of ${bytes.length} bytes is ${kind}`);
    }
  }
}

/** A script of 4,096 events in which both controllers are busy. */
function longScript() {
  const lines = ['pins 0 0 0 1', 'part PCA9641', 'command 0 03', 'write 0 50ms', 'stop 0', 'command 0 01', 'write 0 05', 'stop 0'];
  lines.push('command 1 01', 'write 1 05', 'stop 1');
  const more = ['command 0 02', 'read 0', 'stop 0', 'tick', 'lines 1 0 1', 'tick', 'lines 1 1 1', 'command 1 82', 'read 1', 'stop 1'];
  while (lines.length < 4096 + 2) lines.push(more[lines.length % more.length]);
  return lines.join('\n');
}

/** The least time of each of the steps that follow a key in a long script, in ms of this machine. */
function times() {
  const least = {};
  const timed = (name, ...given) => {
    const from = process.hrtime.bigint();
    const [kind, first] = split(answerTo(join(name, ...given)));
    const took = Number(process.hrtime.bigint() - from) / 1e6;
    if (kind.toString() !== 'ok') throw new Error(`${name}: ${first}`);
    least[name] = Math.min(least[name] ?? Infinity, took);
    return first;
  };
  for (let round = 0; round < 20; round += 1) {
    const trace = timed('compose', longScript());
    timed('state', trace, '4096');
    timed('states', trace);
    timed('picture', trace, 'long');
    timed('story', trace);
  }
  console.log(Object.entries(least).map(([name, took]) => `${name} ${took.toFixed(1)} ms`).join(', '));
}

const good = cases === undefined || compare(cases);
refuses();
times();
process.exit(good ? 0 : 1);
