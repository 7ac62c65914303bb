// node page/test/firefox.mjs PAGE [PICTURE]: the page in Firefox, over its own protocol (Marionette): it starts, judges, draws and follows, and complains of nothing.
import assert from 'node:assert/strict';
import { spawn } from 'node:child_process';
import { mkdtempSync, rmSync, writeFileSync } from 'node:fs';
import { connect } from 'node:net';
import { tmpdir } from 'node:os';
import { join, resolve } from 'node:path';
import { pathToFileURL } from 'node:url';

const PORT = 2828;
const [page, picture] = process.argv.slice(2);
const profile = mkdtempSync(join(tmpdir(), 'fox-'));
const fox = spawn(process.env.FIREFOX ?? 'firefox-esr', ['--headless', '--no-remote', '--marionette', '--profile', profile, '--window-size', '1280,1000'], { stdio: 'ignore' });
const gone = new Promise((done) => fox.on('exit', done).on('error', done));

/** A socket once Firefox listens. */
async function listening() {
  for (let tries = 0; tries < 120; tries += 1) {
    const socket = connect(PORT, '127.0.0.1');
    const there = await new Promise((done) => socket.once('connect', () => done(true)).once('error', () => done(false)));
    if (there) return socket;
    await new Promise((done) => setTimeout(done, 500));
  }
  throw new Error('Firefox does not listen');
}

/** Messages are a length, a colon and JSON. */
function talk(socket) {
  const waiting = new Map();
  let rest = Buffer.alloc(0);
  socket.on('data', (data) => {
    rest = Buffer.concat([rest, data]);
    for (;;) {
      const colon = rest.indexOf(':');
      const length = Number(rest.subarray(0, colon));
      if (colon < 0 || rest.length < colon + 1 + length) return;
      const message = JSON.parse(rest.subarray(colon + 1, colon + 1 + length));
      rest = rest.subarray(colon + 1 + length);
      if (Array.isArray(message)) waiting.get(message[1])?.(message);
    }
  });
  let number = 0;
  return (command, parameters = {}) =>
    new Promise((done, failed) => {
      const id = (number += 1);
      waiting.set(id, ([, , error, result]) => (error ? failed(new Error(error.message)) : done(result)));
      const text = JSON.stringify([0, id, command, parameters]);
      socket.write(`${Buffer.byteLength(text)}:${text}`);
    });
}

const SEEN = `const done = arguments[0];
  const ready = () => document.documentElement.dataset.ready === 'yes' || !document.getElementById('stopped').hidden;
  const wait = () => (ready() ? look() : setTimeout(wait, 50));
  const look = () => {
    const seen = { stopped: document.getElementById('stopped').textContent, fresh: document.querySelector('#verdict strong')?.textContent };
    document.getElementById('release-safe')?.click();
    seen.safe = document.querySelector('#verdict strong')?.textContent;
    document.getElementById('tab-bench').click();
    seen.waits = document.getElementById('bench-told').textContent;
    document.getElementById('box14-50').click();
    seen.ends = document.getElementById('bench-told').textContent;
    seen.drawn = document.getElementById('bench-picture').shadowRoot?.querySelectorAll('svg *').length ?? 0;
    const slider = document.getElementById('at');
    slider.value = '64';
    slider.dispatchEvent(new Event('input'));
    seen.at = document.getElementById('at-said').textContent;
    const area = document.getElementById('script');
    const script = area.value;
    area.value = 'pins 0 0 0 1\\npart PCA9641\\ntick 4096\\n';
    const from = performance.now();
    area.dispatchEvent(new Event('input'));
    seen.milliseconds = Math.round(performance.now() - from);
    area.value = script;
    area.dispatchEvent(new Event('input'));
    setTimeout(() => { seen.hash = location.hash.slice(0, 8); scrollTo(0, 0); done(seen); }, 800);
  };
  wait();`;

try {
  const ask = talk(await listening());
  const session = await ask('WebDriver:NewSession', { capabilities: { alwaysMatch: { timeouts: { script: 60000 } } } });
  await ask('WebDriver:Navigate', { url: pathToFileURL(resolve(page)).href });
  const { value: seen } = await ask('WebDriver:ExecuteAsyncScript', { script: SEEN, args: [] });
  console.log(`Firefox ${session.capabilities.browserVersion}: ${JSON.stringify(seen)}`);
  if (picture) writeFileSync(picture, Buffer.from((await ask('WebDriver:TakeScreenshot', { full: false })).value, 'base64'));
  assert.equal(seen.stopped, '');
  assert.equal(seen.fresh, 'NOT RELEASED: 6 reasons');
  assert.match(seen.safe, /^RELEASED/);
  assert.match(seen.waits, /never granted/);
  assert.doesNotMatch(seen.ends, /never granted/);
  assert.ok(seen.drawn > 50);
  assert.match(seen.at, /event 64 of 320, tick 50/);
  assert.match(seen.hash, /^#bench=/);
  console.log('ok    Firefox: starts, judges, draws, follows the slider');
} finally {
  fox.kill('SIGTERM');
  await gone;
  rmSync(profile, { recursive: true, force: true, maxRetries: 5 });
}
process.exit(0);
