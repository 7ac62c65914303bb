// Files from the field: each is seen from its bytes, and a wrong one is told with what it seems to be.
import assert from 'node:assert/strict';
import { at, bytes, file, noise, text } from './house.mjs';

const shown = (tab) => tab.text('field-files-shown');

export const tests = {
  'field: a capture, refused without its part and at a wrong address, then imported': async (open) => {
    const tab = await open('field');
    await tab.drop('field-drop', [at('traces/box14.capture')]);
    await tab.until("document.querySelector('.file form')");
    assert.match(await shown(tab), /capture/);
    await tab.write('capture-1-address', '71');
    await tab.press('.file form button');
    assert.match(await shown(tab), /part/);
    await tab.write('capture-1-part', 'PCA9641');
    await tab.write('capture-1-address', '70');
    await tab.press('.file form button');
    assert.match(await shown(tab), /no transfer for 70h; seen: 71h 8 times, 2Eh once/);
    await tab.write('capture-1-address', '71');
    await tab.press('.file form button');
    assert.match(await shown(tab), /2810 samples; 9 transfers/);
    await tab.see("[...document.querySelectorAll('.file button')].find((one) => one.textContent === 'Save the trace').click()");
    assert.deepEqual(await tab.saved('box14.trace'), bytes('traces/box14.trace'));
    await tab.see("[...document.querySelectorAll('.file button')].find((one) => one.textContent === 'Open on the bench').click()");
    assert.equal(await tab.see("document.getElementById('panel-bench').hidden"), false);
    assert.equal(await tab.see("document.getElementById('at').max"), '18');
  },

  'field: a trace, an old one that is converted, one that is cut': async (open) => {
    const tab = await open('field');
    await tab.choose('field-files', [at('traces/recovery.trace'), file('old.trace', bytes('crates/convert/stdin')), at('traces/refused-cut.trace'), at('traces/refused-strap.trace')]);
    await tab.until("document.querySelectorAll('.file').length === 4");
    assert.equal(await tab.see("document.querySelectorAll('.file .picture').length"), 1);
    await tab.see("[...document.querySelectorAll('.file button')].find((one) => one.textContent.startsWith('Convert it')).click()");
    assert.equal(await tab.see("document.querySelectorAll('.file .picture').length"), 2);
    assert.match(await tab.see("document.querySelectorAll('.file')[0].textContent"), /controller 1/);
  },

  'field: a shelf and its script, in any order': async (open) => {
    const tab = await open('field');
    await tab.choose('field-files', [at('traces/shelf/hang.script')]);
    await tab.until("document.querySelector('.file')");
    assert.match(await shown(tab), /Drop the shelf file too/);
    await tab.choose('field-files', [at('traces/shelf/chassis.shelf')]);
    await tab.until("document.querySelector('.shelf pre')");
    assert.match(await shown(tab), /place 1, address 71h, PCA9641: controller 0 owns the bus and is connected; controller 1 waits; the bus is hung/);
    assert.equal(await tab.see("document.querySelector('.shelf .picture').shadowRoot.querySelector('svg') !== null"), true);
  },

  'field: what it is not: noise, nothing, a session, a table, text': async (open) => {
    const tab = await open('field');
    const zip = Buffer.concat([Buffer.from('PK\x03\x04'), noise(300)]);
    const files = [file('noise', noise(70000)), file('nothing.trace', ''), file('session.sr', zip), file('table.csv', 'a,b,c\n1,2,3\n'), file('letter.txt', 'Dear auditor,\n')];
    await tab.choose('field-files', files);
    await tab.until("document.querySelectorAll('.file').length === 5");
    const words = await tab.see("[...document.querySelectorAll('.file')].map((one) => one.textContent)");
    assert.match(words[1], /empty/i);
    assert.match(words[2], /sigrok/);
    assert.match(words[3], /CSV/i);
    assert.match(words[4], /plain text/);
    for (const one of words) assert.ok(one.length > 10);
  },

  'field: 100 MB of noise': async (open) => {
    const tab = await open('field');
    const big = file('big.capture', noise(100_000_000));
    const before = Date.now();
    await tab.choose('field-files', [big]);
    await tab.until("document.querySelector('.file')", 30);
    const seconds = (Date.now() - before) / 1000;
    assert.match(await shown(tab), /big\.capture/);
    await tab.choose('field-files', [at('traces/m1.trace')]);
    await tab.until("document.querySelector('.file .picture')");
    return `told after ${seconds.toFixed(1)} s`;
  },

  'field: a sheet is handed to the release': async (open) => {
    const tab = await open('field');
    await tab.choose('field-files', [at('sheets/board.sheet'), at('sheets/house-full.txt')]);
    await tab.until("document.querySelectorAll('.file').length === 2");
    await tab.see("[...document.querySelectorAll('.file')[0].querySelectorAll('button')].find((one) => one.textContent.includes('board')).click()");
    assert.equal(await tab.see("document.getElementById('panel-release').hidden"), false);
    assert.equal(await tab.see("document.getElementById('board-0').value"), '50');
    assert.equal(text('sheets/board.txt').includes('controller 0: 50'), true);
  },
};
