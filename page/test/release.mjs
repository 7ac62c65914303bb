// A release in the browser: what the page says is what the tool says, and an empty box never becomes a value.
import assert from 'node:assert/strict';
import { at, bytes, file, folder, noise, text } from './house.mjs';

const SAFE = 'RELEASED: controller 0 waits at most 21 ms, controller 1 waits at most 51 ms';
const verdict = (tab) => tab.see("document.querySelector('#verdict strong').textContent");

/** What verdict.txt has, without the folder before the names and without the tool's line about the file itself. */
function expected(path) {
  const plain = text(`${path}/verdict.txt`).replaceAll(`${path}/`, '').replace(/^Release of .*\n/, 'Release\n');
  return plain.replace(/^not read .*verdict\.txt\n/m, '').trim();
}

/** What the page says, without the folder that files without one are said to be in. */
const told = async (tab) => (await tab.text('release-text')).replaceAll('bundle/', '').replace('Release of bundle', 'Release').trim();

async function fillIn(tab, words) {
  for (const [place, [board, house]] of words.entries()) {
    await tab.write(`board-${place}`, board);
    await tab.write(`house-${place}`, house);
  }
}

/** Files of a folder of releases, with those in the folders inside. */
const inside = (path) => folder(path).flatMap((name) => (name.includes('.') ? [`${path}/${name}`] : inside(`${path}/${name}`))).filter((name) => !name.endsWith('verdict.txt'));

export const tests = {
  'release: a fresh page releases nothing, and every box is red': async (open) => {
    const tab = await open();
    assert.equal(await verdict(tab), 'NOT RELEASED: 6 reasons');
    assert.equal(await tab.see("document.querySelectorAll('.box.nobody').length"), 6);
    assert.equal(await tab.see("[...document.querySelectorAll('.box input:not([type]), .box select')].every((one) => one.value === '')"), true);
  },

  "release: the incident's two sheets, dropped": async (open) => {
    const tab = await open();
    await tab.drop('release-drop', [at('releases/incident/board.sheet'), at('releases/incident/house.sheet')]);
    await tab.until("document.querySelector('#verdict strong').textContent.includes('2 reasons')");
    assert.equal(await told(tab), expected('releases/incident'));
    assert.equal(await tab.see("[0, 1].every((n) => document.getElementById('box-' + n).classList.contains('nobody') && document.getElementById('board-' + n).value === '')"), true);
  },

  'release: the safe pair, its waits and the statements that prove them': async (open) => {
    const tab = await open();
    await tab.choose('release-files', [at('releases/safe/house.sheet'), at('releases/safe/board.sheet')]);
    await tab.until("document.getElementById('verdict').classList.contains('released')");
    assert.equal(await verdict(tab), SAFE);
    const proved = await tab.see("[...document.querySelectorAll('#waits code')].map((one) => one.textContent)");
    assert.ok(proved.length >= 2);
    for (const name of proved.flatMap((words) => words.split(/\W+/)).filter(Boolean)) assert.ok(text('docs/STATEMENTS.md').includes(name), name);
    await tab.press('#save-board');
    assert.deepEqual(await tab.saved('board.sheet'), bytes('releases/safe/board.sheet'));
    await tab.press('#save-house');
    assert.deepEqual(await tab.saved('house.sheet'), bytes('releases/safe/house.sheet'));
    await tab.press('#save-report');
    const report = (await tab.saved('report.html')).toString();
    assert.match(report, /<!doctype html>/i);
    assert.ok(report.includes('waits at most 51 ms'));
  },

  'release: every sample folder gets the verdict that the tool gives': async (open) => {
    const tab = await open();
    const folders = ['releases/safe', 'releases/incident', 'releases/on-purpose', ...folder('releases/reasons').map((name) => `releases/reasons/${name}`)];
    for (const path of folders) {
      await tab.press('#release-clear');
      await tab.write('most', path.endsWith('above-most') ? '40' : '');
      const limit = path.endsWith('on-purpose') || path.endsWith('not-without-limit');
      await tab.see(`(() => { const one = document.getElementById('limit-0'); if (one.checked !== ${limit}) one.click(); })()`);
      await tab.see(`(async () => { const files = ${JSON.stringify(inside(path).map((name) => [name.slice(path.length + 1), bytes(name).toString('base64')]))};
        takeBundle(files.map(([name, data]) => ({ name, bytes: Uint8Array.from(atob(data), (letter) => letter.charCodeAt(0)) }))); })()`);
      assert.equal(await told(tab), expected(path), path);
    }
    return `${folders.length} folders`;
  },

  'release: a whole folder, dropped': async (open) => {
    const tab = await open();
    await tab.drop('release-drop', [at('releases/safe')]);
    await tab.until("document.getElementById('verdict').classList.contains('released')");
    assert.match(await tab.text('release-text'), /924 orders on a PCA9641/);
    assert.match(await tab.text('release-text'), /turns\.trace/);
  },

  'release: the form filled in by hand; a 0 is not taken, without limit is': async (open) => {
    const tab = await open();
    await fillIn(tab, [['50', ''], ['', '20'], ['0', ''], ['', '1'], ['0', ''], ['', '1']]);
    assert.equal(await verdict(tab), SAFE);
    await tab.write('board-0', '0');
    assert.equal(await verdict(tab), 'Nothing is judged yet');
    assert.match(await tab.text('board-0-wrong'), /without limit/);
    assert.equal(await tab.see("document.getElementById('board-0').getAttribute('aria-invalid')"), 'true');
    await tab.write('board-0', '256');
    assert.equal(await verdict(tab), 'Nothing is judged yet');
    await tab.write('board-0', '');
    assert.equal(await verdict(tab), 'NOT RELEASED: 1 reason');
    await tab.press('#board-0-limit');
    assert.match(await verdict(tab), /^NOT RELEASED/);
    await tab.press('#limit-0');
    assert.match(await verdict(tab), /^RELEASED, with controller 0's reserve without limit on purpose/);
  },

  'release: texts of sheets, and what was typed is brought back': async (open) => {
    const tab = await open();
    await tab.write('board-0', '77');
    await tab.choose('release-files', [at('sheets/board.txt'), at('sheets/house-full.txt')]);
    await tab.until("document.getElementById('verdict').classList.contains('released')");
    await tab.press('#save-board');
    assert.deepEqual(await tab.saved('board.sheet'), bytes('sheets/board.sheet'));
    await tab.press('#save-board-text');
    assert.equal((await tab.saved('board.txt')).toString(), text('sheets/board.txt'));
    await tab.press('#release-back');
    assert.equal(await tab.see("document.getElementById('board-0').value"), '77');
  },

  'release: files that are none': async (open) => {
    const tab = await open();
    await tab.choose('release-files', [file('board.sheet', bytes('releases/safe/board.sheet').subarray(0, 14)), at('releases/safe/house.sheet'), file('notes.bin', noise(5000))]);
    await tab.until("document.getElementById('release-told').textContent.includes('notes.bin')");
    assert.match(await verdict(tab), /^NOT RELEASED/);
    assert.match(await tab.text('reasons'), /14|missing/);
    assert.equal(await tab.see("document.getElementById('board-0').disabled"), true);
  },
};
