// The bench in the browser: a script is shown as it is typed.
import assert from 'node:assert/strict';
import { at, bytes, file, noise, text } from './house.mjs';

const HEAD = 'pins 0 0 0 1\npart PCA9641\n';
const told = (tab) => tab.text('script-told');
const shared = (tab, name) => tab.see(`[...document.querySelectorAll('#state tr')].find((row) => row.cells[0].textContent === ${JSON.stringify(name)})?.textContent`);

export const tests = {
  'bench: box 14 from 0 to 50, and the waiting ends': async (open) => {
    const tab = await open('bench');
    assert.match(await tab.text('bench-told'), /controller 1 waited 300 ticks and was never granted the bus/);
    await tab.press('#box14-50');
    assert.match(await tab.see("document.getElementById('script').value"), /write 0 50ms/);
    assert.doesNotMatch(await tab.text('bench-told'), /never granted/);
    await tab.press('[data-save="trace"]');
    assert.deepEqual(await tab.saved('box14-rt00.trace'), bytes('traces/box14-rt50.trace'));
    await tab.press('#box14-empty');
    assert.match(await tab.text('bench-told'), /never granted/);
  },

  'bench: saved as trace, script, VCD and SVG': async (open) => {
    const tab = await open('bench');
    for (const form of ['trace', 'script', 'vcd', 'svg']) await tab.press(`[data-save="${form}"]`);
    assert.deepEqual(await tab.saved('box14-rt00.trace'), bytes('traces/box14-rt00.trace'));
    assert.equal((await tab.saved('box14-rt00.script')).toString(), text('traces/box14-rt00.script'));
    assert.match((await tab.saved('box14-rt00.vcd')).toString(), /\$timescale/);
    assert.match((await tab.saved('box14-rt00.svg')).toString(), /^<svg [\s\S]*<\/svg>\s*$/);
  },

  'bench: the slider goes through the states': async (open) => {
    const tab = await open('bench');
    await tab.write('script', text('traces/box14-rt50.script'));
    await tab.write('at', '63');
    assert.match(await shared(tab, 'owner'), /controller 0/);
    await tab.see("document.getElementById('at').focus()");
    await tab.key('ArrowRight');
    assert.match(await tab.text('at-said'), /event 64 of 320, tick 50: TICK/);
    assert.match(await shared(tab, 'owner'), /controller 1/);
    assert.match(await tab.see("document.getElementById('at').getAttribute('aria-valuetext')"), /controller 1 owns the bus/);
    assert.equal(await tab.see("document.querySelectorAll('#state table')[0].tBodies[0].rows.length"), 8);
    await tab.until("document.querySelector('#story tr.now')?.dataset.from === '64' && document.querySelector('#answers .now')");
    await tab.key('Home');
    assert.match(await tab.text('at-said'), /event 0 of 320/);
    await tab.until("document.querySelector('#answers .now') === null");
    const [head, ...listed] = text('traces/box14-rt50.listing').trim().split('\n');
    const shown = await tab.see("[...document.querySelectorAll('#answers span')].map((one) => one.textContent)");
    assert.deepEqual(shown, [head, ...listed.slice(0, 96)]);
    await tab.press('[data-save="listing"]');
    assert.equal((await tab.saved('box14-rt00.listing')).toString(), text('traces/box14-rt50.listing'));
  },

  'bench: a wrong word is told at its line while typing, and is gone when mended': async (open) => {
    const tab = await open('bench');
    await tab.write('script', `${HEAD}command 0 03\nwrit 0 50ms\n`);
    assert.match(await told(tab), /'writ', expected command, write/);
    assert.match(await told(tab), /4/);
    assert.equal(await tab.see("document.getElementById('mark-wrong').hidden"), false);
    assert.equal(await tab.see("document.getElementById('script').getAttribute('aria-invalid')"), 'true');
    await tab.until("document.getElementById('said').textContent.includes('writ')");
    await tab.write('script', `${HEAD}command 0 03\nwrite 0 50\n`);
    assert.equal(await told(tab), '');
    assert.equal(await tab.see("document.getElementById('mark-wrong').hidden"), true);
    assert.match(await tab.text('script-warnings'), /50 is hex, so RT is 80 ms/);
    await tab.write('script', 'tick 5\n');
    assert.match(await told(tab), /pins before the first event/);
  },

  'bench: words are completed by the keyboard, and Tab leaves': async (open) => {
    const tab = await open('bench');
    await tab.write('script', HEAD);
    await tab.see("(() => { const area = document.getElementById('script'); area.focus(); area.setSelectionRange(area.value.length, area.value.length); })()");
    await tab.type('com');
    assert.equal(await tab.see("document.getElementById('offers').hidden"), false);
    await tab.key('ArrowDown');
    assert.equal(await tab.see("document.getElementById('script').getAttribute('aria-activedescendant')"), 'offer-0');
    await tab.key('Enter');
    assert.match(await tab.see("document.getElementById('script').value"), /\ncommand $/);
    await tab.key(' ', 2);
    await tab.key('ArrowDown');
    await tab.key('Enter');
    assert.match(await tab.see("document.getElementById('script').value"), /\ncommand 1 $/);
    await tab.key(' ', 2);
    await tab.key('Escape');
    assert.equal(await tab.see("document.getElementById('offers').hidden"), true);
    await tab.key('Tab');
    assert.notEqual(await tab.see('document.activeElement.id'), 'script');
  },

  'bench: a link holds the script': async (open) => {
    const tab = await open('bench');
    const script = `${HEAD}# Grüße, 50 %\ncommand 0 03\nwrite 0 50ms\nstop 0\n`;
    await tab.write('script', script);
    await tab.until("location.hash === '#bench=' + window.packed", 30, `packScript(${JSON.stringify(script)}).then((words) => (window.packed = words))`);
    const hash = await tab.see('location.hash.slice(1)');
    const other = await open(hash);
    assert.equal(await other.see("document.getElementById('script').value"), script);
    const broken = await open('bench=!!!!');
    assert.match(await told(broken), /The link holds no script/);
  },

  'bench: 4,096 events are taken, and 4,097 are refused at their line': async (open) => {
    const tab = await open('bench');
    await tab.write('script', `${HEAD}tick 4000\ntick 96\n`);
    assert.equal(await told(tab), '');
    assert.equal(await tab.see("document.getElementById('at').max"), '4096');
    await tab.write('script', `${HEAD}tick 4000\ntick 96\nstop 0\n`);
    assert.match(await told(tab), /line 5: refusal 6: there are more than 4,096 events/);
    assert.equal(await tab.see('editor.wrong'), 5);
  },

  'bench: files that it takes, and one that it does not': async (open) => {
    const tab = await open('bench');
    await tab.choose('bench-file', [at('traces/m1.trace')]);
    await tab.until("document.getElementById('script').value.includes('part PCA9641') && document.getElementById('at').max === '4'");
    await tab.choose('bench-file', [file('noise.trace', noise(4000))]);
    await tab.until("document.getElementById('script-told').textContent.includes('noise.trace')");
    await tab.write('script', `${HEAD}tick 7\n`);
    await tab.choose('bench-file', [at('traces/mail.script')]);
    await tab.until("document.getElementById('script').value.includes('mail')");
    await tab.press('#bench-back');
    assert.equal(await tab.see("document.getElementById('script').value"), `${HEAD}tick 7\n`);
  },
};
