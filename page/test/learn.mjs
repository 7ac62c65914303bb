// The lessons: five steps with a live picture, and the auditor's answers as docs/AUDIT.md has them.
import assert from 'node:assert/strict';
import { text } from './house.mjs';

export const tests = {
  'learn: five steps, and the slider ends the waiting': async (open) => {
    const tab = await open('learn');
    for (let step = 1; step <= 5; step += 1) {
      assert.match(await tab.text('step-head'), new RegExp(`^${step}\\. `));
      assert.equal(await tab.see("document.getElementById('learn-picture').shadowRoot.querySelector('svg') !== null"), true);
      if (step === 4) assert.match(await tab.text('learn-told'), /waited 300 ticks and was never granted/);
      if (step < 5) await tab.press('#step-more');
    }
    assert.doesNotMatch(await tab.text('learn-told'), /never granted/);
    await tab.write('learn-range', '0');
    assert.match(await tab.text('learn-told'), /never granted/);
    await tab.write('learn-range', '50');
    assert.doesNotMatch(await tab.text('learn-told'), /never granted/);
    await tab.press('#step-bench');
    assert.match(await tab.see("document.getElementById('script').value"), /write 0 50ms/);
  },

  'learn: every answer is that of docs/AUDIT.md, every statement is in docs/STATEMENTS.md, every run is drawn': async (open) => {
    const tab = await open('learn');
    const plain = text('docs/AUDIT.md').replaceAll('**', '').replace(/\s+/g, ' ');
    const lessons = await tab.see('QUESTIONS');
    for (const { question, answer, more, statements } of lessons) {
      for (const words of [question, answer, more]) assert.ok(plain.includes(words), words);
      for (const name of statements) assert.match(text('docs/STATEMENTS.md'), new RegExp(`\\b${name}\\b`), name);
    }
    assert.equal(await tab.see("[...document.querySelectorAll('#questions .picture')].filter((one) => one.shadowRoot?.querySelector('svg')).length"), 3);
    const runs = await tab.see("[...document.querySelectorAll('#questions .question')].map((one) => one.textContent)");
    assert.match(runs[1], /reset/);
  },

  'learn: the samples are opened on the bench': async (open) => {
    const tab = await open('learn');
    await tab.see("[...document.querySelectorAll('#samples button')].find((one) => one.textContent === 'm1').click()");
    assert.equal(await tab.see("document.getElementById('panel-bench').hidden"), false);
    assert.equal(await tab.see("document.getElementById('script').value"), text('traces/m1.script'));
  },
};
