// The looks: a phone's width, light and dark, the contrast of every word, and the page without its module.
import assert from 'node:assert/strict';
import { mkdirSync } from 'node:fs';
import { join } from 'node:path';

const USES = ['release', 'bench', 'field', 'learn'];

/** In the page: every word whose contrast with what lies behind it is under 4.5 to 1, in the pictures too. */
const CONTRAST = `(() => {
  const parse = (words) => { const found = words.match(/[\\d.]+/g); return found ? found.map(Number) : [0, 0, 0, 0]; };
  const light = ([r, g, b]) => { const [x, y, z] = [r, g, b].map((c) => (c /= 255) <= 0.04045 ? c / 12.92 : ((c + 0.055) / 1.055) ** 2.4); return 0.2126 * x + 0.7152 * y + 0.0722 * z; };
  const ratio = (a, b) => { const [x, y] = [light(a), light(b)].sort((p, q) => q - p); return (x + 0.05) / (y + 0.05); };
  const behind = (one) => { for (let at = one; at; at = at.parentElement) { const ground = parse(getComputedStyle(at).backgroundColor); if (ground.length === 3 || ground[3] > 0.5) return ground; } return [255, 255, 255]; };
  const bad = new Map();
  for (const one of document.querySelectorAll('body *')) {
    if (one.closest('.unseen, .skip, option') || !one.checkVisibility() || ![...one.childNodes].some((node) => node.nodeType === 3 && node.data.trim())) continue;
    const found = ratio(parse(getComputedStyle(one).color), behind(one));
    if (found < 4.5) bad.set(one.tagName + '.' + one.className + ' ' + one.textContent.slice(0, 30), found.toFixed(2));
  }
  return [...bad].map(([where, found]) => where + ': ' + found);
})()`;

/** In the page: every letter of the pictures against the shape that lies under it. */
const DRAWN = `(() => {
  const parse = (words) => words.match(/[\\d.]+/g).map(Number);
  const light = ([r, g, b]) => { const [x, y, z] = [r, g, b].map((c) => (c /= 255) <= 0.04045 ? c / 12.92 : ((c + 0.055) / 1.055) ** 2.4); return 0.2126 * x + 0.7152 * y + 0.0722 * z; };
  const bad = new Set();
  for (const host of document.querySelectorAll('.picture')) {
    const drawn = host.shadowRoot?.querySelector('svg');
    if (!drawn || !host.checkVisibility()) continue;
    const page = parse(getComputedStyle(document.documentElement).backgroundColor);
    const shapes = [...drawn.querySelectorAll('rect')].map((shape) => ({ box: shape.getBoundingClientRect(), fill: parse(getComputedStyle(shape).fill) }));
    for (const words of drawn.querySelectorAll('text')) {
      const box = words.getBoundingClientRect();
      const [x, y] = [box.x + Math.min(6, box.width / 2), box.y + box.height / 2];
      const under = shapes.filter(({ box: b }) => b.x <= x && x <= b.right && b.y <= y && y <= b.bottom).at(-1)?.fill ?? page;
      const [p, q] = [light(parse(getComputedStyle(words).fill)), light(under)].sort((a, b) => b - a);
      const found = (p + 0.05) / (q + 0.05);
      if (found < 4.5) bad.add(words.getAttribute('class') + ' ' + words.lastChild.data + ': ' + found.toFixed(2));
    }
  }
  return [...bad];
})()`;

export const tests = {
  'looks: contrast of 4.5 to 1 or more, light and dark, letters in pictures too': async (open) => {
    for (const dark of [false, true]) {
      for (const use of USES) {
        const tab = await open(use, { dark });
        await tab.see("document.querySelectorAll('details').forEach((one) => (one.open = true))");
        if (use === 'release') await tab.write('board-0', '0');
        if (use === 'bench') await tab.write('script', (await tab.see("document.getElementById('script').value")) + 'write 0 50\nread 0\n');
        assert.deepEqual(await tab.see(CONTRAST), [], `${use}, ${dark ? 'dark' : 'light'}`);
        assert.deepEqual(await tab.see(DRAWN), [], `pictures of ${use}, ${dark ? 'dark' : 'light'}`);
      }
    }
  },

  'looks: nothing is wider than a phone of 360': async (open) => {
    for (const use of USES) {
      const tab = await open(use, { width: 360, height: 740 });
      if (use === 'release') await tab.press('#release-incident');
      assert.ok((await tab.see('document.documentElement.scrollWidth')) <= 360, use);
      const small = await tab.see("[...document.querySelectorAll('button, select, .button')].filter((one) => one.checkVisibility() && one.getBoundingClientRect().height < 24).map((one) => one.textContent)");
      assert.deepEqual(small, [], `${use}: too small for a finger`);
    }
  },

  'looks: without WebAssembly the page says so in a line': async (open, address) => {
    const tab = await open();
    await tab.send('Page.addScriptToEvaluateOnNewDocument', { source: 'delete window.WebAssembly' });
    await tab.send('Page.navigate', { url: `${address}?again` });
    await tab.until("document.getElementById('stopped')?.hidden === false");
    assert.match(await tab.text('stopped'), /^Nothing can be judged here: this browser runs no WebAssembly/);
    assert.equal(await tab.see("document.getElementById('main').checkVisibility()"), false);
  },

  'looks: screenshots': async (open) => {
    const folder = process.env.SHOTS;
    if (!folder) return 'left out: SHOTS names no folder';
    mkdirSync(folder, { recursive: true });
    for (const [width, height] of [[1280, 960], [360, 740]]) {
      for (const dark of [false, true]) {
        for (const use of USES) {
          const tab = await open(use, { width, height, dark });
          if (use === 'release') await tab.press('#release-incident');
          if (use === 'bench') await tab.press('#box14-50');
          await tab.see('scrollTo(0, 0)');
          await tab.shoot(join(folder, `${use}-${width}-${dark ? 'dark' : 'light'}.png`));
        }
      }
    }
    return folder;
  },
};
