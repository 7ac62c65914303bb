// The keyboard alone, and the names that a screen reader says.
import assert from 'node:assert/strict';

/** What Tab reaches, from the first on, until it comes round. */
async function reached(tab) {
  const seen = [];
  for (let press = 0; press < 200; press += 1) {
    await tab.key('Tab');
    const one = await tab.see(`(() => { const now = document.activeElement; if (now === document.body) return null;
      const style = getComputedStyle(now.id === 'script' ? now.closest('.editor') : now.classList.contains('unseen') ? document.querySelector('label[for="' + now.id + '"]') : now);
      window.counted ??= new Map(); if (!window.counted.has(now)) window.counted.set(now, window.counted.size);
      return { name: now.id || now.textContent.trim(), number: window.counted.get(now), outline: style.outlineStyle !== 'none' && parseFloat(style.outlineWidth) >= 2,
        place: [...document.querySelectorAll('*')].indexOf(now) }; })()`);
    if (one === null || seen.some(({ number }) => number === one.number)) break;
    seen.push(one);
  }
  return seen;
}

export const tests = {
  'keyboard: tab order, and what has the focus is seen': async (open) => {
    const counts = [];
    for (const use of ['release', 'bench', 'field', 'learn']) {
      const tab = await open(use);
      const seen = await reached(tab);
      assert.equal(seen[0].name, 'Skip to the content');
      assert.equal(seen[1].name, `tab-${use}`);
      assert.deepEqual(seen.map(({ place }) => place), seen.map(({ place }) => place).sort((a, b) => a - b), `${use}: as it stands on the page`);
      for (const { name, outline } of seen) assert.ok(outline, `${use}: ${name} shows that it has the focus`);
      const focusable = await tab.see(`[...document.querySelectorAll('a[href], button, input, select, textarea, summary, [tabindex="0"]')].filter((one) => !one.disabled && one.tabIndex >= 0 && one.checkVisibility()).length`);
      assert.equal(seen.length, focusable, `${use}: all of them are reached`);
      counts.push(`${use} ${seen.length}`);
    }
    return counts.join(', ');
  },

  'keyboard: the tabs by arrow keys, the skip link': async (open) => {
    const tab = await open();
    await tab.key('Tab');
    await tab.key('Enter');
    assert.equal(await tab.see('document.activeElement.id'), 'main');
    await tab.see("document.getElementById('tab-release').focus()");
    for (const [key, use] of [['ArrowRight', 'bench'], ['ArrowRight', 'field'], ['End', 'learn'], ['ArrowRight', 'release'], ['ArrowLeft', 'learn'], ['Home', 'release']]) {
      await tab.key(key);
      assert.equal(await tab.see('document.activeElement.id'), `tab-${use}`);
      assert.equal(await tab.see(`document.getElementById('panel-${use}').hidden`), false);
      assert.equal(await tab.see("document.querySelectorAll('[role=tab][aria-selected=true]').length"), 1);
    }
  },

  'keyboard: everything that can be reached has a name': async (open) => {
    for (const use of ['release', 'bench', 'field', 'learn']) {
      const tab = await open(use);
      const { nodes } = await tab.send('Accessibility.getFullAXTree');
      const focusable = nodes.filter((node) => !node.ignored && node.properties?.some(({ name, value }) => name === 'focusable' && value.value === true));
      const roles = focusable.filter((node) => node.role.value !== 'RootWebArea' && node.role.value !== 'main');
      const nameless = roles.filter((node) => !node.name?.value?.trim()).map((node) => node.role.value);
      assert.deepEqual(nameless, [], `${use}: without a name`);
      const pictures = nodes.filter((node) => !node.ignored && ['img', 'image'].includes(node.role.value));
      for (const node of pictures) assert.ok(node.name?.value?.length > 20, `${use}: a picture is told`);
    }
  },

  'keyboard: a release from the first Tab to the verdict': async (open) => {
    const tab = await open();
    const to = async (id) => {
      for (let press = 0; press < 60 && (await tab.see('document.activeElement.id')) !== id; press += 1) await tab.key('Tab');
      assert.equal(await tab.see('document.activeElement.id'), id);
    };
    await to('board-0');
    await tab.type('50');
    await to('board-1');
    await tab.type('20');
    for (const place of [2, 3, 4, 5]) {
      await to(`house-${place}`);
      await tab.type('0');
    }
    assert.equal(await tab.see("document.querySelector('#verdict strong').textContent"), 'RELEASED: controller 0 waits at most 21 ms, controller 1 waits at most 51 ms');
    assert.equal(await tab.see("document.getElementById('verdict').getAttribute('role')"), 'status');
  },
};
