// node page/test/browser.mjs PAGE [NAME...]: drives the page in Chromium, each test on a fresh page: the four uses, bad files, the keyboard, the looks, the speed.
// It prints a line a test and ends with 0 if all passed, with 1 if one fell, with 3 if there is no Chromium. SHOTS names a folder for screenshots.
import { existsSync } from 'node:fs';
import { resolve } from 'node:path';
import { pathToFileURL } from 'node:url';
import { Browser } from './cdp.mjs';
import { Tab } from './tab.mjs';
import { tests as release } from './release.mjs';
import { tests as bench } from './bench.mjs';
import { tests as field } from './field.mjs';
import { tests as learn } from './learn.mjs';
import { tests as keyboard } from './keyboard.mjs';
import { tests as looks } from './looks.mjs';
import { tests as speed } from './speed.mjs';

const [path, ...names] = process.argv.slice(2);
if (!path || !existsSync(path)) {
  console.error('usage: node page/test/browser.mjs PAGE [NAME...], with the page that tools/page makes');
  process.exit(2);
}
const address = pathToFileURL(resolve(path)).href;
const all = { ...release, ...bench, ...field, ...learn, ...keyboard, ...looks, ...speed };
const chosen = Object.entries(all).filter(([name]) => names.length === 0 || names.some((word) => name.includes(word)));

const browser = await Browser.start();
if (!browser) {
  console.log('left out: there is no Chromium here (apt-get install chromium, or CHROMIUM=PATH)');
  process.exit(3);
}

/** Runs one test, and closes the pages that it opened. What the page complains of is a fault too. */
async function run(test) {
  const tabs = [];
  const open = async (use, options) => {
    tabs.push(await Tab.open(browser, use ? `${address}#${use}` : address, options));
    return tabs.at(-1);
  };
  try {
    const figures = await test(open, address);
    const complaints = tabs.flatMap((tab) => [...tab.errors, ...tab.requests.map((to) => `a request to ${to}`)]);
    if (complaints.length) throw new Error(complaints.join('; '));
    return figures ?? '';
  } finally {
    for (const tab of tabs) await tab.close();
  }
}

let fell = 0;
try {
  for (const [name, test] of chosen) {
    try {
      const figures = await run(test);
      console.log(`ok    ${name}${figures ? `: ${figures}` : ''}`);
    } catch (why) {
      fell += 1;
      console.log(`FELL  ${name}: ${why.message}`);
    }
  }
} finally {
  await browser.close();
}
console.log(`${chosen.length - fell} passed, ${fell} failed`);
process.exit(fell || chosen.length === 0 ? 1 : 0);
