// One fresh page in the browser, and what a hand does to it.
import { mkdtempSync, readdirSync, readFileSync, rmSync, writeFileSync } from 'node:fs';
import { tmpdir } from 'node:os';
import { join } from 'node:path';

const KEYS = {
  Tab: [9], Enter: [13, '\r'], Escape: [27], ' ': [32, ' '], End: [35], Home: [36], ArrowLeft: [37], ArrowUp: [38], ArrowRight: [39], ArrowDown: [40],
};

/** A page of its own, with nothing of the pages before it. */
export class Tab {
  /** Opens the page at an address, in a window so wide and with so many looks. */
  static async open(browser, address, { width = 1280, height = 900, dark = false } = {}) {
    const tab = new Tab();
    tab.browser = browser;
    tab.errors = [];
    tab.requests = [];
    const { browserContextId } = await browser.send('Target.createBrowserContext');
    tab.context = browserContextId;
    const { targetId } = await browser.send('Target.createTarget', { url: 'about:blank', browserContextId });
    tab.session = (await browser.send('Target.attachToTarget', { targetId, flatten: true })).sessionId;
    tab.downloads = mkdtempSync(join(tmpdir(), 'saved-'));
    browser.listeners = [(message) => tab.hear(message)];
    for (const part of ['Page', 'Runtime', 'Network', 'Log', 'DOM', 'Accessibility']) await tab.send(`${part}.enable`);
    await browser.send('Browser.setDownloadBehavior', { behavior: 'allow', downloadPath: tab.downloads, browserContextId });
    await tab.look({ width, height, dark });
    await tab.send('Page.navigate', { url: address });
    await tab.until("document.documentElement?.dataset.ready === 'yes' || document.getElementById('stopped')?.hidden === false");
    return tab;
  }

  hear({ method, params, sessionId }) {
    if (sessionId !== this.session) return;
    if (method === 'Runtime.exceptionThrown') this.errors.push(params.exceptionDetails.exception?.description ?? params.exceptionDetails.text);
    if (method === 'Log.entryAdded' && params.entry.level === 'error') this.errors.push(params.entry.text);
    if (method === 'Network.requestWillBeSent' && !/^(data|blob|file):/.test(params.request.url)) this.requests.push(params.request.url);
  }

  send(method, params) {
    return this.browser.send(method, params, this.session);
  }

  async look({ width, height, dark }) {
    await this.send('Emulation.setDeviceMetricsOverride', { width, height, deviceScaleFactor: 1, mobile: false });
    await this.send('Emulation.setEmulatedMedia', { features: [{ name: 'prefers-color-scheme', value: dark ? 'dark' : 'light' }] });
  }

  /** What an expression of the page gives. */
  async see(expression) {
    const { result, exceptionDetails } = await this.send('Runtime.evaluate', { expression, awaitPromise: true, returnByValue: true });
    if (exceptionDetails) throw new Error(`${expression}: ${exceptionDetails.exception?.description ?? exceptionDetails.text}`);
    return result.value;
  }

  text(id) {
    return this.see(`document.getElementById('${id}').textContent`);
  }

  /** Waits until an expression is true. */
  async until(expression, seconds = 20, before = '0') {
    await this.see(before);
    const end = Date.now() + 1000 * seconds;
    while (!(await this.see(`Boolean(${expression})`))) {
      if (Date.now() > end) throw new Error(`not within ${seconds} s: ${expression}`);
      await new Promise((done) => setTimeout(done, 20));
    }
  }

  /** Presses an element as a mouse does, by its name. */
  async press(selector) {
    const place = await this.see(`(() => { const one = document.querySelector(${JSON.stringify(selector)}); one.scrollIntoView({ block: 'center' });
      const box = one.getBoundingClientRect(); return [box.x + box.width / 2, box.y + box.height / 2]; })()`);
    for (const type of ['mousePressed', 'mouseReleased']) {
      await this.send('Input.dispatchMouseEvent', { type, x: place[0], y: place[1], button: 'left', clickCount: 1 });
    }
  }

  /** A key, with 2 for Control, 8 for Shift. */
  async key(key, modifiers = 0) {
    const [code, text] = KEYS[key] ?? [key.toUpperCase().charCodeAt(0), key];
    const common = { key, windowsVirtualKeyCode: code, modifiers };
    await this.send('Input.dispatchKeyEvent', { type: text && !modifiers ? 'keyDown' : 'rawKeyDown', text: modifiers ? undefined : text, ...common });
    await this.send('Input.dispatchKeyEvent', { type: 'keyUp', ...common });
  }

  async type(words) {
    for (const letter of words) await this.key(letter === '\n' ? 'Enter' : letter);
  }

  /** Puts words in a field in place of what it has, as typing does. */
  async write(id, words) {
    await this.see(`(() => { const one = document.getElementById('${id}'); one.focus(); one.value = ${JSON.stringify(words)}; one.dispatchEvent(new Event('input', { bubbles: true })); one.dispatchEvent(new Event('change', { bubbles: true })); })()`);
  }

  /** Chooses files by an input. */
  async choose(id, files) {
    const { root } = await this.send('DOM.getDocument');
    const { nodeId } = await this.send('DOM.querySelector', { nodeId: root.nodeId, selector: `#${id}` });
    await this.send('DOM.setFileInputFiles', { nodeId, files });
  }

  /** Drops files from outside on an element. */
  async drop(id, files) {
    const [x, y] = await this.see(`(() => { const box = document.getElementById('${id}').getBoundingClientRect(); return [box.x + 20, box.y + 20]; })()`);
    const data = { items: [], files, dragOperationsMask: 1 };
    for (const type of ['dragEnter', 'dragOver', 'drop']) await this.send('Input.dispatchDragEvent', { type, x, y, data });
  }

  /** The bytes of a file that the page saved. */
  async saved(name, seconds = 10) {
    const end = Date.now() + 1000 * seconds;
    while (!readdirSync(this.downloads).includes(name)) {
      if (Date.now() > end) throw new Error(`not saved within ${seconds} s: ${name}; saved are ${readdirSync(this.downloads)}`);
      await new Promise((done) => setTimeout(done, 50));
    }
    return readFileSync(join(this.downloads, name));
  }

  /** A picture of the window, or of the whole page. */
  async shoot(path, whole = false) {
    const { data } = await this.send('Page.captureScreenshot', { format: 'png', captureBeyondViewport: whole });
    writeFileSync(path, Buffer.from(data, 'base64'));
  }

  async close() {
    // The browser may still be renaming what it saved.
    rmSync(this.downloads, { recursive: true, force: true, maxRetries: 5 });
    await this.browser.send('Target.disposeBrowserContext', { browserContextId: this.context });
  }
}
