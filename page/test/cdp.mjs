// Chromium without a window, driven over its own protocol through two pipes: no package is needed for it.
import { spawn } from 'node:child_process';
import { mkdtempSync, rmSync } from 'node:fs';
import { tmpdir } from 'node:os';
import { join } from 'node:path';

/** Where Debian, and others, have it; CHROMIUM names another. */
const NAMES = [process.env.CHROMIUM, 'chromium', 'chromium-browser', 'google-chrome'].filter(Boolean);

/** A browser that is started, and ended by `close`. */
export class Browser {
  constructor(name) {
    this.folder = mkdtempSync(join(tmpdir(), 'page-'));
    const flags = ['--headless=new', '--no-sandbox', '--disable-gpu', '--no-first-run', '--disable-extensions', '--remote-debugging-pipe', `--user-data-dir=${this.folder}`, 'about:blank'];
    this.process = spawn(name, flags, { stdio: ['ignore', 'ignore', 'ignore', 'pipe', 'pipe'] });
    this.ended = new Promise((done) => this.process.on('exit', done));
    [, , , this.to, this.from] = this.process.stdio;
    this.number = 0;
    this.waiting = new Map();
    this.listeners = [];
    this.rest = '';
    this.from.on('data', (data) => this.take(data.toString()));
    this.to.on('error', () => {});
  }

  /** The first of the names that can be started. */
  static async start() {
    for (const name of NAMES) {
      const browser = new Browser(name);
      const failed = new Promise((done) => browser.process.on('error', () => done(true)));
      if (!(await Promise.race([failed, browser.send('Browser.getVersion').then(() => false)]))) return browser;
      rmSync(browser.folder, { recursive: true, force: true });
    }
    return null;
  }

  take(text) {
    const parts = (this.rest + text).split('\0');
    this.rest = parts.pop();
    for (const part of parts) this.heard(JSON.parse(part));
  }

  heard(message) {
    const waits = this.waiting.get(message.id);
    if (!waits) return this.listeners.forEach((listener) => listener(message));
    this.waiting.delete(message.id);
    if (message.error) waits.failed(new Error(`${waits.method}: ${message.error.message}`));
    else waits.done(message.result);
  }

  send(method, params = {}, sessionId = undefined) {
    const id = (this.number += 1);
    return new Promise((done, failed) => {
      this.waiting.set(id, { done, failed, method });
      this.to.write(JSON.stringify({ id, method, params, sessionId }) + '\0');
    });
  }

  /** Ends the browser, and by force if it does not end. */
  async close() {
    this.send('Browser.close').catch(() => {});
    const force = setTimeout(() => this.process.kill('SIGKILL'), 5000);
    await this.ended;
    clearTimeout(force);
    rmSync(this.folder, { recursive: true, force: true, maxRetries: 5 });
  }
}
