// The repository's files, as the tests need them.
import { mkdtempSync, readdirSync, readFileSync, rmSync, writeFileSync } from 'node:fs';
import { tmpdir } from 'node:os';
import { join } from 'node:path';
import { fileURLToPath } from 'node:url';

const ROOT = fileURLToPath(new URL('../..', import.meta.url));

/** The whole path of a file of the repository. */
export const at = (path) => join(ROOT, path);

export const bytes = (path) => readFileSync(at(path));

export const text = (path) => readFileSync(at(path), 'utf8');

export const folder = (path) => readdirSync(at(path));

const made = mkdtempSync(join(tmpdir(), 'made-'));
process.on('exit', () => rmSync(made, { recursive: true, force: true }));

/** A file with these bytes, somewhere else; its path. */
export function file(name, data) {
  writeFileSync(join(made, name), data);
  return join(made, name);
}

/** So many bytes that look like nothing: the same at every run. */
export function noise(length) {
  const data = Buffer.alloc(length);
  let state = 2463534242;
  for (let at = 0; at + 4 <= length; at += 4) {
    state ^= state << 13;
    state ^= state >>> 17;
    state ^= state << 5;
    data.writeInt32LE(state | 0, at);
  }
  return data;
}
