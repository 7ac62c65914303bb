// The page's own address: the use that is shown, and on the bench the script, packed. So a link or a bookmark holds a script, and nothing is sent for it.

/** A script in a link that would be longer is not taken. */
const MOST_LINKED = 1024 * 1024;

/**
 * Bytes through a stream that packs or unpacks them, up to a limit.
 * @param {Uint8Array} bytes
 * @param {any} stream
 * @param {number} most
 * @returns {Promise<Uint8Array>}
 */
async function through(bytes, stream, most) {
  const reader = new Blob([/** @type {any} */ (bytes)]).stream().pipeThrough(stream).getReader();
  const parts = [];
  let length = 0;
  for (;;) {
    const { done, value } = await reader.read();
    if (done) break;
    length += value.length;
    if (length > most) throw new Error('the script in this link is too long');
    parts.push(value);
  }
  return new Uint8Array(await new Blob(parts).arrayBuffer());
}

/**
 * @param {string} script
 * @returns {Promise<string>}
 */
async function packScript(script) {
  const bytes = await through(encoder.encode(script), new CompressionStream('deflate-raw'), Infinity);
  let letters = '';
  for (const byte of bytes) letters += String.fromCharCode(byte);
  return btoa(letters).replaceAll('+', '-').replaceAll('/', '_').replace(/=+$/, '');
}

/**
 * @param {string} packedScript
 * @returns {Promise<string>}
 */
async function unpackScript(packedScript) {
  const letters = atob(packedScript.replaceAll('-', '+').replaceAll('_', '/'));
  const bytes = Uint8Array.from(letters, (letter) => letter.charCodeAt(0));
  return decoder.decode(await through(bytes, new DecompressionStream('deflate-raw'), MOST_LINKED));
}

/** @type {{noted: string}} */
const address = { noted: '' };

/** Notes in the address what is shown, without a step in the history. */
async function noteAddress() {
  const use = shownUse();
  const script = use === 'bench' ? `=${await packScript(byId('script').value)}` : '';
  address.noted = `#${use}${script}`;
  if (shownUse() === use) history.replaceState(null, '', address.noted);
}

/** Shows what the address says; a script that it holds is put on the bench. */
async function followAddress() {
  if (location.hash === address.noted) return;
  const [use, script] = location.hash.slice(1).split('=');
  if (!USES.includes(use)) return;
  if (use === 'bench' && script) {
    try {
      putScript(await unpackScript(script), 'a link');
    } catch (why) {
      byId('script-told').textContent = `The link holds no script that can be read: ${why instanceof Error ? why.message : why}`;
    }
  }
  showUse(use);
}
