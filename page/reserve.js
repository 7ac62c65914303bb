// Box 14 in a script: the byte that controller 0 writes to RT, found and replaced.

/**
 * Where the script writes controller 0's reserve for the first time: a `command 0 03`, and then its `write 0`.
 * @param {string} script
 * @returns {{from: number, to: number, word: string} | null}
 */
function findReserve(script) {
  const found = /^[ \t]*command[ \t]+0[ \t]+(?:0?3h?|0x0?3)(?![^\s#])[^\n]*\n(?:[ \t]*(?:#[^\n]*)?\r?\n)*[ \t]*write[ \t]+0[ \t]+([^\s#]+)/im.exec(script);
  if (!found) return null;
  const to = found.index + found[0].length;
  return { from: to - found[1].length, to, word: found[1] };
}

/**
 * The reserve that a word of a script is: hex unless it says otherwise; null if it is no byte.
 * @param {string} word
 * @returns {number | null}
 */
function reserveOf(word) {
  const decimal = /^(\d{1,3})(?:ms|d)$/i.exec(word);
  const hex = /^(?:0x)?([\da-f]{1,2})h?$/i.exec(word);
  const value = decimal ? Number(decimal[1]) : hex ? parseInt(hex[1], 16) : NaN;
  return value >= 0 && value <= 255 ? value : null;
}

/**
 * A script with this reserve of controller 0. 0 is written 00: it is no time of 0 ms.
 * @param {string} script
 * @param {number} reserve
 * @returns {string}
 */
function withReserve(script, reserve) {
  const place = findReserve(script);
  if (!place) return script;
  return script.slice(0, place.from) + (reserve === 0 ? '00' : `${reserve}ms`) + script.slice(place.to);
}

/**
 * @param {number} reserve
 * @returns {string}
 */
function reserveWords(reserve) {
  return reserve === 0 ? '00h, without limit' : `${reserve} ms`;
}
