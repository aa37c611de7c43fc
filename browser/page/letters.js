// Letters as the workbench counts and classes them: a column is a code point, and blanks are those of Python.

const LETTER = "\\p{L}\\p{N}_";         // what Python calls \w
const BLANK = "\\t-\\r\\x1c-\\x20\\x85\\xa0\\u1680\\u2000-\\u200a\\u2028\\u2029\\u202f\\u205f\\u3000";
const UNPRINTABLE = /(?! )[\p{C}\p{Z}]/u;
const SHORT_ESCAPES = { "\n": "\\n", "\r": "\\r", "\t": "\\t" };

const blank = new RegExp(`^[${BLANK}]`);
const stripped = text => text.replace(new RegExp(`^[${BLANK}]+|[${BLANK}]+$`, "g"), "");
const wordsOf = text => text.split(new RegExp(`[${BLANK}]+`)).filter(Boolean);

// How many code points a text has.
const lengthOf = text => /[\ud800-\udfff]/.test(text) ? Array.from(text).length : text.length;

const front = (text, count) => Array.from(text.slice(0, 2 * count)).slice(0, count).join("");
const isPrintable = text => !UNPRINTABLE.test(text);
const hex = (letter, digits) => letter.codePointAt(0).toString(16).padStart(digits, "0");

function escapeOf(letter) {
  const code = letter.codePointAt(0);
  return SHORT_ESCAPES[letter] || (code < 0x100 ? "\\x" + hex(letter, 2) : code < 0x10000 ? "\\u" + hex(letter, 4) : "\\U" + hex(letter, 8));
}

// A text in which what cannot be printed stands as an escape.
const escaped = text => isPrintable(text) ? text : Array.from(text, letter => isPrintable(letter) ? letter : escapeOf(letter)).join("");

// The order of texts by code points.
function compareTexts(one, other) {
  const [a, b] = [Array.from(one), Array.from(other)];
  for (let k = 0; k < Math.min(a.length, b.length); k++) {
    if (a[k] !== b[k]) return a[k].codePointAt(0) - b[k].codePointAt(0);
  }
  return a.length - b.length;
}

// The place of the first byte of a line that begins no letter in UTF-8, or -1.
function brokenByte(line) {
  for (let at = 0; at < line.length;) {
    const size = letterSize(line, at);
    if (!size) return at;
    at += size;
  }
  return -1;
}

const SECOND = { 0xe0: [0xa0, 0xbf], 0xed: [0x80, 0x9f], 0xf0: [0x90, 0xbf], 0xf4: [0x80, 0x8f] };    // other bytes: 80 to bf

function letterSize(line, at) {
  const lead = line[at], size = lead < 0x80 ? 1 : lead < 0xc2 ? 0 : lead < 0xe0 ? 2 : lead < 0xf0 ? 3 : lead < 0xf5 ? 4 : 0;
  const [least, most] = SECOND[lead] || [0x80, 0xbf];
  for (let k = 1; k < size; k++) {
    const byte = line[at + k];
    if (!(byte >= (k === 1 ? least : 0x80) && byte <= (k === 1 ? most : 0xbf))) return 0;
  }
  return size;
}

// A source's text without a byte-order mark, and a fault for each line with a byte that is not UTF-8.
function decoded(bytes) {
  const lines = [], faults = [], decoder = new TextDecoder("utf-8", { ignoreBOM: true });
  for (let from = 0, number = 1; from <= bytes.length; number++) {
    const found = bytes.indexOf(10, from), end = found < 0 ? bytes.length : found;
    const line = bytes.subarray(from, end), broken = brokenByte(line);
    if (broken >= 0) {
      const before = decoder.decode(line.subarray(0, broken));
      const column = lengthOf(number === 1 ? withoutMark(before) : before) + 1;
      faults.push(new Fault(number, column, `found the byte ${line[broken]}, expected text in UTF-8`));
    }
    lines.push(decoder.decode(line));
    from = end + 1;
  }
  return [withoutMark(lines.join("\n")), faults];
}

const withoutMark = text => text.startsWith("\ufeff") ? text.slice(1) : text;
