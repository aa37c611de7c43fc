// Names that look like a word: how alike two words are is what Python's difflib says.

const LIKENESS = 0.6, MOST_NEAR = 3;
const LONG_WORD = 200;      // in a word of that length letters that come often are not looked up

// The places of each letter in a word.
function placesOf(word) {
  const places = new Map();
  word.forEach((letter, place) => places.has(letter) ? places.get(letter).push(place) : places.set(letter, [place]));
  const often = Math.floor(word.length / 100) + 1;
  if (word.length >= LONG_WORD) [...places].forEach(([letter, found]) => found.length > often && places.delete(letter));
  return places;
}

// The longest part that two words share within bounds, the first of equals: where it begins in each, and its length.
function longestShared(a, b, places, [fromA, toA, fromB, toB]) {
  let best = [fromA, fromB, 0], before = new Map();
  for (let i = fromA; i < toA; i++) {
    const lengths = new Map();
    for (const j of places.get(a[i]) || []) {
      if (j < fromB) continue;
      if (j >= toB) break;
      const length = (before.get(j - 1) || 0) + 1;
      lengths.set(j, length);
      if (length > best[2]) best = [i - length + 1, j - length + 1, length];
    }
    before = lengths;
  }
  let [i, j, size] = best;
  while (i > fromA && j > fromB && a[i - 1] === b[j - 1]) [i, j, size] = [i - 1, j - 1, size + 1];
  while (i + size < toA && j + size < toB && a[i + size] === b[j + size]) size++;
  return [i, j, size];
}

function likeness(one, other) {
  const a = Array.from(one), b = Array.from(other), places = placesOf(b);
  const waiting = [[0, a.length, 0, b.length]];
  let shared = 0;
  while (waiting.length) {
    const [fromA, toA, fromB, toB] = waiting.pop();
    const [i, j, size] = longestShared(a, b, places, [fromA, toA, fromB, toB]);
    if (!size) continue;
    shared += size;
    if (fromA < i && fromB < j) waiting.push([fromA, i, fromB, j]);
    if (i + size < toA && j + size < toB) waiting.push([i + size, toA, j + size, toB]);
  }
  return 2 * shared / (a.length + b.length);
}

// Names that look like a word, as the end of a sentence.
function near(word, names) {
  const close = [...names].map(name => [likeness(name, word), name]).filter(([alike]) => alike >= LIKENESS);
  close.sort(([a, one], [b, other]) => b - a || compareTexts(other, one));
  return close.length ? ` (near it: ${close.slice(0, MOST_NEAR).map(([, name]) => "`" + name + "`").join(", ")})` : "";
}
