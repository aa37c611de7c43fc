// A record's numbers, its words, and the store that holds them (docs/FORMAT.md).

const KIND = { constant: 0, input: 1, instruction: 2, output: 3, boolean: 4, undefined: 5 };
const ENDS = { unreachable: 0, return: 1, exit: 2, branch: 3, bool: 4, num: 5 };
const ALLOWED = {
  regions: [1, 32], constants: [0, 64], inputs: [0, 4], blocks: [0, 8], instructions: [1, 8], reads: [0, 3],
  type: [1, 255], result: [0, 255], word: [0, 65535], limit: [1, 65535], exits: [0, 32],
  values: [[0, 0], [0, 4], [0, 4], [0, 0], [1, 1], [1, 1]],         // by how a region ends
  targets: [[0, 0], [0, 0], [0, 0], [1, 1], [2, 2], [1, 8]],
};
const TRUE = [KIND.boolean, 0, 1], FALSE = [KIND.boolean, 0, 0];
const BLOCK_BYTES = 512, CHECK_AT = 508, BLOCK_WORDS = 253, MOST_WORDS = 16 * BLOCK_WORDS;

const listed = (items, words) => [items.length, ...items.flatMap(words)];
const same = value => value;

function regionWords(region) {
  const instruction = one => [one.opcode, one.type, one.cost, ...listed(one.reads, same)];
  return [
    ...listed(region.inputs, same), ...listed(region.blocks, block => listed(block, instruction)),
    region.limit, region.kind, ...region.kind === ENDS.exit ? [region.opcode] : [],
    ...listed(region.values, same), ...listed(region.targets, same),
    ...[...region.passed.values()].flatMap(values => listed(values, same)), ...listed(region.exits, same)];
}

// The record's words, W in front.
function recordWords(record) {
  const words = [0, record.regions.length, record.entry, record.test, ...listed(record.constants, same),
    ...record.regions.flatMap(regionWords)];
  words[0] = words.length;
  return words;
}

// The store that holds these words, in as many blocks as they need.
function storeOf(words) {
  const count = Math.ceil(words.length / BLOCK_WORDS), store = new Uint8Array(count * BLOCK_BYTES), view = new DataView(store.buffer);
  for (let number = 0; number < count; number++) {
    const from = number * BLOCK_BYTES;
    view.setUint16(from, number, true);
    words.slice(number * BLOCK_WORDS, (number + 1) * BLOCK_WORDS).forEach((word, k) => view.setUint16(from + 2 + 2 * k, word, true));
    let check = 0;
    for (let k = 0; k < CHECK_AT; k++) check += store[from + k] * (k + 1);
    view.setUint32(from + CHECK_AT, check, true);
  }
  return store;
}

// A value as sheets have it.
function valueText([kind, region, index]) {
  if (kind === KIND.boolean) return index ? "true" : "false";
  if (kind === KIND.constant) return "c" + index;
  return kind === KIND.undefined ? "undef" + index : "?idn"[kind] + region + "." + index;
}
