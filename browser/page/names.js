// The names of a source: types, opcodes, regions, constants and the values of each region.

const NUMBERED = /^(?:c(?<constant>[0-9]+)|(?<letter>[idn])(?<region>[0-9]+)\.(?<index>[0-9]+)|undef(?<type>[0-9]+)|true|false)$/;

// A number in base ten; of one with very many digits, a part that is too great as well.
const decimal = digits => Number(digits.replace(/^0+/, "").slice(0, 9));

function within(value, [least, most]) {
  return least <= value && value <= most;
}

// A number of the source, within what is allowed.
function numberOf(token, allowed = ALLOWED.word, what = "number") {
  const value = token.value.startsWith("0x") ? Number(token.value) : decimal(token.value);
  if (!within(value, allowed)) throw faultAt(token, `found ${what} ${token.value}, expected ${allowed[0]} to ${allowed[1]}`);
  return value;
}

// A value written with numbers, as a record's text has it; null for any other word.
function numberedValue(token) {
  const match = NUMBERED.exec(token.value), found = match && match.groups;
  if (!match) return null;
  const [constant, region, index, type] = ["constant", "region", "index", "type"].map(key => found[key] ? decimal(found[key]) : undefined);
  if ([constant, region, index].some(word => word > 65535) || (type !== undefined && !within(type, ALLOWED.type))) {
    throw faultAt(token, `found \`${token.value}\`, expected numbers up to 65535 and a type from 1 to 255`);
  }
  if (found.letter === "n") {
    throw faultAt(token, `found \`${token.value}\`, the output of a node, expected a value: nodes arise only in nesting`);
  }
  if (found.letter) return [found.letter === "i" ? KIND.input : KIND.instruction, region, index];
  if (found.constant) return [KIND.constant, 0, constant];
  if (found.type) return [KIND.undefined, 0, type];
  return token.value === "true" ? TRUE : FALSE;
}

// What a source's names mean. The draft has the words that stood in lines which do not parse, and may have been names.
class Names {
  constructor(draft) {
    this.draft = draft;
    for (const table of ["types", "regions", "constants", "opcodes", "values"]) this[table] = new Map();
    this.defaultCost = null;
  }

  define(table, token, meaning) {
    const name = token.value;
    if (NUMBERED.test(name)) throw faultAt(token, `found \`${name}\`, which is a value, expected a name`);
    if (name.includes(".")) throw faultAt(token, `found \`${name}\`, expected a name without a dot`);
    if (table.has(name)) throw faultAt(token, `found the name \`${name}\` a second time, expected another name`);
    table.set(name, meaning);
  }

  // The fault of a name that means nothing.
  unknown(token, message, lost = false) {
    return faultAt(token, message, lost || this.draft.lost.has(token.value) ? Lost : Fault);
  }

  find(table, token, what) {
    if (!table.has(token.value)) {
      throw this.unknown(token, `found \`${token.value}\`, expected the name or the number of ${what}${near(token.value, table.keys())}`,
        table === this.regions && this.draft.lostRegion);
    }
    return table.get(token.value);
  }

  type(tree) {
    if (tree.data === "boolean_type") return 1;
    const token = tree.children[0];
    return token.type === "NUMBER" ? numberOf(token, ALLOWED.type, "type") : this.find(this.types, token, "a type");
  }

  // An opcode's number, and the type and cost that its definition gives.
  opcode(tree) {
    const token = tree.children[0];
    if (token.type === "NUMBER") return { number: numberOf(token, ALLOWED.word, "opcode"), type: 0, cost: null };
    return this.find(this.opcodes, token, "an opcode");
  }

  region(tree) {
    const token = tree.children[0];
    return token.type === "NUMBER" ? numberOf(token, ALLOWED.word, "region") : this.find(this.regions, token, "a region");
  }

  regionName(place) {
    const named = [...this.regions].find(([, number]) => number === place);
    return named ? named[0] : String(place);
  }

  nameValue(table, token, value) {
    this.define(table, token, value);
    this.values.set(valueText(value), token.value);
  }

  // A value: of the region's own, a constant, or one with numbers.
  value(tree, own, where) {
    if (tree.data === "undefined") return [KIND.undefined, 0, this.type(tree.children[0])];
    const token = tree.children[0], table = [own, this.constants].find(one => one.has(token.value));
    if (table) return table.get(token.value);
    const value = numberedValue(token);
    if (value === null) {
      throw this.unknown(token, `found \`${token.value}\`, expected a value of region ${where} or a constant` +
        near(token.value, [...own.keys(), ...this.constants.keys()]));
    }
    return value;
  }

  // The names as text, a line each, for the pictures: what, number, name.
  lines() {
    const called = new Map([...this.opcodes].reverse().map(([name, opcode]) => [opcode.number, name]));
    return [
      ...[...this.regions].map(([name, number]) => `region ${number} ${name}`),
      ...[...this.types].map(([name, number]) => `type ${number} ${name}`),
      ...[...called].map(([number, name]) => `opcode ${number} ${name}`),
      ...[...this.values].map(([value, name]) => `value ${value} ${name}`)].join("\n");
  }
}
