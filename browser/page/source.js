// From a source's bytes to its record and its store, or all its faults.

const MOST_BYTES = 262144;

class SourceReader {
  constructor(tree, draft, gathered) {
    Object.assign(this, { tree, draft, gathered, names: new Names(draft) });
    this.wanted = [];               // regions whose exits are to be found, with their lines
    this.unlimited = new Map();     // regions without a limit, with the token of their name
  }

  told(action) {
    return this.gathered.told(action);
  }

  // Types, then opcodes, which name types, then the default cost, then regions.
  define() {
    const { names } = this;
    for (const { children: [name, given] } of trees(this.tree, "type_definition")) {
      this.told(() => {
        names.define(names.types, name, 1);
        names.types.set(name.value, numberOf(given, ALLOWED.type, "type"));
      });
    }
    trees(this.tree, "opcode_definition").forEach(part => this.defineOpcode(...part.children));
    for (const part of trees(this.tree, "default_cost")) {
      this.told(() => {
        if (names.defaultCost !== null) throw faultAt(part.meta, "found `default cost` a second time, expected it once");
        names.defaultCost = numberOf(part.children[0], ALLOWED.word, "cost");
      });
    }
    trees(this.tree, "region").forEach((part, at) => this.defineRegion(at, part.children[0].children[0]));
  }

  defineOpcode(name, code, given, cost) {
    let made = { number: 0, type: given ? 1 : 0, cost: 0 };
    this.told(() => {
      const number = numberOf(code, ALLOWED.word, "opcode"), type = given ? this.names.type(given) : 0;
      made = { number, type, cost: cost ? numberOf(cost, ALLOWED.word, "cost") : null };
    });
    this.told(() => this.names.define(this.names.opcodes, name, made));
  }

  defineRegion(at, token) {
    this.told(() => {
      if (at === ALLOWED.regions[1]) throw faultAt(token, `found one region more than ${at}, expected at most ${at}`);
      if (token.type === "WORD") this.names.define(this.names.regions, token, at);
      else if (numberOf(token) !== at && !this.draft.patched.size) {
        throw faultAt(token, `found region ${token.value}, expected ${at}, its place in the source, or a name`);
      }
    });
  }

  // The types of all constants: the header's, then the others in their order.
  constants(header) {
    const types = [];
    for (const { children: [name, of] } of [...trees(header.children[3]), ...trees(this.tree, "constant_definition")]) {
      this.told(() => { if (name) this.names.nameValue(this.names.constants, name, [KIND.constant, 0, types.length]); });
      types.push(1);
      this.told(() => { types[types.length - 1] = this.names.type(of); });
    }
    this.told(() => checkCount(types, ALLOWED.constants, header.meta, "constants"));
    return types;
  }

  header(regions) {
    const header = trees(this.tree, "header")[0], [count, entry, test] = header.children;
    const record = { entry: 0, test: 0, constants: [], regions: [], line: header.meta.line };
    this.told(() => {
      if (count && numberOf(count) !== regions.length && !this.draft.patched.size) {
        throw faultAt(count, `found regions ${count.value}, expected ${regions.length}: as many as there are`);
      }
    });
    this.told(() => { if (entry) record.entry = this.names.region(entry); });
    this.told(() => { if (test) record.test = numberOf(test, ALLOWED.word, "test cost"); });
    record.constants = this.constants(header);
    return record;
  }

  // The record, as far as the tree has one.
  read() {
    this.define();
    const regions = trees(this.tree, "region"), record = this.header(regions);
    const auto = trees(this.tree, "header")[0].children[4];
    regions.forEach((part, at) => {
      const reader = new RegionReader(this.names, at, part, this.gathered, this.draft);
      record.regions.push(reader.region());
      if (reader.wantsExits || (reader.wantsExits === null && auto)) this.wanted.push([at, part.meta.line]);
      if (!reader.hasLimit && !this.draft.patched.has(part.meta.line)) this.unlimited.set(at, part.children[0].children[0]);
    });
    for (const region of record.regions) {      // by first standing; a target that is passed nothing gets no values
      region.passed = new Map(region.targets.map(target => [target, region.passed.get(target) || []]));
    }
    return record;
  }

  // Fill in the exit lists that are to be found; a region that heads a loop must have a limit.
  loops(record) {
    if (record.regions.length > ALLOWED.regions[1]) return;
    this.told(() => findExits(record, this.wanted));
    for (const [at, origin] of loopHeaders(record)) {
      const token = this.unlimited.get(at);
      if (!token) continue;
      const why = origin === null ? "which its exit list marks as the head of a loop"
        : `to which region ${this.names.regionName(origin)} leads back`;
      this.gathered.found.push(faultAt(token, `found region ${token.value} without a limit, ${why}, expected \`limit N\`: ` +
        "how many turns the loop takes at most, 1 to 65535"));
    }
  }
}

// Fill in the lists of the regions that want them found.
function findExits(record, wanted) {
  if (!wanted.length) return;
  for (const target of [record.entry, ...record.regions.flatMap(region => region.targets)]) {
    if (target >= record.regions.length) {
      throw new Fault(wanted[0][1], 1, `found a way to region ${target}, which is not there; expected regions of the record, ` +
        "or `exits auto` cannot look for loops");
    }
  }
  const found = loopExits(record);
  for (const [at] of wanted) record.regions[at].exits = found.get(at) || [];
}

// The record of a source's bytes and its names; or all its Faults.
function readSource(bytes) {
  const gathered = new Gathered();
  if (bytes.length > MOST_BYTES) {
    throw new Faults([new Fault(1, 1, `found a source of more than ${MOST_BYTES.toLocaleString("en-US")} bytes, expected a shorter one`)]);
  }
  const [tree, draft] = parseOn(...decoded(bytes), gathered);
  if (!tree) gathered.tell();
  const reader = new SourceReader(tree, draft, gathered), record = reader.read();
  reader.loops(record);
  gathered.tell();
  return { record, names: reader.names };
}

// The store of a source's bytes, its record and its names.
function assemble(bytes) {
  const { record, names } = readSource(bytes), words = recordWords(record);
  if (words.length > MOST_WORDS) {
    throw new Faults([new Fault(1, 1, `found a record of ${words.length} words, expected at most ${MOST_WORDS}, which fill a store`)]);
  }
  return { store: storeOf(words), record, names };
}
