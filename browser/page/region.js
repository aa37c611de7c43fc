// One region of a source: its inputs, blocks, terminator, passed values and exits.

const ANY = [KIND.undefined, 0, 1];     // stands for a value that is at fault
const TERMINATOR_RULES = ["unreachable", "return_", "exit_", "branch", "select"];

class RegionReader {
  constructor(names, at, tree, gathered, draft) {
    Object.assign(this, { names, at, tree, gathered, draft });
    [this.own, this.count, this.wantsExits, this.hasLimit] = [new Map(), 0, null, false];
    this.made = { inputs: [], blocks: [], limit: 1, kind: ENDS.unreachable, opcode: 0, values: [], targets: [], passed: new Map(),
                  exits: [], lines: new Map() };
  }

  told(action) {
    return this.gathered.told(action);
  }

  region() {
    const [, inputs, limit, ...parts] = this.tree.children;
    this.hasLimit = limit !== null;
    this.told(() => { if (limit) this.made.limit = numberOf(limit, ALLOWED.limit, "limit"); });
    trees(inputs).forEach(part => this.input(...part.children));
    this.held(this.made.inputs, ALLOWED.inputs, this.tree.meta, "inputs");
    parts.filter(Boolean).forEach(part => this.told(() => this.part(part)));
    this.held(this.made.blocks, ALLOWED.blocks, this.tree.meta, "blocks");
    return this.made;
  }

  part(part) {
    if (TERMINATOR_RULES.includes(part.data)) this.made.lines.set("terminator", part.meta.line);
    this[part.data](part);
  }

  input(name, given) {
    this.told(() => { if (name) this.names.nameValue(this.own, name, [KIND.input, this.at, this.made.inputs.length]); });
    this.made.inputs.push(1);
    this.told(() => { this.made.inputs[this.made.inputs.length - 1] = this.names.type(given); });
  }

  // A list; one of another length than is allowed is told.
  held(items, allowed, at, what) {
    this.told(() => checkCount(items, allowed, at, what));
    return items;
  }

  // Whether a line of this region did not parse.
  isPatched() {
    const { line, endLine } = this.tree.meta, last = this.draft.number(endLine);
    return [...this.draft.patched].some(number => line <= number && number <= last);
  }

  // The values of a list: none where it is left out or `-`.
  valuesOf(tree, allowed, what) {
    const values = trees(tree).map(part => this.valueOf(part));
    return values.length ? this.held(values, allowed, tree.meta, what) : [];
  }

  valueOf(tree) {
    return this.told(() => this.names.value(tree, this.own, this.names.regionName(this.at))) || ANY;
  }

  // Note what a target gets; a target named twice gets the same.
  passTo(reference, values) {
    const target = this.names.region(reference), { passed } = this.made;
    if (!passed.has(target)) passed.set(target, values);
    if (JSON.stringify(passed.get(target)) !== JSON.stringify(values)) {
      throw faultAt(reference.meta, `found other values for region ${target} than before, expected the same: ` +
        "a region passes each target one list");
    }
    if (!this.made.lines.has(`pass ${target}`)) this.made.lines.set(`pass ${target}`, reference.meta.line);
    return target;
  }

  // Blocks: with a line for each instruction, with or without the word `block`, or as a record's text has them.

  block(tree) {
    const block = tree.children.map(part => this.instruction(part.meta, ...part.children));
    this.made.blocks.push(this.held(block, ALLOWED.instructions, tree.meta, "instructions in a block"));
  }

  loose(tree) {
    this.block(tree);
  }

  instruction(at, name, code, reads, given, cost) {
    const known = this.told(() => this.names.opcode(code)), opcode = known || { number: 0, type: 1, cost: 0 };
    let type = given ? 1 : opcode.type, dear = 0;
    this.told(() => { if (given) type = this.names.type(given); });
    this.told(() => { dear = this.cost(code.children[0], opcode, cost); });
    const values = this.valuesOf(reads, ALLOWED.reads, "values read");
    if (name) this.named(name, type || !known);
    this.count++;
    return { opcode: opcode.number, type, cost: dear, reads: values, line: at.line };
  }

  // An instruction's own cost, or its opcode's, or the source's default.
  cost(code, opcode, given) {
    if (given) return numberOf(given, ALLOWED.word, "cost");
    const dear = opcode.cost === null ? this.names.defaultCost : opcode.cost;
    if (dear === null) {
      throw faultAt(code, `found \`${code.value}\` without a cost, expected \`cost N\` behind the instruction or in the opcode's ` +
        "definition, or `default cost 0` once in the source");
    }
    return dear;
  }

  named(name, result) {
    this.told(() => this.names.nameValue(this.own, name, [KIND.instruction, this.at, this.count]));
    this.told(() => {
      if (!result) throw faultAt(name, `found \`${name.value} =\` before an instruction without a type, expected \`: TYPE\` after it`);
    });
  }

  listed_block(tree) {
    const block = [];
    for (let k = 0; k < tree.children.length; k += 2) {
      const item = tree.children[k], [at, ...rest] = item.value.replace(/^,+/, "").split("/"), fields = rest.slice(0, 3);
      this.told(() => this.checkItem(item, at, fields));
      const reads = this.valuesOf(tree.children[k + 1].children[0], ALLOWED.reads, "values read");
      const [opcode, type, cost] = fields.map(decimal);
      block.push({ opcode, type, cost, reads, line: item.line });
      this.count++;
    }
    this.made.blocks.push(this.held(block, ALLOWED.instructions, tree.meta, "instructions in a block"));
  }

  checkItem(item, at, fields) {
    const place = `${this.at}.${this.count}`, most = [ALLOWED.word[1], ALLOWED.result[1], ALLOWED.word[1]];
    if (at !== place) throw faultAt(item, `found the item ${at}, expected ${place}: region and place`);
    fields.forEach((digits, k) => {
      if (decimal(digits) > most[k]) throw faultAt(item, `found ${digits} in an item, expected up to ${most[k]}`);
    });
  }

  // Terminators, passed values, exits: called as the grammar calls them.

  unreachable() {}

  return_(tree) {
    this.made.kind = ENDS.return;
    this.made.values = this.valuesOf(tree.children[1], ALLOWED.values[ENDS.return], "values");
  }

  exit_(tree) {
    const [, code, values] = tree.children;
    this.made.kind = ENDS.exit;
    this.told(() => { this.made.opcode = this.names.opcode(code).number; });
    this.made.values = this.valuesOf(values, ALLOWED.values[ENDS.exit], "values");
  }

  branch(tree) {
    this.made.kind = ENDS.branch;
    this.targets(tree.children.slice(1), tree);
  }

  select(tree) {
    const [, kind, test, ...targets] = tree.children;
    this.made.kind = ENDS[kind.children[0].value];
    this.made.values = [this.valueOf(test)];
    this.targets(targets, tree);
  }

  targets(targets, tree) {
    this.held(targets, ALLOWED.targets[this.made.kind], tree.meta, "targets");
    for (const { children: [reference, values] } of targets) {
      const passed = this.valuesOf(values, ALLOWED.inputs, "values passed");
      this.told(() => {
        this.made.targets.push(this.names.region(reference));
        if (values) this.passTo(reference, passed);
      });
    }
  }

  pass_(tree) {
    const [reference, values] = tree.children;
    const target = this.passTo(reference, this.valuesOf(values, ALLOWED.inputs, "values passed"));
    if (!this.made.targets.includes(target) && !this.isPatched()) {
      throw faultAt(reference.meta, `found region ${target}, expected a target of this region`);
    }
  }

  exits(tree) {
    this.made.lines.set("exits", tree.meta.line);
    this.wantsExits = !tree.children.length;
    this.made.exits = this.held(trees(tree).map(part => this.names.region(part)), ALLOWED.exits, tree.meta, "exits");
  }
}

// A list must have as many items as a record allows.
function checkCount(items, allowed, at, what) {
  const [least, most] = allowed;
  if (within(items.length, allowed)) return;
  const found = items.length === 1 ? what.replace(/s$/, "") : what;
  throw faultAt(at, `found ${items.length} ${found}, expected ${least}${least < most ? ` to ${most}` : ""}`);
}
