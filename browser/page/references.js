// Where a record is refused with 6 to 8, looked for a second time so that it can be told: which value, target, type or exit. Number and
// word are the library's; where the search comes to others, no place is given.

class Refused extends Error {
  constructor(number, word, sentence, line) {
    super();
    Object.assign(this, { number, word, sentence, line });
  }
}

const several = (count, what) => `${count.toLocaleString("en-US")} ${what}${count === 1 ? "" : "s"}`;

// Which of some values would be allowed; of many, the first and the last.
function oneOf(values) {
  if (!values.length) return "none would be allowed";
  return `${values.length <= 4 ? either(values) : `${values[0]}, ${values[1]} .. ${values[values.length - 1]}`} would be allowed`;
}

class References {
  constructor(record) {
    [this.record, this.count, this.firstReturn] = [record, record.regions.length, null];
  }

  check() {
    const { entry, line } = this.record;
    if (entry >= this.count) throw new Refused(6, 0, `The entry is region ${entry}; ${this.regions()} would be allowed.`, line);
    this.record.regions.forEach((region, number) => this.region(number, region));
  }

  regions() {
    return this.count === 1 ? "region 0" : `regions 0 to ${this.count - 1}`;
  }

  region(number, region) {
    let place = 0;
    region.blocks.forEach((block, at) => block.forEach((instruction, k) => {
      instruction.reads.forEach((value, read) => this.typeOf(number, value, place,
        `reads ${valueText(value)} (block ${at}, instruction ${k}, read ${read})`, instruction.line));
      place++;
    }));
    this.terminator(number, region, place);
    region.passed.forEach((values, target) => this.passed(number, target, values, place));
    this.exits(number, region);
  }

  exits(number, { exits, lines }) {
    exits.forEach((target, k) => {
      const line = lines.get("exits") || lines.get("terminator");
      if (target >= this.count) {
        throw new Refused(6, number, `Region ${number} has region ${target} in its exit list (exit ${k}); ` +
          `${this.regions()} would be allowed.`, line);
      }
      if (exits.indexOf(target) < k) {
        throw new Refused(8, number, `Region ${number} has region ${target} twice in its exit list (exits ${exits.indexOf(target)} ` +
          `and ${k}); once would be allowed.`, line);
      }
    });
  }

  // The type of a value that is used in a region after so many instructions, or 6.
  typeOf(number, value, before, how, line) {
    const [type, why] = this.typeOrReason(number, value, before);
    if (why) throw new Refused(6, number, `Region ${number} ${how}: ${why}.`, line);
    return type;
  }

  typeOrReason(number, [kind, owner, index], before) {
    const { inputs } = this.record.regions[number], { constants } = this.record;
    const among = (types, what, letter) => index < types.length ? [types[index]]
      : [0, `${what} ${several(types.length, letter.length > 1 ? "input" : "constant")}; ${oneOf(types.map((_, k) => letter + k))}`];
    if ((kind === KIND.input || kind === KIND.instruction) && owner !== number) {
      return [0, `only region ${number}'s own inputs and outputs would be allowed, or a constant`];
    }
    if (kind === KIND.input) return among(inputs, "it has", `i${number}.`);
    if (kind === KIND.instruction) return this.outputOrReason(number, index, before);
    return kind === KIND.constant ? among(constants, "the record has", "c") : [kind === KIND.boolean ? 1 : index];
  }

  // The type of an instruction's output that is used after so many instructions, or why it may not be.
  outputOrReason(number, index, before) {
    const all = this.record.regions[number].blocks.flat();
    const earlier = oneOf(all.slice(0, before).flatMap((one, k) => one.type ? [`d${number}.${k}`] : []));
    if (index >= all.length) return [0, `it has ${several(all.length, "instruction")}; ${earlier}`];
    if (index >= before) return [0, `that instruction is no earlier one; ${earlier}`];
    return all[index].type ? [all[index].type] : [0, `that instruction has type 0 and no output; ${earlier}`];
  }

  terminator(number, region, place) {
    const { kind, values, lines } = region, line = lines.get("terminator"), first = kind === ENDS.return ? this.firstReturn : null;
    if (first && values.length !== first.types.length) {
      throw new Refused(7, number, `Region ${number} returns ${several(values.length, "value")}, and region ${first.number}, ` +
        `the first that returns, ${first.types.length}; the same number would be allowed.`, line);
    }
    const what = kind === ENDS.return ? "returns" : kind === ENDS.exit ? "exits with" : "tests";
    const types = values.map((value, k) => {
      const type = this.typeOf(number, value, place, `${what} ${valueText(value)} (value ${k})`, line);
      if (first && type !== first.types[k]) {
        throw new Refused(7, number, `Region ${number} returns ${valueText(value)} of type ${type} as value ${k}; region ` +
          `${first.number} returns type ${first.types[k]} there, which would be allowed.`, line);
      }
      return type;
    });
    if (kind === ENDS.return && !first) this.firstReturn = { number, types };
    this.test(number, region, types, line);
  }

  test(number, { kind, values, targets }, types, line) {
    if (kind === ENDS.bool && types[0] !== 1) {
      throw new Refused(7, number, `Region ${number} has a boolean test of ${valueText(values[0])}, which has type ${types[0]}; ` +
        "type 1 would be allowed.", line);
    }
    targets.forEach((target, k) => {
      if (target < this.count) return;
      throw new Refused(6, number, `Region ${number} goes to region ${target} (target ${k}); ${this.regions()} would be allowed.`, line);
    });
  }

  passed(number, target, values, place) {
    const { inputs } = this.record.regions[target], { lines } = this.record.regions[number];
    const line = lines.get(`pass ${target}`) || lines.get("terminator");
    if (values.length !== inputs.length) {
      throw new Refused(7, number, `Region ${number} passes ${several(values.length, "value")} to region ${target}, ` +
        `which has ${several(inputs.length, "input")}.`, line);
    }
    values.forEach((value, k) => {
      const type = this.typeOf(number, value, place, `passes ${valueText(value)} to region ${target} (value ${k})`, line);
      if (type === inputs[k]) return;
      throw new Refused(7, number, `Region ${number} passes ${valueText(value)} of type ${type} to region ${target} as input ${k}, ` +
        `which has type ${inputs[k]}.`, line);
    });
  }
}

// The refusal 6 to 8 of a source's record, or null.
function placeOf(record) {
  try {
    new References(record).check();
    return null;
  } catch (refused) {
    if (!(refused instanceof Refused)) throw refused;
    return refused;
  }
}

// A sentence with the source's own names behind its regions and values.
function withNames(sentence, names) {
  const called = new Map([...names.values, ...[...names.regions].map(([name, number]) => [`region ${number}`, name])]);
  return sentence.replace(/\b(?:[Rr]egion [0-9]+|c[0-9]+|[id][0-9]+\.[0-9]+)\b/g, found => {
    const name = called.get(found.toLowerCase());
    return name ? `${found} (${name})` : found;
  });
}
