// The texts that the programs print, as objects: a record, a sheet, and the names of a source.

const list = text => text === "-" ? [] : text.split(",");
const numbers = text => list(text).map(Number);

// The items of a block: an item begins with a digit, a value never does.
function readItems(text, withCost) {
  return text.split(/,(?=\d)/).map(item => {
    const [place, opcode, type, ...rest] = item.split("/");
    const [region, index] = place.split(".").map(Number);
    const cost = withCost ? Number(rest.shift()) : 0;
    return { region, index, opcode: Number(opcode), type: Number(type), cost, reads: list(rest[0]) };
  });
}

function readRecord(text) {
  const record = { lines: [], regions: [] };
  let region = null;
  for (const line of text.trimEnd().split("\n")) {
    const [word, ...rest] = line.split(" ");
    if (word === "record") {
      [record.entry, record.test] = [Number(rest[3]), Number(rest[5])];
      record.constants = numbers(rest[7]);
    } else if (word === "region") {
      region = { number: Number(rest[0]), inputs: numbers(rest[2]), limit: Number(rest[4]), blocks: [], targets: [],
                 values: [], passed: new Map() };
      record.regions.push(region);
    } else {
      readPart(region, word, rest);
    }
    record.lines.push({ text: line, region: region && region.number });
  }
  return record;
}

function readPart(region, word, rest) {
  if (word === "block") region.blocks.push(readItems(rest[0], true));
  else if (word === "pass") region.passed.set(Number(rest[0]), list(rest[2]));
  else if (word === "exits") region.exits = numbers(rest[0]);
  else {
    region.kind = word === "select" ? word + " " + rest[0] : word;
    if (word === "return") region.values = list(rest[0]);
    if (word === "exit") [region.opcode, region.values] = [Number(rest[0]), list(rest[1])];
    if (word === "branch") region.targets = [Number(rest[1])];
    if (word === "select") [region.values, region.targets] = [[rest[1]], numbers(rest[3])];
  }
}

// A line of a sheet; line 1 is read by readSheet.
function readLine(text, number) {
  const [word, ...rest] = text.split(" ");
  const line = { text, number, word };
  if (word === "defer") {
    return Object.assign(line, { region: Number(rest[0]), target: rest[2] === "return" ? "return" : Number(rest[2]),
                                 count: Number(rest[4]), inputs: list(rest[6]), condition: rest[8] });
  }
  line.id = Number(rest[0]);
  if (word === "region") Object.assign(line, { inputs: numbers(rest[2]), kids: numbers(rest[4]), out: list(rest[6]) });
  if (word === "block") line.items = readItems(rest[1], false);
  if (word === "select") Object.assign(line, { kind: rest[1], test: rest[2], cases: numbers(rest[4]), out: numbers(rest[6]) });
  if (word === "loop") Object.assign(line, { first: list(rest[2]), body: Number(rest[4]), repeat: rest[6] });
  if (word === "exit") Object.assign(line, { opcode: Number(rest[1]), values: list(rest[3]) });
  return line;
}

// The lines as trees: a region has its children, a select the regions of its cases, a loop the region of its body.
function readSheet(text) {
  const [first, ...rest] = text.trimEnd().split("\n");
  const words = first.split(" ");
  const sheet = { first, outcome: words[0], refused: words[0] === "refused", roots: [], deferred: [] };
  if (sheet.refused) return sheet;
  Object.assign(sheet, { figure: words[2] === "-" ? null : Number(words[2]), attempts: Number(words[4]), twice: Number(words[6]) });
  sheet.lines = rest.map((line, place) => readLine(line, place + 2));
  let at = 0;
  const next = () => sheet.lines[at++];
  const region = () => {
    const made = next();
    made.children = made.kids.map(() => node());
    return made;
  };
  const node = () => {
    const made = next();
    if (made.word === "select") made.bodies = made.cases.map(region);
    if (made.word === "loop") made.region = region();
    return made;
  };
  while (at < sheet.lines.length) {
    if (sheet.lines[at].word === "defer") sheet.deferred.push(next());
    else sheet.roots.push(region());
  }
  return sheet;
}

// What things are called: by the source's names where there are any.
function readNames(text) {
  const names = { region: new Map(), type: new Map([["1", "bool"]]), opcode: new Map(), value: new Map() };
  for (const line of text.trim().split("\n").filter(Boolean)) {
    const [what, number, name] = line.split(" ");
    names[what].set(number, name);
  }
  return {
    region: number => names.region.get(String(number)) || "region " + number,
    hasRegion: number => names.region.has(String(number)),
    type: number => names.type.get(String(number)) || "type " + number,
    opcode: number => names.opcode.get(String(number)) || "op " + number,
    value: value => names.value.get(value) || value,
    isShared: name => [...names.value.values()].filter(other => other === name).length > 1,
  };
}

const call = (name, values) => name + (values.length ? "(" + values.join(", ") + ")" : "");

// An instruction as a source has it: `next = add(f, step)`.
function instructionText(item, names, value) {
  const own = names.value("d" + item.region + "." + item.index);
  return (item.type ? own + " = " : "") + call(names.opcode(item.opcode), item.reads.map(value));
}
