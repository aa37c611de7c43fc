// Records and sheets as text, from their words: what `show` and `nest` print (docs/FORMAT.md).

const OUTCOME_WORDS = ["untouched", "whole", "closed", "leftover"], TO_RETURN = 65535;
const joined = items => items.length ? items.join(",") : "-";

class WordReader {
  constructor(words) {
    [this.words, this.at] = [words, 0];
  }

  next() {
    return this.words[this.at++];
  }

  list(read) {
    return Array.from({ length: this.next() }, (_, k) => read(k));
  }

  numbers() {
    return joined(this.list(() => this.next()));
  }

  value() {
    return valueText([this.next(), this.next(), this.next()]);
  }

  values() {
    return joined(this.list(() => this.value()));
  }

  condition() {
    const kind = this.next();
    return kind === 4 ? `m${this.next()}[${this.list(() => this.condition()).join(",")}]` : "?tfu"[kind];
  }
}

// The text of a record's words.
function recordText(words) {
  const reader = new WordReader(words);
  reader.next();
  const count = reader.next(), entry = reader.next(), test = reader.next();
  const lines = [`record regions ${count} entry ${entry} test ${test} constants ${reader.numbers()}`];
  for (let number = 0; number < count; number++) lines.push(...regionLines(reader, number));
  return lines.join("\n") + "\n";
}

function regionLines(reader, number) {
  const inputs = reader.numbers();
  let place = 0;
  const item = () => `${number}.${place++}/${reader.next()}/${reader.next()}/${reader.next()}/${reader.values()}`;
  const blocks = reader.list(() => "block " + reader.list(item).join(","));
  const limit = reader.next(), kind = reader.next(), opcode = kind === ENDS.exit ? reader.next() : 0;
  const values = reader.values(), targets = reader.list(() => reader.next());
  const passed = [...new Set(targets)].map(target => `pass ${target} in ${reader.values()}`);
  const end = ["unreachable", `return ${values}`, `exit ${opcode} ${values}`, `branch to ${targets}`,
    `select bool ${values} to ${targets}`, `select num ${values} to ${targets}`][kind];
  return [`region ${number} in ${inputs} limit ${limit}`, ...blocks, end, ...passed, `exits ${reader.numbers()}`];
}

const SHEET_LINES = [
  reader => `region ${reader.next()} in ${reader.numbers()} kids ${reader.numbers()} out ${reader.values()}`,
  reader => `block ${reader.next()} ${reader.list(() =>
    `${reader.next()}.${reader.next()}/${reader.next()}/${reader.next()}/${reader.values()}`).join(",")}`,
  reader => `select ${reader.next()} ${["bool", "num"][reader.next()]} ${reader.value()} cases ${reader.numbers()} out ${reader.numbers()}`,
  reader => `loop ${reader.next()} in ${reader.values()} body ${reader.next()} repeat ${reader.value()}`,
  reader => `exit ${reader.next()} ${reader.next()} in ${reader.values()}`,
  reader => `defer ${reader.next()} to ${targetText(reader.next())} count ${reader.next()} in ${reader.values()} if ${reader.condition()}`,
];
const targetText = target => target === TO_RETURN ? "return" : target;

// The text of a sheet's words. An outcome that is untouched or leftover has no figure.
function sheetText(words) {
  const reader = new WordReader(words), outcome = OUTCOME_WORDS[reader.next()], figure = reader.next();
  const shown = ["whole", "closed"].includes(outcome) ? figure : "-";
  const lines = [`${outcome} figure ${shown} attempts ${reader.next()} twice ${reader.next()}`];
  while (reader.at < words.length) lines.push(SHEET_LINES[reader.next()](reader));
  return lines.join("\n") + "\n";
}

const refusalText = ([number, word]) => `refused ${number} ${word}\n`;
