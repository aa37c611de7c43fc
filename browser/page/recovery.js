// Reads on behind a line that does not parse, so that all faults of a source are told at once: such a statement is told and taken
// out, and what must stand in its place is put there.

const WORD_PATTERN = `[A-Za-z_][${LETTER}.]*(?:-[${LETTER}.]+)*`;
const ALL_WORDS = new RegExp(WORD_PATTERN, "gu"), NAME_FIRST = new RegExp(`^(?:${WORD_PATTERN}|[0-9]+)`, "u");
const WORD_FIRST = new RegExp(`^${WORD_PATTERN}`, "u");
const MOST_WORK = 2000000;      // letters read up to a fault, over all the times that a source is parsed
const LOST_REGION = "region lost-region";
const GOES_ON = /,[ \t\r]*(#[^\n]*)?$/;

// A source's lines, each with its number, while some of them are taken out. `lost` are the words that stood in them.
class Draft {
  constructor(source) {
    this.lines = source.split("\n").map((line, place) => [place + 1, line]);
    [this.patched, this.lost, this.lostRegion] = [new Set(), new Set(), false];
  }

  text() {
    return this.lines.map(([, line]) => line).join("\n");
  }

  number(at) {
    return this.lines.at(Math.min(at, this.lines.length) - 1)[0];
  }

  // The lines of the draft, from and up to, that belong to the statement of a line.
  statement(at) {
    let first = at - 1, last = at - 1;
    while (first > 0 && GOES_ON.test(this.lines[first - 1][1])) first--;
    while (last + 1 < this.lines.length && GOES_ON.test(this.lines[last][1])) last++;
    return [first, last + 1];
  }

  // Put in the place of a statement what lets the rest be read.
  takeOut(at, meant = "") {
    const [first, end] = this.statement(at), lines = this.lines.slice(first, end);
    const taken = lines.map(([, line]) => line).join("\n"), again = this.patched.has(lines[0][0]);
    lines.forEach(([number]) => this.patched.add(number));
    (taken.match(ALL_WORDS) || []).forEach(word => this.lost.add(word));
    const stands = meant || standIn(taken);
    this.lostRegion = this.lostRegion || stands === LOST_REGION;
    const blanks = lines.map(([number]) => [number, ""]);
    if (!again) blanks[0][1] = stands;
    this.lines.splice(first, end - first, ...blanks);
  }

  putIn(at, statement) {
    this.lines.splice(at, 0, [this.number(at), statement]);
  }
}

// What stands for a statement that does not parse.
function standIn(statement) {
  const words = wordsOf(statement.split("#")[0]), match = WORD_FIRST.exec(words[0] || ""), first = match ? match[0] : "";
  if (first === "region") {
    const name = words.length > 1 ? NAME_FIRST.exec(words[1]) : null;
    return name && !["in", "limit"].includes(name[0]) ? `region ${name[0]}` : LOST_REGION;
  }
  if (first === "record" || first === "block") return first;
  return TERMINATORS.includes(first) ? "unreachable" : "";
}

function repair(draft, fault) {
  if (fault.lacks) draft.putIn(fault.ended ? draft.lines.length : fault.line - 1, fault.lacks);
  else draft.takeOut(fault.line, fault.meant);
}

// The tree with the source's own line numbers.
function renumbered(tree, draft) {
  if (tree.meta.line !== undefined) tree.meta.line = draft.number(tree.meta.line);
  for (const child of tree.children) {
    if (child && child.data !== undefined) renumbered(child, draft);
    else if (child) child.line = draft.number(child.line);
  }
  return tree;
}

// The tree of what can be read, or null, and the draft; the faults are gathered. `broken` has those of lines that are no text.
function parseOn(source, broken, gathered) {
  const draft = new Draft(source);
  gathered.found.push(...broken);
  broken.forEach(fault => draft.takeOut(fault.line));
  for (let turn = 0, work = 0; turn < 2 * MOST_TOLD; turn++) {
    try {
      return [renumbered(parse(draft.text()), draft), draft];
    } catch (fault) {
      if (!(fault instanceof Unparsed)) throw fault;
      const number = draft.number(fault.line);
      if (!draft.patched.has(number) || !gathered.found.length) gathered.found.push(new Fault(number, fault.column, fault.message));
      work += draft.lines.slice(0, fault.line).reduce((sum, [, line]) => sum + lengthOf(line) + 1, 0);
      if (work > MOST_WORK || (fault.ended && !fault.lacks && !fault.meant)) break;
      repair(draft, fault);
    }
  }
  return [null, draft];
}
