// Faults in a source: line, column, what was found and what was expected.

const MOST_TOLD = 50;       // faults of one source; of more the number is told
const LONG_WORDS = new RegExp("`?[^" + BLANK + "`]{80,}(`?)", "gu");

class Fault extends Error {
  constructor(line, column, message) {
    super();
    [this.line, this.column] = [line, column];
    this.message = escaped(message.replace(LONG_WORDS, (all, end) => front(all, 60) + "…" + end));
  }
}

// A fault that may only follow from one that was told already: a name that a line which does not parse may have defined.
class Lost extends Fault {}

// All faults of a source, in its order.
class Faults extends Error {
  constructor(found) {
    super();
    const different = new Map(found.map(fault => [JSON.stringify([fault.line, fault.column, fault.message]), fault]));
    this.found = [...different.values()].sort((a, b) =>
      a.line - b.line || a.column - b.column || compareTexts(a.message, b.message));
  }
}

// Where a source does not parse. `lacks` is a statement that is missing in front of the place, `meant` one that its line was meant
// to be, or they are empty; `ended` says that the place is the source's end.
class Unparsed extends Fault {
  constructor(line, column, message, { lacks = "", meant = "", ended = false } = {}) {
    super(line, column, message);
    Object.assign(this, { lacks, meant, ended });
  }
}

// Behind a token or a tree's meta.
const faultAt = (at, message, kind = Fault) => new kind(at.line, at.column, message);

// The faults that were met, while reading goes on behind each.
class Gathered {
  constructor() {
    this.found = [];
  }

  // What an action answers, or undefined where it ends in a fault.
  told(action) {
    try {
      return action();
    } catch (fault) {
      if (!(fault instanceof Fault)) throw fault;
      if (!(fault instanceof Lost)) this.found.push(fault);
      return undefined;
    }
  }

  tell() {
    if (this.found.length) throw new Faults(this.found);
  }
}

// `a`, `b` or `c`.
const either = words => words.length === 1 ? words[0] : words.slice(0, -1).join(", ") + " or " + words[words.length - 1];
