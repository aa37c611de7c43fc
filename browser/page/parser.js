// A lexer and a parser that follow TABLES, which lark made of the workbench's grammar: the same tokens, trees and places.

const END = "$END";
const TERMINAL = new RegExp(TABLES.terminals.map(([name, pattern]) => `(?<${name}>${pattern})`).join("|"), "uy");
const IGNORED = new Set(TABLES.ignored);
const isTerminal = name => name === name.toUpperCase();

// What begins nothing that the form has: its place in the text.
class NoToken extends Error {
  constructor(line, column, at) {
    super();
    Object.assign(this, { line, column, at });
  }
}

// The parser is at a token that cannot stand there.
class WrongToken extends Error {
  constructor(token) {
    super();
    this.token = token;
  }
}

function* tokensOf(text) {
  let at = 0, line = 1, lineStart = 0;
  const columnOf = place => lengthOf(text.slice(lineStart, place)) + 1;
  while (at < text.length) {
    TERMINAL.lastIndex = at;
    const match = TERMINAL.exec(text);
    if (!match) throw new NoToken(line, columnOf(at), at);
    const value = match[0];
    let type = Object.keys(match.groups).find(name => match.groups[name] !== undefined);
    const token = { value, line, column: columnOf(at) };
    line += value.split("\n").length - 1;
    if (value.includes("\n")) lineStart = at + value.lastIndexOf("\n") + 1;
    at += value.length;
    if (IGNORED.has(type)) continue;
    const words = TABLES.words[type];
    if (words && Object.hasOwn(words, value)) type = words[value];
    yield Object.assign(token, { type, endLine: line });
  }
}

// A tree stands where its first part does, and ends where its last part ends.
function place(meta, children) {
  const places = children.map(child => child && (child.data === undefined ? child : child.meta)).filter(at => at && at.line !== undefined);
  if (!places.length || meta.line !== undefined) return;
  Object.assign(meta, { line: places[0].line, column: places[0].column, endLine: places[places.length - 1].endLine });
}

function reduced(rule, children) {
  let kept = [];
  for (const [at, expand, absent] of rule.kept) {
    for (let k = 0; k < absent; k++) kept.push(null);
    if (!expand) kept.push(children[at]);
    else if (kept.length) kept.push(...children[at].children);
    else kept = children[at].children;
  }
  for (let k = 0; k < rule.absent; k++) kept.push(null);
  const made = rule.single && kept.length === 1 ? kept[0] : { data: rule.data, children: kept, meta: {} };
  if (made && made.data !== undefined) place(made.meta, children);
  return made;
}

class Parser {
  constructor() {
    [this.states, this.values] = [[TABLES.start], []];
  }

  // Take a token; whether it may stand here.
  feed(token) {
    for (;;) {
      const action = TABLES.states[this.states[this.states.length - 1]][token.type];
      if (action === undefined) return false;
      if (action >= 0) {
        this.states.push(action);
        this.values.push(token);
        return true;
      }
      const rule = TABLES.rules[-action - 1], size = rule.size;
      const children = size ? this.values.splice(-size) : [];
      if (size) this.states.splice(-size);
      this.values.push(reduced(rule, children));
      this.states.push(TABLES.states[this.states[this.states.length - 1]][rule.origin]);
      if (token.type === END && this.states[this.states.length - 1] === TABLES.end) return true;
    }
  }

  // Whether a terminal may stand here, with nothing changed by asking.
  allows(type) {
    const states = this.states.slice();
    for (;;) {
      const action = TABLES.states[states[states.length - 1]][type];
      if (action === undefined) return false;
      if (action >= 0) return true;
      const rule = TABLES.rules[-action - 1];
      if (rule.size) states.splice(-rule.size);
      states.push(TABLES.states[states[states.length - 1]][rule.origin]);
      if (type === END && states[states.length - 1] === TABLES.end) return true;
    }
  }

  expected() {
    return Object.keys(TABLES.states[this.states[this.states.length - 1]]).filter(isTerminal);
  }

  accepted() {
    return this.expected().filter(type => this.allows(type));
  }

  // The tree of a text; or a NoToken or a WrongToken.
  parse(text) {
    for (const token of tokensOf(text)) if (!this.feed(token)) throw new WrongToken(token);
    const end = { type: END, value: "" };
    if (!this.feed(end)) throw new WrongToken(end);
    return this.values[this.values.length - 1];
  }
}
