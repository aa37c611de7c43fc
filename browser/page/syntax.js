// Parses a source; what does not parse becomes an Unparsed fault that says what was expected.

const CALLED = {
  WORD: "a name", NUMBER: "a number", EMPTY: "`-`", _NL: "the end of the line", _COMMA: "`,`", ITEM: "an item as 0.0/7/1/5/-",
  NEXT_ITEM: "another item", LPAR: "`(`", RPAR: "`)`", EQUAL: "`=`", COLON: "`:`", $END: "the end of the source",
};
const TERMINATORS = ["branch", "exit", "return", "select", "unreachable"];
const FIRST_WORD = new RegExp(`^[ \\t]*([A-Za-z_][${LETTER}.\\-]*)(?![ \\t]*=)`, "u");

function called(terminals) {
  const words = [...new Set(terminals.map(terminal => CALLED[terminal] || "`" + terminal.toLowerCase() + "`"))];
  return either(words.sort((a, b) => a.startsWith("`") - b.startsWith("`") || compareTexts(a, b)));
}

// The syntax tree of a source.
function parse(source) {
  const parser = new Parser();
  try {
    return parser.parse(source.endsWith("\n") ? source : source + "\n");
  } catch (error) {
    if (error instanceof WrongToken) throw wrongToken(source, error.token, parser);
    if (!(error instanceof NoToken)) throw error;
    throw new Unparsed(error.line, error.column, `found \`${visible(source, error.at)}\`, expected ${called(parser.accepted())}`);
  }
}

function wrongToken(source, token, parser) {
  const ended = token.type === END, accepted = parser.accepted(), wanted = accepted.length ? accepted : parser.expected();
  const found = ended ? "the end of the source" : token.type === "_NL" ? "the end of the line" : "`" + stripped(token.value) + "`";
  const at = ended ? endOf(source) : token;
  return misspeltTerminator(source, at.line + ended, token) ||
    new Unparsed(at.line, at.column, `found ${found}, expected ${called(wanted)}`, { lacks: lacking(token, wanted), ended });
}

// The statement that is missing before a region or the end.
function lacking(token, wanted) {
  if (token.type !== END && token.type !== "REGION") return "";
  return wanted.includes("UNREACHABLE") ? "unreachable" : wanted.includes("RECORD") && token.type === "REGION" ? "record" : "";
}

// The place of a source's end is behind its last line.
function endOf(source) {
  const lines = source.replace(/\n+$/, "").split("\n");
  return { line: lines.length, column: lengthOf(lines[lines.length - 1]) + 1 };
}

// A tree's parts that are trees, or those of one kind.
const trees = (tree, data) => (tree ? tree.children : []).filter(part => part && part.data !== undefined && (!data || part.data === data));

// Where a region ends without a terminator, its last line may be one misspelt, which reads as an instruction.
function misspeltTerminator(source, line, token) {
  if (token.type !== END && token.type !== "REGION") return null;
  const before = source.split("\n").slice(0, line - 1);
  while (before.length && !stripped(before[before.length - 1].split("#")[0])) before.pop();
  const match = FIRST_WORD.exec(before.length ? before[before.length - 1] : "");
  if (!match || TERMINATORS.includes(match[1]) || definesOpcode(source, match[1])) return null;
  const close = near(match[1], TERMINATORS);
  return close && new Unparsed(before.length, match[0].length - match[1].length + 1,
    `found \`${match[1]}\`, expected an opcode or a terminator${close}`, { meant: "unreachable" });
}

function definesOpcode(source, word) {
  const ends = `(?:(?<=[${LETTER}])(?![${LETTER}])|(?<![${LETTER}])(?=[${LETTER}]))`;
  return new RegExp(`(?<![^\\n])[ \\t]*opcode[ \\t]+${word.replaceAll(".", "\\.")}${ends}`, "u").test(source);
}

// What stands at a place, up to the next blank.
function visible(source, at) {
  const part = front(source.slice(at), 30), rest = wordsOf(part);
  const word = rest.length && !blank.test(part) ? rest[0] : front(part, 1);
  return isPrintable(word) ? word : "\\u" + hex(word, 4);
}
