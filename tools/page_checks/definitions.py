"""The numbers of store, record, sheet and runs, read off the definitions, the code and the header.

Each number has a name, as `store.block-bytes`. Behind the dot stands the definition's name where it has one, as in `refusal.too_many`.
Where two files have a number, both must say the same. A number that can no longer be found is an error: then the definition was written
anew, and what is read off it here must be too.
"""

import re
from pathlib import Path

STORE, READ, REFUSALS = (f"crates/format/specs/{name}.antt" for name in ("Store", "Read", "Refusals"))
GRAPH, RUNS, LISTS = (f"crates/meaning/specs/{name}.antt" for name in ("Graph", "Runs", "Lists"))
NUMBERS, SHEET = (f"crates/nesting/specs/{name}.antt" for name in ("SheetNumbers", "Sheet"))
REFERENCES = "crates/format/specs/References.antt"
SHEET_CODE, REFUSALS_CODE, KINDS_CODE = "crates/nesting/src/lib.rt", "crates/store/src/refusals.rt", "crates/reading/src/kinds.rt"
HEADER = "interface/rukvetta.h"

# Constants that have a name: group, definitions, code, and for each its name there and in the header. Code has the name in capitals.
NAMED: tuple[tuple[str, str, str, dict[str, str]], ...] = (
    (
        "refusal",
        REFUSALS,
        REFUSALS_CODE,
        {
            "wrong_length": "LENGTH",
            "wrong_block_number": "BLOCK_NUMBER",
            "wrong_check": "CHECK",
            "wrong_word_count": "WORD_COUNT",
            "out_of_range": "RANGE",
            "wrong_reference": "REFERENCE",
            "wrong_type": "TYPE",
            "exit_named_twice": "EXIT_TWICE",
            "too_many": "LIMIT",
            "too_few_words": "LENT",
            "figure_too_large": "FIGURE",
        },
    ),
    (
        "terminator",
        READ,
        KINDS_CODE,
        {
            "terminator_unreachable": "UNREACHABLE",
            "terminator_return": "RETURN",
            "terminator_exit": "EXIT_INVOCATION",
            "terminator_branch": "BRANCH",
            "terminator_bool": "SELECT_BOOLEAN",
            "terminator_number": "SELECT_NUMBER",
        },
    ),
    (
        "kind",
        GRAPH,
        SHEET_CODE,
        {
            "const_kind": "CONSTANT",
            "input_kind": "INPUT",
            "instr_kind": "INSTRUCTION",
            "output_kind": "NODE_OUTPUT",
            "bool_kind": "BOOLEAN",
            "undef_kind": "UNDEFINED",
        },
    ),
    (
        "sheet",
        NUMBERS,
        SHEET_CODE,
        {
            "outcome_untouched": "UNTOUCHED",
            "outcome_whole": "WHOLE",
            "outcome_closed": "CLOSED",
            "outcome_leftover": "LEFTOVER",
            "lead_region": "LINE_REGION",
            "lead_block": "LINE_BLOCK",
            "lead_select": "LINE_SELECT",
            "lead_loop": "LINE_LOOP",
            "lead_exit": "LINE_EXIT",
            "lead_defer": "LINE_DEFER",
            "kind_bool": "ON_BOOLEAN",
            "kind_num": "ON_NUMBER",
            "letter_t": "ALWAYS",
            "letter_f": "NEVER",
            "letter_u": "ANY",
            "letter_m": "MERGED",
            "return_word": "TO_RETURN",
        },
    ),
)

# Numbers that stand in a definition without a name: their names here, the file, where they stand, and the header's names for them.
BARE: tuple[tuple[tuple[str, ...], str, str, tuple[str, ...]], ...] = (
    (("store.byte",), STORE, r"^pair s at = get_or s at 0 \+ (\d+) \* get_or s \(at \+ 1\) 0$", ("",)),
    (("store.block-bytes",), STORE, r"^number_right s b = eqb \(pair s \((\d+) \* b\)\) b$", ("BLOCK_BYTES",)),
    (("store.check-at",), STORE, r"^check_right s b = eqb \(pair s \(512 \* b \+ (\d+)\)", ("",)),
    (("store.check-high-at",), STORE, r"^check_right .* \+ 65536 \* pair s \(512 \* b \+ (\d+)\)\)", ("",)),
    (("store.checked",), STORE, r"^check_right .* \(weighted s \(512 \* b\) (\d+)\)$", ("",)),
    (("store.place-more",), STORE, r"^weighted .* \+ get_or s \(at \+ n\) 0 \* \(n \+ (\d+)\)$", ("",)),
    (
        ("store.block-words", "store.payload-at", "store.word-bytes"),
        STORE,
        r"^word_at s j = pair s \(512 \* \(j / (\d+)\) \+ (\d+) \+ (\d+) \* \(j % 253\)\)$",
        ("BLOCK_WORDS", "", ""),
    ),
    (
        ("store.no-bytes", "store.most-bytes"),
        STORE,
        r"^length_right n = ltb (\d+) n && \(leb n (\d+) && eqb \(n % 512\) 0\)$",
        ("", "MOST_BYTES"),
    ),
    (("store.block-words",), STORE, r"^blocks_for w = \(w \+ 252\) / (\d+)$", ("BLOCK_WORDS",)),
    (("record.no-words",), STORE, r"^count_right s n w = ltb (\d+) w && \(eqb n \(blocks_for w\)", ("",)),
    (("store.behind",), STORE, r"^all_zero .* eqb \(word_at s \(j \+ n\)\) (\d+)$", ("",)),
    (("record.w",), STORE, r"accepted \(tabulate \(word_at s (\d+)\) \(word_at s\)\)$", ("",)),
    (("refusal.no-word",), STORE, r"refused wrong_length (\d+)$", ("",)),
    (("kind.no-region",), GRAPH, r"^code_of \(const i\) = record \{ kind = const_kind; region = (\d+);", ("",)),
    (("output-type.none",), REFERENCES, r"^no_instr = record \{ opcode = 0; type = (\d+);", ("",)),
    (("regions.least", "regions.most"), READ, r"^  n ← within (\d+) (\d+)$", ("", "MOST_REGIONS")),
    (("constants.least", "constants.most"), READ, r"^  constants ← counted (\d+) (\d+) type$", ("", "MOST_CONSTANTS")),
    (("type.least", "type.most"), READ, r"^type = within (\d+) (\d+)$", ("", "MOST_TYPE")),
    (("inputs.least", "inputs.most"), READ, r"^  inputs ← counted (\d+) (\d+) type$", ("", "MOST_INPUTS")),
    (("blocks.least", "blocks.most"), READ, r"^  blocks ← counted (\d+) (\d+) block$", ("", "MOST_REGION_BLOCKS")),
    (("instructions.least", "instructions.most"), READ, r"^block = counted (\d+) (\d+) instruction$", ("", "MOST_INSTRUCTIONS")),
    (("output-type.least", "output-type.most"), READ, r"^  type ← within (\d+) (\d+)$", ("", "MOST_TYPE")),
    (("reads.least", "reads.most"), READ, r"^  reads ← counted (\d+) (\d+) read_value$", ("", "MOST_READS")),
    (("limit.least", "limit.most"), READ, r"^  limit ← within (\d+) (\d+)$", ("", "MOST_LIMIT")),
    (("passed.least", "passed.most"), READ, r"^  passes ← many .* \(counted (\d+) (\d+) read_value\)$", ("", "MOST_INPUTS")),
    (("exits.least", "exits.most"), READ, r"^  exits ← counted (\d+) (\d+) word$", ("", "MOST_EXITS")),
    (("undefined.least", "undefined.most"), READ, r"^index_right .* \(leb (\d+) i && leb i (\d+)\) true$", ("", "MOST_TYPE")),
    (("type.boolean",), REFERENCES, r"^  test_right bool_cond v = of_type (\d+) v$", ("TYPE_BOOLEAN",)),
    (("sheet.most-figure",), SHEET, r"^figure_fits s = elim \(leb s\.figure (\d+)\)", ("MOST_FIGURE",)),
    (("sheet.no-figure",), SHEET, r"figure = elim x\.outcome \[ .* leftover ↦ (\d+) \];$", ("",)),
    (("sheet.usual-lent",), SHEET, r"^printed store = answer_text \(answer store (\d+)\)$", ("USUAL_LENT",)),
    (("run.words",), RUNS, r"^word32 n = word \(n % (\d+)\)$", ("",)),
    (("run.true", "run.false"), LISTS, r"^bit b = pick b (\d+) (\d+)$", ("", "")),
    (("run.place-false",), RUNS, r"^place_taken bool_cond zero n = (\d+)$", ("",)),
    (("run.place-true",), RUNS, r"^place_taken bool_cond \(suc w\) n = (\d+)$", ("",)),
)
# How many values and targets a terminator has: a function of its number.
BY_TERMINATOR = "fewest_values", "most_values", "fewest_targets", "most_targets"
TOKEN = re.compile(r"\(|\)|\|\||\w+")


def antt_constants(text: str) -> dict[str, int]:
    """The constants of a file of definitions."""
    return {name: int(number) for name, number in re.findall(r"^([a-z][a-z0-9_]*) = (\d+)$", text, re.M)}


def code_constants(text: str) -> dict[str, int]:
    """The constants of a file of code, under the definition's names, which have small letters."""
    found = re.findall(r"^pub const ([A-Z_]+): u\d+ = (\d+);$", text, re.M)
    return {name.lower(): int(number) for name, number in found}


def header_constants(text: str) -> dict[str, int]:
    """The numbers of the header, defined or in an enum, without their prefix."""
    found = re.findall(r"^#define RUKVETTA_(\w+) (\d+)u?\b", text, re.M) + re.findall(r"\bRUKVETTA_(\w+) = (\d+)", text)
    return {name: int(number) for name, number in found}


def computed(expression: str, names: dict[str, int]) -> int:
    """The number of an expression with pick, leb, eqb and ||, as the definitions have them."""
    tokens = TOKEN.findall(expression)

    def whole() -> int:
        left = applied()
        while tokens and tokens[0] == "||":
            tokens.pop(0)
            right = applied()
            left = int(bool(left) or bool(right))
        return left

    def applied() -> int:
        head = tokens.pop(0)
        if head == "(":
            inner = whole()
            tokens.pop(0)
            return inner
        if head == "pick":
            test, yes, no = applied(), applied(), applied()
            return yes if test else no
        if head in ("leb", "eqb"):
            a, b = applied(), applied()
            return int(a <= b if head == "leb" else a == b)
        return int(head) if head.isdigit() else names[head]

    return whole()


class Definitions:
    """The numbers of a repository, by name; ValueError where two files differ, or one lacks a number."""

    def __init__(self, root: Path) -> None:
        self.root, self.numbers = root, dict[str, int]()
        self.texts: dict[str, str] = {}
        self.header = header_constants(self.text(HEADER))
        self.read_named()
        self.read_bare()
        self.read_by_terminator()
        self.reckon()

    def text(self, file: str) -> str:
        """A file's text."""
        if file not in self.texts:
            self.texts[file] = (self.root / file).read_text(encoding="utf-8")
        return self.texts[file]

    def put(self, name: str, number: int | None, file: str) -> None:
        """A number that a file has; another file must not have said otherwise."""
        if number is None:
            raise ValueError(f"{file} no longer says what {name} is")
        if self.numbers.setdefault(name, number) != number:
            raise ValueError(f"{file} says that {name} is {number}, and another file {self.numbers[name]}")

    def read_named(self) -> None:
        """Constants with names: of the definition, the code and the header."""
        for group, file, code, names in NAMED:
            ours, codes = antt_constants(self.text(file)), code_constants(self.text(code))
            for name, in_header in names.items():
                self.put(f"{group}.{name}", ours.get(name), file)
                self.put(f"{group}.{name}", codes.get(name), code)
                self.put(f"{group}.{name}", self.header.get(in_header), HEADER)

    def read_bare(self) -> None:
        """Numbers without a name, and the header's name for them if it has one."""
        for names, file, pattern, in_header in BARE:
            found = re.findall(pattern, self.text(file), re.M)
            if len(found) != 1:
                raise ValueError(f"{file} no longer says what {', '.join(names)} is")
            numbers = found[0] if isinstance(found[0], tuple) else (found[0],)
            for name, number, other in zip(names, numbers, in_header):
                self.put(name, int(number), file)
                if other:
                    self.put(name, self.header.get(other), HEADER)

    def read_by_terminator(self) -> None:
        """The least and greatest number of values and targets of each terminator."""
        kinds = {name: self.numbers[f"terminator.{name}"] for name in NAMED[1][3]}
        for function in BY_TERMINATOR:
            found = re.search(rf"^{function} k = (.*)$", self.text(READ), re.M)
            if not found:
                raise ValueError(f"{READ} no longer says what {function} is")
            for name, k in kinds.items():
                self.put(f"{function}.{name}", computed(found[1], {**kinds, "k": k}), READ)

    def reckon(self) -> None:
        """Numbers that follow from others."""
        one = self.numbers
        self.put("store.least-blocks", one["store.no-bytes"] // one["store.block-bytes"] + 1, STORE)
        self.put("record.least-words", one["record.no-words"] + 1, STORE)
        self.put("store.most-blocks", one["store.most-bytes"] // one["store.block-bytes"], STORE)
        self.put("store.most-blocks", self.header.get("MOST_BLOCKS"), HEADER)
        self.put("store.most-words", one["store.most-blocks"] * one["store.block-words"], STORE)
        self.put("store.most-words", self.header.get("RECORD_WORDS"), HEADER)
        self.put("store.number-to", one["store.payload-at"] - 1, STORE)
        self.put("store.payload-to", one["store.payload-at"] + one["store.word-bytes"] * one["store.block-words"] - 1, STORE)
        self.put("store.checked-to", one["store.checked"] - 1, STORE)
        self.put("store.check-to", one["store.check-high-at"] + one["store.word-bytes"] - 1, STORE)
        self.put("store.bits", (one["store.byte"] ** one["store.word-bytes"]).bit_length() - 1, STORE)
        self.put("store.most-word", one["store.byte"] ** one["store.word-bytes"] - 1, STORE)
        self.put("sheet.head", self.header.get("HEAD_WORDS"), HEADER)
        self.put("run.bits", one["run.words"].bit_length() - 1, RUNS)
        if f"uint{one['run.bits']}_t *out" not in self.text(HEADER):
            raise ValueError(f"{HEADER} lends no words of {one['run.bits']} bits")

    def shown(self, name: str) -> str:
        """A number as a page writes it; `values.X` and `targets.X` are how many a terminator has, as `1` or `0 to 4`."""
        what, _, kind = name.partition(".")
        if what in ("values", "targets"):
            least, most = self.numbers[f"fewest_{what}.{kind}"], self.numbers[f"most_{what}.{kind}"]
            return str(least) if least == most else f"{least} to {most}"
        return f"{self.numbers[name]:,}"

    def no_ends(self) -> list[str]:
        """The names of what is no end of a nested run."""
        found = re.search(r"^pub data NoEnd : Type 0 where\n((?:  \S.*\n)+)", self.text(RUNS), re.M)
        if not found:
            raise ValueError(f"{RUNS} no longer says what is no end")
        return [line.split()[0] for line in found[1].splitlines()]
