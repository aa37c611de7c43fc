"""The numbers on docs/FORMAT.md and docs/PLAYER.md, and a few of README.md: each must be the definitions'.

A claim is a piece of a page with names for its numbers. It must stand on the page, and wherever it stands its numbers must be those that
the names have. On the pages that are closed every number must stand in a claim. Left out are code, what stands in backquotes, the parts
that a script makes, and the numbers of a list's items.
"""

import functools
import re
from dataclasses import dataclass
from pathlib import Path

from . import stepped
from .definitions import Definitions
from .edits import all_edits
from .listed import listed

FORMAT, PLAYER, README = "docs/FORMAT.md", "docs/PLAYER.md", "README.md"
CLOSED = FORMAT, PLAYER
NUMBER = r"\d[\d,]*\d|\d"
HOLE = re.compile(r"\{([\w.-]+)\}")
# What is no number of the format: a place counted from the first, the last of n, names, items, code.
LEFT_OUT = re.compile(
    r"<!-- [\w-]+: made by .*?<!-- end -->|^    [^\n]*$|`[^`\n]*`|^ *\d+\. |counted from 0|n - 1|document 01",
    re.M | re.S,
)

CLAIMS: dict[str, tuple[str, ...]] = {
    FORMAT: (
        "A store has at least {store.least-blocks} block and at most {store.most-blocks}.",
        "Each has {store.block-bytes} bytes, so a store has at most {store.most-bytes}.",
        "| {store.number-at} to {store.number-to} | the number of the block,",
        "| {store.payload-at} to {store.payload-to} | {store.block-words} words of {store.bits} bits |",
        "| {store.check-at} to {store.check-to} | the check, one number of {store.check-bits} bits |",
        "each byte from {store.number-at} to {store.checked-to} is multiplied by its place plus {store.place-more}",
        "check = sum(block[place] * (place + {store.place-more}) for place in range({store.checked}))",
        "Word {record.w} is W: how many words the record has, word {record.w} included.",
        "Word j stands in block j / {store.block-words}, rounded down.",
        "it begins at byte {store.payload-at} + {store.word-bytes} × (j mod {store.block-words}).",
        "as many blocks as W words need at {store.block-words} words each",
        "All words from word W on are {store.behind}.",
        "a record has at most {store.most-words} words",
        "Cut them into pieces of {store.block-words} words",
        '"Any" is any word, {region.least} to {store.most-word}.',
        "| W | {record.least-words} | {store.most-words} |",
        "| region count | {regions.least} | {regions.most} |",
        "| entry | {region.least} |",
        "| constant count | {constants.least} | {constants.most} |",
        "| a type for each constant | {type.least} | {type.most} | type {type.boolean} is boolean",
        "| input count | {inputs.least} | {inputs.most} |",
        "| a type for each input | {type.least} | {type.most} |",
        "| block count | {blocks.least} | {blocks.most} |",
        "| for each block: instruction count | {instructions.least} | {instructions.most} |",
        "| its type | {output-type.least} | {output-type.most} | the type of its output; {output-type.none} if it has none |",
        "| its read count | {reads.least} | {reads.most} |",
        "| turn limit | {limit.least} | {limit.most} |",
        "| terminator | {terminator.terminator_unreachable} | {terminator.terminator_number} |",
        "this word is there for terminator {terminator.terminator_exit} alone",
        "| targets | {region.least} |",
        "| for each different target: input count | {passed.least} | {passed.most} |",
        "| exit count | {exits.least} | {exits.most} |",
        "| exit list | {region.least} |",
        "| {terminator.terminator_unreachable} | unreachable | no | {values.terminator_unreachable} | {targets.terminator_unreachable} |",
        "| {terminator.terminator_return} | return | no | {values.terminator_return} | {targets.terminator_return} |",
        "| {terminator.terminator_exit} | exit | yes | {values.terminator_exit} | {targets.terminator_exit} |",
        "| {terminator.terminator_branch} | branch | no | {values.terminator_branch} | {targets.terminator_branch} |",
        "| {terminator.terminator_bool} | select on a boolean | no | {values.terminator_bool} | {targets.terminator_bool} |",
        "| {terminator.terminator_number} | select on a number | no | {values.terminator_number} | {targets.terminator_number} |",
        "true takes place {run.place-true}, false place {run.place-false}",
        "They have {store.bits} bits in a record and {run.bits} bits on a sheet.",
        "| {kind.const_kind} | a constant | {kind.no-region} |",
        "| {kind.input_kind} | an input of a region |",
        "| {kind.instr_kind} | the output of an instruction |",
        "| {kind.output_kind} | an output of a node: on a sheet alone |",
        "| {kind.bool_kind} | a boolean | {kind.no-region} | {run.false} for false, {run.true} for true |",
        "| {kind.undef_kind} | an undefined value | {kind.no-region} | its type, {undefined.least} to {undefined.most} |",
        "| entry, target, exit list | a region below n | refusal {refusal.wrong_reference} |",
        "an input of this region | refusal {refusal.wrong_reference} |",
        "that comes earlier and has one | refusal {refusal.wrong_reference} |",
        "each of the input's type | refusal {refusal.wrong_type} |",
        "the value that terminator {terminator.terminator_bool} tests | one of type {type.boolean};"
        " terminator {terminator.terminator_number} tests a value of any type | refusal {refusal.wrong_type} |",
        "| kinds {kind.const_kind}, {kind.bool_kind} and {kind.undef_kind} | {kind.no-region} for the region;"
        " for kind {kind.bool_kind} an index of {run.false} or {run.true} | refusal {refusal.wrong_reference} |",
        "| kind {kind.undef_kind} | an index of {undefined.least} to {undefined.most};"
        " kind {kind.output_kind} may not stand in a record | refusal {refusal.out_of_range} |",
        "| values of terminator {terminator.terminator_return} | in all regions that return as many, of the same types"
        " | refusal {refusal.wrong_type} |",
        "A sheet is words of {run.bits} bits.",
        "The first {sheet.head} words are the first printed line",
        "| {sheet.outcome_untouched} | `untouched` | none: {sheet.no-figure}, printed",
        "| {sheet.outcome_whole} | `whole` |",
        "| {sheet.outcome_closed} | `closed` |",
        "| {sheet.outcome_leftover} | `leftover` | none: {sheet.no-figure}, printed",
        "| {sheet.lead_region} | `region` |",
        "| {sheet.lead_block} | `block` |",
        "| {sheet.lead_select} | `select` | node; {sheet.kind_bool} for `bool` or {sheet.kind_num} for `num`;",
        "| {sheet.lead_loop} | `loop` |",
        "| {sheet.lead_exit} | `exit` |",
        "| {sheet.lead_defer} | `defer` | region; target, {sheet.return_word} for return;",
        "| {sheet.letter_t} | `t` | always |",
        "| {sheet.letter_f} | `f` | never |",
        "| {sheet.letter_u} | `u` | either will do |",
        "| {sheet.letter_m} | `m3[t,f]` | as the case says that node {example.node} took |",
        "| {refusal.wrong_length} | the length of the store | {refusal.no-word} |",
        "| {refusal.wrong_block_number} | the number of a block | the block |",
        "| {refusal.wrong_check} | the check of a block | the block |",
        "| {refusal.wrong_word_count} | W, the number of blocks, a word behind W, or where the record ends | {refusal.no-word} |",
        "| {refusal.out_of_range} | a word that counts, or a type, a kind or a limit, is below its least or above its most"
        " | the region; also {refusal.no-word} in front of the regions |",
        "| {refusal.wrong_reference} | something is named that may not be | the region; {refusal.no-word} for the entry |",
        "| {refusal.wrong_type} | a type, or how many values there are | the region; of two that return the later |",
        "| {refusal.exit_named_twice} | a region stands twice on one exit list | the region |",
        "| {refusal.too_many} | nesting would define too much | {refusal.no-word} |",
        "| {refusal.too_few_words} | the sheet has more words than were lent; the program `nest` lends {sheet.usual-lent}"
        " | {refusal.no-word} |",
        "| {refusal.figure_too_large} | the figure is above {sheet.most-figure} | {refusal.no-word} |",
    ),
    PLAYER: (
        "A word has {run.bits} bits. True is {run.true} and false is {run.false}.",
        "if its type is not {output-type.none}.",
        "If the word is {run.false}, the loop is done.",
        "all at once, and go on at step {loop.body-step}.",
        "takes place {run.place-true} if the word is not {run.false}. It takes place {run.place-false} if the word is {run.false}.",
        "any word but {run.false} means once more",
        "| anything else | {run.no-cost} |",
        "the constants c0 = {example.c0}, c1 = {example.c1} and c2 = {example.c2}.",
        "Opcode {example.add} adds, opcode {example.below} answers {run.true} if",
        "Opcode {example.key} answers {run.false} as long as the key is up.",
        "Up to step {example.first-turn} all is as above.",
    ),
    README: (
        "`nest` stands on {crates.nest} of all {crates.all} crates",
        "**Must-fail edits**: {edits.all} wrong programs",
    ),
}


@dataclass(frozen=True)
class Wrong:
    """What is wrong on a page, and the line where it stands (0: it stands nowhere)."""

    page: str
    line: int
    what: str


def reached(root: Path, program: str) -> tuple[int, int]:
    """How many crates a program stands on, itself included, and how many there are."""
    every = listed(root)
    found, todo = {program}, [program]
    while todo:
        new = {one for one in every[todo.pop()] if one in every} - found
        found |= new
        todo += new
    return len(found), len(every)


def names(root: Path) -> dict[str, str]:
    """What each name of a claim stands for, as it is written on a page."""
    found = Definitions(root)
    shown = {name: found.shown(name) for name in found.numbers}
    for kind in (name.removeprefix("fewest_values.") for name in found.numbers if name.startswith("fewest_values.")):
        shown |= {f"{what}.{kind}": found.shown(f"{what}.{kind}") for what in ("values", "targets")}
    # The first byte, the least word, no cost; and a step on the page itself.
    shown |= {"store.number-at": "0", "region.least": "0", "run.no-cost": "0", "loop.body-step": "2"}
    shown["store.check-bits"] = str(8 * (found.numbers["store.check-to"] + 1 - found.numbers["store.check-at"]))
    shown |= {name: str(number) for name, number in stepped.numbers(root / "docs" / "example.store").items()}
    shown["crates.nest"], shown["crates.all"] = map(str, reached(root, "nest"))
    shown["edits.all"] = str(len(all_edits(root)))
    return shown


@functools.cache
def pattern(claim: str) -> re.Pattern[str]:
    """What finds a claim on a page, with a group for each of its numbers; blanks may be line ends."""
    parts = HOLE.split(claim)
    made = ""
    for place, part in enumerate(parts):
        if place % 2:
            most = rf"(?: to (?:{NUMBER}))?" if part.startswith(("values.", "targets.")) else ""
            made += rf"((?:{NUMBER}){most})"
        else:
            made += r"\s+".join(re.escape(word) for word in re.split(r"\s+", part))
    return re.compile(made)


def check(page: str, text: str, claims: tuple[str, ...], shown: dict[str, str], closed: bool) -> list[Wrong]:
    """What is wrong with the numbers of a page."""
    wrong, claimed = [], set[int]()
    for claim in claims:
        asked = HOLE.findall(claim)
        matches = list(pattern(claim).finditer(text))
        if not matches:
            wrong.append(Wrong(page, 0, f"does not say: {claim}"))
        for match in matches:
            for group, name in enumerate(asked, 1):
                claimed.update(range(*match.span(group)))
                if match[group] != shown[name]:
                    line = text.count("\n", 0, match.start(group)) + 1
                    wrong.append(Wrong(page, line, f"says {match[group]}, and {name} is {shown[name]}"))
    if closed:
        for match in re.finditer(rf"(?<![\w.])(?:{NUMBER})(?!\w)", LEFT_OUT.sub(lambda found: re.sub(r"[^\n]", " ", found[0]), text)):
            if match.start() not in claimed:
                wrong.append(Wrong(page, text.count("\n", 0, match.start()) + 1, f"has the number {match[0]}, which no claim compares"))
    return wrong


def check_ends(root: Path, text: str) -> list[Wrong]:
    """What is no end: the page must have the definition's names, all of them and no others."""
    part = text.partition("| No end |")[2].partition("\n\n")[0]
    ours, found = Definitions(root).no_ends(), re.findall(r"^\| `(\w+)` \|", part, re.M)
    return [] if sorted(ours) == sorted(found) else [Wrong(PLAYER, 0, f"has {found} for what is no end, and the definition {ours}")]


def all_wrong(root: Path) -> tuple[int, list[Wrong]]:
    """How many claims there are, and what is wrong on the pages."""
    shown = names(root)
    wrong: list[Wrong] = []
    for page, claims in CLAIMS.items():
        wrong += check(page, (root / page).read_text(encoding="utf-8"), claims, shown, page in CLOSED)
    wrong += check_ends(root, (root / PLAYER).read_text(encoding="utf-8"))
    return sum(map(len, CLAIMS.values())), wrong
