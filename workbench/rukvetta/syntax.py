"""Parses a source by form.lark; what does not parse becomes a Fault that says what was expected."""

from __future__ import annotations

import functools
import os
import re
from collections.abc import Iterable
from typing import Any

from .faults import Fault, either, near
from .needs import need

# How the grammar's terminals are called in a message; others are words of the form and stand for themselves.
CALLED = {
    "WORD": "a name",
    "NUMBER": "a number",
    "EMPTY": "`-`",
    "_NL": "the end of the line",
    "_COMMA": "`,`",
    "ITEM": "an item as 0.0/7/1/5/-",
    "NEXT_ITEM": "another item",
    "LPAR": "`(`",
    "RPAR": "`)`",
    "EQUAL": "`=`",
    "COLON": "`:`",
    "$END": "the end of the source",
}
TERMINATORS = "branch", "exit", "return", "select", "unreachable"
MARK = "\N{ZERO WIDTH NO-BREAK SPACE}"  # the byte-order mark that some editors put in front


class Unparsed(Fault):
    """Where a source does not parse. `lacks` is a statement that is missing in front of the place, `meant` one that its line
    was meant to be, or they are empty; `ended` says that the place is the source's end."""

    def __init__(self, line: int, column: int, message: str, lacks: str = "", meant: str = "", ended: bool = False) -> None:
        super().__init__(line, column, message)
        self.lacks, self.meant, self.ended = lacks, meant, ended


@functools.cache
def parser() -> Any:
    lark = need("lark")
    with open(os.path.join(os.path.dirname(__file__), "form.lark"), encoding="ascii") as grammar:
        return lark.Lark(grammar.read(), parser="lalr", lexer="basic", maybe_placeholders=True, propagate_positions=True)


def called(terminals: Iterable[str]) -> str:
    return either(sorted({CALLED.get(t, f"`{t.lower()}`") for t in terminals}, key=lambda word: (word.startswith("`"), word)))


def decoded(data: bytes) -> tuple[str, list[Fault]]:
    """The source's text without a byte-order mark, and a fault for each line with a byte that is not UTF-8."""
    lines, faults = [], []
    for number, line in enumerate(data.split(b"\n"), 1):
        try:
            lines.append(line.decode("utf-8"))
        except UnicodeDecodeError as error:
            column = len(line[: error.start].decode("utf-8").removeprefix(MARK if number == 1 else "")) + 1
            faults.append(Fault(number, column, f"found the byte {line[error.start]}, expected text in UTF-8"))
            lines.append(line.decode("utf-8", "replace"))
    return "\n".join(lines).removeprefix(MARK), faults


def parse(source: str) -> Any:
    """The syntax tree of a source."""
    exceptions = need("lark.exceptions")
    try:
        return parser().parse(source if source.endswith("\n") else source + "\n")
    except exceptions.UnexpectedToken as error:
        found = (
            "the end of the source"
            if error.token.type == "$END"
            else "the end of the line"
            if error.token.type == "_NL"
            else f"`{error.token.strip()}`"
        )
        line, column = place(error, source)
        misspelt_terminator(source, line + (error.token.type == "$END"), error.token)
        wanted = error.accepts or error.expected
        raise Unparsed(
            line, column, f"found {found}, expected {called(wanted)}", lacking(error.token, wanted), ended=error.token.type == "$END"
        ) from None
    except exceptions.UnexpectedCharacters as error:
        raise Unparsed(
            error.line, error.column, f"found `{visible(source, error.pos_in_stream)}`, " f"expected {called(accepted(source))}"
        ) from None


def lacking(token: Any, wanted: Iterable[str]) -> str:
    """The statement that is missing before a region or the end."""
    if token.type not in ("$END", "REGION"):
        return ""
    return "unreachable" if "UNREACHABLE" in wanted else "record" if "RECORD" in wanted and token.type == "REGION" else ""


def accepted(source: str) -> Iterable[str]:
    """What could stand where a source has letters that begin nothing; the lexer alone does not know."""
    state = parser().parse_interactive(source)
    try:
        state.exhaust_lexer()
    except need("lark.exceptions").UnexpectedCharacters:
        pass
    return state.accepts()


def place(error: Any, source: str) -> tuple[int, int]:
    """Line and column; those of the source's end are its last line's."""
    if error.token.type != "$END":
        return error.line, error.column
    lines = source.rstrip("\n").split("\n")
    return len(lines), len(lines[-1]) + 1


def trees(tree: Any, data: str | None = None) -> list[Any]:
    """A tree's parts that are trees, or those of one kind. What a source leaves out is None, and `-` is a token."""
    parts = tree.children if tree is not None else ()
    return [part for part in parts if hasattr(part, "data") and data in (None, part.data)]


def misspelt_terminator(source: str, line: int, token: Any) -> None:
    """Where a region ends without a terminator, its last line may be one misspelt, which reads as an instruction."""
    if token.type not in ("$END", "REGION"):
        return
    before = source.split("\n")[: line - 1]
    while before and not before[-1].split("#")[0].strip():
        before.pop()
    word = re.match(r"[ \t]*([A-Za-z_][\w.-]*)(?![ \t]*=)", before[-1] if before else "")
    if not word or word[1] in TERMINATORS or re.search(rf"^[ \t]*opcode[ \t]+{re.escape(word[1])}\b", source, re.M):
        return
    close = near(word[1], TERMINATORS)
    if close:
        raise Unparsed(len(before), word.start(1) + 1, f"found `{word[1]}`, expected an opcode or a terminator{close}", meant="unreachable")


def visible(source: str, at: int) -> str:
    """What stands at a place, up to the next blank."""
    rest = source[at : at + 30].split()
    word = rest[0] if rest and not source[at].isspace() else source[at : at + 1]
    return word if word.isprintable() else f"\\u{ord(word[0]):04x}"
