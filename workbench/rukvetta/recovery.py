"""Reads on behind a line that does not parse, so that all faults of a source are told at once.

A statement that does not parse is told and taken out; what must stand in its place is put there. A name that it has may have
been defined by it: such a name is not told as unknown.
"""

from __future__ import annotations

import re
from dataclasses import dataclass, field
from typing import Any

from .faults import MOST_TOLD, Fault, Gathered
from .syntax import TERMINATORS, Unparsed, parse

WORDS = re.compile(r"[A-Za-z_][\w.]*(?:-[\w.]+)*")
NAME = re.compile(rf"{WORDS.pattern}|[0-9]+")
MOST_WORK = 2_000_000  # letters read up to a fault, over all the times that a source is parsed
LOST_REGION = "region lost-region"
GOES_ON = re.compile(r",[ \t\r]*(#.*)?$")


@dataclass
class Draft:
    """A source's lines, each with its number, while some of them are taken out."""

    lines: list[tuple[int, str]]
    patched: set[int] = field(default_factory=set)  # numbers of lines that were taken out or put in
    lost: set[str] = field(default_factory=set)  # the words that stood in them
    lost_region: bool = False  # whether one of them began a region, with no name that can be read

    def text(self) -> str:
        return "\n".join(line for _, line in self.lines)

    def number(self, at: int) -> int:
        """The number in the source of a line of the draft, counted from 1."""
        return self.lines[min(at, len(self.lines)) - 1][0]

    def statement(self, at: int) -> tuple[int, int]:
        """The lines of the draft, from and up to, that belong to the statement of a line."""
        first = last = at - 1
        while first > 0 and GOES_ON.search(self.lines[first - 1][1]):
            first -= 1
        while last + 1 < len(self.lines) and GOES_ON.search(self.lines[last][1]):
            last += 1
        return first, last + 1

    def take_out(self, at: int, meant: str = "") -> None:
        """Put in the place of a statement what lets the rest be read."""
        first, end = self.statement(at)
        taken = "\n".join(line for _, line in self.lines[first:end])
        again = self.lines[first][0] in self.patched
        self.patched |= {number for number, _ in self.lines[first:end]}
        self.lost |= set(WORDS.findall(taken))
        stands = meant or stand_in(taken)
        self.lost_region |= stands == LOST_REGION
        blanks = [(number, "") for number, _ in self.lines[first:end]]
        self.lines[first:end] = blanks if again else [(blanks[0][0], stands), *blanks[1:]]

    def put_in(self, at: int, statement: str) -> None:
        number = self.number(at)
        self.lines.insert(at, (number, statement))


def stand_in(statement: str) -> str:
    """What stands for a statement that does not parse."""
    words = statement.split("#")[0].split() or [""]
    match = WORDS.match(words[0])
    first = match[0] if match else ""
    if first == "region":
        name = NAME.match(words[1]) if words[1:] else None
        return f"region {name[0]}" if name and name[0] not in ("in", "limit") else LOST_REGION
    if first in ("record", "block"):
        return first
    return "unreachable" if first in TERMINATORS else ""


def repair(draft: Draft, fault: Unparsed) -> None:
    if fault.lacks:
        draft.put_in(len(draft.lines) if fault.ended else fault.line - 1, fault.lacks)
    else:
        draft.take_out(fault.line, fault.meant)


def renumbered(tree: Any, draft: Draft) -> Any:
    """The tree with the source's own line numbers."""
    for part in tree.iter_subtrees():
        if hasattr(part.meta, "line"):
            part.meta.line = draft.number(part.meta.line)
        for child in part.children:
            if getattr(child, "type", None) and child.line is not None:
                child.line = draft.number(child.line)
    return tree


def parse_on(source: str, broken: list[Fault], gathered: Gathered) -> tuple[Any, Draft]:
    """The tree of what can be read, or None; the faults are gathered. `broken` has those of lines that are no text."""
    draft = Draft(list(enumerate(source.split("\n"), 1)))
    gathered.found += broken
    for fault in broken:
        draft.take_out(fault.line)
    work = 0
    for _ in range(2 * MOST_TOLD):
        try:
            return renumbered(parse(draft.text()), draft), draft
        except Unparsed as fault:
            number = draft.number(fault.line)
            if number not in draft.patched or not gathered.found:
                gathered.found.append(Fault(number, fault.column, fault.message))
            work += sum(len(line) + 1 for _, line in draft.lines[: fault.line])
            if work > MOST_WORK or (fault.ended and not fault.lacks and not fault.meant):
                break
            repair(draft, fault)
    return None, draft
