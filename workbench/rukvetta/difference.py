"""Two sheets side by side. Regions, nodes and instructions are matched by what they hold, and the new sheet is told in the numbers
of the old one, so that an instruction that was put in is one line and not a new number in every other."""

from __future__ import annotations

import re
from collections.abc import Callable, Iterator
from dataclasses import dataclass, field

from .alignment import Change, changed_lines, paired
from .faults import escaped

NEW = "new"  # in front of the number of what only the new sheet has
ITEM = re.compile(r"(\d+)\.(\d+)/(\d+)/(\d+)/(.*)")
VALUE = re.compile(r"\b([idn])(\d+)\.(\d+)")


@dataclass
class Part:
    """A line of a sheet with the lines that belong to it."""

    words: list[str]
    parts: list[Part] = field(default_factory=list)

    @property
    def kind(self) -> str:
        return self.words[0]

    @property
    def number(self) -> str:
        return self.words[1]

    def items(self) -> list[str]:
        """The items of a block."""
        return re.split(r",(?=\d)", self.words[2]) if self.kind == "block" else []

    def shape(self) -> tuple:
        """What it holds, without numbers that nesting gave."""
        own = (
            tuple(ITEM.sub(r"\3/\4", item) for item in self.items())
            if self.kind == "block"
            else (self.words[2],)
            if self.kind in ("select", "exit")
            else ()
        )
        return (self.kind, own, tuple(part.shape() for part in self.parts))


@dataclass
class Sheet:
    """Line 1, the regions that stand by themselves, and the defer lines."""

    first: str
    roots: list[Part]
    defers: list[str]


def item_parts(item: str) -> tuple[str, ...]:
    """Region, place, opcode, type and reads of an instruction in a block."""
    match = ITEM.fullmatch(item)
    if not match:
        raise ValueError(item)
    return match.groups()


def listed(text: str) -> list[str]:
    return [] if text == "-" else text.split(",")


class Reader:
    """Reads a sheet's lines, which stand in the order of the form."""

    def __init__(self, lines: list[str]) -> None:
        self.lines, self.at = lines, 0

    def next(self) -> Part:
        self.at += 1
        return Part(self.lines[self.at - 1].split(" "))

    def region(self) -> Part:
        made = self.next()
        made.parts = [self.node() for _ in listed(made.words[5])]
        return made

    def node(self) -> Part:
        made = self.next()
        count = len(listed(made.words[5])) if made.kind == "select" else made.kind == "loop"
        made.parts = [self.region() for _ in range(count)]
        return made


def read_sheet(text: str) -> Sheet:
    """A sheet by its parts; a ValueError for what is no sheet."""
    first, *lines = text.splitlines() or [""]
    reader, roots = Reader(lines), []
    try:
        while reader.at < len(lines) and not lines[reader.at].startswith("defer "):
            roots.append(reader.region())
    except (IndexError, RecursionError):
        raise ValueError(text) from None
    return Sheet(first, roots, lines[reader.at :])


class Matches:
    """Which region, node and instruction of the new sheet is which of the old one."""

    def __init__(self, old: Sheet, new: Sheet) -> None:
        self.regions: dict[str, str] = {}
        self.nodes: dict[str, str] = {}
        self.items: dict[tuple[str, str], tuple[str, str]] = {}
        for pair in paired(old.roots, new.roots, Part.shape, lambda part: part.kind):
            self.match(*pair)

    def match(self, old: Part, new: Part) -> None:
        table = self.regions if new.kind == "region" else self.nodes
        table.setdefault(new.number, old.number)
        for one, other in paired(old.items(), new.items(), lambda item: ITEM.sub(r"\3/\4", item), lambda _: 0):
            (region, index), (new_region, new_index) = (item_parts(item)[:2] for item in (one, other))
            self.items[new_region, new_index] = region, index
            self.regions.setdefault(new_region, region)
        alike = (lambda part: 0) if new.kind in ("select", "loop") else (lambda part: part.kind)
        for pair in paired(old.parts, new.parts, Part.shape, alike):
            self.match(*pair)

    def region(self, number: str) -> str:
        return self.regions.get(number, NEW + number)

    def node(self, number: str) -> str:
        return self.nodes.get(number, NEW + number)

    def item(self, region: str, index: str) -> str:
        return ".".join(self.items.get((region, index), (self.region(region), NEW + index)))

    def values(self, text: str) -> str:
        def renamed(match: re.Match[str]) -> str:
            letter, number, index = match.groups()
            if letter == "d":
                return "d" + self.item(number, index)
            return f"{letter}{self.node(number) if letter == 'n' else self.region(number)}.{index}"

        return VALUE.sub(renamed, text)


class Same(Matches):
    """The old sheet's own numbers."""

    def __init__(self) -> None:
        self.regions, self.nodes, self.items = {}, {}, {}

    def region(self, number: str) -> str:
        return number

    def node(self, number: str) -> str:
        return number

    def item(self, region: str, index: str) -> str:
        return f"{region}.{index}"


def numbers(text: str, renamed: Callable[[str], str]) -> str:
    return ",".join(map(renamed, listed(text))) or "-"


def part_lines(part: Part, by: Matches) -> Iterator[str]:
    """The lines of a part and of what belongs to it; of a block a line for each instruction."""
    w = part.words
    if part.kind == "region":
        yield f"region {by.region(w[1])} in {w[3]} kids {numbers(w[5], by.node)} out {by.values(w[7])}"
    elif part.kind == "block":
        yield f"block {by.node(w[1])}"
        for item in part.items():
            region, index, *rest, reads = item_parts(item)
            yield f"  {by.item(region, index)}/{'/'.join(rest)}/{by.values(reads)}"
    elif part.kind == "select":
        yield f"select {by.node(w[1])} {w[2]} {by.values(w[3])} cases {numbers(w[5], by.region)} out {w[7]}"
    elif part.kind == "loop":
        yield f"loop {by.node(w[1])} in {by.values(w[3])} body {by.region(w[5])} repeat {by.values(w[7])}"
    else:
        yield f"exit {by.node(w[1])} {w[2]} in {by.values(w[4])}"
    for inner in part.parts:
        yield from part_lines(inner, by)


def defer_line(line: str, by: Matches) -> str:
    w = line.split(" ")
    target = w[3] if w[3] == "return" else by.region(w[3])
    condition = re.sub(r"m(\d+)\[", lambda match: f"m{by.node(match[1])}[", w[9])
    return f"defer {by.region(w[1])} to {target} count {w[5]} in {by.values(w[7])} if {condition}"


def sheet_lines(sheet: Sheet, by: Matches) -> list[str]:
    """A sheet's lines in the numbers of the old one."""
    inner = [line for root in sheet.roots for line in part_lines(root, by)]
    return [sheet.first, *inner, *(defer_line(line, by) for line in sheet.defers)]


def sheet_changes(old: str, new: str) -> list[Change]:
    """The lines that differ between two sheets, as texts that can be printed."""
    try:
        one, other = read_sheet(old), read_sheet(new)
        lines = (sheet_lines(one, Same()), sheet_lines(other, Matches(one, other)))
    except (IndexError, ValueError):  # a text that is no sheet: line by line
        lines = (old.splitlines(), new.splitlines())
    return [Change(one.sign, escaped(one.text)) for one in changed_lines(*lines)]
