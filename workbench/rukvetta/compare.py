"""diff A B: two stores, sources or sheets. Regions are matched by what they hold, so that a number that moved is no difference."""

from __future__ import annotations

import argparse
from collections.abc import Iterator
from dataclasses import dataclass

from . import record as r
from .alignment import Change, changed_lines, paired
from .answers import Output
from .difference import NEW, sheet_changes
from .faults import escaped
from .names import Names
from .needs import REFUSED
from .programs import Programs, add_option, refusal
from .routine import BadSource, routine_of
from .source import read_source
from .streams import read_file

DESCRIPTION = (
    "Says in what two stores, sources or sheets differ. Where one of them is a sheet, the other's sheet is compared with it. "
    "Status 0: no difference; 1: some, or one of them cannot be read."
)
OUTCOMES = "whole ", "closed ", "leftover ", "untouched ", "refused "


@dataclass
class Side:
    """One of the two: its record, as `show` printed it, and what its source calls things."""

    record: r.Record
    names: Names


def holds(region: r.Region) -> tuple:
    """What a region holds, without numbers that would move."""
    return (
        tuple(region.inputs),
        region.kind,
        region.opcode,
        len(region.targets),
        tuple(tuple(instruction_key(one) for one in block) for block in region.blocks),
    )


def instruction_key(one: r.Instruction) -> tuple:
    return one.opcode, one.type, one.cost, len(one.reads)


class Pairs:
    """Which region and instruction of the new record is which of the old one."""

    def __init__(self, old: Side, new: Side) -> None:
        self.old, self.new = old, new
        self.regions: dict[int, int] = {}
        self.instructions: dict[tuple[int, int], tuple[int, int]] = {}
        self.by_names()
        self.by_contents()
        self.pair(old.record.entry, new.record.entry)
        self.by_ways()
        self.by_likeness()
        for number, was in self.regions.items():
            self.match_instructions(number, was)

    def pair(self, old: int, new: int) -> bool:
        """Match two regions, if both are free."""
        if new in self.regions or old in self.regions.values():
            return False
        self.regions[new] = old
        return True

    def free(self) -> tuple[list[int], list[int]]:
        taken = set(self.regions.values())
        return (
            [number for number in range(len(self.old.record.regions)) if number not in taken],
            [number for number in range(len(self.new.record.regions)) if number not in self.regions],
        )

    def by_names(self) -> None:
        for name, number in self.new.names.regions.items():
            if name in self.old.names.regions:
                self.pair(self.old.names.regions[name], number)

    def by_contents(self) -> None:
        old, new = self.free()
        keys = [holds(region) for region in self.old.record.regions], [holds(region) for region in self.new.record.regions]
        pairs = paired([(0, number) for number in old], [(1, number) for number in new], lambda item: keys[item[0]][item[1]])
        for (_, one), (_, other) in pairs:
            self.pair(one, other)

    def by_ways(self) -> None:
        """The targets of matched regions, place by place."""
        todo = list(self.regions.items())
        while todo:
            new, old = todo.pop()
            for one, other in zip(self.old.record.regions[old].targets, self.new.record.regions[new].targets):
                if self.pair(one, other):
                    todo.append((other, one))

    def by_likeness(self) -> None:
        """Of those that stay over, regions of one kind that share an instruction."""
        for other in self.free()[1]:
            wanted = {instruction_key(one) for one in self.new.record.regions[other].instructions()}
            for one in self.free()[0]:
                held = {instruction_key(each) for each in self.old.record.regions[one].instructions()}
                if self.old.record.regions[one].kind == self.new.record.regions[other].kind and held & wanted:
                    self.pair(one, other)
                    break

    def match_instructions(self, new: int, old: int) -> None:
        first = list(enumerate(self.old.record.regions[old].instructions()))
        second = list(enumerate(self.new.record.regions[new].instructions()))
        for (one, _), (other, _) in paired(first, second, lambda item: instruction_key(item[1]), lambda item: bool(item[1].type)):
            self.instructions[new, other] = old, one


class OldLabels:
    """What the parts of the old record are called."""

    def __init__(self, side: Side) -> None:
        self.side = side
        self.called = {number: name for name, number in side.names.regions.items()}
        self.opcodes = {opcode.number: name for name, opcode in reversed(side.names.opcodes.items())}

    def region(self, number: int) -> str:
        return self.called.get(number, str(number))

    def opcode(self, number: int) -> str:
        return self.opcodes.get(number, str(number))

    def value(self, value: r.Value) -> str:
        return self.side.names.values.get(value) or r.value_text(value)


class NewLabels(OldLabels):
    """The same for the new record: what is matched is called as in the old one."""

    def __init__(self, side: Side, old: OldLabels, pairs: Pairs) -> None:
        super().__init__(side)
        self.old, self.pairs = old, pairs

    def region(self, number: int) -> str:
        if number in self.pairs.regions:
            return self.old.region(self.pairs.regions[number])
        return self.called.get(number, f"{NEW}{number}")

    def opcode(self, number: int) -> str:
        return self.old.opcodes.get(number) or super().opcode(number)

    def value(self, value: r.Value) -> str:
        kind, region, index = value
        if kind == r.CONSTANT:
            return self.constant(value)
        if kind == r.INPUT and region in self.pairs.regions:
            return self.old.value((kind, self.pairs.regions[region], index))
        if kind == r.INSTRUCTION and (region, index) in self.pairs.instructions:
            return self.old.value((kind, *self.pairs.instructions[region, index]))
        return self.side.names.values.get(value) or (f"{NEW} {r.value_text(value)}" if kind == r.INSTRUCTION else r.value_text(value))

    def constant(self, value: r.Value) -> str:
        """A constant that has another name now, at the same place, is called as before."""
        own, before = self.side.names.values.get(value), self.old.value(value)
        if own is None or own in self.old.side.names.constants or before in self.side.names.constants:
            return own or before
        return before if value[2] < len(self.old.side.record.constants) else own


def listed(items: list[str]) -> str:
    return ", ".join(items) or "-"


def instruction_text(one: r.Instruction, own: r.Value, labels: OldLabels) -> str:
    given = f"{labels.value(own)} = " if one.type else ""
    reads = f"({', '.join(map(labels.value, one.reads))})" if one.reads else ""
    return f"{given}{labels.opcode(one.opcode)}{reads}{f' : {one.type}' if one.type else ''} cost {one.cost}"


def end_text(region: r.Region, labels: OldLabels) -> str:
    """A region's terminator."""
    word = ("unreachable", "return", "exit", "branch", "select bool", "select num")[region.kind]
    code = f" {labels.opcode(region.opcode)}" if region.kind == r.EXIT else ""
    values = f" {', '.join(map(labels.value, region.values))}" if region.values else ""
    targets = f" to {', '.join(map(labels.region, region.targets))}" if region.targets else ""
    return word + code + values + targets


def region_lines(number: int, region: r.Region, labels: OldLabels) -> Iterator[str]:
    """A region, a line for each of its parts."""
    yield f"in {listed([str(given) for given in region.inputs])} limit {region.limit}"
    place = 0
    for at, block in enumerate(region.blocks):
        if at:
            yield "block"
        for one in block:
            yield instruction_text(one, (r.INSTRUCTION, number, place), labels)
            place += 1
    yield end_text(region, labels)
    for target, values in region.passed.items():
        if values:
            yield f"pass {labels.region(target)} in {listed([labels.value(value) for value in values])}"
    if region.exits:
        yield f"exits {listed(sorted(map(labels.region, region.exits)))}"


def head_line(record: r.Record, labels: OldLabels) -> str:
    constants = [f"{labels.value((r.CONSTANT, 0, k))}:{given}" for k, given in enumerate(record.constants)]
    return f"record entry {labels.region(record.entry)} test {record.test} constants {listed(constants)}"


def record_changes(old: Side, new: Side) -> Iterator[Change]:
    """The lines that differ, region by region; a heading names the region."""
    pairs = Pairs(old, new)
    first = OldLabels(old)
    second = NewLabels(new, first, pairs)
    yield from changed_lines([head_line(old.record, first)], [head_line(new.record, second)])
    back = {was: number for number, was in pairs.regions.items()}
    for number, region in enumerate(old.record.regions):
        other = back.get(number)
        lines = [] if other is None else list(region_lines(other, new.record.regions[other], second))
        changes = list(changed_lines(list(region_lines(number, region, first)), lines))
        if changes:
            yield Change(" ", f"region {first.region(number)}" + (", which is gone" if other is None else ""))
            yield from changes
    for number, region in enumerate(new.record.regions):
        if number not in pairs.regions:
            yield Change(" ", f"region {second.region(number)}, which is new")
            yield from (Change("+", line) for line in region_lines(number, region, second))


def is_sheet(path: str, data: bytes) -> bool:
    return path.endswith(".sheet") or data[:10].decode("ascii", "replace").startswith(OUTCOMES)


class Comparer:
    """Compares two files."""

    def __init__(self, options: argparse.Namespace, output: Output) -> None:
        self.output, self.programs = output, Programs(options.programs)
        self.files = [(path, read_file(path)) for path in (options.a, options.b)]

    def sheet(self, path: str, data: bytes) -> str:
        """A sheet, or that of a store or a source."""
        if is_sheet(path, data):
            return data.decode("ascii", "replace")
        return self.programs.nest(routine_of(path, data).store)

    def changes(self) -> list[Change]:
        sheets = [self.sheet(path, data) for path, data in self.files]
        for (path, _), sheet in zip(self.files, sheets):
            answer = self.output.answer(path)
            answer.sheet = [escaped(line) for line in sheet.splitlines()]
        if any(is_sheet(path, data) for path, data in self.files):
            return sheet_changes(*sheets)
        routines = [routine_of(path, data) for path, data in self.files]
        shown = [self.programs.show(routine.store) for routine in routines]
        if any(map(refusal, shown)):
            return list(changed_lines([sheets[0].strip()], [sheets[1].strip()])) if routines[0].store != routines[1].store else []
        sides = [Side(read_source(text.encode())[0], routine.names or Names()) for text, routine in zip(shown, routines)]
        firsts = [sheet.split("\n", 1)[0] for sheet in sheets]
        return [*changed_lines(firsts[:1], firsts[1:]), *record_changes(*sides)]


def arguments(parser: argparse.ArgumentParser) -> None:
    parser.add_argument("a", metavar="A", help="a store, a source or a sheet")
    parser.add_argument("b", metavar="B", help="another")
    add_option(parser)


def perform(options: argparse.Namespace, output: Output) -> int:
    """Tell the differences."""
    try:
        changes = Comparer(options, output).changes()
    except BadSource as fault:
        output.complain(str(fault))
        return REFUSED
    for one in changes:
        output.changes.append(one)
        output.say(f"{one.sign} {one.text}" if one.sign.strip() else f"{one.text}:")
    return REFUSED if changes else 0
