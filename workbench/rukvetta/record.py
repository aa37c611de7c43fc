"""A record: its parts, its words, and how its values are written."""

from __future__ import annotations

from collections.abc import Callable, Iterable
from dataclasses import dataclass, field
from typing import Any

CONSTANT, INPUT, INSTRUCTION, OUTPUT, BOOLEAN, UNDEFINED = range(6)  # kinds of values
UNREACHABLE, RETURN, EXIT, BRANCH, SELECT_BOOL, SELECT_NUM = range(6)  # kinds of terminators

# What document 01 allows, least and most.
REGIONS, CONSTANTS, INPUTS = (1, 32), (0, 64), (0, 4)
BLOCKS, INSTRUCTIONS, READS = (0, 8), (1, 8), (0, 3)
TYPE, RESULT, WORD, LIMIT, EXITS = (1, 255), (0, 255), (0, 65535), (1, 65535), (0, 32)
VALUES = (0, 0), (0, 4), (0, 4), (0, 0), (1, 1), (1, 1)  # by kind of terminator
TARGETS = (0, 0), (0, 0), (0, 0), (1, 1), (2, 2), (1, 8)

Value = tuple[int, int, int]  # its words: kind, region, index
TRUE, FALSE = (BOOLEAN, 0, 1), (BOOLEAN, 0, 0)


@dataclass
class Instruction:
    opcode: int
    type: int
    cost: int
    reads: list[Value]
    line: int = 0  # of the source


@dataclass
class Region:
    inputs: list[int]
    blocks: list[list[Instruction]]
    limit: int
    kind: int
    opcode: int = 0
    values: list[Value] = field(default_factory=list)
    targets: list[int] = field(default_factory=list)
    passed: dict[int, list[Value]] = field(default_factory=dict)  # each distinct target's inputs, by first standing
    exits: list[int] = field(default_factory=list)
    lines: dict[Any, int] = field(default_factory=dict)  # of the source: region, terminator, exits, (pass, target)

    def instructions(self) -> list[Instruction]:
        return [instruction for block in self.blocks for instruction in block]


@dataclass
class Record:
    entry: int
    test: int
    constants: list[int]
    regions: list[Region]


def listed(items: list[Any], words: Callable[[Any], Iterable[int]]) -> list[int]:
    return [len(items), *(word for item in items for word in words(item))]


def instruction_words(i: Instruction) -> list[int]:
    return [i.opcode, i.type, i.cost, *listed(i.reads, list)]


def region_words(r: Region) -> list[int]:
    words = [len(r.inputs), *r.inputs]
    words += listed(r.blocks, lambda block: listed(block, instruction_words))
    words += [r.limit, r.kind, *[r.opcode] * (r.kind == EXIT)]
    words += listed(r.values, list) + [len(r.targets), *r.targets]
    for values in r.passed.values():
        words += listed(values, list)
    return words + [len(r.exits), *r.exits]


def record_words(record: Record) -> list[int]:
    """The record's words, W in front."""
    words = [0, len(record.regions), record.entry, record.test, len(record.constants), *record.constants]
    for region in record.regions:
        words += region_words(region)
    words[0] = len(words)
    return words


def value_text(value: Value) -> str:
    """A value as the printed sheet has it."""
    kind, region, index = value
    if kind == BOOLEAN and index < 2:
        return ("false", "true")[index]
    if kind in (CONSTANT, UNDEFINED):
        return f"{'c' if kind == CONSTANT else 'undef'}{index}"
    return f"{'?idn'[kind] if kind < 4 else f'kind {kind} '}{region}.{index}"
