"""Runs of the graph and of the nested form, side by side.

An undefined value is None. Events are (region, place, opcode, reads). An end is
("return", values), ("exit", opcode, values), or the name of what is no end:
"unreachable", "undefined", "off", and "budget" where this reading gave up.
"""

from collections.abc import Callable, Iterable, Sequence
from typing import Any

from .nesting import Block, Loop, Select
from .record import BOOL, BRANCH, CONST, EXIT, HELD, IF, INPUT, INSTR, OUTPUT, RETURN, UNREACHABLE, Record, Value
from .sheet import WHOLE, Result

Word = int | None  # None is the mark
Rule = Callable[[int, Sequence[Word], int], int]
Event = tuple[int, int, int, list[Word]]
End = Any  # as said above


def rule(seed: int) -> Rule:
    """A rule: a seeded answer to opcode, reads and the number of instructions before."""

    def answer(opcode: int, reads: Sequence[Word], before: int) -> int:
        h = (seed * 0x9E3779B1 + opcode * 0x85EBCA6B + before * 0xC2B2AE35) & 0xFFFFFFFF
        for read in reads:
            h = ((h ^ h >> 15) * 0x2C1B3C6D + (0x12345 if read is None else read)) & 0xFFFFFFFF
        h = (h ^ h >> 15) * 0x2C1B3C6D & 0xFFFFFFFF
        h = (h ^ h >> 12) * 0x297A2D39 & 0xFFFFFFFF
        h ^= h >> 15
        return (h >> 8 & 1, h >> 8 & 1, h >> 8 & 7, h)[h & 3]

    return answer


def place_taken(kind: int, word: Word, ways: int) -> int | None:
    """The place a test takes, or None for an undefined one."""
    if word is None:
        return None
    if kind == IF:
        return 0 if word else 1
    return min(word, ways - 1)


def graph_run(record: Record, constants: Sequence[int], inputs: Sequence[Word], answer: Rule, budget: int) -> tuple[list[Event], End, int]:
    """Events, end and the number of regions passed."""
    events: list[Event] = []
    number, steps = record.entry, 0
    while True:
        if steps == budget:
            return events, "budget", steps
        steps += 1
        region = record.regions[number]
        outs: list[int] = []

        def word(value):
            kind, _, index = value
            if kind == INPUT:
                return inputs[index]
            if kind == INSTR:
                return outs[index]
            return constants[index] if kind == CONST else index if kind == BOOL else None

        for place, inst in enumerate(region.insts):
            reads = [word(value) for value in inst.reads]
            outs.append(answer(inst.opcode, reads, len(events)))
            events.append((number, place, inst.opcode, reads))
        if region.kind == UNREACHABLE:
            return events, "unreachable", steps
        if region.kind == RETURN:
            return events, ("return", [word(value) for value in region.values]), steps
        if region.kind == EXIT:
            return events, ("exit", region.opcode, [word(v) for v in region.values]), steps
        place = 0
        if region.kind != BRANCH:
            place = place_taken(region.kind, word(region.values[0]), len(region.targets))
            if place is None:
                return events, "undefined", steps
        number = region.targets[place]
        inputs = [word(value) for value in region.passed[number]]


class Ended(Exception):
    """A nested run has come to its end, or to what is none."""


class NestedRun:
    """A run of a whole or closed form, within `budget` turns each time a loop is entered.

    `late` tells that a loop began more turns than its turn limit.
    """

    def __init__(self, result: Result, constants: Sequence[int], inputs: Sequence[Word], answer: Rule, budget: int) -> None:
        self.result, self.constants, self.answer = result, constants, answer
        self.cost, self.late, self.budget = 0, False, budget
        self.events: list[Event] = []
        self.words: dict[Value, Word] = {(INPUT, result.record.entry, k): word for k, word in enumerate(inputs)}
        try:
            self.region(result.record.entry)
            outs = result.regions[result.record.entry].outs
            self.end = ("return", self.all(outs)) if result.outcome == WHOLE else "off"
        except Ended as ended:
            (self.end,) = ended.args

    def word(self, value: Value) -> Word:
        """A value's word; reading what was never made is an error of the form (KeyError)."""
        kind, region, index = value
        if kind in (INPUT, HELD):  # one and the same in the form that is printed
            return self.words[INPUT, region, index]
        if kind in (INSTR, OUTPUT):
            return self.words[value]
        return self.constants[index] if kind == CONST else index if kind == BOOL else None

    def all(self, values: Iterable[Value]) -> list[Word]:
        return [self.word(value) for value in values]

    def test(self, kind: int, value: Value, ways: int) -> int:
        self.cost += self.result.record.test
        place = place_taken(kind, self.word(value), ways)
        if place is None:
            raise Ended("undefined")
        return place

    def region(self, number: int) -> None:
        for kid in self.result.regions[number].kids:
            node = self.result.nodes[kid]
            if isinstance(node, Block):
                self.block(node)
            elif isinstance(node, Select):
                self.select(kid, node)
            elif isinstance(node, Loop):
                self.loop(node)
            else:
                raise Ended(("exit", node.opcode, self.all(node.values)))

    def block(self, block: Block) -> None:
        place = block.first
        for inst, reads in zip(block.insts, block.reads):
            words = self.all(reads)
            self.words[INSTR, block.region, place] = self.answer(inst.opcode, words, len(self.events))
            self.events.append((block.region, place, inst.opcode, words))
            self.cost += inst.cost
            place += 1

    def select(self, number: int, node: Select) -> None:
        case = node.cases[self.test(node.kind, node.value, len(node.cases))]
        self.region(case)
        for place, word in enumerate(self.all(self.result.regions[case].outs)):
            self.words[OUTPUT, number, place] = word

    def loop(self, loop: Loop) -> None:
        words, turns = self.all(loop.first), 0
        while True:
            for place, word in enumerate(words):
                self.words[INPUT, loop.body, place] = word
            if turns == self.budget:
                raise Ended("budget")
            turns += 1
            if turns > self.result.record.regions[loop.body].limit:
                self.late = True
            self.region(loop.body)
            if self.test(IF, loop.repeat, 2) == 1:
                return
            words = self.all(self.result.regions[loop.body].outs)


def differs(
    result: Result, constants: Sequence[int], inputs: Sequence[Word], answer: Rule, budget: int
) -> tuple[str | None, End, NestedRun | None]:
    """What is wrong with the nested run beside the graph's, or None; and the two runs.

    Where the graph's run ends, the nested run has the same events and end, and costs at
    most the figure if no loop passed its turn limit.
    """
    events, end, steps = graph_run(result.record, constants, inputs, answer, budget)
    if isinstance(end, str):
        return None, end, None
    try:
        run = NestedRun(result, constants, inputs, answer, steps)
    except KeyError as missing:
        return f"reads {missing} before it is made", end, None
    if run.events != events:
        return "other events", end, run
    if run.end != end:
        return f"end {run.end} for {end}", end, run
    if not run.late and run.cost > result.figure:
        return f"cost {run.cost} above the figure", end, run
    return None, end, run
