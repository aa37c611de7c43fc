"""Records: a shape filled with inputs, instructions, passed values and exit lists."""

import random
from collections.abc import Iterator
from typing import Any

from reading.loops import loop_exits
from reading.record import BOOL, CONST, EXIT, IF, INPUT, INSTR, RETURN, SWITCH, UNDEF, Inst, Record, Region, Value, words_of
from .shapes import Maker, Nodes, shape


def exit_lists(rng: random.Random, entry: int, nodes: Nodes, style: str | None = None) -> list[list[int]]:
    """Exit lists as LoopFinder finds them, damaged, random or none."""
    count = len(nodes)
    style = style or rng.choices(("found", "damaged", "random", "none"), (5, 2, 2, 1))[0]
    if style == "none":
        return [[] for _ in nodes]
    if style == "random":
        some = rng.choice((0.1, 0.3))
        named = [r for r in range(count) if r != entry or rng.random() < 0.1]
        return [rng.sample(named, rng.randint(1, min(len(named), 3))) if named and rng.random() < some else [] for _ in nodes]
    exits = loop_exits(entry, [kind for kind, _ in nodes], [targets for _, targets in nodes])
    if style == "damaged":
        for _ in range(rng.randint(1, 3)):
            one = rng.choice(exits)
            if one and rng.random() < 0.5:
                one.remove(rng.choice(one))
            else:
                more = rng.randrange(count)
                if more not in one and more != entry:
                    one.insert(rng.randint(0, len(one)), more)
    return exits


class Filler:
    """Chooses values for one record. Each region's inputs stand for some of the variables."""

    def __init__(self, rng: random.Random, entry: int, nodes: Nodes, most: int | None = None) -> None:
        self.rng, self.entry, self.nodes = rng, entry, nodes
        self.types = rng.choice(([1], [1, 2], [1, 2], [1, 2, 3, 255]))
        self.constants = [rng.choice(self.types) for _ in range(rng.choice((0, 1, 2, 2, 3, 6)))]
        most = rng.choice((0, 1, 2, 2, 3, 4, 4)) if most is None else most
        self.variables = [rng.choice(self.types) for _ in range(most)]
        every = rng.random() < 0.4  # every region takes every variable
        self.takes = []
        for number in range(len(nodes)):
            some = [v for v in range(most) if every or rng.random() < 0.6]
            if not every and rng.random() < 0.2:
                rng.shuffle(some)
            self.takes.append([] if number == entry and rng.random() < 0.6 else some)
        keep = rng.choice((0.3, 0.6, 0.8, 0.95))  # how often a variable stays itself
        self.keep = [rng.choice((keep, keep, 1, 0.2)) for _ in range(most)]
        self.undefined = rng.choice((0, 0.02, 0.1, 0.3))
        self.busy = rng.choice((0.3, 0.6, 1.0, 1.6))  # instructions for each region
        self.returned = [rng.choice(self.types) for _ in range(rng.choice((0, 1, 1, 2, 4)))]
        self.loops = rng.choice((1, 2, 3, 10, 100, 65535))

    def insts(self, number: int) -> list[Inst]:
        rng = self.rng
        here: list[Inst] = []
        count = int(rng.expovariate(1 / self.busy)) if rng.random() < 0.97 else rng.randint(0, 20)
        for place in range(min(count, 20)):
            reads = [self.any(number, here) for _ in range(rng.choice((0, 0, 1, 1, 2, 3)))]
            kind = rng.choice((0, *self.types))
            cost = rng.choice((0, 1, 2, 3, 7, 100, 65535)) if rng.random() < 0.2 else rng.randint(0, 9)
            here.append(Inst(rng.randint(0, 65535 if rng.random() < 0.02 else 20), kind, cost, reads))
        return here

    def known(self, number: int, here: list[Inst], type: int | None) -> list[Value]:
        """What may be used in a region: its inputs, its instructions, the constants."""
        inputs = self.takes[number]
        known = [(INPUT, number, k) for k, v in enumerate(inputs) if type in (None, self.variables[v])]
        known += [(INSTR, number, k) for k, inst in enumerate(here) if inst.type and type in (None, inst.type)]
        return known

    def any(self, number: int, here: list[Inst], type: int | None = None) -> Value:
        rng = self.rng
        if rng.random() < self.undefined:
            return (UNDEF, 0, type or rng.choice(self.types))
        known = self.known(number, here, type)
        if known and rng.random() < 0.75:
            return rng.choice(known)
        consts = [(CONST, 0, k) for k, t in enumerate(self.constants) if type in (None, t)]
        if type in (None, 1):
            consts += [(BOOL, 0, 0), (BOOL, 0, 1)]
        if consts:
            return rng.choice(consts)
        return rng.choice(known) if known else (UNDEF, 0, type or rng.choice(self.types))

    def passed(self, number: int, here: list[Inst], target: int) -> list[Value]:
        """Inputs for a target: a variable as it is, now and then another value."""
        rng = self.rng
        values: list[Value] = []
        mine = self.takes[number]
        for variable in self.takes[target]:
            if variable in mine and rng.random() < self.keep[variable]:
                values.append((INPUT, number, mine.index(variable)))
            else:
                values.append(self.any(number, here, self.variables[variable]))
        return values

    def region(self, number: int, exits: list[int]) -> Region:
        rng = self.rng
        kind, targets = self.nodes[number]
        here = self.insts(number)
        values: list[Value] = []
        opcode = 0
        if kind == RETURN:
            values = [self.any(number, here, type) for type in self.returned]
        elif kind == EXIT:
            opcode = rng.randint(0, 99)
            values = [self.any(number, here) for _ in range(rng.choice((0, 0, 1, 2, 4)))]
        elif kind in (IF, SWITCH):
            if rng.random() < 0.8 and len(here) < 60:
                here.append(
                    Inst(rng.randint(0, 20), 1 if kind == IF else rng.choice(self.types), rng.randint(0, 9), [self.any(number, here)])
                )
            values = [
                (INSTR, number, len(here) - 1)
                if here and rng.random() < 0.6 and here[-1].type in ((1,) if kind == IF else self.types)
                else self.any(number, here, 1 if kind == IF else None)
            ]
        blocks: list[list[Inst]] = []
        rest = here
        while rest:
            size = len(rest) if len(blocks) == 7 else rng.randint(1, min(8, len(rest)))
            size = max(size, min(8, -(-len(rest) // (8 - len(blocks)))))
            blocks.append(rest[:size])
            rest = rest[size:]
        passed: dict[int, list[Value]] = {}
        for target in targets:
            if target not in passed:
                passed[target] = self.passed(number, here, target)
        types = [self.variables[v] for v in self.takes[number]]
        return Region(types, blocks, rng.randint(1, self.loops), kind, opcode, values, targets, passed, exits)

    def record(self, exits: list[list[int]]) -> Record:
        return Record(
            self.entry,
            self.rng.choice((0, 1, 2, 5, 65535)),
            self.constants,
            [self.region(number, exits[number]) for number in range(len(self.nodes))],
        )


def record(rng: random.Random, most: int = 32, make: Maker | None = None, exits: str | None = None, inputs: int | None = None) -> Record:
    """A random record of at most so many regions. Shape, exit lists and inputs may be given."""
    if most > 14 and rng.random() < 0.7 and not make:
        most = rng.randint(3, 14)
    while True:
        entry, nodes = shape(rng, most, make)
        made = Filler(rng, entry, nodes, inputs).record(exit_lists(rng, entry, nodes, exits))
        if len(words_of(made)) < 4048:
            return made


def records(seed: int, *which: Any) -> Iterator[Record]:
    rng = random.Random(seed)
    while True:
        yield record(rng, *which)
