"""Records: reading them (4, 5), their references (6, 7, 8), writing and showing them."""

from collections.abc import Callable, Collection, Iterable, Sequence
from dataclasses import dataclass, field
from typing import TypeVar

from .store import Refused, WORDS

Item = TypeVar("Item")
Value = tuple[int, int, int]  # kind, region, index

# Kinds of values. Six is ours: an input that was renumbered, the mark of document 01.
CONST, INPUT, INSTR, OUTPUT, BOOL, UNDEF, HELD = range(7)
FALSE, TRUE = (BOOL, 0, 0), (BOOL, 0, 1)

# Kinds of terminators.
UNREACHABLE, RETURN, EXIT, BRANCH, IF, SWITCH = range(6)

# Least and greatest number of values and of targets, by kind.
VALUES = (0, 0), (0, 4), (0, 4), (0, 0), (1, 1), (1, 1)
TARGETS = (0, 0), (0, 0), (0, 0), (1, 1), (2, 2), (1, 8)


@dataclass(eq=False, slots=True)
class Inst:
    """An instruction; type 0 is no output."""

    opcode: int
    type: int
    cost: int
    reads: list[Value]


@dataclass(eq=False, slots=True)
class Region:
    """A region; `passed` holds the inputs of each distinct target, by first standing."""

    inputs: list[int]
    blocks: list[list[Inst]]
    limit: int
    kind: int
    opcode: int = 0
    values: Sequence[Value] = ()
    targets: Sequence[int] = ()
    passed: dict[int, list[Value]] = field(default_factory=dict)
    exits: Sequence[int] = ()
    insts: list[Inst] = field(init=False)

    def __post_init__(self) -> None:
        self.insts = [inst for block in self.blocks for inst in block]


@dataclass(eq=False, slots=True)
class Record:
    """A record as it was read."""

    entry: int
    test: int
    constants: Sequence[int]
    regions: list[Region]


# Reading: 4 and 5.


class Reader:
    """The words in front of W, one after another; `region` is the one being read."""

    def __init__(self, words: list[int]) -> None:
        self.words, self.at, self.end, self.region = words, 1, words[0], 0

    def word(self) -> int:
        if self.at >= self.end:
            raise Refused(4)
        self.at += 1
        return self.words[self.at - 1]

    def within(self, least: int, most: int) -> int:
        word = self.word()
        if not least <= word <= most:
            raise Refused(5, self.region)
        return word

    def list(self, least: int, most: int, item: Callable[[], Item]) -> "list[Item]":
        return [item() for _ in range(self.within(least, most))]

    def type(self) -> int:
        return self.within(1, 255)

    def value(self) -> Value:
        kind = self.within(0, 5)
        if kind == OUTPUT:
            raise Refused(5, self.region)
        return kind, self.word(), self.type() if kind == UNDEF else self.word()

    def inst(self) -> Inst:
        return Inst(self.word(), self.within(0, 255), self.word(), self.list(0, 3, self.value))

    def one_region(self) -> Region:
        inputs = self.list(0, 4, self.type)
        blocks = self.list(0, 8, lambda: self.list(1, 8, self.inst))
        limit = self.within(1, 65535)
        kind = self.within(0, 5)
        opcode = self.word() if kind == EXIT else 0
        values = self.list(*VALUES[kind], self.value)
        targets = self.list(*TARGETS[kind], self.word)
        passed: dict[int, list[Value]] = {}
        for target in targets:
            if target not in passed:
                passed[target] = self.list(0, 4, self.value)
        exits = self.list(0, 32, self.word)
        return Region(inputs, blocks, limit, kind, opcode, values, targets, passed, exits)


def read(words: list[int]) -> Record:
    """The record in these payload words, or 4 or 5."""
    used = words[0]
    if used == 0 or len(words) != WORDS * -(-used // WORDS) or any(words[used:]):
        raise Refused(4)
    reader = Reader(words)
    count = reader.within(1, 32)
    entry, test = reader.word(), reader.word()
    constants = reader.list(0, 64, reader.type)
    regions: list[Region] = []
    for reader.region in range(count):
        regions.append(reader.one_region())
    if reader.at != used:
        raise Refused(4)
    return Record(entry, test, constants, regions)


# References: 6, 7 and 8.


def type_of(record: Record, number: int, value: Value, before: int) -> int:
    """The type of a value used in a region after `before` instructions, or 6."""
    kind, region, index = value
    own = record.regions[number]
    if kind == INPUT:
        if region == number and index < len(own.inputs):
            return own.inputs[index]
    elif kind == INSTR:
        if region == number and index < before and own.insts[index].type != 0:
            return own.insts[index].type
    elif region == 0:
        if kind == CONST and index < len(record.constants):
            return record.constants[index]
        if kind == BOOL and index <= 1:
            return 1
        if kind == UNDEF:
            return index
    raise Refused(6, number)


def refer(record: Record) -> list[int] | None:
    """Check all references in record order; answer the types that are returned, if any."""
    count = len(record.regions)
    returned: list[int] | None = None
    if record.entry >= count:
        raise Refused(6)
    for number, region in enumerate(record.regions):
        for place, inst in enumerate(region.insts):
            for value in inst.reads:
                type_of(record, number, value, place)
        all = len(region.insts)
        if region.kind == RETURN and returned is not None and len(region.values) != len(returned):
            raise Refused(7, number)
        types = []
        for place, value in enumerate(region.values):
            types.append(type_of(record, number, value, all))
            if region.kind == RETURN and returned is not None and types[-1] != returned[place]:
                raise Refused(7, number)
        if region.kind == RETURN and returned is None:
            returned = types
        if region.kind == IF and types[0] != 1:
            raise Refused(7, number)
        if any(target >= count for target in region.targets):
            raise Refused(6, number)
        for target, values in region.passed.items():
            wanted = record.regions[target].inputs
            if len(values) != len(wanted):
                raise Refused(7, number)
            for value, type in zip(values, wanted):
                if type_of(record, number, value, all) != type:
                    raise Refused(7, number)
        for place, target in enumerate(region.exits):
            if target >= count:
                raise Refused(6, number)
            if target in region.exits[:place]:
                raise Refused(8, number)
    return returned


# Writing, as words and as text.


def list_words(items: Collection[Item], words: Callable[[Item], Iterable[int]]) -> list[int]:
    return [len(items), *[word for item in items for word in words(item)]]


def words_of(record: Record) -> list[int]:
    """The record's words after W. Nothing is checked: a bad record has words too."""

    def inst(i: Inst) -> list[int]:
        return [i.opcode, i.type, i.cost, *list_words(i.reads, list)]

    def region(r: Region) -> list[int]:
        words = [len(r.inputs), *r.inputs]
        words += list_words(r.blocks, lambda block: list_words(block, inst))
        words += [r.limit, r.kind] + [r.opcode] * (r.kind == EXIT)
        words += list_words(r.values, list) + [len(r.targets), *r.targets]
        for values in r.passed.values():
            words += list_words(values, list)
        return words + [len(r.exits), *r.exits]

    return [
        len(record.regions),
        record.entry,
        record.test,
        len(record.constants),
        *record.constants,
        *[word for r in record.regions for word in region(r)],
    ]


def joined(items: Iterable[object]) -> str:
    return ",".join(map(str, items)) or "-"


def value_text(value: Value) -> str:
    kind, region, index = value
    return (
        f"c{index}",
        f"i{region}.{index}",
        f"d{region}.{index}",
        f"n{region}.{index}",
        ("false", "true")[index & 1],
        f"undef{index}",
        f"i{region}.{index}",
    )[kind]


def values_text(values: Iterable[Value]) -> str:
    return joined(map(value_text, values))


def show(record: Record) -> str:
    """The text of an accepted record, a line for each part."""
    lines = [f"record regions {len(record.regions)} entry {record.entry} test {record.test} " f"constants {joined(record.constants)}"]
    for number, region in enumerate(record.regions):
        lines.append(f"region {number} in {joined(region.inputs)} limit {region.limit}")
        index = 0
        for block in region.blocks:
            items = []
            for inst in block:
                items.append(f"{number}.{index}/{inst.opcode}/{inst.type}/{inst.cost}/" f"{values_text(inst.reads)}")
                index += 1
            lines.append(f"block {joined(items)}")
        values, targets = values_text(region.values), joined(region.targets)
        lines.append(
            (
                "unreachable",
                f"return {values}",
                f"exit {region.opcode} {values}",
                f"branch to {targets}",
                f"select bool {values} to {targets}",
                f"select num {values} to {targets}",
            )[region.kind]
        )
        for target, passed in region.passed.items():
            lines.append(f"pass {target} in {values_text(passed)}")
        lines.append(f"exits {joined(region.exits)}")
    return "".join(line + "\n" for line in lines)
