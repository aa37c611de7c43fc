"""Searches the smallest record (by regions, then words) that the Rust nests wrongly, or panics on.

    python3 -m generate.smallest SEED COUNT

The Rust is the reading without the mark, which compare.py holds beside it. Each find among
COUNT random records is made smaller step by step while the fault stays.
"""

import copy
import random
from collections.abc import Callable, Iterator

from reading.nesting import Nesting
from reading.record import (
    BRANCH,
    EXIT,
    FALSE,
    IF,
    INPUT,
    INSTR,
    RETURN,
    SWITCH,
    TRUE,
    UNDEF,
    UNREACHABLE,
    Record,
    Value,
    refer,
    show,
    words_of,
)
from reading.runs import differs, rule
from reading.sheet import CLOSED, WHOLE, nest, text
from reading.store import Refused, pack
from reading.unmarked import Panic, Unmarked
from .arguments import arguments, whole
from .claims import words
from .records import record

Fault = None | str | tuple[str, int]  # "panic", or what is wrong and the seed of the run


def fault(made: Record) -> Fault:
    """ "panic", or the run that goes wrong in the Rust's nested form, or None."""
    try:
        returned = refer(made)
        state = Nesting(made, returned)
        nest(state)
        if not state.twice:
            return None
        result = nest(Unmarked(made, returned))
    except Refused:
        return None
    except Panic:
        return "panic"
    if result.outcome in (WHOLE, CLOSED):
        for seed in range(12):
            rng = random.Random(seed)
            given = words(rng, len(made.constants)), words(rng, len(made.regions[made.entry].inputs))
            wrong, _, _ = differs(result, *given, rule(seed), 60)
            if wrong:
                return wrong, seed
    return None


def kind_of(found: Fault) -> str | None:
    return found if found is None or isinstance(found, str) else "wrong"


def size(made: Record) -> tuple[int, int, int]:
    """Regions, then words, then how plain the words are."""
    flat = words_of(made)
    return len(made.regions), len(flat), sum(flat)


def replaced(made: Record, change: Callable[[Value], Value | None]) -> None:
    """Put another value everywhere `change` answers one (None: keep)."""

    def all(values):
        return [value if change(value) is None else change(value) for value in values]

    for region in made.regions:
        for inst in region.insts:
            inst.reads = all(inst.reads)
        region.values = all(region.values)
        region.passed = {target: all(values) for target, values in region.passed.items()}


def plain_values(type: int) -> list[Value]:
    return [FALSE, TRUE, (UNDEF, 0, 1)] if type == 1 else [(UNDEF, 0, type)]


def without_region(made: Record, gone: int, instead: int) -> None:
    """A region taken out; edges to it go to another, or vanish."""
    for region in made.regions:
        if gone in region.targets:
            region.targets = [instead if t == gone else t for t in region.targets]
            region.passed = {t: region.passed.get(t, region.passed[gone]) for t in region.targets}
        region.exits = [t for t in region.exits if t != gone]
    if made.entry == gone:
        made.entry = instead
    del made.regions[gone]

    def new(number):
        return number - (number > gone)

    made.entry = new(made.entry)
    for region in made.regions:
        region.targets = [new(t) for t in region.targets]
        region.passed = {new(t): values for t, values in region.passed.items()}
        region.exits = [new(t) for t in region.exits]
    replaced(made, lambda v: (v[0], new(v[1]), v[2]) if v[0] in (INPUT, INSTR) else None)


def without_passage(made: Record, gone: int) -> None:
    """An empty region with one target taken out; edges to it go on to its target."""
    ((target, onward),) = made.regions[gone].passed.items()
    for region in made.regions:
        if gone in region.targets:
            if target in region.targets:
                raise ValueError
            given = region.passed[gone]
            region.passed[gone] = [given[v[2]] if v[0] == INPUT else v for v in onward]
            region.passed = {target if t == gone else t: values for t, values in region.passed.items()}
            region.targets = [target if t == gone else t for t in region.targets]
    without_region(made, gone, target)


def smaller(made: Record) -> Iterator[Record]:
    """Records that are a step smaller or plainer; many mean nothing."""

    def step(change, *of):
        one = copy.deepcopy(made)
        try:
            change(one, *of)
        except (IndexError, KeyError, ValueError):
            return
        for region in one.regions:
            region.insts = [inst for block in region.blocks for inst in block]
        yield one

    def drop_inst(one, number, block, place):
        first = sum(map(len, one.regions[number].blocks[:block])) + place
        type = one.regions[number].blocks[block][place].type
        del one.regions[number].blocks[block][place]
        one.regions[number].blocks = [some for some in one.regions[number].blocks if some]
        one.regions[number].insts = [i for some in one.regions[number].blocks for i in some]

        def change(v):
            if v[:2] == (INSTR, number):
                return plain_values(type)[0] if v[2] == first else (*v[:2], v[2] - (v[2] > first))

        replaced(one, change)

    def drop_input(one, number, place, instead):
        del one.regions[number].inputs[place]
        for region in one.regions:
            if number in region.passed:
                del region.passed[number][place]

        def change(v):
            if v[:2] == (INPUT, number):
                return instead if v[2] == place else (*v[:2], v[2] - (v[2] > place))

        replaced(one, change)

    def drop_constant(one, place, instead):
        del one.constants[place]
        replaced(one, lambda v: (instead if v[2] == place else (0, 0, v[2] - (v[2] > place))) if v[0] == 0 else None)

    def set_values(one, number, place, value):
        one.regions[number].values[place] = value

    def set_passed(one, number, target, place, value):
        one.regions[number].passed[target][place] = value

    def set_kind(one, number, kind, values, targets):
        region = one.regions[number]
        region.kind, region.values, region.targets = kind, values, targets
        region.passed = {t: region.passed[t] for t in targets}

    def set_word(one, *path):
        *path, name, value = path
        for part in path:
            one = one[part] if isinstance(part, int) else getattr(one, part)
        if isinstance(name, int):
            one[name] = value
        else:
            setattr(one, name, value)

    count = len(made.regions)
    for number, region in enumerate(made.regions):
        for instead in range(count):
            if instead != number:
                yield from step(without_region, number, instead)
        if region.kind == BRANCH and not region.insts:
            yield from step(without_passage, number)
        for kind in (UNREACHABLE, RETURN):
            yield from step(set_kind, number, kind, [], [])
        for target in dict.fromkeys(region.targets):
            yield from step(set_kind, number, BRANCH, [], [target])
        if region.kind == SWITCH:
            for place in range(len(region.targets)):
                rest = region.targets[:place] + region.targets[place + 1 :]
                yield from step(set_kind, number, SWITCH, region.values, rest)
            if len(region.targets) == 2:
                yield from step(set_kind, number, IF, region.values, region.targets)
        if region.kind in (RETURN, EXIT) and region.values:
            for place in range(len(region.values)):
                rest = region.values[:place] + region.values[place + 1 :]
                yield from step(set_word, "regions", number, "values", rest)
        if region.kind == RETURN:
            yield from step(set_kind, number, EXIT, region.values, [])
        for block, insts in enumerate(region.blocks):
            for place, inst in enumerate(insts):
                yield from step(drop_inst, number, block, place)
                yield from step(set_word, "regions", number, "blocks", block, place, "reads", [])
                for name in "opcode", "cost":
                    yield from step(set_word, "regions", number, "blocks", block, place, name, 0)
                yield from step(set_word, "regions", number, "blocks", block, place, "type", 1)
        if len(region.blocks) > 1:
            yield from step(set_word, "regions", number, "blocks", [region.insts])
        own = [(INPUT, number, k) for k in range(len(region.inputs))]
        for place, type in enumerate(region.inputs):
            for instead in plain_values(type) + own[:place] + [(INPUT, number, place)]:
                yield from step(drop_input, number, place, instead)
            if type != 1:
                yield from step(set_word, "regions", number, "inputs", place, 1)
        for place in range(len(region.exits)):
            rest = list(region.exits[:place]) + list(region.exits[place + 1 :])
            yield from step(set_word, "regions", number, "exits", rest)
        choices = [FALSE, TRUE, (UNDEF, 0, 1), (UNDEF, 0, 2), *own]
        for place in range(len(region.values)):
            for value in choices:
                yield from step(set_values, number, place, value)
        for target, values in region.passed.items():
            for place in range(len(values)):
                for value in choices:
                    yield from step(set_passed, number, target, place, value)
        yield from step(set_word, "regions", number, "limit", 1)
        yield from step(set_word, "regions", number, "opcode", 0)
    for place, type in enumerate(made.constants):
        for instead in plain_values(type):
            yield from step(drop_constant, place, instead)
    yield from step(set_word, "test", 0)
    types = sorted({t for region in made.regions for t in region.inputs} - {1, 2})
    for type in types:
        one = copy.deepcopy(made)
        for region in one.regions:
            region.inputs = [2 if t == type else t for t in region.inputs]
            for inst in region.insts:
                inst.type = 2 if inst.type == type else inst.type
        one.constants = [2 if t == type else t for t in one.constants]
        replaced(one, lambda v: (UNDEF, 0, 2) if v == (UNDEF, 0, type) else None)
        yield one


def shrink(made: Record) -> Record:
    """The smallest record with the same fault that steps lead to."""
    what, going = kind_of(fault(made)), True
    while going:
        going = False
        for one in smaller(made):
            if size(one) < size(made) and kind_of(fault(one)) == what:
                made, going = one, True
                break
    return made


def main(seed: int, count: int) -> None:
    rng = random.Random(seed)
    best: dict[str, Record] = {}
    for _ in range(count):
        made = record(rng, rng.choice((3, 4, 5, 6, 8)))
        what = kind_of(fault(made))
        if what:
            made = shrink(made)
            if what not in best or size(made) < size(best[what]):
                best[what] = made
                print(what, "regions, words, sum:", *size(made), flush=True)
    for what, made in best.items():
        print(f"\n{what}\nstore {pack(words_of(made)).hex()}\n{show(made)}")
        print(fault(made))
        print("with the mark:", text(nest(Nesting(made, refer(made)))), sep="\n")
        if what != "panic":
            print("the Rust:", text(nest(Unmarked(made, refer(made)))), sep="\n")


if __name__ == "__main__":
    main(*arguments(__doc__, whole, whole))
