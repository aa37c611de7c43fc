"""Finds where a record is refused with 6 to 8: which value, target, type or exit, in record order."""

from __future__ import annotations

from . import record as r
from .refusals import Refused, one_of, several


class References:
    def __init__(self, record: r.Record) -> None:
        self.record, self.count = record, len(record.regions)
        self.first_return: tuple[int, list[int]] | None = None  # the first Return region and the types that it returns

    def check(self) -> None:
        if self.record.entry >= self.count:
            raise Refused(6, 0, f"The entry is region {self.record.entry}; {self.regions()} would be allowed.", ("entry",))
        for number in range(self.count):
            self.region(number, self.record.regions[number])

    def regions(self) -> str:
        return "region 0" if self.count == 1 else f"regions 0 to {self.count - 1}"

    def region(self, number: int, region: r.Region) -> None:
        place = 0
        for at, block in enumerate(region.blocks):
            for k, instruction in enumerate(block):
                for read, value in enumerate(instruction.reads):
                    self.type_of(
                        number,
                        value,
                        place,
                        f"reads {r.value_text(value)} (block {at}, instruction {k}, read {read})",
                        ("instruction", number, place),
                    )
                place += 1
        self.terminator(number, region, place)
        for target, values in region.passed.items():
            self.passed(number, target, values, place)
        for k, target in enumerate(region.exits):
            if target >= self.count:
                raise Refused(
                    6,
                    number,
                    f"Region {number} has region {target} in its exit list (exit {k}); " f"{self.regions()} would be allowed.",
                    ("exits", number),
                )
            if target in region.exits[:k]:
                raise Refused(
                    8,
                    number,
                    f"Region {number} has region {target} twice in its exit list (exits "
                    f"{region.exits.index(target)} and {k}); once would be allowed.",
                    ("exits", number),
                )

    def type_of(self, number: int, value: r.Value, before: int, how: str, part: tuple) -> int:
        """The type of a value that is used in a region after so many instructions, or 6."""
        kind, owner, index = value
        region = self.record.regions[number]
        why = None
        if kind in (r.INPUT, r.INSTRUCTION) and owner != number:
            why = f"only region {number}'s own inputs and outputs would be allowed, or a constant"
        elif kind == r.INPUT:
            if index < len(region.inputs):
                return region.inputs[index]
            why = f"it has {several(len(region.inputs), 'input')}; {one_of(f'i{number}.{k}' for k in range(len(region.inputs)))}"
        elif kind == r.INSTRUCTION:
            why = self.no_output(number, index, before)
            if why is None:
                return region.instructions()[index].type
        elif owner != 0:
            why = f"its region word is {owner}, where 0 would be allowed"
        elif kind == r.CONSTANT:
            if index < len(self.record.constants):
                return self.record.constants[index]
            count = len(self.record.constants)
            why = f"the record has {several(count, 'constant')}; {one_of(f'c{k}' for k in range(count))}"
        elif kind == r.BOOLEAN:
            if index <= 1:
                return 1
            why = f"its index is {index}, where 0 (false) or 1 (true) would be allowed"
        else:
            return index
        raise Refused(6, number, f"Region {number} {how}: {why}.", part)

    def no_output(self, number: int, index: int, before: int) -> str | None:
        """Why an instruction's output may not be used after so many instructions, or None."""
        instructions = self.record.regions[number].instructions()
        earlier = one_of(f"d{number}.{k}" for k, instruction in enumerate(instructions[:before]) if instruction.type)
        if index >= len(instructions):
            return f"it has {several(len(instructions), 'instruction')}; {earlier}"
        if index >= before:
            return f"that instruction is no earlier one; {earlier}"
        return f"that instruction has type 0 and no output; {earlier}" if instructions[index].type == 0 else None

    def terminator(self, number: int, region: r.Region, place: int) -> None:
        part = "terminator", number
        if region.kind == r.RETURN and self.first_return and len(region.values) != len(self.first_return[1]):
            first, types = self.first_return
            raise Refused(
                7,
                number,
                f"Region {number} returns {several(len(region.values), 'value')}, and region {first}, "
                f"the first that returns, {len(types)}; the same number would be allowed.",
                part,
            )
        types = []
        for k, value in enumerate(region.values):
            what = "returns" if region.kind == r.RETURN else "exits with" if region.kind == r.EXIT else "tests"
            types.append(self.type_of(number, value, place, f"{what} {r.value_text(value)} (value {k})", part))
            if region.kind == r.RETURN and self.first_return and types[k] != self.first_return[1][k]:
                raise Refused(
                    7,
                    number,
                    f"Region {number} returns {r.value_text(value)} of type {types[k]} as value {k}; region "
                    f"{self.first_return[0]} returns type {self.first_return[1][k]} there, which would be allowed.",
                    part,
                )
        if region.kind == r.RETURN and not self.first_return:
            self.first_return = number, types
        if region.kind == r.SELECT_BOOL and types[0] != 1:
            raise Refused(
                7,
                number,
                f"Region {number} has a boolean test of {r.value_text(region.values[0])}, which has type "
                f"{types[0]}; type 1 would be allowed.",
                part,
            )
        for k, target in enumerate(region.targets):
            if target >= self.count:
                raise Refused(
                    6, number, f"Region {number} goes to region {target} (target {k}); " f"{self.regions()} would be allowed.", part
                )

    def passed(self, number: int, target: int, values: list[r.Value], place: int) -> None:
        inputs = self.record.regions[target].inputs
        part = ("pass", number, target)
        if len(values) != len(inputs):
            raise Refused(
                7,
                number,
                f"Region {number} passes {several(len(values), 'value')} to region {target}, "
                f"which has {several(len(inputs), 'input')}.",
                part,
            )
        for k, (value, wanted) in enumerate(zip(values, inputs)):
            found = self.type_of(number, value, place, f"passes {r.value_text(value)} to region {target} (value {k})", part)
            if found != wanted:
                raise Refused(
                    7,
                    number,
                    f"Region {number} passes {r.value_text(value)} of type {found} to region {target} "
                    f"as input {k}, which has type {wanted}.",
                    part,
                )


def check_references(record: r.Record) -> None:
    References(record).check()
