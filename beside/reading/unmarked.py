"""The reading without the mark and the limits: the Rust's own answers, its panics included."""

from collections.abc import Sequence

from .nesting import TO_RETURN, Nesting
from .record import BOOL, CONST, HELD, INPUT, INSTR, OUTPUT, Value


class Panic(Exception):
    """The Rust would panic here."""


class Unmarked(Nesting):
    """Nesting without the mark and the limits."""

    def within(self, defined: int, most: int) -> None:
        pass

    def look_up(self, value: Value) -> Value:
        """As in the Rust: a renumbered input is an input like any other."""
        while value[0] == INPUT and value[1] in self.rewrites:
            new = self.rewrites[value[1]][value[2]]
            if new[0] == HELD:
                return INPUT, *new[1:]
            value = new
        return value

    def type_of_input(self, target: int, place: int, values: Sequence[Value | None]) -> int:
        """The Rust takes the type of a returned value from the values as they stand."""
        if target != TO_RETURN:
            return super().type_of_input(target, place, values)
        types = {self.type_now(value) for value in values if value}
        if len(types) != 1:
            raise Panic("mismatched `return`ed value types")
        return types.pop()

    def type_now(self, value: Value) -> int:
        kind, region, index = value
        if kind == INPUT:
            return self.regions[region].inputs[index]
        if kind == INSTR:
            return self.record.regions[region].insts[index].type
        if kind == OUTPUT:
            return self.nodes[region].types[index]
        return self.record.constants[index] if kind == CONST else 1 if kind == BOOL else index
