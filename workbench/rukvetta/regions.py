"""One region of a source: its inputs, blocks, terminator, passed values and exits."""

from __future__ import annotations

from typing import Any, TypeVar

from . import record as r
from .faults import Fault, Gathered
from .names import Names, Opcode, decimal, number
from .recovery import Draft
from .syntax import trees

TERMINATORS = {"unreachable": r.UNREACHABLE, "return_": r.RETURN, "exit_": r.EXIT, "branch": r.BRANCH, "select": None}
ANY = r.UNDEFINED, 0, 1  # stands for a value that is at fault
Items = TypeVar("Items", bound=list)


def within(items: Items, allowed: tuple[int, int], at: Any, what: str) -> Items:
    """A list, if document 01 allows that many."""
    least, most = allowed
    if not least <= len(items) <= most:
        found = what.removesuffix("s") if len(items) == 1 else what
        raise Fault.at(at, f"found {len(items)} {found}, expected {least}" + f" to {most}" * (least < most))
    return items


class RegionReader:
    """Reads the tree of one region; its faults are gathered."""

    def __init__(self, names: Names, place: int, tree: Any, gathered: Gathered, draft: Draft) -> None:
        self.names, self.place, self.tree, self.gathered, self.draft = names, place, tree, gathered, draft
        self.own: dict[str, r.Value] = {}  # the region's own values by name
        self.count = 0  # instructions so far
        self.wants_exits: bool | None = None  # True for `exits auto`, False for a list, None for no line
        self.has_limit = False
        self.made = r.Region([], [], 1, r.UNREACHABLE, lines={"region": tree.meta.line})

    def region(self) -> r.Region:
        _, inputs, limit, *parts = self.tree.children
        self.has_limit = limit is not None
        with self.gathered.told():
            if limit:
                self.made.limit = number(limit, r.LIMIT, "limit")
        for part in trees(inputs):
            self.input(*part.children)
        self.held(self.made.inputs, r.INPUTS, self.tree.meta, "inputs")
        for part in filter(None, parts):
            with self.gathered.told():
                self.part(part)
        self.held(self.made.blocks, r.BLOCKS, self.tree.meta, "blocks")
        return self.made

    def part(self, part: Any) -> None:
        if part.data in TERMINATORS:
            self.made.lines["terminator"] = part.meta.line
        getattr(self, part.data)(part)

    def input(self, name: Any, given: Any) -> None:
        with self.gathered.told():
            if name:
                self.names.name_value(self.own, name, (r.INPUT, self.place, len(self.made.inputs)))
        self.made.inputs.append(1)
        with self.gathered.told():
            self.made.inputs[-1] = self.names.type(given)

    def held(self, items: Items, allowed: tuple[int, int], at: Any, what: str) -> Items:
        """A list; one of another length than is allowed is told."""
        with self.gathered.told():
            within(items, allowed, at, what)
        return items

    def patched(self) -> bool:
        """Whether a line of this region did not parse."""
        return any(self.tree.meta.line <= line <= self.draft.number(self.tree.meta.end_line) for line in self.draft.patched)

    # Values and regions.

    def values(self, tree: Any, allowed: tuple[int, int], what: str) -> list[r.Value]:
        """The values of a list: none where it is left out or `-`."""
        values = [self.value(part) for part in trees(tree)]
        return self.held(values, allowed, tree.meta, what) if values else []

    def value(self, tree: Any) -> r.Value:
        with self.gathered.told():
            return self.names.value(tree, self.own, self.names.region_name(self.place))
        return ANY

    def pass_to(self, reference: Any, values: list[r.Value]) -> int:
        """Note what a target gets; a target named twice gets the same."""
        target = self.names.region(reference)
        if self.made.passed.setdefault(target, values) != values:
            raise Fault.at(
                reference.meta,
                f"found other values for region {target} than before, expected the same: " "a region passes each target one list",
            )
        self.made.lines.setdefault(("pass", target), reference.meta.line)
        return target

    # Blocks.

    def block(self, tree: Any) -> None:
        block = [self.instruction(part.meta, *part.children) for part in tree.children]
        self.made.blocks.append(self.held(block, r.INSTRUCTIONS, tree.meta, "instructions in a block"))

    loose = block

    def instruction(self, at: Any, name: Any, code: Any, reads: Any, given: Any, cost: Any) -> r.Instruction:
        opcode, known = Opcode(0, 1, 0), False
        with self.gathered.told():
            opcode, known = self.names.opcode(code), True
        result, dear = 1 if given else opcode.type, 0
        with self.gathered.told():
            result = self.names.type(given) if given else result
        with self.gathered.told():
            dear = self.cost(code.children[0], opcode, cost)
        values = self.values(reads, r.READS, "values read")
        if name:
            self.named(name, result or not known)
        self.count += 1
        return r.Instruction(opcode.number, result, dear, values, at.line)

    def cost(self, code: Any, opcode: Opcode, given: Any) -> int:
        """An instruction's own cost, or its opcode's, or the source's default."""
        if given:
            return number(given, r.WORD, "cost")
        dear = self.names.default_cost if opcode.cost is None else opcode.cost
        if dear is None:
            raise Fault.at(
                code,
                f"found `{code}` without a cost, expected `cost N` behind the instruction or in the opcode's "
                "definition, or `default cost 0` once in the source",
            )
        return dear

    def named(self, name: Any, result: bool | int) -> None:
        """Name an instruction's output."""
        with self.gathered.told():
            self.names.name_value(self.own, name, (r.INSTRUCTION, self.place, self.count))
        if not result:
            with self.gathered.told():
                raise Fault.at(name, f"found `{name} =` before an instruction without a type, expected `: TYPE` after it")

    def listed_block(self, tree: Any) -> None:
        """A block as `show` prints it: items of region.index/opcode/type/cost/reads."""
        block = []
        for item, reads in zip(tree.children[::2], tree.children[1::2]):
            place, *fields, _ = item.lstrip(",").split("/")
            with self.gathered.told():
                if place != f"{self.place}.{self.count}":
                    raise Fault.at(item, f"found the item {place}, expected {self.place}.{self.count}: region and place")
                for digits, (_, most) in zip(fields, (r.WORD, r.RESULT, r.WORD)):
                    if decimal(digits) > most:
                        raise Fault.at(item, f"found {digits} in an item, expected up to {most}")
            values = self.values(reads.children[0], r.READS, "values read")
            code, given, dear = map(decimal, fields)
            block.append(r.Instruction(code, given, dear, values, item.line))
            self.count += 1
        self.made.blocks.append(self.held(block, r.INSTRUCTIONS, tree.meta, "instructions in a block"))

    # Terminators, passed values, exits.

    def unreachable(self, tree: Any) -> None:
        pass

    def return_(self, tree: Any) -> None:
        self.made.kind = r.RETURN
        self.made.values = self.values(tree.children[1], r.VALUES[r.RETURN], "values")

    def exit_(self, tree: Any) -> None:
        _, code, values = tree.children
        self.made.kind = r.EXIT
        with self.gathered.told():
            self.made.opcode = self.names.opcode(code).number
        self.made.values = self.values(values, r.VALUES[r.EXIT], "values")

    def branch(self, tree: Any) -> None:
        self.made.kind = r.BRANCH
        self.targets(tree.children[1:], tree)

    def select(self, tree: Any) -> None:
        _, kind, test, *targets = tree.children
        self.made.kind = r.SELECT_BOOL if kind.children[0] == "bool" else r.SELECT_NUM
        self.made.values = [self.value(test)]
        self.targets(targets, tree)

    def targets(self, targets: list[Any], tree: Any) -> None:
        self.held(targets, r.TARGETS[self.made.kind], tree.meta, "targets")
        for target in targets:
            reference, values = target.children
            passed = self.values(values, r.INPUTS, "values passed")
            with self.gathered.told():
                self.made.targets.append(self.names.region(reference))
                if values:
                    self.pass_to(reference, passed)

    def pass_(self, tree: Any) -> None:
        reference, values = tree.children
        target = self.pass_to(reference, self.values(values, r.INPUTS, "values passed"))
        if target not in self.made.targets and not self.patched():
            raise Fault.at(reference.meta, f"found region {target}, expected a target of this region")

    def exits(self, tree: Any) -> None:
        self.made.lines["exits"] = tree.meta.line
        self.wants_exits = not tree.children
        self.made.exits = self.held([self.names.region(part) for part in trees(tree)], r.EXITS, tree.meta, "exits")
