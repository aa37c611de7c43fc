"""Nesting: Structurizer of cfg.rs on a record, with the mark of document 01 (9).

A set of deferred edges is a list of Edge: none is Unreachable, one is Always (its condition
is T), more are a Choice. A condition is T, F, U or a Merge of a select's cases.
"""

from collections.abc import Callable, Iterable, Sequence
from dataclasses import dataclass, field

from .record import BOOL, BRANCH, CONST, EXIT, FALSE, HELD, IF, INPUT, OUTPUT, RETURN, SWITCH, TRUE, UNDEF, Inst, Record, Value
from .store import Refused

TO_RETURN = 65535  # the deferred target Return
T, F, U = "t", "f", "u"
PLAIN = {T: TRUE, F: FALSE, U: (UNDEF, 0, 1)}
NEW, BEGUN, READY, CLAIMED = range(4)  # states of a region


@dataclass(eq=False, slots=True)
class Merge:
    """A condition by the cases of a select."""

    node: int
    parts: "list[Condition]"


Condition = str | Merge


@dataclass(eq=False, slots=True)
class Edge:
    """A deferred edge bundle."""

    target: int
    count: int
    inputs: Sequence[Value]
    condition: Condition = T


@dataclass(eq=False, slots=True)
class Case:
    """A claimed region with its inputs and set, or (body None) a set alone."""

    body: int | None
    inputs: Sequence[Value]
    edges: list[Edge]


@dataclass(eq=False, slots=True)
class Nested:
    """A region of the nested form."""

    inputs: list[int]
    kids: list[int] = field(default_factory=list)
    outs: list[Value] = field(default_factory=list)


@dataclass(eq=False, slots=True)
class Block:
    """Instructions of a region from place `first` on; `reads` for each of them."""

    region: int
    first: int
    insts: list[Inst]
    reads: list[list[Value]] = field(init=False)

    def __post_init__(self) -> None:
        self.reads = [inst.reads for inst in self.insts]


@dataclass(eq=False, slots=True)
class Select:
    """A select; the types of its outputs come as they are made."""

    kind: int
    value: Value
    cases: list[int]
    types: list[int] = field(default_factory=list)


@dataclass(eq=False, slots=True)
class Loop:
    """A loop: first inputs, body region, repeat value."""

    first: list[Value]
    body: int
    repeat: Value


@dataclass(eq=False, slots=True)
class Exit:
    """An exit with its opcode and values."""

    opcode: int
    values: Sequence[Value]


Node = Block | Select | Loop | Exit


def incoming_counts(record: Record) -> list[int]:
    """The number of edges into each region from regions in reach, exit lists included."""
    counts, todo, reached = [0] * len(record.regions), [record.entry], {record.entry}
    counts[record.entry] = 1
    while todo:
        region = record.regions[todo.pop()]
        for target in region.targets:
            counts[target] += 1
            if target not in reached:
                reached.add(target)
                todo.append(target)
        for target in region.exits:
            counts[target] += 1
    return counts


def as_set(edges: list[Edge]) -> list[Edge]:
    """A set of one has no condition."""
    if len(edges) == 1:
        edges[0].condition = T
    return edges


class Nesting:
    """The nesting state; `returned` are the types of the record's Return regions."""

    def __init__(self, record: Record, returned: list[int] | None) -> None:
        self.record, self.returned = record, returned
        self.counts = incoming_counts(record)
        self.states = [NEW] * len(record.regions)
        self.back = [0] * len(record.regions)  # backedge counts of Ready regions
        self.sets: list[list[Edge]] = [[]] * len(record.regions)  # and their deferred edges
        self.rewrites: dict[int, Sequence[Value]] = {}  # region: the value that takes the place of each input
        self.attempts = self.twice = self.outputs = self.conditions = 0
        self.regions = [Nested(list(r.inputs)) for r in record.regions]
        self.nodes: list[Node] = []
        for number, region in enumerate(record.regions):
            first = 0
            for insts in region.blocks:
                self.regions[number].kids.append(len(self.nodes))
                self.nodes.append(Block(number, first, insts))
                first += len(insts)

    # Definitions, each within its limit.

    def within(self, defined: int, most: int) -> None:
        if defined == most:
            raise Refused(9)

    def new_region(self) -> int:
        self.within(len(self.regions), 128)
        self.regions.append(Nested([]))
        return len(self.regions) - 1

    def new_node(self, node: Node, parent: int) -> int:
        self.within(len(self.nodes), 512)
        self.nodes.append(node)
        self.regions[parent].kids.append(len(self.nodes) - 1)
        return len(self.nodes) - 1

    def new_output(self, number: int, type: int, values: Iterable[Value]) -> Value:
        """Another output of a select, with a value for each case."""
        self.within(self.outputs, 512)
        self.outputs += 1
        select = self.nodes[number]
        for case, value in zip(select.cases, values):
            self.regions[case].outs.append(value)
        select.types.append(type)
        return OUTPUT, number, len(select.types) - 1

    def new_merge(self, node: int, parts: list[Condition]) -> Merge:
        self.within(self.conditions, 512)
        self.conditions += 1
        return Merge(node, parts)

    # Values.

    def look_up(self, value: Value) -> Value:
        """The value after all replacements; a renumbered input is held and stays."""
        while value[0] == INPUT and value[1] in self.rewrites:
            new = self.rewrites[value[1]][value[2]]
            if new[0] == HELD and new[1] == value[1]:  # renumbered here and now
                return new
            value = new
        if value[0] == HELD and self.rewrites[value[1]][value[2]] != value:
            self.twice = 1  # looking it up once more would change it
        return value

    def look_up_all(self, values: Iterable[Value]) -> list[Value]:
        return [self.look_up(value) for value in values]

    # The Structurizer's functions.

    def claim(self, target: int, count: int, inputs: Sequence[Value]) -> Case | None:
        """try_claim_edge_bundle: the claimed Case, or None if the bundle has to wait."""
        self.attempts += 1
        if self.states[target] == NEW:
            self.structurize(target)
        state = self.states[target]
        assert state != CLAIMED, f"region {target} is claimed twice"
        back = self.back[target] if state == READY else 0
        if self.counts[target] != count + back:
            return None
        assert state != BEGUN, f"region {target} is claimed while it is in progress"

        self.states[target] = CLAIMED
        edges = self.sets[target]
        if back == 0:
            return Case(target, inputs, edges)

        # Split out the backedge by swap, and make the loop in a region around it.
        place = [edge.target for edge in edges].index(target)
        backedge = edges[place]
        edges[place] = edges[-1]
        edges = as_set(edges[:-1])
        wrapper = self.new_region()
        body = self.regions[target]
        types, body.inputs = body.inputs, []
        first: list[Value] = []
        rewrites: list[Value] = []
        for index, value in enumerate(self.look_up_all(backedge.inputs)):
            outer = (INPUT, wrapper, index)
            if value == (INPUT, target, index):
                rewrites.append(outer)
            else:
                rewrites.append((HELD, target, len(first)))
                first.append(outer)
                body.inputs.append(types[index])
                body.outs.append(value)
        self.rewrites[target] = rewrites
        repeat = self.materialize(backedge.condition)
        self.regions[wrapper].inputs = types
        self.new_node(Loop(first, target, repeat), wrapper)
        for edge in edges:
            if edge.target in self.record.regions[target].exits:
                edge.count += 1
        return Case(wrapper, inputs, edges)

    def structurize(self, number: int) -> None:
        """structurize_region: nest all that a region owns into it; it becomes Ready."""
        self.states[number] = BEGUN
        region = self.record.regions[number]
        cases = []
        for target in region.targets:
            inputs = region.passed[target]
            case = self.claim(target, 1, inputs)
            if case is None:
                trivial = self.states[target] == READY and not self.sets[target] and not self.regions[target].kids
                case = Case(None, (), [] if trivial else [Edge(target, 1, inputs)])
            cases.append(case)

        if region.kind == BRANCH:
            edges = self.append(number, cases[0])
        elif region.kind in (IF, SWITCH):
            edges = self.select(number, region.kind, lambda: region.values[0], cases)
        elif region.kind == RETURN:
            edges = [Edge(TO_RETURN, 0, region.values)]
        else:
            if region.kind == EXIT:
                self.new_node(Exit(region.opcode, region.values), number)
            edges = []

        # Take in the first deferred target that can be claimed, until there is none.
        place = 0
        while place < len(edges):
            edge = edges[place]
            then = None
            if edge.target != TO_RETURN:
                then = self.claim(edge.target, edge.count, edge.inputs)
            if then is None:
                place += 1
                continue
            rest = as_set(edges[:place] + edges[place + 1 :])
            edges = self.select(number, IF, lambda: self.materialize(edge.condition), [then, Case(None, (), rest)])
            place = 0

        self.states[number], self.sets[number] = READY, edges
        self.back[number] = sum(edge.count for edge in edges if edge.target == number)

    def select(self, parent: int, kind: int, scrutinee: Callable[[], Value], cases: list[Case]) -> list[Edge]:
        """structurize_select_into: append a select if one is needed; answer the merged set."""
        live = [place for place, case in enumerate(cases) if case.edges]
        if len(live) == 1:
            sole = cases[live[0]]
            cases[live[0]] = Case(None, (), [])
            self.select(parent, kind, scrutinee, cases)
            return self.append(parent, sole)

        made = None

        def node():
            """The select's node, defined when first needed."""
            nonlocal made
            if made is None:
                bodies = [self.new_region() if case.body is None else case.body for case in cases]
                made = self.new_node(Select(kind, scrutinee(), bodies), parent)
            return made

        if any(case.body is not None and self.regions[case.body].kids for case in cases):
            node()

        totals: dict[int, int] = {}
        for case in cases:
            case.inputs = self.look_up_all(case.inputs)
            for edge in case.edges:
                totals[edge.target] = totals.get(edge.target, 0) + edge.count
                edge.inputs = self.look_up_all(edge.inputs)

        merged = []
        for target, count in totals.items():
            found = [next((edge for edge in case.edges if edge.target == target), None) for case in cases]
            inputs = [
                self.merged_input(node, target, place, cases, [edge and edge.inputs[place] for edge in found])
                for place in range(len(next(filter(None, found)).inputs))
            ]
            parts = [edge.condition if edge else F if case.edges else U for case, edge in zip(cases, found)]
            if all(part is T or part is U for part in parts):
                condition = T
            else:
                condition = self.new_merge(node(), parts)
            merged.append(Edge(target, count, inputs, condition))

        for case in cases:
            if case.inputs:
                self.rewrites[case.body] = case.inputs
                self.regions[case.body].inputs = []
        return as_set(merged)

    def type_of_input(self, target: int, place: int, values: Sequence[Value | None]) -> int:
        return (self.returned if target == TO_RETURN else self.record.regions[target].inputs)[place]

    def merged_input(self, node: Callable[[], int], target: int, place: int, cases: list[Case], values: Sequence[Value | None]) -> Value:
        """One passed value out of the cases that pass it: the same in all, or an output."""
        outside = set()  # the values as seen outside the cases; None is seen only inside
        for case, value in zip(cases, values):
            if value is not None:
                if case.body is None or value[0] in (CONST, BOOL, UNDEF):
                    outside.add(value)
                elif value[0] == INPUT and value[1] == case.body:
                    outside.add(case.inputs[value[2]])
                else:
                    outside.add(None)
        if len(outside) == 1 and None not in outside:
            return outside.pop()
        type = self.type_of_input(target, place, values)
        return self.new_output(node(), type, [value or (UNDEF, 0, type) for value in values])

    def materialize(self, condition: Condition) -> Value:
        """materialize_lazy_cond: the value of a condition, a new output if need be."""
        if condition in PLAIN:
            return PLAIN[condition]
        values = [self.materialize(part) for part in condition.parts]
        select = self.nodes[condition.node]
        if select.kind == IF and values == [TRUE, FALSE]:
            return select.value
        return self.new_output(condition.node, 1, values)

    def append(self, parent: int, case: Case) -> list[Edge]:
        """append_maybe_claimed_region: the claimed region's children go to the parent."""
        if case.body is not None:
            if case.inputs:
                self.rewrites[case.body] = case.inputs
            self.regions[parent].kids += self.regions[case.body].kids
            self.regions[case.body].kids = []
        return case.edges
