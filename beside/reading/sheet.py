"""The result of nesting: outcome, last rewriting, figure; the sheet as words and as text (10, 11)."""

from collections.abc import Iterator, Sequence
from typing import Any

from .nesting import READY, TO_RETURN, Block, Condition, Edge, Loop, Merge, Nesting, Select
from .record import HELD, IF, INPUT, Inst, Record, Value, joined, list_words, read, refer, value_text, values_text
from .store import Refused, payload

UNTOUCHED, WHOLE, CLOSED, LEFTOVER = range(4)  # outcomes, in the order of document 01
OUTCOMES = "untouched", "whole", "closed", "leftover"

Line = tuple[Any, ...]  # its lead, its number, and its fields
Item = tuple[int, int, Inst, list[Value]]  # of a block: region, place, instruction, reads


class Result:
    """`roots` are the regions that are printed with all below them, `deferred` their sets."""

    def __init__(self, outcome: int, nesting: Nesting, roots: Sequence[int] = (), deferred: Sequence[tuple[int, list[Edge]]] = ()) -> None:
        self.outcome, self.roots, self.deferred = outcome, roots, deferred
        self.figure: int | None = None
        self.attempts, self.twice = nesting.attempts, nesting.twice
        self.regions, self.nodes, self.record = nesting.regions, nesting.nodes, nesting.record


def nest(nesting: Nesting) -> Result:
    """The result of a nesting not yet begun. Refusals 9 and 11."""
    entry = nesting.record.entry
    if nesting.counts[entry] != 1:
        return Result(UNTOUCHED, nesting)
    edges = nesting.claim(entry, 1, []).edges
    roots, deferred = [entry], []
    if not edges:
        outcome = CLOSED
    elif len(edges) == 1 and edges[0].target == TO_RETURN:
        outcome = WHOLE
        nesting.regions[entry].outs = edges[0].inputs
    else:
        outcome = LEFTOVER
        roots += [r for r, state in enumerate(nesting.states) if state == READY]
        deferred = [(r, edges if r == entry else nesting.sets[r]) for r in sorted(roots)]
    for root in roots:
        rewrite(nesting, root)
    for _, edges in deferred:
        for edge in edges:
            edge.inputs = nesting.look_up_all(edge.inputs)
    result = Result(outcome, nesting, roots, deferred)
    if outcome in (WHOLE, CLOSED):
        result.figure = figure(result, entry)
        if result.figure > 4294967295:
            raise Refused(11)
    return result


def rewrite(nesting: Nesting, number: int) -> None:
    """The last rewriting of a region and all below it."""
    region = nesting.regions[number]
    for kid in region.kids:
        node = nesting.nodes[kid]
        if isinstance(node, Block):
            node.reads = [nesting.look_up_all(reads) for reads in node.reads]
        elif isinstance(node, Select):
            node.value = nesting.look_up(node.value)
            for case in node.cases:
                rewrite(nesting, case)
        elif isinstance(node, Loop):
            node.first = nesting.look_up_all(node.first)
            rewrite(nesting, node.body)
            node.repeat = nesting.look_up(node.repeat)
        else:
            node.values = nesting.look_up_all(node.values)
    region.outs = nesting.look_up_all(region.outs)


def figure(result: Result, number: int) -> int:
    """The most a region can cost within the turn limits."""
    total = 0
    for kid in result.regions[number].kids:
        node = result.nodes[kid]
        if isinstance(node, Block):
            total += sum(inst.cost for inst in node.insts)
        elif isinstance(node, Select):
            total += result.record.test + max(figure(result, case) for case in node.cases)
        elif isinstance(node, Loop):
            limit = result.record.regions[node.body].limit
            total += limit * (figure(result, node.body) + result.record.test)
    return total


# The sheet. A line is its leading word and its fields.

REGION, BLOCK, SELECT, LOOP, EXIT, DEFER = range(6)


def lines(result: Result, number: int) -> Iterator[Line]:
    """The lines of a region and of all below it."""
    region = result.regions[number]
    yield REGION, number, region.inputs, region.kids, region.outs
    for kid in region.kids:
        node = result.nodes[kid]
        if isinstance(node, Block):
            yield BLOCK, kid, node
        elif isinstance(node, Select):
            yield SELECT, kid, node
            for case in node.cases:
                yield from lines(result, case)
        elif isinstance(node, Loop):
            yield LOOP, kid, node
            yield from lines(result, node.body)
        else:
            yield EXIT, kid, node


def all_lines(result: Result) -> Iterator[Line]:
    for root in result.roots:
        yield from lines(result, root)
    for number, edges in result.deferred:
        for edge in edges:
            yield DEFER, number, edge


def one(item: int) -> list[int]:
    return [item]


def value_words(value: Value) -> list[int]:
    return [INPUT if value[0] == HELD else value[0], *value[1:]]


def condition_words(condition: Condition) -> list[int]:
    if isinstance(condition, Merge):
        return [4, condition.node, *list_words(condition.parts, condition_words)]
    return [1 + "tfu".index(condition)]


def item_words(item: Item) -> list[int]:
    """A block's item: region, place, instruction, reads."""
    region, place, inst, reads = item
    return [region, place, inst.opcode, inst.type, *list_words(reads, value_words)]


def items(block: Block) -> list[Item]:
    return [(block.region, block.first + k, inst, reads) for k, (inst, reads) in enumerate(zip(block.insts, block.reads))]


def line_words(lead: int, number: int, of: Any, *rest: Any) -> list[int]:
    if lead == REGION:
        kids, outs = rest
        fields = [*list_words(of, one), *list_words(kids, one), *list_words(outs, value_words)]
    elif lead == BLOCK:
        fields = list_words(items(of), item_words)
    elif lead == SELECT:
        fields = [int(of.kind != IF), *value_words(of.value), *list_words(of.cases, one), *list_words(of.types, one)]
    elif lead == LOOP:
        fields = [*list_words(of.first, value_words), of.body, *value_words(of.repeat)]
    elif lead == EXIT:
        fields = [of.opcode, *list_words(of.values, value_words)]
    else:
        fields = [of.target, of.count, *list_words(of.inputs, value_words), *condition_words(of.condition)]
    return [lead, number, *fields]


def words(result: Result, lent: int = 16384) -> list[int]:
    """The sheet's words, or 10 if fewer are lent."""
    sheet = [result.outcome, result.figure or 0, result.attempts, result.twice]
    for line in all_lines(result):
        sheet += line_words(*line)
    if len(sheet) > lent:
        raise Refused(10)
    return sheet


def condition_text(condition: Condition) -> str:
    if isinstance(condition, Merge):
        return f"m{condition.node}[{joined(map(condition_text, condition.parts))}]"
    return condition


def line_text(lead: int, number: int, of: Any, *rest: Any) -> str:
    if lead == REGION:
        kids, outs = rest
        return f"region {number} in {joined(of)} kids {joined(kids)} out {values_text(outs)}"
    if lead == BLOCK:
        return f"block {number} " + joined(
            f"{region}.{place}/{inst.opcode}/{inst.type}/{values_text(reads)}" for region, place, inst, reads in items(of)
        )
    if lead == SELECT:
        return (
            f"select {number} {'bool' if of.kind == IF else 'num'} {value_text(of.value)} "
            f"cases {joined(of.cases)} out {joined(of.types)}"
        )
    if lead == LOOP:
        return f"loop {number} in {values_text(of.first)} body {of.body} " f"repeat {value_text(of.repeat)}"
    if lead == EXIT:
        return f"exit {number} {of.opcode} in {values_text(of.values)}"
    target = "return" if of.target == TO_RETURN else of.target
    return f"defer {number} to {target} count {of.count} in {values_text(of.inputs)} " f"if {condition_text(of.condition)}"


def text(result: Result) -> str:
    """The sheet's lines."""
    most = "-" if result.figure is None else result.figure
    head = f"{OUTCOMES[result.outcome]} figure {most} attempts {result.attempts} " f"twice {result.twice}\n"
    return head + "".join(line_text(*line) + "\n" for line in all_lines(result))


def accepted(store: bytes) -> tuple[Record, list[int] | None]:
    """The record of a store and the types it returns, or a refusal 1 to 8."""
    record = read(payload(store))
    return record, refer(record)


def printed(store: bytes, lent: int = 16384) -> str:
    """What the program prints for a store."""
    try:
        result = nest(Nesting(*accepted(store)))
        words(result, lent)
        return text(result)
    except Refused as refused:
        return f"{refused}\n"
