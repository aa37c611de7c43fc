"""Makes lists/runs.vectors: records with words and a rule, and both runs of them by the reading.

    python3 -m generate.runs

A vector is a line `store` with the bytes, a line `given` with constants, entry inputs and the
rule's four numbers, the line of the graph's run, that of the nested one, and a dot. Records
are drawn until what is watched for stands in as many vectors as are wanted.
"""

import collections
import pathlib
import random
from collections.abc import Iterable, Iterator
from dataclasses import dataclass
from typing import Any

from reading.nesting import Block, Loop, Nesting, Select
from reading.record import (
    BRANCH,
    CONST,
    EXIT,
    FALSE,
    HELD,
    IF,
    INPUT,
    INSTR,
    OUTPUT,
    SWITCH,
    TRUE,
    UNDEF,
    Inst,
    Record,
    Value,
    joined,
    refer,
    words_of,
)
from reading.runs import End, Event, NestedRun, Rule, Word, graph_run
from reading.sheet import CLOSED, OUTCOMES, WHOLE, Result, nest
from reading.store import Refused, pack
from . import shapes
from .arguments import arguments
from .records import record
from .stores import plain

Numbers = tuple[int, int, int, int]  # of a rule

SEED, BUDGET, WORD = 11, 256, 1 << 32
MOST, EACH = 400, 12  # vectors without those of `entry_inputs`, and for each feature
EVENTS, TURNS = 40, 60  # at most, of what is drawn
DRAWS, RUNS = 15000, 8  # records, and runs of each
LISTS = pathlib.Path(__file__).resolve().parents[1] / "lists"


class Long(Exception):
    """A run that would take the checker long."""


# What a run is written as.


def words_text(words: Iterable[Word]) -> str:
    return joined("u" if word is None else word for word in words)


def events_text(events: Iterable[Event]) -> str:
    return ";".join(f"{region}.{place}/{opcode}/{words_text(reads)}" for region, place, opcode, reads in events) or "-"


def end_text(end: End) -> str:
    if end[0] == "return":
        return f"returned {words_text(end[1])}"
    return f"exited {end[1]} {words_text(end[2])}"


def graph_line(events: list[Event], end: End) -> str:
    return "graph none" if isinstance(end, str) else f"graph {end_text(end)} {events_text(events)}"


def nested_line(run: NestedRun) -> str:
    if isinstance(run.end, str):
        return "nested none"
    return f"nested {end_text(run.end)} {events_text(run.events)} cost {run.cost} over {int(run.late)}"


# What is watched for.


@dataclass
class Frame:
    """A select or a loop that the run stands in; of a loop its body and the turns begun."""

    body: int | None = None
    turns: int = 0


class Watched(NestedRun):
    """A nested run that notes what it comes upon in `seen`."""

    def __init__(self, result: Result, given: tuple[list[int], list[int]], answer: Rule, seen: set[str], most: int) -> None:
        self.seen, self.turns, self.most = seen, 0, most
        self.inside: list[Frame] = []
        super().__init__(result, *given, answer, BUDGET)

    def loops(self) -> list[Frame]:
        return [frame for frame in self.inside if frame.body is not None]

    def region(self, number: int) -> None:
        if self.inside and self.inside[-1].body == number:
            self.inside[-1].turns += 1
            self.turns += 1
            if self.turns > self.most:
                raise Long
        super().region(number)

    def select(self, number: int, node: Select) -> None:
        self.inside.append(Frame())
        super().select(number, node)
        self.inside.pop()
        if len(node.types) > 1:
            self.seen.add("a select with two outputs")

    def loop(self, loop: Loop) -> None:
        frame = Frame(loop.body)
        self.inside.append(frame)
        depth = len(self.loops())
        if depth > 1:
            self.seen.add("a loop in a loop" if depth == 2 else "a loop in a loop in a loop")
        super().loop(loop)
        self.inside.pop()
        limit = self.result.record.regions[loop.body].limit
        self.seen.add(
            "turns below the limit" if frame.turns < limit else "turns at the limit" if frame.turns == limit else "turns past the limit"
        )
        outs = self.result.regions[loop.body].outs
        if frame.turns > 1 and any(value[0] == HELD and value[1] == loop.body and value[2] < place for place, value in enumerate(outs)):
            self.seen.add("inputs of a loop changed all at once")

    def test(self, kind: int, value: Value, ways: int) -> int:
        word = self.word(value)
        if kind == SWITCH and word is not None:
            self.seen.add("a number " + ("below" if word < ways - 1 else "at" if word == ways - 1 else "past") + " its last place")
        if kind == IF and word and word > 1:
            self.seen.add("a word above 1 that tests true")
        return super().test(kind, value, ways)

    def block(self, block: Block) -> None:
        for reads in block.reads:
            self.seen.update("reads " + self.kind(value) for value in reads)
        if block.first:
            self.seen.add("a second block")
        super().block(block)

    def kind(self, value: Value) -> str:
        """What kind of value is read. An output of the same block may not be there yet."""
        kind, region, index = value
        if kind == INSTR:
            return "an earlier output"
        word = self.word(value)
        if kind == CONST:
            return "a constant near 2^32" if word > WORD - 65536 else "a constant"
        if kind == OUTPUT:
            return "a select's undefined output" if word is None else "a select's output"
        if kind in (INPUT, HELD):
            if region == self.result.record.entry:
                return "an entry input"
            inner = any(frame.body == region for frame in self.inside)
            return "an input of a loop" if inner else "an input of a loop after it"
        return "undefined" if kind == UNDEF else "true" if word else "false"


def linear(numbers: Numbers, seen: set[str] | None = None) -> Rule:
    """The rule of a run vector."""
    a, b, c, d = numbers

    def answer(opcode, reads, before):
        read = sum(place * (1 if word is None else word) for place, word in enumerate(reads, 1))
        whole = a * opcode + b * read + c * before + d
        if seen is not None and whole >= WORD:
            seen.add("an answer taken modulo 2^32")
        return whole % WORD

    return answer


NONE = {"unreachable": "Unreachable", "undefined": "a tested mark", "off": "off the end", "budget": "budget"}


def nested(record: Record) -> Result:
    """The form of a record, if it is whole or closed."""
    result = nest(Nesting(record, refer(record)))
    if result.outcome not in (WHOLE, CLOSED):
        raise Refused(0)
    return result


class Vector:
    """A nested record with words and a rule, both runs, and what was seen in them."""

    def __init__(
        self, result: Result, constants: list[int], inputs: list[int], numbers: Numbers, most: tuple[int, int] = (EVENTS, TURNS)
    ) -> None:
        self.result, self.given, self.numbers = result, (constants, inputs), numbers
        self.seen: set[str] = set()
        self.events, self.end, self.steps = graph_run(result.record, *self.given, linear(numbers), BUDGET)
        self.run = Watched(self.result, self.given, linear(numbers, self.seen), self.seen, most[1])
        if len(self.run.events) > most[0]:
            raise Long
        self.note()

    def note(self) -> None:
        seen, end, run = self.seen, self.end, self.run
        form = OUTCOMES[self.result.outcome]
        seen.add(form)
        if self.result.twice:
            seen.add("twice")
        seen.add(f"graph none: {NONE[end]}, {form}" if isinstance(end, str) else f"graph ends by {end[0]}, {form}")
        seen.add(f"nested none: {NONE[run.end]}, {form}" if isinstance(run.end, str) else f"nested ends by {run.end[0]}, {form}")
        if isinstance(end, str) and not isinstance(run.end, str):
            seen.add("the nested run ends, the graph's does not")
        if run.end == "undefined":
            seen.add("a mark tested by a " + ("select" if run.inside[-1:] and run.inside[-1].body is None else "loop"))
        if not isinstance(run.end, str):
            if run.end[0] == "exit" and run.loops():
                seen.add("an exit in a loop")
                if run.inside[0].body is None:
                    seen.add("an exit in a loop in a select")
            if None in run.end[-1]:
                seen.add("an end with a mark")
            if run.late:
                seen.add("over 1")

    def __str__(self) -> str:
        constants, inputs = map(joined, self.given)
        numbers = " ".join(map(str, self.numbers))
        return (
            f"store {pack(words_of(self.result.record)).hex()}\ngiven {constants} {inputs} {numbers}\n"
            f"{graph_line(self.events, self.end)}\n{nested_line(self.run)}\n.\n"
        )


# The vectors.


def counting(limit: int) -> Record:
    """A loop of one instruction, whose answer ends it."""
    head = plain(
        blocks=[[Inst(3, 1, 1, [])]], limit=limit, kind=IF, values=[(INSTR, 1, 0)], targets=[1, 2], passed={1: [], 2: []}, exits=[2]
    )
    return Record(0, 2, [], [plain(kind=BRANCH, targets=[1], passed={1: []}), head, plain()])


def entered_twice(limit: int) -> Record:
    """A loop that counts its input down to 0, in a loop of two turns."""
    out = INSTR, 2, 0
    return Record(
        0,
        1,
        [1],
        [
            plain(kind=BRANCH, targets=[1], passed={1: [TRUE]}),
            plain(inputs=[1], kind=BRANCH, targets=[2], passed={2: [(INPUT, 1, 0), (CONST, 0, 0)]}, limit=2, exits=[4]),
            plain(
                inputs=[1, 1],
                blocks=[[Inst(0, 1, 1, [(INPUT, 2, 1)])]],
                kind=IF,
                values=[out],
                targets=[2, 3],
                limit=limit,
                passed={2: [(INPUT, 2, 0), out], 3: [(INPUT, 2, 0)]},
                exits=[3],
            ),
            plain(inputs=[1], kind=IF, values=[(INPUT, 3, 0)], targets=[1, 4], passed={1: [FALSE], 4: []}),
            plain(values=[]),
        ],
    )


def forever(kind: int, **changed: Any) -> Record:
    """A loop without a way out but, at need, an exit."""
    head = plain(limit=9, kind=kind, targets=[1, 1] if kind == IF else [1], passed={1: []})
    for name, value in changed.items():
        setattr(head, name, value)
    return Record(0, 2, [], [plain(kind=BRANCH, targets=[1], passed={1: []}), head, plain(kind=EXIT, opcode=7)])


def budgets() -> Iterator[Vector]:
    """Runs at and past both budgets, and loops at and past their turn limits."""
    down = WORD - 1
    yield Vector(nested(forever(BRANCH)), [], [], (0, 0, 0, 0), (300, 300))
    yield Vector(nested(forever(IF, values=[TRUE])), [], [], (0, 0, 0, 0), (300, 300))
    leave = dict(values=[(INSTR, 1, 0)], targets=[1, 2], passed={1: [], 2: []})
    insts = [Inst(3, 1, 1, [])]
    for turns in (254, 255, 256, 257):
        yield Vector(nested(forever(IF, blocks=[insts], insts=insts, **leave)), [], [], (0, 0, down, turns - 1), (300, 300))
    for turns in (254, 255, 256, 257):
        yield Vector(nested(counting(255)), [], [], (0, 0, down, turns - 1), (300, 300))
    for turns in (1, 5, 6, 7):
        yield Vector(nested(counting(6)), [], [], (0, 0, down, turns - 1))
    for turns in (3, 4, 150, 257):  # 150: all of 300 turns, in two entries
        yield Vector(nested(entered_twice(3)), [turns], [], (0, 1, 0, down), (300, 400))


def second_returned() -> Record:
    """The entry is region 1, with two inputs, of which the second is read and returned, and with three blocks, the first of two."""
    blocks = [
        [Inst(3, 2, 1, [(INPUT, 1, 1)]), Inst(4, 2, 2, [(INSTR, 1, 0)])],
        [Inst(5, 2, 3, [(INSTR, 1, 1)])],
        [Inst(6, 0, 4, [(INSTR, 1, 2)])],
    ]
    entry = plain(inputs=[2, 2], blocks=blocks, kind=BRANCH, targets=[0], passed={0: [(INPUT, 1, 1)]})
    return Record(1, 2, [], [plain(inputs=[2], values=[(INPUT, 0, 0)]), entry])


def entry_inputs() -> Iterator[Vector]:
    """The second of two entry inputs, and the same with the two words swapped."""
    for words in ([70000, 70001], [70001, 70000]):
        yield Vector(nested(second_returned()), [], words, (0, 1, 0, 1))


def draw(rng: random.Random) -> Iterator[Vector]:
    """A record, and words and rules for it."""

    def words(count):
        return [rng.choice((0, 0, 1, 1, 2, 3, 65535, 65536, 70000, WORD - 1, WORD - 6, rng.getrandbits(32))) for _ in range(count)]

    made = record(rng, rng.choice((3, 5, 8, 12)), rng.choice((None, None, shapes.structured, shapes.nest_of_loops)))
    if len(pack(words_of(made))) > 512:
        return
    try:
        result = nested(made)
    except Refused:
        return
    for _ in range(RUNS):
        numbers = (
            rng.choice((0, 0, 1, 1, 2, WORD - 1, 65537)),
            rng.choice((0, 1, 1, 2, WORD - 1, 65536)),
            rng.choice((0, 0, 1, WORD - 1)),
            rng.choice((0, 0, 1, 2, 3, 5, WORD - 6)),
        )
        try:
            yield Vector(result, words(len(made.constants)), words(len(made.regions[made.entry].inputs)), numbers)
        except Long:
            pass


def vectors(rng: random.Random) -> tuple[dict[str, Vector], collections.Counter[str]]:
    """Those at the budgets, those with something that is wanted still, others that end, then those with two entry inputs."""
    counts: collections.Counter[str] = collections.Counter()
    found: dict[str, Vector] = {}
    others: dict[str, Vector] = {}

    def take(vector):
        if str(vector) not in found:
            found[str(vector)] = vector
            counts.update(vector.seen)

    for vector in budgets():
        take(vector)
    for _ in range(DRAWS):
        for vector in draw(rng):
            if any(counts[what] < EACH for what in vector.seen):
                take(vector)
            elif not isinstance(vector.end, str) and len(vector.events) > 3 and len(others) < 2 * MOST:
                others[str(vector)] = vector
    for vector in list(others.values())[: MOST - len(found)]:
        take(vector)
    for vector in entry_inputs():
        take(vector)
    return found, counts


def main() -> None:
    found, counts = vectors(random.Random(SEED))
    with open(LISTS / "runs.vectors", "w") as out:
        out.writelines(found)
    for what, times in sorted(counts.items()):
        print(f"{times:5} {what}")
    print(f"{len(found)} in all")


if __name__ == "__main__":
    arguments(__doc__)
    main()
