"""Runs of nested forms, step by step, and the places that tests take: parts of docs/PLAYER.md.

All of it is what the second reading does (beside/reading/runs.py); here its steps are only written down.
"""

from collections.abc import Callable, Iterable, Sequence
from pathlib import Path

from reading.nesting import Block, Exit, Loop, Select
from reading.record import BRANCH, CONST, IF, INPUT, INSTR, OUTPUT, RETURN, SWITCH, Inst, Record, Region, Value, value_text, words_of
from reading.runs import Ended, NestedRun, Rule, Word, graph_run, place_taken
from reading.sheet import Result, text
from reading.store import pack

from .annotated import result_of

ADD, BELOW, KEY = 32, 40, 49  # opcodes of the example that give something
MOST = 100  # regions or turns of a run
WORD = 1 << 32  # words of a run are below it
MARK = "the mark"
# The example is run with a first frequency, a step and a last frequency. A turn that goes to its end has five instructions.
SWEPT, TURN = (10, 5, 20), 5
SWAPPED = 7, 8
NODE = 3  # in the printed condition that docs/FORMAT.md shows


def shown(word: Word) -> str:
    """A word, or the mark."""
    return MARK if word is None else str(word)


class Steps(NestedRun):
    """A nested run that writes its steps down: the line of the sheet, what is done, the cost up to then."""

    def __init__(self, result: Result, constants: Sequence[int], answer: Rule) -> None:
        self.steps: list[tuple[str, str, int]] = []
        self.loops: list[Loop] = []
        self.selecting: tuple[int, Select] | None = None
        self.exit_noted = False
        super().__init__(result, constants, [], answer, MOST)
        if self.end[0] == "return":
            outs = result.regions[result.record.entry].outs
            self.note(f"region {result.record.entry}", f"is through: returns {self.read(outs)}")

    def note(self, line: str, done: str) -> None:
        """A step."""
        self.steps.append((line, done, self.cost))

    def read(self, values: Iterable[Value]) -> str:
        """Values and what they are now."""
        return ", ".join(f"{value_text(value)} = {shown(self.word(value))}" for value in values) or "nothing"

    def region(self, number: int) -> None:
        """A region: the body of a loop has just been given its inputs; an exit in it ends the run."""
        region = self.result.regions[number]
        if self.loops and self.loops[-1].body == number:
            self.note(f"region {number}", f"begins a turn: {self.read((INPUT, number, place) for place in range(len(region.inputs)))}")
        elif not region.kids:
            self.note(f"region {number}", "has no children")
        try:
            super().region(number)
        except Ended as ended:
            if ended.args[0][0] == "exit" and not self.exit_noted:
                self.exit_noted = True
                kid = next(kid for kid in region.kids if isinstance(self.result.nodes[kid], Exit))
                node = self.result.nodes[kid]
                self.note(f"exit {kid}", f"ends the run: opcode {node.opcode}, with {self.read(node.values)}")
            raise

    def block(self, block: Block) -> None:
        """A block, a step for each instruction."""
        number, cost, before = self.result.nodes.index(block), self.cost, len(self.events)
        super().block(block)
        for inst, (region, place, opcode, reads) in zip(block.insts, self.events[before:]):
            cost += inst.cost
            gives = f", gives d{region}.{place} = {shown(self.words[INSTR, region, place])}" if inst.type else ""
            read = ", ".join(map(shown, reads)) or "nothing"
            self.steps.append((f"block {number}", f"{region}.{place}: opcode {opcode} reads {read}{gives}", cost))

    def test(self, kind: int, value: Value, ways: int) -> int:
        """A test of a select, or of a loop."""
        place = super().test(kind, value, ways)
        tested = f"tests {self.read([value])}: "
        if self.selecting:
            number, node = self.selecting
            self.selecting = None
            self.note(f"select {number}", f"{tested}place {place}, region {node.cases[place]}")
        else:
            loop = self.loops[-1]
            outs = self.result.regions[loop.body].outs
            self.note(f"loop {self.result.nodes.index(loop)}", tested + ("is done" if place else f"once more; reads {self.read(outs)}"))
        return place

    def select(self, number: int, node: Select) -> None:
        """A select, with its outputs if it has some."""
        self.selecting = number, node
        super().select(number, node)
        if node.types:
            self.note(f"select {number}", f"gives {self.read((OUTPUT, number, place) for place in range(len(node.types)))}")

    def loop(self, loop: Loop) -> None:
        """A loop."""
        self.note(f"loop {self.result.nodes.index(loop)}", f"begins; reads {self.read(loop.first)}")
        self.loops.append(loop)
        super().loop(loop)
        self.loops.pop()


def table(result: Result, constants: Sequence[int], answer: Rule, from_step: Callable[[Steps], int] = lambda run: 0) -> str:
    """The steps of a run, one to a line, those in front left out. The graph's run must have the same events and end."""
    run = Steps(result, constants, answer)
    events, end, _ = graph_run(result.record, constants, [], answer, MOST)
    if (events, end) != (run.events, run.end):
        raise ValueError("the two runs of an example differ")
    lines = [f"    {'step':<5} {'line':<9} {'what is done':<58} cost\n"]
    lines += [f"    {number:>4}  {line:<9} {done:<58} {cost:>4}\n" for number, (line, done, cost) in enumerate(run.steps, 1)][
        from_step(run) :
    ]
    return "\n" + "".join(lines) + "\n"


def sweeping(pressed: int) -> Rule:
    """The example's rule: the key is down from the given turn on, counted from 0."""

    def answer(opcode: int, reads: Sequence[Word], before: int) -> int:
        first, second = ([word or 0 for word in reads] + [0, 0])[:2]
        return {ADD: first + second, BELOW: int(first < second), KEY: int(before // TURN >= pressed)}.get(opcode, 0)

    return answer


def returns(store: Path) -> str:
    """The example's run with the key up."""
    return table(result_of(store.read_bytes()), SWEPT, sweeping(MOST))


def first_turn(run: Steps) -> int:
    """How many steps come before the second turn."""
    begun = [place for place, (_, done, _) in enumerate(run.steps) if done.startswith("begins a turn")]
    return begun[1]


def exits(store: Path) -> str:
    """The example's run with the key down in its second turn, from there on."""
    return table(result_of(store.read_bytes()), SWEPT, sweeping(1), first_turn)


def numbers(store: Path) -> dict[str, int]:
    """What docs/PLAYER.md says of the example's runs in words, by name."""
    result = result_of(store.read_bytes())
    one, other = Steps(result, SWEPT, sweeping(MOST)), Steps(result, SWEPT, sweeping(1))
    same = first_turn(one)
    if one.steps[:same] != other.steps[:same]:
        raise ValueError("the first turns of the example's two runs differ")
    found = {"add": ADD, "below": BELOW, "key": KEY, "first-turn": same, "node": NODE}
    return {f"example.{name}": number for name, number in [*found.items(), *((f"c{k}", word) for k, word in enumerate(SWEPT))]}


def swap() -> Result:
    """A loop of two inputs that change places with each turn; what comes behind it returns them."""
    again = Inst(KEY, 1, 3, [])
    here, other = [(INPUT, 1, 0), (INPUT, 1, 1)], [(INPUT, 1, 1), (INPUT, 1, 0)]
    regions = [
        Region([], [], 1, BRANCH, targets=[1], passed={1: [(CONST, 0, 0), (CONST, 0, 1)]}),
        Region([2, 2], [[again]], 2, IF, values=[(INSTR, 1, 0)], targets=[1, 2], passed={1: other, 2: here}, exits=[2]),
        Region([2, 2], [], 1, RETURN, values=[(INPUT, 2, 0), (INPUT, 2, 1)]),
    ]
    return result_of(pack(words_of(Record(0, 2, [2, 2], regions))))


def swapped() -> str:
    """The swap's sheet, and its run with one turn more after the first."""
    sheet = "".join(f"    {line}\n" for line in text(swap()).splitlines())
    return "\n" + sheet + table(swap(), SWAPPED, lambda opcode, reads, before: int(before == 0))


def places() -> str:
    """Which place a test takes, for some words."""
    lines = [f"    {'test':<8}{'cases':>6}{'word':>14}    place taken\n"]
    tried = [(IF, 2, word) for word in (0, 1, 7, WORD - 1, None)]
    tried += [(SWITCH, 3, word) for word in (0, 1, 2, 3, WORD - 1, None)] + [(SWITCH, 1, 5)]
    for kind, ways, word in tried:
        place = place_taken(kind, word, ways)
        lines.append(f"    {'bool' if kind == IF else 'num':<8}{ways:>6}{shown(word):>14}    {'none' if place is None else place}\n")
    return "\n" + "".join(lines) + "\n"
