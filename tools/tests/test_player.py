"""A player that does what docs/FORMAT.md and docs/PLAYER.md say. It is given a sheet's words, and must run as the run vectors have it.

The vectors are beside/lists/runs.vectors. Costs and limits are looked up in the record by region and index.
"""

import pathlib
import unittest
from collections.abc import Callable, Iterator
from dataclasses import dataclass, field
from typing import Any

from tools.page_checks.annotated import result_of
from tools.page_checks.stepped import swap
from reading.record import Record
from reading.sheet import CLOSED, WHOLE, Result, words

VECTORS = pathlib.Path(__file__).resolve().parents[2] / "beside" / "lists" / "runs.vectors"
REGION, BLOCK, SELECT, LOOP, EXIT = range(5)
CONSTANT, BOOLEAN, UNDEFINED = 0, 4, 5
LENT = 16384
TURNS = 256  # what the vectors give a loop each time it is entered; a loop that goes on has no end there
Value = tuple[int, int, int]
Answer = Callable[[int, list, int], int]


@dataclass
class Sheet:
    """The lines of a sheet, by region and by node."""

    outcome: int
    figure: int
    entry: int = -1
    regions: dict[int, tuple[list, list, list]] = field(default_factory=dict)
    nodes: dict[int, tuple[Any, ...]] = field(default_factory=dict)


def read_sheet(given: list[int]) -> Sheet:
    """A sheet from its words, as docs/FORMAT.md tells it."""
    at = 4

    def word() -> int:
        nonlocal at
        at += 1
        return given[at - 1]

    def listed(item: Callable[[], Any]) -> list:
        return [item() for _ in range(word())]

    def value() -> Value:
        return word(), word(), word()

    def item() -> tuple[int, int, int, int, list]:
        return word(), word(), word(), word(), listed(value)

    sheet = Sheet(given[0], given[1])
    while at < len(given):
        lead, number = word(), word()
        if lead == REGION:
            sheet.regions[number] = listed(word), listed(word), listed(value)
            sheet.entry = number if sheet.entry < 0 else sheet.entry
        elif lead == BLOCK:
            sheet.nodes[number] = BLOCK, listed(item)
        elif lead == SELECT:
            sheet.nodes[number] = SELECT, word(), value(), listed(word), listed(word)
        elif lead == LOOP:
            sheet.nodes[number] = LOOP, listed(value), word(), value()
        elif lead == EXIT:
            sheet.nodes[number] = EXIT, word(), listed(value)
        else:
            raise ValueError(f"a line that is led by {lead}")
    return sheet


class Ended(Exception):
    """The end of a run, or None where it is none."""


class Player:
    """A run as docs/PLAYER.md tells it."""

    def __init__(
        self, sheet: Sheet, record: Record, constants: list[int], inputs: list[int], answer: Answer, one_by_one: bool = False
    ) -> None:
        self.sheet, self.record, self.constants, self.answer, self.one_by_one = sheet, record, constants, answer, one_by_one
        self.cost, self.over, self.events = 0, False, []
        self.kept = {(1, sheet.entry, place): word for place, word in enumerate(inputs)}
        try:
            self.region(sheet.entry)
            self.end = ("returned", self.all(sheet.regions[sheet.entry][2])) if sheet.outcome == 1 else None
        except Ended as ended:
            (self.end,) = ended.args

    def word(self, value: Value) -> int | None:
        kind, _, index = value
        if kind == CONSTANT:
            return self.constants[index]
        return index if kind == BOOLEAN else None if kind == UNDEFINED else self.kept[value]

    def all(self, values: list[Value]) -> list:
        return [self.word(value) for value in values]

    def give(self, kind: int, number: int, values: list[Value]) -> None:
        """All at once; or one by one, which is the mistake that the page warns of."""
        read = (self.word(value) for value in values) if self.one_by_one else self.all(values)
        for place, word in enumerate(read):
            self.kept[kind, number, place] = word

    def tested(self, value: Value) -> int:
        word = self.word(value)
        self.cost += self.record.test
        if word is None:
            raise Ended(None)
        return word

    def region(self, number: int) -> None:
        for kid in self.sheet.regions[number][1]:
            lead, *fields = self.sheet.nodes[kid]
            (self.block, self.select, self.loop, self.exit)[lead - BLOCK](kid, *fields)

    def block(self, _: int, items: list) -> None:
        for region, index, opcode, kind, reads in items:
            read = self.all(reads)
            answer = self.answer(opcode, read, len(self.events))
            if kind:
                self.kept[2, region, index] = answer
            self.events.append((region, index, opcode, read))
            self.cost += self.record.regions[region].insts[index].cost

    def select(self, node: int, on_number: int, value: Value, cases: list[int], _: list[int]) -> None:
        word = self.tested(value)
        place = min(word, len(cases) - 1) if on_number else 0 if word else 1
        self.region(cases[place])
        self.give(3, node, self.sheet.regions[cases[place]][2])

    def loop(self, _: int, first: list[Value], body: int, repeat: Value) -> None:
        self.give(1, body, first)
        turns = 0
        while True:
            turns += 1
            self.over |= turns > self.record.regions[body].limit
            if turns > TURNS:
                raise Ended(None)
            self.region(body)
            if self.tested(repeat) == 0:
                return
            self.give(1, body, self.sheet.regions[body][2])

    def exit(self, _: int, opcode: int, values: list[Value]) -> None:
        raise Ended(("exited", opcode, self.all(values)))


def text(words: list) -> str:
    """Words as the vectors have them."""
    return ",".join("u" if word is None else str(word) for word in words) or "-"


def line(player: Player) -> str:
    """A run as the vectors have it."""
    if player.end is None:
        return "nested none"
    *how, values = player.end
    events = ";".join(f"{region}.{index}/{opcode}/{text(reads)}" for region, index, opcode, reads in player.events) or "-"
    return f"nested {' '.join(map(str, how))} {text(values)} {events} cost {player.cost} over {int(player.over)}"


def linear(a: int, b: int, c: int, d: int) -> Answer:
    """The rule of a vector, by its four numbers."""

    def answer(opcode: int, reads: list, before: int) -> int:
        read = sum(place * (1 if word is None else word) for place, word in enumerate(reads, 1))
        return (a * opcode + b * read + c * before + d) % (1 << 32)

    return answer


def vectors() -> Iterator[tuple[Result, list[int], list[int], Answer, str]]:
    """The form of each vector, what it is given, and the line of the nested run."""
    for part in VECTORS.read_text(encoding="ascii").split(".\n"):
        lines = dict(one.split(" ", 1) for one in part.splitlines() if " " in one)
        if "store" in lines:
            constants, inputs, *rule = lines["given"].split()
            given = [[int(one) for one in words.split(",")] if words != "-" else [] for words in (constants, inputs)]
            yield result_of(bytes.fromhex(lines["store"])), *given, linear(*map(int, rule)), f"nested {lines['nested']}"


class ByThePages(unittest.TestCase):
    """The player of the pages, beside the reading."""

    def test_vectors(self) -> None:
        """All 402 runs: end, values, instructions in order with their reads, cost, and whether a limit was passed."""
        run = 0
        for result, constants, inputs, answer, expected in vectors():
            self.assertIn(result.outcome, (WHOLE, CLOSED))
            player = Player(read_sheet(words(result, LENT)), result.record, constants, inputs, answer)
            self.assertEqual(line(player), expected)
            run += 1
        self.assertEqual(run, 402)

    def test_one_by_one(self) -> None:
        """Inputs that are given one by one go wrong in the swap, as docs/PLAYER.md says, and in some vectors."""
        result, again = swap(), lambda opcode, reads, before: int(before == 0)
        sheet = read_sheet(words(result, LENT))
        self.assertEqual(Player(sheet, result.record, [7, 8], [], again).end, ("returned", [8, 7]))
        self.assertEqual(Player(sheet, result.record, [7, 8], [], again, True).end, ("returned", [8, 8]))
        wrong = 0
        for result, constants, inputs, answer, expected in vectors():
            wrong += line(Player(read_sheet(words(result, LENT)), result.record, constants, inputs, answer, True)) != expected
        self.assertGreater(wrong, 0)
