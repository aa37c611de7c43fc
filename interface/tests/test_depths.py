"""The rows of interface/stack/depths.py, held against nestings of the second reading: no record uses up more than its regions."""

import random
import sys
import unittest
from collections.abc import Iterator, Sequence
from dataclasses import dataclass, field, replace

import depths
from depths import ROOT

sys.path.insert(0, str(ROOT / "beside"))

from generate.large import chains  # noqa: E402  (found by the line above)
from generate.tangled import tangled  # noqa: E402
from generate.vectors import read_vectors  # noqa: E402
from reading.nesting import PLAIN, Case, Condition, Edge, Loop, Nesting, Node, Select  # noqa: E402
from reading.record import Record, Value  # noqa: E402
from reading.sheet import accepted, nest  # noqa: E402
from reading.store import Refused  # noqa: E402

ROWS = depths.by_regions().rows
TANGLED = 300


@dataclass
class Levels:
    """Of a region's list, how many calls are below one another: of put_nodes with put_numbers behind it, of put_numbers alone, of figure.
    `walked` is the first for a list inside another: a loop that stands alone is no level there."""

    walk: int = 0
    walked: int = 0
    numbers: int = 0
    figure: int = 0

    def cell(self, inner: "Levels", joined: bool = False) -> None:
        """A cell with a list inside it; where that is joined, put_numbers goes down into it."""
        self.walk = max(self.walk, 1 + max(inner.walked, inner.numbers))
        self.walked = self.walk
        self.numbers = max(self.numbers, 1 + (inner.numbers if joined else 0))
        self.figure = max(self.figure, 1 + inner.figure)

    def loop(self, body: "Levels") -> None:
        """A loop alone."""
        self.cell(body)
        self.walked = max(body.walk, body.numbers, 1)


@dataclass
class Used:
    """The most that a record uses: regions for claims and conditions, calls of each walk, parts of conditions within parts."""

    nesting: float = 0
    claims: int = 0
    walk: int = 0
    figure: int = 0
    deferred: int = 0


class Counted(Nesting):
    """A nesting that counts what would be on the stack at once."""

    def __init__(self, record: Record, returned: list[int] | None) -> None:
        super().__init__(record, returned)
        self.used = Used()
        self.claims = self.conditions_within = 0
        self.levels = [Levels(*[1 if region.kids else 0] * 4) for region in self.regions]

    def new_region(self) -> int:
        self.levels.append(Levels())
        return super().new_region()

    def new_node(self, node: Node, parent: int) -> int:
        levels = self.levels[parent]
        if isinstance(node, Loop):
            levels.loop(self.levels[node.body])
        else:
            levels.cell(Levels())
        for region in node.cases if isinstance(node, Select) else []:
            levels.cell(self.levels[region])
        return super().new_node(node, parent)

    def append(self, parent: int, case: Case) -> list[Edge]:
        """A list that is joined to none is that list itself."""
        if case.body is not None and self.regions[case.body].kids:
            if self.regions[parent].kids:
                self.levels[parent].cell(self.levels[case.body], joined=True)
            else:
                self.levels[parent] = replace(self.levels[case.body])
        return super().append(parent, case)

    def claim(self, target: int, count: int, inputs: Sequence[Value]) -> Case | None:
        self.claims += 1
        self.used.claims = max(self.used.claims, self.claims)
        case = super().claim(target, count, inputs)
        self.claims -= 1
        return case

    def materialize(self, condition: Condition) -> Value:
        if condition in PLAIN:
            return super().materialize(condition)
        self.conditions_within += 1
        row = ROWS[depths.CONDITION]
        regions = self.claims / ROWS[depths.CLAIM].each + max(0, self.conditions_within - row.besides) / row.each
        self.used.nesting = max(self.used.nesting, regions)
        value = super().materialize(condition)
        self.conditions_within -= 1
        return value


def within(condition: Condition) -> int:
    """How many conditions stand in one another."""
    return 0 if condition in PLAIN else 1 + max(within(part) for part in condition.parts)


def used(record: Record, returned: list[int] | None) -> Used:
    """What a record uses."""
    nesting = Counted(record, returned)
    result = nest(nesting)
    most = nesting.used
    for root in result.roots or [record.entry]:
        most.walk, most.figure = max(most.walk, nesting.levels[root].walk), max(most.figure, nesting.levels[root].figure)
    for _, edges in result.deferred or []:
        most.deferred = max([most.deferred, *(within(edge.condition) for edge in edges)])
    return most


def records() -> Iterator[tuple[Record, list[int] | None]]:
    """Those of the lists that are accepted, the chains, and chains with edges back and forth."""
    rng = random.Random(5)
    stores = [store for name in ("sheets", "full") for store, _ in read_vectors(ROOT / "beside" / "lists" / f"{name}.vectors")]
    for store in [*stores, *chains(), *(tangled(rng) for _ in range(TANGLED))]:
        try:
            yield accepted(store)
        except Refused:
            continue


@dataclass
class Seen:
    """The nearest that any record came to its regions."""

    records: int = 0
    nearest: dict[str, float] = field(default_factory=dict)

    def add(self, what: str, share: float) -> None:
        self.nearest[what] = max(self.nearest.get(what, 0), share)


class Depth(unittest.TestCase):
    """Rows beside what is counted."""

    def test_no_record_uses_more(self) -> None:
        """Claims and conditions, the walks and the conditions of defer lines; and some record comes near."""
        seen = Seen()
        for record, returned in records():
            try:
                most = used(record, returned)
            except Refused:
                continue
            count = len(record.regions)
            seen.records += 1
            self.assertLessEqual(most.nesting, count)
            self.assertLessEqual(most.claims, count * ROWS[depths.CLAIM].each + ROWS[depths.CLAIM].last)
            self.assertLessEqual(most.walk, count * ROWS[depths.NODES].each)
            self.assertLessEqual(most.figure, count * ROWS[depths.FIGURE].each)
            self.assertLessEqual(most.deferred, count * ROWS[depths.DEFERRED].each)
            seen.add("nesting", most.nesting / count)
            seen.add("walk", most.walk / count)
            seen.add("figure", most.figure / count)
            seen.add("deferred", most.deferred / count)
        self.assertGreater(seen.records, 1000)
        self.assertGreater(min(seen.nearest.values()), 0.5, seen.nearest)


if __name__ == "__main__":
    unittest.main()
