"""Makes lists/sheets.vectors and lists/full.vectors: records with their sheets.

    python3 -m generate.sheets SOURCE

Where twice is 0 the Rust's sheet is written, and must be the reading's; otherwise, and for
refusals 9 and 10, the reading's. SOURCE is the folder of spirt's source files.
"""

import pathlib
import random
import re
import sys
from collections.abc import Iterator

from reading.nesting import Loop, Nesting, Select
from reading.record import BRANCH, EXIT, FALSE, IF, INPUT, INSTR, SWITCH, TRUE, UNDEF, UNREACHABLE, Inst, Record, refer, words_of
from reading.sheet import OUTCOMES, Result, nest, printed, text
from reading.store import Refused, pack
from . import shapes
from .arguments import arguments, source
from .compare import rust
from .limits import full_sheets, limits
from .records import record
from .stores import only, plain
from .vectors import read_vectors, vector

SEED = 7
LISTS = pathlib.Path(__file__).resolve().parents[1] / "lists"


def proved() -> Iterator[bytes]:
    """The cases of document 01 that are proved."""
    yield only(
        plain(kind=IF, blocks=[[Inst(7, 1, 5, [])]], values=[(INSTR, 0, 0)], targets=[1, 2], passed={1: [], 2: []}),
        plain(kind=BRANCH, blocks=[[Inst(8, 0, 3, [])]], targets=[3], passed={3: [(0, 0, 0)]}),
        plain(kind=BRANCH, blocks=[[Inst(9, 0, 4, [])]], targets=[3], passed={3: [(0, 0, 1)]}),
        plain(inputs=[2], values=[(INPUT, 3, 0)]),
        test=2,
        constants=[2, 2],
    )
    yield only(
        plain(kind=BRANCH, targets=[1], passed={1: [(0, 0, 0), TRUE]}),
        plain(
            inputs=[2, 1],
            blocks=[[Inst(8, 1, 6, [])]],
            limit=10,
            kind=IF,
            values=[(INSTR, 1, 0)],
            targets=[1, 2],
            passed={1: [(INPUT, 1, 0), (INSTR, 1, 0)], 2: []},
            exits=[2],
        ),
        plain(),
        test=2,
        constants=[2],
    )
    yield only(plain())
    yield only(plain(kind=UNREACHABLE))
    yield only(plain(kind=BRANCH, targets=[0], passed={0: []}))
    yield only(plain(kind=IF, values=[TRUE], targets=[1, 1], passed={1: []}), plain())
    for ways in (8, 9):
        yield only(plain(kind=SWITCH, values=[TRUE], targets=[1] * ways, passed={1: []}), plain())
    for count in (32, 33):
        yield only(*[plain(kind=BRANCH, targets=[at + 1], passed={at + 1: []}) for at in range(count - 1)], plain())
    yield b""


def faults() -> Iterator[bytes]:
    """The smallest records that the Rust nests wrongly, and panics on."""
    yield only(
        plain(kind=BRANCH, targets=[1], passed={1: [TRUE, FALSE]}),
        plain(
            inputs=[1, 1], kind=IF, values=[(INPUT, 1, 1)], targets=[1, 2], passed={1: [(INPUT, 1, 0)] * 2, 2: [(INPUT, 1, 1)]}, exits=[2]
        ),
        plain(inputs=[1], kind=EXIT, values=[(INPUT, 2, 0)]),
    )
    no = (UNDEF, 0, 2)
    yield only(
        plain(kind=BRANCH, targets=[1], passed={1: [FALSE, no]}),
        plain(
            inputs=[1, 2],
            kind=SWITCH,
            values=[(INPUT, 1, 0)],
            targets=[1, 3, 2],
            passed={1: [(INPUT, 1, 0), no], 3: [], 2: [(INPUT, 1, 1)]},
            exits=[2, 3],
        ),
        plain(inputs=[2], values=[(INPUT, 2, 0)]),
        plain(values=[no]),
    )


def figures() -> Iterator[bytes]:
    """A figure of 4,294,967,295, and of one more."""
    for more in (0, 1):
        yield only(
            plain(kind=BRANCH, targets=[1], passed={1: []}),
            plain(kind=BRANCH, targets=[2], passed={2: []}, limit=65535, exits=[4]),
            plain(
                blocks=[[Inst(1, 1, 1, [])]], kind=IF, values=[(INSTR, 2, 0)], targets=[2, 3], passed={2: [], 3: []}, limit=65535, exits=[3]
            ),
            plain(blocks=[[Inst(1, 1, 0, [])]], kind=IF, values=[(INSTR, 3, 0)], targets=[1, 4], passed={1: [], 4: []}),
            plain(blocks=[[Inst(1, 0, 65535, [])] * 2 + [Inst(1, 0, more, [])]]),
        )


class Made:
    """A record with its store, and its result or refusal."""

    def __init__(self, record: Record) -> None:
        self.record, self.store, self.refused = record, pack(words_of(record)), 0
        self.result: Result | None = None
        try:
            self.result = nest(Nesting(record, refer(record)))
            self.text = text(self.result)
        except Refused as refused:
            self.refused, self.text = refused.number, f"{refused}\n"

    def is_(self, outcome: str) -> bool:
        return self.result is not None and OUTCOMES[self.result.outcome] == outcome

    def twice(self) -> bool:
        return self.result is not None and bool(self.result.twice)

    def one_block(self) -> bool:
        return len(self.store) == 512

    def loops(self) -> int:
        """How deep loops stand in loops."""

        def depth(number):
            deepest = 0
            for kid in self.result.regions[number].kids:
                node = self.result.nodes[kid]
                if isinstance(node, Select):
                    deepest = max(deepest, *map(depth, node.cases))
                elif isinstance(node, Loop):
                    deepest = max(deepest, 1 + depth(node.body))
            return deepest

        return max(map(depth, self.result.roots), default=0) if self.result else 0

    def nested_condition(self) -> bool:
        return bool(re.search(r"m\d+\[[^\n]*m", self.text))

    def ways(self) -> int:
        return max(len(region.targets) for region in self.record.regions)


# Each part: its name, how many, the makers' arguments, and what is wanted.
PARTS = [
    ("whole", 150, (20,), lambda m: m.is_("whole") and not m.twice() and m.one_block()),
    ("closed", 90, (20,), lambda m: m.is_("closed") and not m.twice() and m.one_block() and len(m.record.regions) > 2),
    ("leftover", 110, (20,), lambda m: m.is_("leftover") and not m.twice() and m.one_block()),
    ("untouched", 25, (20,), lambda m: m.is_("untouched") and m.one_block()),
    (
        "leftover with nested conditions",
        90,
        (20,),
        lambda m: m.is_("leftover") and not m.twice() and m.nested_condition() and len(m.store) <= 1024,
    ),
    ("loops in loops", 100, (20, shapes.nest_of_loops), lambda m: m.loops() > 1 and not m.twice() and len(m.store) <= 1024),
    ("loops in loops of programs", 60, (24, shapes.structured), lambda m: m.loops() > 1 and not m.twice() and len(m.store) <= 1024),
    (
        "any exit lists",
        120,
        (16, None, "random"),
        lambda m: m.result and not m.twice() and not m.is_("untouched") and m.one_block() and len(m.record.regions) > 3,
    ),
    (
        "8-way selects",
        80,
        (14, None),
        lambda m: m.result and not m.twice() and m.ways() == 8 and not m.is_("untouched") and len(m.store) <= 1024,
    ),
    (
        "26 to 32 regions",
        70,
        (32, shapes.structured),
        lambda m: m.result and not m.twice() and not m.is_("untouched") and len(m.record.regions) >= 26,
    ),
    (
        "26 to 32 regions, wild",
        40,
        (32, shapes.near),
        lambda m: m.result and not m.twice() and not m.is_("untouched") and len(m.record.regions) >= 26,
    ),
    ("twice", 90, (16,), lambda m: m.twice() and len(m.store) <= 1024),
    ("twice, leftover", 30, (16,), lambda m: m.is_("leftover") and m.twice() and len(m.store) <= 1024),
    ("refused 11", 12, (16, shapes.nest_of_loops), lambda m: m.refused == 11 and m.one_block()),
    ("refused 9", 16, (32, shapes.crowded), lambda m: m.refused == 9 and len(m.store) <= 2560),
]


def parts(rng: random.Random) -> Iterator[tuple[str, list[bytes]]]:
    """The name and the stores of each part."""
    yield "proved cases", list(proved())
    yield "faults of the Rust", list(faults())
    yield "figure at its edge", list(figures())
    for name, count, which, wanted in PARTS:
        found = []
        while len(found) < count:
            made = Made(record(rng, *which))
            if wanted(made):
                found.append(made.store)
        yield name, found
    for (what, over), found in limits(rng, 3).items():
        yield f"{what} {'one over' if over else 'at'} the limit", [pack(words_of(m)) for m in found]
    refusals: dict[str, list[bytes]] = {}  # a few of each refusal 1 to 8, from the other list
    for store, answer in read_vectors(LISTS / "stores.vectors"):
        if answer.startswith("refused") and len(store) <= 1024:
            refusals.setdefault(answer.split()[1], []).append(store)
    yield "refused 1 to 8", [store for some in refusals.values() for store in rng.sample(some, 4)]


def write(path: pathlib.Path, stores: list[bytes], source: str) -> int:
    """The vectors of some stores; answers how many came from the Rust."""
    told, ours = rust(source, stores), 0
    with open(path, "w") as out:
        for store, theirs in zip(stores, told, strict=True):
            answer = printed(store)
            if re.search(r" twice 1$|^refused (9|10) ", answer, re.M):
                ours += 1
            else:
                theirs = re.sub(r"( attempts \d+)$", r"\1 twice 0", theirs, count=1, flags=re.M)
                if theirs != answer:
                    sys.exit(f"the Rust differs on {store.hex()}")
                answer = theirs
            out.write(vector(store, answer))
    return len(stores) - ours


def main(source: str) -> None:
    stores: dict[bytes, None] = {}
    for name, found in parts(random.Random(SEED)):
        stores.update(dict.fromkeys(found))
        print(f"{len(found):5} {name}")
    print(f"{len(stores)} in all, {write(LISTS / 'sheets.vectors', list(stores), source)} by the Rust")
    write(LISTS / "full.vectors", [pack(words_of(made)) for made in full_sheets()], source)


if __name__ == "__main__":
    main(*arguments(__doc__, source))
