"""Prints vectors of records of 32 regions, without answers, for bench/.

    python3 -m generate.large SEED COUNT > VECTORS

First four records that nest deepest: a chain of regions, each with a block and its branch to the
next; a chain of 30 selects, each of whose cases is the next region or the last; a chain of 30
selects of four cases, each with a block, the last case being the next region and the others the
last; a chain of 30 loops, each inside the one before, with a block. Then COUNT random records with
32 regions, as generate.compare makes them.
"""

import itertools
from collections.abc import Iterator
from typing import Any

from reading.record import BRANCH, CONST, IF, SWITCH, TRUE, Inst, Region, words_of
from reading.store import pack
from .arguments import arguments, whole
from .records import records
from .stores import only, plain

REGIONS = 32
BLOCK = [[Inst(7, 0, 1, [])]]


def link(kind: int, targets: list[int], **more: Any) -> Region:
    """A region of a chain, which passes nothing on."""
    return plain(kind=kind, targets=targets, passed={target: [] for target in targets}, **more)


def chain_of_loops() -> bytes:
    """Regions 1 to 30 are headers. Regions 26 to 30 lead back to seven of them each, the last to two, and on to the next."""
    last, backward = REGIONS - 1, 5
    first = last - backward
    back = [[header for header in range(1 + 7 * part, 8 + 7 * part) if header < last] for part in range(backward)]
    return only(
        *[link(BRANCH, [at + 1], blocks=BLOCK) for at in range(first)],
        *[link(SWITCH, back[at - first] + [at + 1], values=[(CONST, 0, 0)], blocks=BLOCK) for at in range(first, last)],
        plain(),
        constants=[2],
    )


def chains() -> Iterator[bytes]:
    last = REGIONS - 1
    yield only(*[link(BRANCH, [at + 1], blocks=BLOCK) for at in range(last)], plain())
    yield only(*[link(IF, [at + 1, last], values=[TRUE]) for at in range(last - 1)], link(BRANCH, [last]), plain())
    yield only(
        *[link(SWITCH, [last] * 3 + [at + 1], values=[(CONST, 0, 0)], blocks=BLOCK) for at in range(last - 1)],
        link(BRANCH, [last]),
        plain(),
        constants=[2],
    )
    yield chain_of_loops()


def main(seed: int, count: int) -> None:
    large = (record for record in records(seed) if len(record.regions) == REGIONS)
    stores = [pack(words_of(record)) for record in itertools.islice(large, count)]
    for store in [*chains(), *stores]:
        print(f"store {store.hex()}\n.")


if __name__ == "__main__":
    main(*arguments(__doc__, whole, whole))
