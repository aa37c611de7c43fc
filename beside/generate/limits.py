"""Records at and beyond the limits behind refusals 9 and 10, found by trying.

The limit of 512 nodes cannot be met: 256 blocks, 32 exits, 32 loops and 63 selects at most.
"""

import itertools
from random import Random

from reading.nesting import Nesting
from reading.record import INSTR, SWITCH, UNREACHABLE, Inst, Record, Region, refer, words_of
from reading.sheet import nest, words
from reading.store import Refused
from .records import record
from .shapes import crowded, ladder

MOST = {"regions": 128, "node outputs": 512, "conditions": 512}


class Unlimited(Nesting):
    """Nesting without the limits."""

    def within(self, defined: int, most: int) -> None:
        pass


def limits(rng: Random, times: int) -> dict[tuple[str, int], list[Record]]:
    """So many records for each limit that just meet it, and that pass it by one."""
    found: dict[tuple[str, int], list[Record]] = {(what, over): [] for what in MOST for over in (0, 1)}
    while any(len(some) < times for some in found.values()):
        inputs = rng.choice((0, 0, 1, 2, 3, 4))
        made = record(rng, 32, rng.choice((crowded, ladder, ladder)), "none", inputs)
        state = Unlimited(made, refer(made))
        try:
            nest(state)
        except Refused:
            continue
        defined = len(state.regions), state.outputs, state.conditions
        above = {what: count - MOST[what] for what, count in zip(MOST, defined)}
        most = max(above.values())
        for what in MOST:
            if (
                most in (0, 1)
                and above[what] == most
                and len(found[what, most]) < times
                and sum(over > 0 for over in above.values()) == most
            ):
                found[what, most].append(made)
    return found


def long_sheet(chain: int, others: int, spare: int) -> Record:
    """A leftover with a long sheet: 8-way selects in a chain, and targets never claimed.

    Region 0 is no loop, so its exit list keeps the others from ever being claimed. What
    room there is holds short instructions, but for `spare` words.
    """
    ends = range(chain, chain + others)
    regions = []
    for at in range(chain):
        onward = [at + 1] if at + 1 < chain else []
        targets = onward + [ends[(7 * at + j) % others] for j in range(8 - len(onward))]
        passed = {target: [(INSTR, at, 0)] * 4 if target in ends else [] for target in targets}
        regions.append(Region([], [[Inst(1, 1, 0, [])]], 1, SWITCH, 0, [(INSTR, at, 0)], targets, passed, list(ends) if at == 0 else []))
    regions += [Region([1] * 4, [], 1, UNREACHABLE) for _ in ends]
    made = Record(0, 0, [], regions)
    room = 4047 - spare - len(words_of(made))
    for at in [*ends, *range(chain)]:
        region = regions[at]
        while room >= 5 and len(region.blocks) < 8:
            size = min(8, (room - 1) // 4)
            region.blocks.append([Inst(2, 0, 0, []) for _ in range(size)])
            region.insts += region.blocks[-1]
            room -= 1 + 4 * size
    return made


def full_sheets() -> list[Record]:
    """Three records whose sheets have 16,384 words, 16,385, and many more."""
    found: dict[int, Record] = {}
    for chain, others in itertools.product((12, 13, 14), range(9, 16)):
        for spare in range(0, 1000, 1):
            if len(found) == 2:
                return [found[16384], found[16385], long_sheet(13, 10, 0)]
            made = long_sheet(chain, others, spare)
            length = len(words(nest(Nesting(made, refer(made))), 100000))
            if length < 16384:
                break
            if length in (16384, 16385):
                found.setdefault(length, made)
    raise ValueError("no record has a sheet of 16,384 words and another one of 16,385")
