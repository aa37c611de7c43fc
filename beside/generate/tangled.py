"""Prints vectors of chains of 32 regions with more edges, back and forth, without answers, for bench/.

    python3 -m generate.tangled SEED COUNT > VECTORS

Each region has the next one among its targets, so that all are begun one inside the other: bench/board/run looks for the deepest
stack among them.
"""

import random

from reading.record import BRANCH, CONST, IF, SWITCH, TRUE
from .arguments import arguments, whole
from .large import BLOCK, REGIONS, link
from .stores import only, plain

LAST = REGIONS - 1


def tangled(rng: random.Random) -> bytes:
    blocks, selects, back, in_order = rng.random(), rng.random(), rng.random(), rng.random() < 0.5

    def other(at):
        return rng.randint(1, at) if at and rng.random() < back else rng.randint(at + 1, LAST)

    def region(at):
        more = {"blocks": BLOCK} if rng.random() < blocks else {}
        kind = rng.random()
        if kind >= selects:
            return link(BRANCH, [at + 1], **more)
        if kind < 0.6 * selects:
            targets = [at + 1, other(at)]
            return link(IF, targets if in_order else targets[::-1], values=[TRUE], **more)
        targets = [at + 1] + [other(at) for _ in range(rng.randint(1, 7))]
        if not in_order:
            rng.shuffle(targets)
        return link(SWITCH, targets, values=[(CONST, 0, 0)], **more)

    return only(*[region(at) for at in range(LAST)], plain(), constants=[2])


def main(seed: int, count: int) -> None:
    rng = random.Random(seed)
    for _ in range(count):
        print(f"store {tangled(rng).hex()}\n.")


if __name__ == "__main__":
    main(*arguments(__doc__, whole, whole))
