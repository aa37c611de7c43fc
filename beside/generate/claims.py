"""Runs the claims of demand 3 on random records, many runs for each.

    python3 -m generate.claims SEED ENDED

Goes on until so many runs of graphs have ended. Where the graph's run ends, the nested run
must have its events and its end, and cost at most the figure if within the turn limits.
Attempts are at most 1 + e + n(2n - 1), with n regions in reach and e edges from them.
"""

import collections
import random
import time

from reading.nesting import Nesting
from reading.record import Record, refer, words_of
from reading.runs import differs, rule
from reading.sheet import CLOSED, OUTCOMES, WHOLE, nest
from reading.store import Refused, pack
from .arguments import arguments, whole
from .records import records

RUNS, BUDGET = 8, 120


def words(rng: random.Random, count: int) -> list[int]:
    return [rng.choice((0, 0, 1, 1, 2, 3, rng.getrandbits(32))) for _ in range(count)]


def bound(record: Record) -> int:
    """The most attempts that a record may take."""
    reached, todo = {record.entry}, [record.entry]
    for number in todo:
        for target in record.regions[number].targets:
            if target not in reached:
                reached.add(target)
                todo.append(target)
    edges = sum(len(record.regions[number].targets) for number in reached)
    return 1 + edges + len(reached) * (2 * len(reached) - 1)


def claims(seed: int, wanted: int) -> None:
    rng, seen, worst, start = random.Random(seed + 1), collections.Counter(), 0, time.time()
    for record in records(seed):
        if seen["runs that end"] >= wanted:
            break
        try:
            result = nest(Nesting(record, refer(record)))
        except Refused as refused:
            seen[f"{refused}"] += 1
            continue
        seen[OUTCOMES[result.outcome] + " twice" * result.twice] += 1
        worst = max(worst, result.attempts / bound(record))
        if result.attempts > bound(record):
            print("ATTEMPTS", pack(words_of(record)).hex())
        if result.outcome not in (WHOLE, CLOSED):
            continue
        for _ in range(RUNS):
            wrong, end, run = differs(
                result,
                words(rng, len(record.constants)),
                words(rng, len(record.regions[record.entry].inputs)),
                rule(rng.getrandbits(32)),
                BUDGET,
            )
            if isinstance(end, str):
                seen[f"runs without an end: {end}"] += 1
                if end == "budget":  # a loop without a way out, most often
                    break
                continue
            seen["runs that end"] += 1
            seen[f"runs that end: {end[0]}"] += 1
            if run:
                seen["runs past a turn limit" if run.late else "runs within the limits"] += 1
                if not run.late and run.cost == result.figure:
                    seen["runs that cost the figure"] += 1
            if wrong:
                seen["WRONG"] += 1
                print("WRONG", wrong, pack(words_of(record)).hex())
    for what, times in sorted(seen.items()):
        print(f"{times:8} {what}")
    print(f"{worst:.3f} of the bound on attempts at most, {time.time() - start:.0f} s")


if __name__ == "__main__":
    claims(*arguments(__doc__, whole, whole))
