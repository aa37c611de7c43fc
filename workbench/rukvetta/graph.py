"""What can be said of a record's graph by looking at it: reach, edges, incoming counts, loops."""

from __future__ import annotations

from .loops import loop_exits
from .record import Record


def reachable(record: Record) -> list[int]:
    """The regions that the entry reaches, by number."""
    found, todo = {record.entry}, [record.entry]
    while todo:
        for target in record.regions[todo.pop()].targets:
            if target not in found:
                found.add(target)
                todo.append(target)
    return sorted(found)


def most_attempts(record: Record) -> int:
    """1 + e + n(2n - 1), for n regions in reach and e edges that lead from them."""
    live = reachable(record)
    edges = sum(len(record.regions[number].targets) for number in live)
    return 1 + edges + len(live) * (2 * len(live) - 1)


def incoming(record: Record) -> list[int]:
    """The incoming count of each region, as document 01 has it."""
    counts = [0] * len(record.regions)
    counts[record.entry] = 1
    for number in reachable(record):
        for target in record.regions[number].targets + record.regions[number].exits:
            counts[target] += 1
    return counts


def differing_exits(record: Record) -> dict[int, list[int]]:
    """Regions in reach whose exit list is another than LoopFinder finds, with that one."""
    found = loop_exits(record)
    return {
        number: found.get(number, [])
        for number in reachable(record)
        if sorted(record.regions[number].exits) != sorted(found.get(number, []))
    }
