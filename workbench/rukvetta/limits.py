"""Which regions head a loop, and so must state a turn limit: those that a way leads back to, and those with an exit list."""

from __future__ import annotations

from .record import Record


def ways_back(record: Record) -> dict[int, int]:
    """Each region that a way leads back to, with the region that the first such way leaves.

    Regions are walked from the entry, targets in their order, as nesting does; then from those that the entry does not reach.
    """
    found: dict[int, int] = {}
    on_the_way: set[int] = set()
    done: set[int] = set()

    def walk(number: int) -> None:
        on_the_way.add(number)
        for target in record.regions[number].targets:
            if target in on_the_way:
                found.setdefault(target, number)
            elif target < len(record.regions) and target not in done:
                walk(target)
        on_the_way.remove(number)
        done.add(number)

    for start in [record.entry, *range(len(record.regions))]:
        if start < len(record.regions) and start not in done:
            walk(start)
    return found


def headers(record: Record) -> dict[int, int | None]:
    """Each region that heads a loop, with the region that leads back to it, or None where only its exit list says so."""
    listed: dict[int, int | None] = {number: None for number, region in enumerate(record.regions) if region.exits}
    return listed | ways_back(record)
