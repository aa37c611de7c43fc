"""An accepted record in words, and what its sheet says."""

from __future__ import annotations

from collections.abc import Iterable, Iterator

from . import record as r
from .graph import differing_exits, incoming, most_attempts, reachable
from .loops import loop_exits
from .refusals import several
from .sheet import counted, deferred, verdict


def numbers(items: Iterable[int]) -> str:
    texts = [str(item) for item in items]
    return texts[0] if len(texts) == 1 else ", ".join(texts[:-1]) + " and " + texts[-1] if texts else "none"


def regions(items: list[int]) -> str:
    return f"region{'s' * (len(items) != 1)} {numbers(items)}"


def ends(record: r.Record, live: list[int]) -> Iterator[str]:
    """How a run can end, a sentence each."""
    for number in live:
        region = record.regions[number]
        if region.kind == r.RETURN:
            yield f"Region {number} returns {several(len(region.values), 'value')}."
        elif region.kind == r.EXIT:
            yield f"Region {number} exits with opcode {region.opcode} and {several(len(region.values), 'value')}."
        elif region.kind == r.UNREACHABLE:
            yield f"Region {number} ends in Unreachable: no run should come there."


def loops(record: r.Record) -> Iterator[str]:
    found = loop_exits(record)
    for header, targets in sorted(found.items()):
        limit = record.regions[header].limit
        left = f"left to {regions(targets)}" if targets else "never left"
        yield f"Region {header} heads a loop of at most {several(limit, 'turn')}, {left}."
    for number, wanted in differing_exits(record).items():
        listed = record.regions[number].exits
        yield (
            f"The exit list of region {number} names {numbers(listed)}; LoopFinder of cfg.rs would find {numbers(wanted)} "
            "(`exits auto`)."
        )


def record_sentences(record: r.Record, words: int) -> Iterator[str]:
    """What stands in the record."""
    live = reachable(record)
    instructions = sum(len(region.instructions()) for region in record.regions)
    yield (
        f"The record has {several(len(record.regions), 'region')} with {several(instructions, 'instruction')}, "
        f"{several(len(record.constants), 'constant')}, entry {record.entry}, test cost {record.test}; {words} words."
    )
    unreached = [number for number in range(len(record.regions)) if number not in live]
    if unreached:
        yield f"The entry does not reach {regions(unreached)}."
    yield from ends(record, live)
    yield from loops(record)


def leftover_sentences(record: r.Record, sheet: str) -> Iterator[str]:
    counts = incoming(record)
    for number, target, count in deferred(sheet):
        if target is None:
            yield f"Region {number} still returns by a branch."
        else:
            yield f"Region {number} still branches to region {target}, with {count} of that region's {counts[target]} incoming edges."


def sheet_sentences(record: r.Record, sheet: str) -> Iterator[str]:
    """What the proved program says of it."""
    said = verdict(sheet)
    if said.outcome == "untouched":
        yield (
            f"It stays untouched: the entry's incoming count is {incoming(record)[record.entry]}, "
            "and only an entry that nothing leads back to is nested."
        )
        return
    parts = (
        f"{several(counted(sheet, 'select'), 'select')}, {several(counted(sheet, 'loop'), 'loop')} and "
        f"{several(counted(sheet, 'exit'), 'exit')}"
    )
    ending = {"whole": "It nests whole", "closed": "It nests closed (no run returns)", "leftover": "It nests in part"}
    yield f"{ending[said.outcome]}: {parts}, after {several(said.attempts or 0, 'attempt')} of at most {most_attempts(record):,}."
    if said.figure is not None:
        yield f"A run within the turn limits costs at most {said.figure:,}, the figure."
    yield from leftover_sentences(record, sheet)
    if said.twice:
        yield "Twice is 1: the Rust would have renumbered an input a second time here (docs/DIFFERENCES.md)."
