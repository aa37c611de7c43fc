"""Finds where a store is refused with 1 to 5: which block, or which word of which part of the record."""

from __future__ import annotations

from collections.abc import Callable
from typing import TypeVar

from . import record as r
from .refusals import Refused, allowed, several
from .store import BLOCK, BLOCKS, CHECK, PAYLOAD, WORDS, blocks_of, check_of, words_of
from .streams import MOST_READ

Made = TypeVar("Made")


def check_store(store: bytes) -> None:
    """Length, block numbers and checks: 1 to 3."""
    if not store or len(store) > BLOCK * BLOCKS or len(store) % BLOCK:
        long = f"more than {MOST_READ - 1:,} bytes" if len(store) >= MOST_READ else several(len(store), "byte")
        raise Refused(1, 0, f"The store has {long}; 512 to 8,192 in blocks of 512 would be allowed.")
    for number, block in enumerate(blocks_of(store)):
        found = int.from_bytes(block[:PAYLOAD], "little")
        if found != number:
            raise Refused(2, number, f"Block {number} has the number {found} in its bytes 0 and 1; {number} would be allowed.")
        found = int.from_bytes(block[CHECK:], "little")
        if found != check_of(block):
            raise Refused(
                3,
                number,
                f"Block {number} has the check {found:,} in its bytes 508 to 511, which is not the one of its other "
                "bytes. The block is damaged; which byte is wrong cannot be told. Take the store from its source again: a "
                "check that is only made to fit would let the damage pass.",
            )


def check_used(words: list[int]) -> None:
    """W, the block count and the words after W: 4."""
    used, blocks = words[0], len(words) // WORDS
    wanted = -(-used // WORDS)
    if used == 0:
        raise Refused(4, 0, "W, word 0, is 0; it counts itself, so 1 or more would be allowed.")
    if blocks != wanted:
        raise Refused(4, 0, f"W is {used}, which needs {several(wanted, 'block')} of {WORDS} words; the store has {blocks}.")
    for at in range(used, len(words)):
        if words[at]:
            raise Refused(4, 0, f"{where(at)} comes after W, {used}, and holds {words[at]}; 0 would be allowed.")


def where(at: int) -> str:
    return f"Word {at} (block {at // WORDS}, byte {PAYLOAD + at % WORDS * 2})"


class Places:
    """The record's words, one after another. `part` says what is being read, for the sentence."""

    def __init__(self, words: list[int]) -> None:
        self.words, self.at, self.region, self.part = words, 1, 0, ""

    def word(self, what: str) -> int:
        if self.at >= self.words[0]:
            raise Refused(4, 0, f"The record runs past W: W is {self.words[0]}, and {self.part}{what} would be word {self.at}.")
        self.at += 1
        return self.words[self.at - 1]

    def within(self, bounds: tuple[int, int], what: str) -> int:
        least, most = bounds
        word = self.word(what)
        if not least <= word <= most:
            raise self.out_of_range(word, what, allowed(least, most))
        return word

    def out_of_range(self, word: int | str, what: str, would: str) -> Refused:
        return Refused(5, self.region, f"{where(self.at - 1)} is {self.part}{what} and holds {word}; {would}.")

    def listed(self, bounds: tuple[int, int], what: str, item: Callable[[int], Made]) -> list[Made]:
        return [item(place) for place in range(self.within(bounds, f"the count of {what}"))]

    def value(self, what: str) -> r.Value:
        kind = self.word(f"the kind of {what}")
        if kind == r.OUTPUT or kind > r.UNDEFINED:
            why = "which arises only in nesting" if kind == r.OUTPUT else "which is no kind"
            raise self.out_of_range(f"{kind}, {why}", f"the kind of {what}", "0, 1, 2, 4 or 5 would be allowed")
        region = self.word(f"the region of {what}")
        if kind == r.UNDEFINED:
            return kind, region, self.within(r.TYPE, f"the type of the undefined {what}")
        return kind, region, self.word(f"the index of {what}")

    def within_part(self, part: str, read: Callable[[], Made]) -> Made:
        """Read something with a longer name for the part."""
        before, self.part = self.part, self.part + part
        made = read()
        self.part = before
        return made

    def instruction(self, place: int) -> r.Instruction:
        def read() -> r.Instruction:
            made = r.Instruction(self.word("the opcode"), self.within(r.RESULT, "the type"), self.word("the cost"), [])
            made.reads = self.listed(r.READS, "reads", lambda k: self.value(f"read {k}"))
            return made

        return self.within_part(f"instruction {place}: ", read)

    def block(self, place: int) -> list[r.Instruction]:
        return self.within_part(f"block {place}, ", lambda: self.listed(r.INSTRUCTIONS, "instructions", self.instruction))

    def one_region(self, number: int) -> r.Region:
        self.region, self.part = number, f"region {number}, "
        inputs = self.listed(r.INPUTS, "inputs", lambda k: self.within(r.TYPE, f"the type of input {k}"))
        blocks = self.listed(r.BLOCKS, "blocks", self.block)
        made = r.Region(inputs, blocks, self.within(r.LIMIT, "the turn limit"), self.within((0, 5), "the kind of the terminator"))
        made.opcode = self.word("the terminator's opcode") if made.kind == r.EXIT else 0
        made.values = self.listed(r.VALUES[made.kind], "the terminator's values", lambda k: self.value(f"value {k}"))
        made.targets = self.listed(r.TARGETS[made.kind], "targets", lambda k: self.word(f"target {k}"))
        for target in dict.fromkeys(made.targets):
            made.passed[target] = self.listed(r.INPUTS, f"values passed to region {target}", lambda k: self.value(f"passed value {k}"))
        made.exits = self.listed(r.EXITS, "loop exit targets", lambda k: self.word(f"exit {k}"))
        return made

    def record(self) -> r.Record:
        count = self.within(r.REGIONS, "the region count")
        made = r.Record(self.word("the entry region"), self.word("the test cost"), [], [])
        made.constants = self.listed(r.CONSTANTS, "constants", lambda k: self.within(r.TYPE, f"the type of constant {k}"))
        made.regions = [self.one_region(number) for number in range(count)]
        if self.at != self.words[0]:
            over = self.words[0] - self.at
            raise Refused(
                4,
                0,
                f"Region {count - 1}, the last, ends before word {self.at}, and W is {self.words[0]}: "
                f"{several(over, 'word')} {'stays' if over == 1 else 'stay'} over.",
            )
        return made


def read_store(store: bytes) -> r.Record:
    """The record of a store, or a refusal from 1 to 5 with its place."""
    check_store(store)
    words = words_of(store)
    check_used(words)
    return Places(words).record()
