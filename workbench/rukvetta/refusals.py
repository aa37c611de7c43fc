"""The refusals of document 01: what each number says, and an exception that has the place as well."""

from __future__ import annotations

from collections.abc import Iterable

from .faults import either

RULES = {
    1: "the store's length is 0, over 8,192 or no multiple of 512",
    2: "a block's number is wrong",
    3: "a block's check is wrong",
    4: "W is 0, words run past W or stay over, the block count is wrong, or a later word is not zero",
    5: "a count, type, kind or limit is out of range",
    6: "a region, constant or value names nothing allowed",
    7: "a passed value's type or number differs from the target's inputs, a boolean test is not type 1, "
    "or two Return regions differ in types",
    8: "an exit list names a region twice",
    9: "regions would pass 128, nodes 512, node outputs 512, or lazy condition records 512",
    10: "the lent words are too few",
    11: "the figure exceeds 4,294,967,295",
}


class Refused(Exception):
    """A refusal with its place. `part` is the part of the record that a source has a line for."""

    def __init__(self, number: int, word: int, sentence: str, part: tuple | None = None) -> None:
        super().__init__(sentence)
        self.number, self.word, self.sentence, self.part = number, word, sentence, part


def several(count: int, what: str) -> str:
    """1 value, 2 values."""
    return f"{count:,} {what}" if count == 1 else f"{count:,} {what}s"


def allowed(least: int, most: int) -> str:
    return f"{least} would be allowed" if least == most else f"{least} to {most:,} would be allowed"


def one_of(values: Iterable[str]) -> str:
    """Which of some values would be allowed; of many, the first and the last."""
    values = list(values)
    if not values:
        return "none would be allowed"
    shown = either(values) if len(values) <= 4 else f"{values[0]}, {values[1]} .. {values[-1]}"
    return f"{shown} would be allowed"
