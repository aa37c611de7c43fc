"""Lists held side by side: which item of one is which of the other, and which lines differ."""

from __future__ import annotations

import difflib
from collections.abc import Callable, Hashable, Iterator, Sequence
from dataclasses import dataclass
from typing import TypeVar

Item = TypeVar("Item")


@dataclass(frozen=True)
class Change:
    """A line that differs: `-` for what was there, `+` for what is now, a blank for a heading; and the text."""

    sign: str
    text: str


def paired(
    old: Sequence[Item], new: Sequence[Item], key: Callable[[Item], Hashable], loose: Callable[[Item], Hashable] | None = None
) -> Iterator[tuple[Item, Item]]:
    """Items of two lists that are the same by a key, in order; between them those that are the same by a looser one."""
    matcher = difflib.SequenceMatcher(None, [key(item) for item in old], [key(item) for item in new], autojunk=False)
    for what, a, a_end, b, b_end in matcher.get_opcodes():
        if what == "equal":
            yield from zip(old[a:a_end], new[b:b_end])
        elif what == "replace" and loose:
            yield from paired(old[a:a_end], new[b:b_end], loose)


def changed_lines(old: Sequence[str], new: Sequence[str]) -> Iterator[Change]:
    """The lines that differ."""
    for what, a, a_end, b, b_end in difflib.SequenceMatcher(None, old, new, autojunk=False).get_opcodes():
        if what != "equal":
            yield from (Change("-", line) for line in old[a:a_end])
            yield from (Change("+", line) for line in new[b:b_end])
