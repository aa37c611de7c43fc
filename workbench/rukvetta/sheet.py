"""The first line of a sheet, and its defer lines, as the program `nest` prints them."""

from __future__ import annotations

from collections.abc import Iterator
from dataclasses import dataclass

from .programs import refusal


@dataclass
class Verdict:
    """Outcome, figure (None if there is none), attempts and twice of a sheet; or a refusal's number and word."""

    outcome: str
    figure: int | None = None
    attempts: int | None = None
    twice: int | None = None

    @property
    def refused(self) -> bool:
        return self.outcome.startswith("refused")


def verdict(sheet: str) -> Verdict:
    """What line 1 says."""
    if refusal(sheet):
        return Verdict(sheet.strip())
    outcome, _, figure, _, attempts, _, twice = sheet.split("\n", 1)[0].split()
    return Verdict(outcome, None if figure == "-" else int(figure), int(attempts), int(twice))


def deferred(sheet: str) -> Iterator[tuple[int, int | None, int]]:
    """Region, target (None for a return) and count of each defer line."""
    for line in sheet.splitlines():
        word, *rest = line.split()
        if word == "defer":
            yield int(rest[0]), None if rest[2] == "return" else int(rest[2]), int(rest[4])


def counted(sheet: str, word: str) -> int:
    return sum(line.startswith(word + " ") for line in sheet.splitlines())
