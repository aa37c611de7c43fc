"""What the programs say of a routine, as the row of a table; and how long a figure lasts at a clock that was given."""

from __future__ import annotations

import argparse
import re
from dataclasses import dataclass

from .sheet import Verdict, verdict
from .store import words_of

UNITS = {"": 1.0, "k": 1e3, "m": 1e6, "g": 1e9}


def clock(text: str) -> float:
    """A clock as 20MHz, 100 kHz or 5e6, in hertz; a cost of 1 is one of its ticks."""
    match = re.fullmatch(r"([0-9.]+(?:e[0-9]+)?)\s*(?:([kmg]?)hz)?", text.strip().lower())
    try:
        hertz = float(match[1]) * UNITS[match[2] or ""] if match else 0
        if 0 < hertz < 1e15:
            return hertz
    except ValueError:
        pass
    raise argparse.ArgumentTypeError(f"{text} is no clock; 20MHz or 5e6 would be one")


def add_clock(parser: argparse.ArgumentParser) -> None:
    parser.add_argument(
        "--clock", type=clock, metavar="HERTZ", help="ticks a second, as 20MHz; a cost of 1 is one tick. Times are told only with it"
    )


def clock_text(hertz: float) -> str:
    """A clock for people: 10 MHz."""
    for unit, scale in ("GHz", 1e9), ("MHz", 1e6), ("kHz", 1e3):
        if hertz >= scale:
            return f"{hertz / scale:.10g} {unit}"
    return f"{hertz:.10g} Hz"


def duration(figure: int, hertz: float) -> str:
    time = figure / hertz
    for unit, scale in ("s", 1.0), ("ms", 1e3), ("\N{MICRO SIGN}s", 1e6):
        if time * scale >= 1:
            return f"{time * scale:.4g} {unit}"
    return f"{time * 1e9:.4g} ns"


def heads(hertz: float | None) -> tuple[str, ...]:
    """The heads of a table: a column of times only with a clock, which its head names."""
    times = (f"time at {clock_text(hertz)}",) if hertz else ()
    return ("routine", "outcome", "figure", *times, "attempts", "regions", "words")


@dataclass
class Facts:
    """One routine: its name, what line 1 of its sheet says, how many regions and words its record has."""

    name: str
    said: Verdict
    regions: int | None = None
    words: int | None = None

    def cells(self, hertz: float | None) -> tuple[str, ...]:
        """The cells of a table, as text."""
        figure = self.said.figure
        times = ("-" if figure is None else duration(figure, hertz),) if hertz else ()
        numbers = (self.said.attempts, self.regions, self.words)
        return (
            self.name,
            self.said.outcome,
            "-" if figure is None else f"{figure:,}",
            *times,
            *("-" if number is None else str(number) for number in numbers),
        )


def facts_of(name: str, store: bytes, shown: str, sheet: str) -> Facts:
    """The facts of a store, from what `show` and `nest` print of it."""
    if not shown.startswith("record"):
        return Facts(name, verdict(sheet))
    return Facts(name, verdict(sheet), int(shown.split(" ", 3)[2]), words_of(store)[0])
