"""Faults in a source: line, column, the line itself, what was found and what was expected; and text that is safe to print."""

from __future__ import annotations

import contextlib
import difflib
import re
from collections.abc import Iterable, Iterator
from typing import Any

MOST_TOLD = 50  # faults of one source; of more the number is told


def escaped(text: str) -> str:
    """A text for a terminal: what cannot be printed, line ends included, stands as an escape."""
    return "".join(c if c.isprintable() else c.encode("unicode_escape").decode("ascii") for c in text)


def cut(match: re.Match[str]) -> str:
    """A very long word of a message: its beginning."""
    return match[0][:60] + "…" + match[1]


class Fault(Exception):
    """One fault of a source."""

    def __init__(self, line: int, column: int, message: str) -> None:
        super().__init__(message)
        self.line, self.column = line, column
        self.message = escaped(re.sub(r"`?[^\s`]{80,}(`?)", cut, message))

    @classmethod
    def at(cls, token: Any, message: str) -> Fault:
        return cls(token.line, token.column, message)

    def all(self) -> list[Fault]:
        return [self]

    def text(self, source: str, name: str = "source") -> str:
        """The faults for people, each with its line and a mark under the column."""
        faults = self.all()
        told = [one_text(fault, source.split("\n"), escaped(name)) for fault in faults[:MOST_TOLD]]
        if len(faults) > MOST_TOLD:
            told.append(f"{escaped(name)}: {len(faults) - MOST_TOLD} faults more")
        return "\n".join(told)


class Faults(Fault):
    """All faults of a source, in its order; line, column and message are those of the first."""

    def __init__(self, found: Iterable[Fault]) -> None:
        ordered = {(fault.line, fault.column, fault.message): fault for fault in found}
        self.found = [ordered[key] for key in sorted(ordered)]
        super().__init__(self.found[0].line, self.found[0].column, self.found[0].message)

    def all(self) -> list[Fault]:
        return self.found


class Lost(Fault):
    """A fault that may only follow from one that was told already: a name that a line which does not parse may have defined."""


class Gathered:
    """The faults that were met, while reading goes on behind each."""

    def __init__(self, found: Iterable[Fault] = ()) -> None:
        self.found = list(found)

    @contextlib.contextmanager
    def told(self) -> Iterator[None]:
        try:
            yield
        except Lost:
            pass
        except Fault as fault:
            self.found += fault.all()

    def tell(self) -> None:
        """Raise them all, if there are any."""
        if self.found:
            raise Faults(self.found)


def one_text(fault: Fault, lines: list[str], name: str) -> str:
    line = lines[fault.line - 1].rstrip("\r") if 0 < fault.line <= len(lines) else ""
    start = max(0, fault.column - 100)
    part = line[start : start + 130].replace("\t", " ")
    shown = "".join(c if c.isprintable() else "\N{REPLACEMENT CHARACTER}" for c in part)
    mark = " " * (fault.column - 1 - start) + "^"
    return f"{name}: line {fault.line}, column {fault.column}: {fault.message}\n    {shown}\n    {mark}"


def either(words: Iterable[str]) -> str:
    """`a`, `b` or `c`."""
    words = list(words)
    return words[0] if len(words) == 1 else ", ".join(words[:-1]) + " or " + words[-1]


def near(word: str, names: Iterable[str]) -> str:
    """Names that look like a word, as the end of a sentence."""
    close = difflib.get_close_matches(word, list(names), 3)
    return f" (near it: {', '.join(f'`{name}`' for name in close)})" if close else ""
