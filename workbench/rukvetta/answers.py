"""What a command answers: text for people as it comes, or one JSON document at the end (docs/JSON.md)."""

from __future__ import annotations

import dataclasses
import json
import sys
from dataclasses import dataclass, field
from typing import Any

from .alignment import Change
from .facts import Facts
from .faults import Fault, escaped
from .programs import refusal
from .version import version

SCHEMA = 1


@dataclass(frozen=True)
class Told:
    """A fault of a source."""

    line: int
    column: int
    message: str


@dataclass(frozen=True)
class Numbers:
    """The numbers of a refusal: its own, and the word's."""

    number: int
    word: int


def told(fault: Fault) -> list[Told]:
    """The faults of a source as plain data."""
    return [Told(one.line, one.column, one.message) for one in fault.all()]


@dataclass
class Answer:
    """What is known of one file. What a command does not ask for is None or empty."""

    file: str
    outcome: str | None = None  # untouched, whole, closed, leftover or refused
    refusal: Numbers | None = None
    figure: int | None = None
    attempts: int | None = None
    twice: int | None = None
    regions: int | None = None
    words: int | None = None
    clock: float | None = None
    seconds: float | None = None
    record: list[str] = field(default_factory=list)
    sheet: list[str] = field(default_factory=list)
    sentences: list[str] = field(default_factory=list)
    faults: list[Told] = field(default_factory=list)
    wrong: str | None = None  # why it failed, for people
    written: str | None = None  # the file that was written for it

    def take_facts(self, facts: Facts, clock: float | None = None) -> None:
        said = facts.said
        self.take_verdict(said.outcome, said.figure, said.attempts, said.twice)
        self.regions, self.words = facts.regions, facts.words
        if clock and said.figure is not None:
            self.clock, self.seconds = clock, said.figure / clock

    def take_verdict(self, outcome: str, figure: int | None, attempts: int | None, twice: int | None) -> None:
        numbers = refusal(outcome)
        self.outcome = "refused" if numbers else outcome
        self.refusal = Numbers(*numbers) if numbers else None
        self.figure, self.attempts, self.twice = figure, attempts, twice

    def take_faults(self, fault: Fault) -> None:
        self.faults = told(fault)


@dataclass
class Output:
    """Where a command's answer goes."""

    command: str
    as_json: bool = False
    routines: list[Answer] = field(default_factory=list)
    messages: list[str] = field(default_factory=list)
    changes: list[Change] = field(default_factory=list)
    passed: int | None = None
    failed: int | None = None

    def say(self, text: str) -> None:
        """Text for people, on standard output."""
        if not self.as_json:
            print(text)

    def complain(self, text: str) -> None:
        """A message, on standard error; in the document too."""
        self.messages.append(text)
        if not self.as_json:
            print(text, file=sys.stderr)

    def answer(self, path: str) -> Answer:
        """A new answer for a file."""
        self.routines.append(Answer(escaped(path)))
        return self.routines[-1]

    def document(self, status: int) -> dict[str, Any]:
        return {
            "schema": SCHEMA,
            "version": version(),
            "command": self.command,
            "status": status,
            "messages": self.messages,
            "routines": [dataclasses.asdict(one) for one in self.routines],
            "changes": [dataclasses.asdict(one) for one in self.changes],
            "passed": self.passed,
            "failed": self.failed,
        }

    def finish(self, status: int) -> int:
        """Print the document, if one is wanted; answer the status."""
        if self.as_json:
            print(json.dumps(self.document(status), indent=1))
        return status
