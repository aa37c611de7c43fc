"""The text of a sheet from its words alone: nothing is shared with the reading's own printing."""

from collections.abc import Callable, Iterable

LINES = "region", "block", "select", "loop", "exit", "defer"


class Words:
    """Words read from the front."""

    def __init__(self, words: Iterable[int]) -> None:
        self.rest = iter(words)

    def number(self) -> int:
        return next(self.rest)

    def list(self, item: Callable[[], object]) -> str:
        return ",".join([str(item()) for _ in range(self.number())]) or "-"

    def value(self) -> str:
        kind, where, index = self.number(), self.number(), self.number()
        if kind == 4:
            return ("false", "true")[index]
        return {0: f"c{index}", 1: f"i{where}.{index}", 2: f"d{where}.{index}", 3: f"n{where}.{index}", 5: f"undef{index}"}[kind]

    def item(self) -> str:
        region, index, opcode, type = (self.number() for _ in range(4))
        return f"{region}.{index}/{opcode}/{type}/{self.list(self.value)}"

    def condition(self) -> str:
        kind = self.number()
        if kind < 4:
            return " tfu"[kind]
        return f"m{self.number()}[{self.list(self.condition)}]"

    def line(self, lead: int) -> str:
        front = f"{LINES[lead]} {self.number()} "
        if lead == 0:
            return front + f"in {self.list(self.number)} kids {self.list(self.number)} out {self.list(self.value)}\n"
        if lead == 1:
            return front + f"{self.list(self.item)}\n"
        if lead == 2:
            kind = ("bool", "num")[self.number()]
            return front + f"{kind} {self.value()} cases {self.list(self.number)} out {self.list(self.number)}\n"
        if lead == 3:
            return front + f"in {self.list(self.value)} body {self.number()} repeat {self.value()}\n"
        if lead == 4:
            return front + f"{self.number()} in {self.list(self.value)}\n"
        target, count = self.number(), self.number()
        to = "return" if target == 65535 else target
        return front + f"to {to} count {count} in {self.list(self.value)} if {self.condition()}\n"


def printed(words: list[int]) -> str:
    """Line 1 without `twice`, and the other lines: what the Rust's harness prints."""
    outcome, figure, attempts = words[:3]
    name = ("untouched", "whole", "closed", "leftover")[outcome]
    rest = Words(words[4:])
    lines = [rest.line(lead) for lead in rest.rest]
    return f"{name} figure {figure if outcome in (1, 2) else '-'} attempts {attempts}\n" + "".join(lines)
