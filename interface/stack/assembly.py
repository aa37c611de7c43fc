"""Functions, frames and calls, read from the assembly that the compiler wrote and from its own line for each frame (-fstack-usage)."""

import pathlib
import re
from collections.abc import Iterator
from dataclasses import dataclass, field

from machines import MACHINES, Machine, Unbounded

NAME = r'"[^"]+"|[A-Za-z_$][\w.$]*'
TYPE = re.compile(rf"\s*\.type\s+({NAME}),\s*[%@]function")
GLOBAL = re.compile(rf"\s*\.globl\s+({NAME})")
LABEL = re.compile(rf"({NAME}|\.L[\w.$]+):")
INSTRUCTION = re.compile(r"\s+([a-z][\w.]*)(?:\s+(.*))?$")
COMMENT = re.compile(r"\s+[@#] .*$")
ENTRY = re.compile(r"^\s+\.(?:byte|2byte|short|4byte|long)\s+\(?(\.LBB\w+)")  # of a table of jumps


@dataclass
class Function:
    """One function: its text, the bytes of stack that one call of it has, and whom it calls."""

    name: str
    exported: bool = False
    text: list[str] = field(default_factory=list)
    frame: int = 0
    calls: set[str] = field(default_factory=set)


def frames(text: str) -> dict[str, int]:
    """The bytes of each frame, by the compiler's own lines: file, function, bytes, and whether that is all."""
    found = {}
    for line in text.splitlines():
        place, size, kind = line.split("\t")
        name = place.partition(":")[2]
        if kind != "static":
            raise Unbounded(f"the frame of {name} has no fixed size: {kind}")
        found[name] = int(size)
    return found


def functions(text: str) -> dict[str, Function]:
    """The functions of an assembly, each with its lines."""
    found: dict[str, Function] = {}
    exported: set[str] = set()
    now = None
    for line in text.splitlines():
        if match := TYPE.match(line):
            name = match[1].strip('"')
            found[name] = Function(name)
        elif match := GLOBAL.match(line):
            exported.add(match[1].strip('"'))
        else:
            match = LABEL.match(line)
            now = found.get(match[1].strip('"'), now) if match else now
            if now:
                now.text.append(COMMENT.sub("", line))
    for name in exported & set(found):
        found[name].exported = True
    return found


def instructions(function: Function) -> Iterator[tuple[str, str]]:
    """Each label within it, as itself and nothing, and each instruction with its operands."""
    for line in function.text:
        if match := LABEL.match(line):
            if match[1].startswith(".L"):
                yield match[1], ""
        elif match := INSTRUCTION.match(line):
            yield match[1], (match[2] or "").strip()


class Walk:
    """A function's stack, line by line: how deep it is at each label that a jump leads to, how deep at most, and whom it calls."""

    def __init__(self, function: Function, machine: type[Machine]) -> None:
        self.function, self.machine = function, machine
        self.tables = {label for line in function.text for label in ENTRY.findall(line)}
        self.at: dict[str, int] = {}
        self.deepest = 0
        known = -1
        while known != len(self.at):  # a jump back shows the depth of lines that were passed
            known = len(self.at)
            self.lines()

    def lands(self, label: str, depth: int) -> None:
        if self.at.setdefault(label, depth) != depth:
            raise Unbounded(f"{self.function.name} comes to {label} with {depth} and with {self.at[label]} bytes on the stack")

    def lines(self) -> None:
        """From the first line to the last; behind a jump the depth is that of the next label."""
        depth: int | None = 0
        for what, words in instructions(self.function):
            if what.startswith(".L"):
                if depth is not None:
                    self.lands(what, depth)
                depth = self.at.get(what)
            elif depth is not None:
                depth = self.passes(what, words, depth)

    def passes(self, what: str, words: str, depth: int) -> int | None:
        """One instruction: the depth behind it, none where nothing comes behind it."""
        name = self.function.name
        step = self.machine.step(name, what, words)
        depth += step.taken
        self.deepest = max(self.deepest, depth)
        if step.computed and not self.tables:
            raise Unbounded(f"{name} jumps by an address, and has no table of jumps: {what} {words}")
        for label in self.tables if step.computed else [step.target] if step.target.startswith(".L") else []:
            self.lands(label, depth)
        if step.target and not step.target.startswith(".L"):
            self.function.calls.add(step.target.strip('"'))
        if step.leaves and depth:
            raise Unbounded(f"{name} leaves with {depth} bytes on the stack: {what} {words}")
        return None if step.ends else depth


def read(assembly: pathlib.Path, processor: str) -> dict[str, Function]:
    """The functions of PATH.s with their frames of PATH.su. Where a call's own arguments are pushed the compiler's number lacks them."""
    machine = MACHINES[processor]
    found = functions(assembly.read_text(encoding="utf-8"))
    known = frames(assembly.with_suffix(".su").read_text(encoding="utf-8"))
    for name, function in found.items():
        if name not in known:
            raise Unbounded(f"the compiler says nothing of the frame of {name}")
        function.frame = max(known[name], Walk(function, machine).deepest) + machine.RETURN
    return found
