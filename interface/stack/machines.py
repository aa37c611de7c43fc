"""What an instruction does to the stack, and where it goes, on a Cortex-M and on x86-64."""

import re
from dataclasses import dataclass


class Unbounded(Exception):
    """Something of which nothing here can say how much stack it takes."""


@dataclass(frozen=True)
class Step:
    """One instruction: the bytes that it takes from the stack (fewer than 0 where it gives back), the label or function that it goes to,
    whether that is in a table of jumps, whether nothing comes behind it, and whether the function is left."""

    taken: int = 0
    target: str = ""
    computed: bool = False
    ends: bool = False
    leaves: bool = False


class Machine:
    """A processor. RETURN is what a call itself puts on the stack."""

    RETURN = 0

    @staticmethod
    def step(name: str, what: str, words: str) -> Step:
        raise NotImplementedError


CONDITION = "eq|ne|cs|hs|cc|lo|mi|pl|vs|vc|hi|ls|ge|lt|gt|le"


class Arm(Machine):
    """A Cortex-M: the return address is in a register, and in the frame of a function that calls others."""

    JUMP = re.compile(rf"(bl?x?)({CONDITION})?(\.w|\.n)?")
    LIST = re.compile(r"(push|pop)(\.w)?")
    KEEPS = re.compile(rf"(pop({CONDITION})(\.w)? \{{.*pc\}}|add({CONDITION})(\.w)? sp, (sp, )?#\d+|stm\S* sp, .*)")
    MOVE = re.compile(r"(add|sub)(w|\.w)?")
    OTHER = re.compile(r"^\S+ (sp|pc)\b|\[sp\],|\[sp[^\]]*\]!|\bsp!|^v?(push|pop)")  # whatever else changes the stack, or jumps

    @staticmethod
    def step(name: str, what: str, words: str) -> Step:
        if what in ("cbz", "cbnz"):
            return Step(target=words.rpartition(" ")[2])
        if match := Arm.JUMP.fullmatch(what):
            return Arm.jump(name, match[1], bool(match[2]), words)
        if match := Arm.LIST.fullmatch(what):
            registers = re.fullmatch(r"\{([^}-]*)\}", words)
            if registers:
                size = 4 * len(registers[1].split(","))
                back = match[1] == "pop"
                return Step(-size if back else size, ends="pc" in words, leaves="pc" in words)
        if match := Arm.MOVE.fullmatch(what):
            by = re.fullmatch(r"sp, (?:sp, )?#(\d+)", words)
            if by:
                return Step(int(by[1]) if match[1] == "sub" else -int(by[1]))
        if what in ("tbb", "tbh"):
            return Step(computed=True, ends=True)
        if Arm.KEEPS.fullmatch(f"{what} {words}"):
            return Step()  # on the way out where a condition holds, the depth is as it was where it doesn't; or a store that leaves sp
        if Arm.OTHER.search(f"{what} {words}"):
            raise Unbounded(f"{name}: what {what} {words} does to the stack is not known")
        return Step()

    @staticmethod
    def jump(name: str, what: str, sometimes: bool, words: str) -> Step:
        if what == "bx" and words == "lr":
            return Step(ends=not sometimes, leaves=True)
        if re.fullmatch(r"r\d+|lr|sp|pc", words):
            raise Unbounded(f"{name} calls by an address: {what} {words}")
        if what != "b":
            return Step(target=words)
        return Step(target=words, ends=not sometimes, leaves=not words.startswith(".L"))


class X86(Machine):
    """x86-64: a call puts its return address on the stack."""

    RETURN = 8

    @staticmethod
    def step(name: str, what: str, words: str) -> Step:
        if what in ("call", "callq"):
            if words.startswith("*"):
                raise Unbounded(f"{name} calls by an address: {what} {words}")
            return Step(target=words.removesuffix("@PLT"))
        if what in ("jmp", "jmpq"):
            if words.startswith("*"):
                return Step(computed=True, ends=True)
            return Step(target=words, ends=True, leaves=not words.startswith(".L"))
        if re.fullmatch(r"j[a-z]+", what):
            return Step(target=words, leaves=not words.startswith(".L"))
        if what in ("ret", "retq"):
            return Step(ends=True, leaves=True)
        if what in ("pushq", "popq"):
            return Step(8 if what == "pushq" else -8)
        if words.endswith(", %rsp"):
            by = re.fullmatch(r"\$(\d+), %rsp", words)
            if what not in ("subq", "addq") or not by:
                raise Unbounded(f"{name}: what {what} {words} does to the stack is not known")
            return Step(int(by[1]) if what == "subq" else -int(by[1]))
        if what in ("leave", "leaveq", "enter"):
            raise Unbounded(f"{name}: what {what} does to the stack is not known")
        return Step(ends=what == "ud2")


MACHINES: dict[str, type[Machine]] = {"cortex-m3": Arm, "cortex-m4": Arm, "cortex-m33": Arm, "x86-64": X86}
