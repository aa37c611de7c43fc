"""The most stack that a call needs: the deepest way through the graph of calls, a cycle as deep as its row says."""

from dataclasses import dataclass, field

from assembly import Function
from depths import Depths
from machines import Unbounded

# What the C library may need for one of these, its return address included. They are called, and call nothing of ours.
OUTSIDE = 64
LIBRARY = {"memset", "memcpy", "memmove"} | {
    f"__aeabi_mem{what}{aligned}" for what in ("cpy", "move", "set", "clr") for aligned in ("", "4", "8")
}


@dataclass(frozen=True)
class Need:
    """Bytes of stack: a fixed number, and for each budget so many for each of its units."""

    fixed: int = 0
    each: tuple[tuple[str, int], ...] = ()

    def then(self, other: "Need") -> "Need":
        """Both, one below the other: a unit of a budget is used by the one or the other."""
        dearer = dict(self.each)
        for budget, size in other.each:
            dearer[budget] = max(size, dearer.get(budget, 0))
        return Need(self.fixed + other.fixed, tuple(sorted(dearer.items())))

    def bytes(self, budgets: dict[str, int]) -> int:
        return self.fixed + sum(budgets[budget] * size for budget, size in self.each)


@dataclass
class Graph:
    """The functions, and which of them stand in one cycle."""

    functions: dict[str, Function]
    depths: Depths
    cycles: dict[str, frozenset[str]] = field(default_factory=dict)
    known: dict[str, set[Need]] = field(default_factory=dict)

    def __post_init__(self) -> None:
        below = {name: self.reached(name) for name in self.functions}
        for name in self.functions:
            self.cycles[name] = frozenset(other for other in below[name] if name in below[other])

    def reached(self, name: str) -> set[str]:
        """All functions that it calls, or that those call, and so on."""
        found: set[str] = set()
        ahead = [name]
        while ahead:
            for target in self.functions[ahead.pop()].calls & self.functions.keys() - found:
                found.add(target)
                ahead.append(target)
        return found

    def own(self, name: str) -> tuple[Need, int]:
        """What a function, or all of its cycle, needs itself; and what the last calls of the cycle need, below which there is no cycle."""
        cycle = self.cycles[name]
        if not cycle:
            return Need(self.functions[name].frame), 0
        need, last = Need(), 0
        sums: dict[str, int] = {}
        for member in sorted(cycle):
            row = self.depths.rows.get(member)
            if not row:
                raise Unbounded(f"{member} calls itself, or stands in a cycle, and interface/stack/depths.py has no depth for it")
            frame = self.functions[member].frame
            sums[row.budget] = sums.get(row.budget, 0) + row.each * frame
            need = need.then(Need(row.besides * frame))
            last += row.last * frame
        return need.then(Need(0, tuple(sums.items()))), last

    def needs(self, name: str) -> set[Need]:
        """What the ways down from a function need, without those that need less than another."""
        if name not in self.known:
            own, last = self.own(name)
            cycle = self.cycles[name] or {name}
            targets = {target for member in cycle for target in self.functions[member].calls} - set(cycle)
            found = {own.then(Need(last))}
            for target in targets:
                behind = last if self.plain(target) else 0
                found |= {own.then(Need(behind)).then(below) for below in self.outside(name, target) or self.needs(target)}
            self.known[name] = {need for need in found if not any(less(need, other) for other in found)}
        return self.known[name]

    def plain(self, name: str) -> bool:
        """Whether it is in no cycle and calls none."""
        return name not in self.functions or not any(self.cycles[other] for other in self.reached(name) | {name})

    def outside(self, name: str, target: str) -> set[Need]:
        """What a function of the C library needs; none for one of ours."""
        if target in self.functions:
            return set()
        if target not in LIBRARY:
            raise Unbounded(f"{name} calls {target}, which is not in the module")
        return {Need(OUTSIDE)}


def less(one: Need, other: Need) -> bool:
    """Whether one needs no more than another that differs from it."""
    dearer = dict(other.each)
    return one != other and one.fixed <= other.fixed and all(size <= dearer.get(budget, 0) for budget, size in one.each)


def bounds(functions: dict[str, Function], depths: Depths) -> dict[str, int]:
    """The most bytes of stack that a call of each exported function needs."""
    graph = Graph(functions, depths)
    exported = [name for name, function in functions.items() if function.exported]
    if not exported:
        raise Unbounded("the assembly exports no function")
    return {name: max(need.bytes(depths.budgets) for need in graph.needs(name)) for name in sorted(exported)}
