"""Shapes: graphs without values. A shape is an entry and a (kind, targets) for each region."""

from collections.abc import Callable
from random import Random

from reading.record import BRANCH, EXIT, IF, RETURN, SWITCH, UNREACHABLE

Terminator = tuple[int, list[int]]  # a kind and its targets
Nodes = list[Terminator]
Shape = tuple[int, Nodes]  # the entry, and the regions
Maker = Callable[[Random, int], Shape]


class Program:
    """A structured program, flattened as it is made."""

    def __init__(self, rng: Random, most: int, ends: tuple[int, ...]) -> None:
        self.rng, self.most, self.ends = rng, most, ends
        self.nodes: Nodes = []
        self.trap: int | None = None

    def new(self) -> int:
        self.nodes.append((UNREACHABLE, []))
        return len(self.nodes) - 1

    def room(self, wanted: int = 1) -> bool:
        return len(self.nodes) + wanted <= self.most

    def leave(self, at: int) -> None:
        """End a region for good: return, exit or a dead end, the latter at times shared."""
        kind = self.rng.choices((RETURN, EXIT, UNREACHABLE), self.ends)[0]
        if kind == UNREACHABLE and self.rng.random() < 0.5 and (self.trap or self.room()):
            if self.trap is None:
                self.trap = self.new()
            self.nodes[at] = (BRANCH, [self.trap])
        else:
            self.nodes[at] = (kind, [])

    def fork(self, at: int, targets: list[int]) -> None:
        rng = self.rng
        if len(targets) == 1 and rng.random() < 0.8:
            self.nodes[at] = (BRANCH, targets)
        elif len(targets) == 2 and rng.random() < 0.8:
            rng.shuffle(targets)
            self.nodes[at] = (IF, targets)
        else:
            while len(targets) < 8 and rng.random() < 0.2:
                targets.append(rng.choice(targets))
            rng.shuffle(targets)
            self.nodes[at] = (SWITCH, targets)

    def body(self, at: int, depth: int, breaks: list[int], continues: list[int]) -> int | None:
        """Statements from region `at` on; answers the region where they end, or None."""
        rng = self.rng
        for _ in range(rng.randint(1, 3)):
            choice = rng.random()
            if choice < 0.3 and depth and self.room(4):
                at = self.select(at, depth, breaks, continues)
            elif choice < 0.55 and depth and self.room(4):
                at = self.loop(at, depth, breaks, continues)
            elif choice < 0.75 and self.room(2) and (breaks or continues):
                on, away = self.new(), rng.choice(breaks + continues)
                self.fork(at, [away, on])
                at = on
            elif choice < 0.85 and self.room(3):
                on, end = self.new(), self.new()
                self.fork(at, [end, on])
                self.leave(end)
                at = on
            elif choice < 0.9:
                if (breaks or continues) and rng.random() < 0.7:
                    self.nodes[at] = (BRANCH, [rng.choice(breaks + continues)])
                else:
                    self.leave(at)
                return None
            elif self.room():
                on = self.new()
                self.nodes[at] = (BRANCH, [on])
                at = on
            if at is None:
                return None
        return at

    def select(self, at: int, depth: int, breaks: list[int], continues: list[int]) -> int | None:
        rng = self.rng
        ways = rng.choice((2, 2, 2, 3, 4, 8))
        cases, join, used = [], None, False
        for _ in range(ways):
            if rng.random() < 0.25 or not self.room(2):
                cases.append(None)
            else:
                cases.append(self.new())
        if self.room():
            join = self.new()
        else:
            self.leave(at)
            return None
        self.fork(at, [join if case is None else case for case in cases])
        used = None in cases
        for case in cases:
            if case is not None:
                end = self.body(case, depth - 1, breaks, continues)
                if end is not None:
                    self.nodes[end] = (BRANCH, [join])
                    used = True
        return join if used else None

    def loop(self, at: int, depth: int, breaks: list[int], continues: list[int]) -> int | None:
        rng = self.rng
        head, out = self.new(), self.new()
        self.nodes[at] = (BRANCH, [head])
        begin = head
        if rng.random() < 0.4 and self.room():  # while
            begin = self.new()
            self.fork(head, [begin, out])
        near = rng.random() < 0.7
        end = self.body(begin, depth - 1, [out] + ([] if near else breaks), [head] + ([] if near else continues))
        if end is not None:
            if rng.random() < 0.5:  # do while
                self.fork(end, [head, out])
            else:
                self.nodes[end] = (BRANCH, [head])
        return out


def structured(rng: Random, most: int) -> Shape:
    program = Program(rng, most, rng.choice(((6, 1, 1), (2, 1, 1), (1, 0, 0), (1, 3, 3))))
    end = program.body(program.new(), rng.randint(1, 4), [], [])
    if end is not None:
        program.leave(end)
    return 0, program.nodes


def terminator(rng: Random, target: Callable[[], int], ways: int) -> Terminator:
    kind = rng.choices((UNREACHABLE, RETURN, EXIT, BRANCH, IF, SWITCH), (1, 3, 1, 8, 10, ways))[0]
    places = {BRANCH: 1, IF: 2, SWITCH: rng.choice((1, 2, 3, 3, 4, 8))}.get(kind, 0)
    return kind, [target() for _ in range(places)]


def wild(rng: Random, most: int) -> Shape:
    """Any targets at all."""
    count = rng.randint(min(2, most), most)
    ways = rng.choice((0, 2, 10))
    low = rng.choice((0, *[1] * 9))  # often nothing leads back to the entry
    nodes = [terminator(rng, lambda: rng.randint(min(low, count - 1), count - 1), ways) for _ in range(count)]
    return 0, nodes


def near(rng: Random, most: int) -> Shape:
    """Targets not far off: chains and ladders with short loops, reducible or not."""
    count, far = rng.randint(min(2, most), most), rng.randint(2, 6)
    back, ways = rng.choice((0.05, 0.15, 0.3)), rng.choice((0, 2, 6))
    nodes = []
    for at in range(count):

        def target():
            if rng.random() < back:
                return max(1 if count > 1 else 0, at - rng.randint(0, far))
            return min(count - 1, at + rng.randint(1, far))

        nodes.append(terminator(rng, target, ways))
    return 0, nodes


def reducible(rng: Random, most: int) -> Shape:
    """Forward edges, and back edges to dominators only."""
    count, ways = rng.randint(min(2, most), most), rng.choice((0, 2, 6))
    back = rng.choice((0.1, 0.3, 0.5))
    dominators = {0: {0}}
    incoming = {at: [] for at in range(count)}
    nodes = []
    for at in range(count):
        above = [dominators[p] for p in incoming[at]]
        dominators[at] = (set.intersection(*above) if above else set()) | {at}
        heads = sorted(dominators[at] - {0})

        def target():
            if heads and (rng.random() < back or at == count - 1):
                return rng.choice(heads)
            to = min(count - 1, at + 1 + int(rng.random() ** 3 * 6))
            incoming[to].append(at)
            return to

        if at == count - 1 and not heads:
            nodes.append((RETURN, []))
        else:
            nodes.append(terminator(rng, target, ways))
    return 0, nodes


def nest_of_loops(rng: Random, most: int) -> Shape:
    """Loops in loops, each header passing to an inner header, its exit or back."""
    depth = rng.randint(1, max(1, min(5, (most - 2) // 2)))
    nodes = [(BRANCH, [1])]
    for level in range(1, depth + 1):  # heads, a tail for each, an end
        inner, out = level + 1, 2 * depth + 2 - level
        nodes.append((IF, [inner, out]) if rng.random() < 0.5 else (BRANCH, [inner]))
    for level in range(depth, 0, -1):
        tail = 2 * depth + 1 - level
        outer = rng.randint(1, level) if rng.random() < 0.3 else level
        nodes.append(
            (IF, rng.sample([outer, tail + 1], 2))
            if rng.random() < 0.8
            else (SWITCH, rng.choices([outer, tail + 1, level], k=rng.randint(2, 8)))
        )
    nodes.append((RETURN, []))
    return 0, nodes


def crowded(rng: Random, most: int) -> Shape:
    """Many targets for each region, none far back: many cases, outputs and conditions."""
    count, far = rng.randint(min(most, 8), most), rng.choice((3, 6, 12, 31))
    ways, back = rng.choice((3, 4, 8, 8)), rng.choice((0, 0, 0.03))
    nodes = []
    for at in range(count - 1):
        few = [min(count - 1, at + rng.randint(1, far)) for _ in range(ways)]
        if at > 1 and rng.random() < back:
            few[0] = rng.randint(1, at)
        nodes.append((IF, few[:2]) if rng.random() < 0.1 else (SWITCH, few))
    nodes.append((rng.choice((RETURN, EXIT, UNREACHABLE)), []))
    return 0, nodes


def ladder(rng: Random, most: int) -> Shape:
    """A chain that names all others, which come one after another: the most conditions."""
    chain = rng.randint(4, 8)
    others, wide = most - chain, rng.choice((0, 0.1, 0.2, 0.4))
    named = [[] for _ in range(chain)]
    named[0], named[-1] = [0, 1], [0, 1]  # nothing can be claimed before region 0
    for other in rng.sample(range(2, others), others - 2):
        room = [k for k in range(chain) if len(named[k]) < 7 + (k == chain - 1)]
        if room:
            named[room[-1] if rng.random() < 0.9 else rng.choice(room)].append(other)
    nodes = []
    for at in range(chain):
        targets = [chain + other for other in named[at]] + [at + 1] * (at < chain - 1)
        rng.shuffle(targets)
        nodes.append((IF if len(targets) == 2 else SWITCH, targets))
    for at in range(chain, most):
        later = (
            rng.sample(range(at + 2, most), min(most - at - 2, rng.choice((1, 2, 3, 7)))) if at + 2 < most and rng.random() < wide else []
        )
        if at == chain or at == most - 1:
            nodes.append((RETURN, []))
        elif later:
            nodes.append((IF if len(later) == 1 else SWITCH, [at + 1, *later]))
        else:
            nodes.append((BRANCH, [at + 1]))
    return 0, nodes


def small(rng: Random, most: int) -> Shape:
    """Few regions, any targets: everything small sooner or later."""
    count = rng.randint(1, min(5, most))
    nodes = [terminator(rng, lambda: rng.randint(min(1, count - 1), count - 1), 2) for _ in range(count)]
    return 0, nodes


def shuffled(rng: Random, entry: int, nodes: Nodes) -> Shape:
    """The same graph with its regions numbered anew."""
    order = list(range(len(nodes)))
    rng.shuffle(order)  # old number at each new place
    new = {old: place for place, old in enumerate(order)}
    return new[entry], [(nodes[old][0], [new[t] for t in nodes[old][1]]) for old in order]


KINDS = {structured: 5, reducible: 3, nest_of_loops: 3, near: 2, wild: 1, crowded: 1, small: 1}


def shape(rng: Random, most: int, make: Maker | None = None) -> Shape:
    make = make or rng.choices(list(KINDS), KINDS.values())[0]
    entry, nodes = make(rng, most)
    if rng.random() < 0.3:
        entry, nodes = shuffled(rng, entry, nodes)
    return entry, nodes
