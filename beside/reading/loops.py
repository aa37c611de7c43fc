"""LoopFinder of cfg.rs: each loop header's exit targets, for records made here."""

from collections.abc import Sequence

from .record import RETURN


def loop_exits(entry: int, kinds: Sequence[int], targets: Sequence[Sequence[int]]) -> list[list[int]]:
    """A list of exit targets for each region, given each region's terminator and targets."""
    exits: list[list[int]] = [[] for _ in kinds]
    stack: list[int] = []
    state: dict[int, int | tuple[str, bool]] = {}  # a place on the stack, or ("done", may return)

    def earliest(node: int) -> tuple[int | None, bool]:
        """The earliest place on the stack that node leads to, and whether it may return."""
        if node in state:
            known = state[node]
            return (None, known[1]) if isinstance(known, tuple) else (known, False)
        place = state[node] = len(stack)
        stack.append(node)
        returns = kinds[node] == RETURN
        root = None
        for target in targets[node]:
            found, may = earliest(target)
            returns |= may
            if found is not None and (root is None or found < root):
                root = found

        if root == place:  # node heads a loop: all on the stack from here on
            for member in stack[place:]:
                for target in targets[member]:
                    known = state[target]
                    leaves = isinstance(known, tuple) and known[1] == returns
                    if leaves and target not in exits[node]:
                        exits[node].append(target)
            state[node] = "done", returns
            body = stack[place + 1 :]
            for member in body:
                del state[member]
            for member in body:
                earliest(member)
            del stack[place:]
            return None, returns

        if root is None:
            stack.pop()
            state[node] = "done", returns
        return root, returns

    earliest(entry)
    return exits
