"""LoopFinder of cfg.rs: which exit targets each loop header has, for `exits auto`.

Tarjan's components, then again within each loop without its header. The loop_merge_to_loop_header of
the Rust is empty here, as it is for the nester.
"""

from __future__ import annotations

from .record import RETURN, Record


class LoopFinder:
    def __init__(self, record: Record) -> None:
        self.record = record
        self.exit_targets: dict[int, list[int]] = {}  # loop header: its exit targets, in order of finding
        self.scc_stack: list[int] = []
        self.pending: dict[int, int] = {}  # region: its place on the stack
        self.complete: dict[int, bool] = {}  # region: whether it may return from the function

    def find_earliest_scc_root_of(self, node: int) -> tuple[int | None, bool]:
        """The earliest place on the stack that node leads back to, or None; and whether it may return."""
        if node in self.pending:
            return self.pending[node], False
        if node in self.complete:
            return None, self.complete[node]
        place = self.pending[node] = len(self.scc_stack)
        self.scc_stack.append(node)

        may_return = self.record.regions[node].kind == RETURN
        roots = []
        for target in self.record.regions[node].targets:
            root, target_may_return = self.find_earliest_scc_root_of(target)
            may_return |= target_may_return
            if root is not None:
                roots.append(root)

        earliest = min(roots, default=None)
        if earliest == place:
            self.complete_loop(node, place, may_return)
            return None, may_return
        if earliest is None:
            self.scc_stack.pop()
            self.finish(node, may_return)
        return earliest, may_return

    def finish(self, node: int, may_return: bool) -> None:
        del self.pending[node]
        self.complete[node] = may_return

    def complete_loop(self, header: int, place: int, may_return: bool) -> None:
        """Note the loop's exits: those that reconverge, if any does. Then look for loops within its body."""
        leaving = (target for node in self.scc_stack[place:] for target in self.record.regions[node].targets)
        self.exit_targets[header] = list(dict.fromkeys(target for target in leaving if self.complete.get(target) == may_return))
        self.finish(header, may_return)
        body = self.scc_stack[place + 1 :]
        for node in body:
            del self.pending[node]
        for node in body:
            self.find_earliest_scc_root_of(node)
        del self.scc_stack[place:]


def loop_exits(record: Record) -> dict[int, list[int]]:
    """The exit targets of each loop header that is in reach of the entry."""
    finder = LoopFinder(record)
    finder.find_earliest_scc_root_of(record.entry)
    return finder.exit_targets
