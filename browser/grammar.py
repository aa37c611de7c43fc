"""The tables of the workbench's grammar, form.lark, as lark makes them: what the page's own parser follows."""

from __future__ import annotations

import re
from typing import Any

LETTERS = r"\p{L}\p{N}_"  # what Python's \w stands for, in a class of a JavaScript pattern


def pattern_text(pattern: Any) -> str:
    """A terminal's pattern for JavaScript, which escapes fewer letters than Python, and whose \\w is ASCII."""
    if pattern.type == "str":
        return re.sub(r"[\^$\\.*+?()[\]{}|/]", r"\\\g<0>", pattern.value)
    text = pattern.to_regexp()
    if re.search(r"\\[WdDsSbBAZ]|\(\?[^:!=]", text) or re.search(r"\\w(?![^\[]*\])", text):
        raise ValueError(f"the pattern {text} is not known to mean the same in JavaScript")
    return text.replace(r"\w", LETTERS)


def rule_table(rule: Any) -> dict[str, Any]:
    """A rule: which of its parts a tree keeps, in the place of which it takes their children, where nothing stands for what is left out."""
    marks = rule.options.empty_indices or [False] * len(rule.expansion)
    absent = [len(run) for run in "".join(str(int(mark)) for mark in marks).split("0")]
    kept, waiting = [], 0
    for place, symbol in enumerate(rule.expansion):
        waiting += absent[place]
        if rule.options.keep_all_tokens or not (symbol.is_term and symbol.filter_out):
            kept.append([place, not symbol.is_term and symbol.name.startswith("_"), waiting])
            waiting = 0
    return {
        "origin": rule.origin.name,
        "size": len(rule.expansion),
        "data": rule.alias or rule.origin.name,
        "kept": kept,
        "absent": waiting + absent[-1],
        "single": bool(rule.options.expand1 and not rule.alias),
    }


def numbered(table: Any, start: int) -> list[int]:
    """The states in an order of their own, from the start along their symbols: lark's own numbers differ from run to run."""
    found = [start]
    for state in found:
        reached = (argument for _, (action, argument) in sorted(table.states[state].items(), key=first) if action.name == "Shift")
        found += [argument for argument in dict.fromkeys(reached) if argument not in found]
    return found


def first(pair: tuple[str, Any]) -> str:
    return pair[0]


def state_tables(table: Any, order: list[int]) -> tuple[list[dict[str, int]], list[dict[str, Any]]]:
    """For each state what each symbol does: the number of the next state, or minus one minus the number of a rule; and the rules."""
    places, rules = {state: place for place, state in enumerate(order)}, {}
    states = []
    for state in order:
        actions = {}
        for symbol, (action, argument) in sorted(table.states[state].items(), key=first):
            shifts = action.name == "Shift"
            actions[symbol] = places[argument] if shifts else -1 - rules.setdefault(argument, len(rules))
        states.append(actions)
    return states, [rule_table(rule) for rule in rules]


def tables(lark: Any) -> dict[str, Any]:
    """The tables of a parser that lark made, of the kind LALR with the basic lexer."""
    lexer, table = lark.parser.lexer, lark.parser.parser._parse_table
    terminals = lexer.scanner.terminals  # in the order in which they are tried
    words = {name: {one.pattern.value: one.name for one in callback.scanner.terminals} for name, callback in lexer.callback.items()}
    order = numbered(table, table.start_states["start"])
    states, rules = state_tables(table, order)
    return {
        "terminals": [[one.name, pattern_text(one.pattern)] for one in terminals],
        "words": words,
        "ignored": sorted(lexer.ignore_types),
        "states": states,
        "rules": rules,
        "start": 0,
        "end": order.index(table.end_states["start"]),
    }
