"""How often a function that calls itself, or stands in a cycle, is on the stack at once. docs/STACK.md has the reasons.

Each such function has a row; a cycle with a function that has none is not bounded. A row says how much of a budget one call uses up:
of `budget` units each pays for `each` calls. Calls of one budget that stand below one another share it. `besides` calls cost nothing;
`last` calls may stand at the end, and call no other cycle.
"""

import pathlib
import re
from dataclasses import dataclass

ROOT = pathlib.Path(__file__).resolve().parents[2]


@dataclass(frozen=True)
class Row:
    """How often a function is on the stack at once."""

    budget: str
    each: int
    besides: int = 0
    last: int = 0


@dataclass(frozen=True)
class Depths:
    """The rows by function, and how large each budget is."""

    budgets: dict[str, int]
    rows: dict[str, Row]


def defined(name: str) -> int:
    """A number that rukvetta.h defines."""
    text = (ROOT / "interface" / "rukvetta.h").read_text(encoding="utf-8")
    return int(re.findall(rf"^#define RUKVETTA_{name} (\d+)", text, re.M)[0])


def cells() -> int:
    """How many cells there are, as the definitions have it; cell 0 is none."""
    text = (ROOT / "crates" / "state_words" / "specs" / "Rows.antt").read_text(encoding="utf-8")
    return int(re.findall(r"^most_cells = (\d+)", text, re.M)[0]) - 1


CLAIM = "cfg_claims::claims::try_claim_edge_bundle"
REGION = "cfg_claims::claims::structurize_region"
CONDITION = "cfg_lookups::materialize::materialize_lazy_cond"
FIGURE, CELL_FIGURE, DEAREST = "figure::figure", "figure::cell_figure", "figure::dearest"
NODES, CELL = "sheet_nodes::nodes::put_nodes", "sheet_nodes::nodes::put_cell"
NUMBERS, CASES = "sheet_regions::put_numbers", "sheet_selects::put_regions"
DEFERRED = "sheet_defers::conditions::put_condition"


def by_regions() -> Depths:
    """A level is a region: in progress or done while nesting, claimed on the way down a form. The first two rows are proved."""
    regions, cases = defined("MOST_REGIONS"), defined("MOST_TARGETS")
    rows = {
        CLAIM: Row("nesting", 1, last=1),
        REGION: Row("nesting", 1),
        CONDITION: Row("nesting", 2, besides=1, last=1),
        FIGURE: Row("figure", 2, last=1),
        CELL_FIGURE: Row("figure", 2),
        DEAREST: Row("figure", 1, besides=1),
        NODES: Row("sheet", 1, last=1),
        CELL: Row("sheet", 1),
        NUMBERS: Row("sheet", 1, last=1),
        CASES: Row("sheet", 0, besides=cases, last=1),
        DEFERRED: Row("deferred", 2, last=1),
    }
    return Depths({row.budget: regions for row in rows.values()}, rows)


def by_proof() -> Depths:
    """What the proofs themselves say: regions not begun, the number of a condition's record and that of a cell fall at each call."""
    rows = {
        CLAIM: Row("regions", 1, last=1),
        REGION: Row("regions", 1),
        CONDITION: Row("records", 1, last=1),
        FIGURE: Row("cells", 1, last=1),
        CELL_FIGURE: Row("cells", 1),
        DEAREST: Row("cells", 1),
        NODES: Row("cells", 1, last=1),
        CELL: Row("cells", 1),
        NUMBERS: Row("cells", 1, last=1),
        CASES: Row("cells", 1, last=1),
        DEFERRED: Row("records", 1, last=1),
    }
    return Depths({"regions": defined("MOST_REGIONS"), "records": defined("MOST_CONDITIONS"), "cells": cells()}, rows)
