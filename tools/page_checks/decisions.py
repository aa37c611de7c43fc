"""The index of docs/DECISIONS.md, from its headings."""

import re
from dataclasses import dataclass
from pathlib import Path

ENTRY = re.compile(r"#### (\d+)\. (.+)")


@dataclass(frozen=True)
class Decision:
    """An entry: its number, its heading, and the headings of its group and part."""

    number: int
    title: str
    group: str
    part: str


def read_decisions(text: str) -> list[Decision]:
    """The entries by number; ValueError if two have one number, or one is missing, or has no cost."""
    found: dict[int, Decision] = {}
    part = group = ""
    for piece in re.split(r"\n(?=#{2,4} )", text):
        heading = piece.partition("\n")[0]
        if entry := ENTRY.fullmatch(heading):
            number = int(entry[1])
            if number in found:
                raise ValueError(f"two entries have number {number}")
            if "\n*Cost:*" not in piece:
                raise ValueError(f"entry {number} does not say what it costs")
            found[number] = Decision(number, entry[2], group, part)
        elif heading.startswith("### "):
            group = heading.removeprefix("### ").partition(" (")[0]
        elif heading.startswith("## "):
            part, group = heading.removeprefix("## "), ""
    missing = sorted(set(range(1, max(found, default=0) + 1)) - set(found))
    if missing:
        raise ValueError(f"no entry has number {missing[0]}: an entry that is no longer used keeps its heading")
    return [found[number] for number in sorted(found)]


def index(page: Path) -> str:
    """The index as the page has it."""
    found = read_decisions(page.read_text(encoding="utf-8"))
    rows = [f"| {one.number} | {one.title} | {one.group} |\n" for one in found]
    return "\n| No. | What | Under |\n|---:|---|---|\n" + "".join(rows) + "\n"
