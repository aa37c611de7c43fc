"""The bounds of the stack that rukvetta.h has, as a table for docs/STACK.md."""

import re
from pathlib import Path

PROCESSOR = re.compile(r"#(?:el)?if defined\(\w+\) /\* (.*) \*/")
BOUND = re.compile(r"#define RUKVETTA_(\w+)_STACK(_PROVED)? (\d+)")


def table(header: Path) -> str:
    """A row for each processor, two columns for each call."""
    rows: list[tuple[str, list[tuple[str, int]]]] = []
    for line in header.read_text(encoding="utf-8").splitlines():
        if found := PROCESSOR.fullmatch(line):
            rows.append((found[1], []))
        elif found := BOUND.fullmatch(line):
            rows[-1][1].append((f"{found[1].lower()}{', by what is proved alone' if found[2] else ''}", int(found[3])))
    titles = [title for title, _ in rows[0][1]]
    lines = [f"| Processor | {' | '.join(titles)} |", "|---|" + "---:|" * len(titles)]
    lines += [f"| {name} | {' | '.join(f'{size:,}' for _, size in sizes)} |" for name, sizes in rows]
    return "\n" + "\n".join(lines) + "\n\n"
