"""Sentences of a page, and how many words they have.

A sentence ends at a full stop, a question mark or an exclamation mark behind which a new sentence begins, and at the end of a paragraph,
of a list item or of a table's cell. Headings, code and comments are left out, and so are cells of three words or fewer: they are labels.
"""

import re
from dataclasses import dataclass
from pathlib import Path

# No sentence of a strict page has more words than MOST; an averaged page has no more than AVERAGE on average.
MOST, AVERAGE = 30, 20
STRICT = (
    *("README.md", "CONTRIBUTING.md"),
    *(f"docs/{name}.md" for name in ("PROVED", "COMMAND", "FORMAT", "PLAYER", "STACK", "STATE")),
    *(f"{folder}/README.md" for folder in ("beside", "beside/harness", "beside/lists", "bench", "browser", "interface", "workbench")),
)
AVERAGED = "README.md", "docs/PROVED.md", "docs/PROOFS.md", "docs/DECISIONS.md"
LABEL = 3
END = re.compile(r"(?<=[.!?])[)\"*]*\s+(?=[\"`*(]*[A-Z0-9`]|\*\*|[a-z_]+/)")
ITEM = re.compile(r"\s*(?:[-*]|\d+\.)\s+(.*)")


@dataclass(frozen=True)
class Sentence:
    """One sentence of a page, with the line on which its paragraph begins."""

    page: Path
    line: int
    text: str
    cell: bool = False

    @property
    def words(self) -> int:
        """How many words it has: parts between blanks that have a letter or a digit."""
        return sum(any(c.isalnum() for c in word) for word in self.text.split())


def paragraphs(text: str) -> list[tuple[int, str, bool]]:
    """The paragraphs, items and cells of a page: the line, the text, and whether it is a cell."""
    found: list[tuple[int, str, bool]] = []
    at, held, fenced, comment = 0, "", False, False

    def close() -> None:
        nonlocal held
        if held.strip():
            found.append((at, held.strip(), False))
        held = ""

    for number, line in enumerate(text.split("\n"), 1):
        bare = line.strip()
        if comment or bare.startswith("<!--"):
            close()
            comment = "-->" not in bare
        elif bare.startswith("```"):
            close()
            fenced = not fenced
        elif fenced or not bare or bare.startswith("#") or (line.startswith("    ") and not held):
            close()
        elif bare.startswith("|"):
            close()
            cells = [cell.strip() for cell in bare.strip("|").split(" | ")]
            if not set(bare) <= set("|-: "):
                found += [(number, cell, True) for cell in cells if cell]
        elif item := ITEM.fullmatch(line):
            close()
            at, held = number, item[1]
        else:
            at, held = (at, held + " " + bare) if held else (number, bare)
    close()
    return found


def sentences(page: Path) -> list[Sentence]:
    """All sentences of a page."""
    found = []
    for line, text, is_cell in paragraphs(page.read_text(encoding="utf-8")):
        parts = [Sentence(page, line, part.strip(), is_cell) for part in END.split(text)]
        if is_cell and len(parts) == 1 and parts[0].words <= LABEL:
            continue
        found += [part for part in parts if part.words]
    return found


def average(found: list[Sentence]) -> float:
    """Words in a sentence on average; 0 of none."""
    return sum(sentence.words for sentence in found) / len(found) if found else 0.0


def too_long(shown: str, found: list[Sentence]) -> list[str]:
    """What is too long on a page, by its name and its sentences."""
    long = [one for one in found if one.words > MOST] if shown in STRICT else []
    wrong = [f"{shown}:{one.line}: {one.words} words: {one.text}" for one in long]
    if shown in AVERAGED and average(found) > AVERAGE:
        wrong.append(f"{shown}: more than {AVERAGE} words on average")
    return wrong
