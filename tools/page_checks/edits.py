"""The table of must-fail edits, from the edits themselves."""

from dataclasses import dataclass
from pathlib import Path

from .listed import listed


@dataclass(frozen=True)
class Edit:
    """A must-fail edit: its crate and name, the fact that it breaks, the file that it changes."""

    crate: str
    name: str
    fact: str
    file: str


def read_edit(path: Path) -> Edit:
    """An edit from its file; ValueError if it does not say what holds, or which file it changes."""
    lines = path.read_text(encoding="utf-8").splitlines()
    fact = " ".join(line[1:].strip() for line in lines if line.startswith("#"))
    files = [line.removeprefix("file: ") for line in lines if line.startswith("file: ")]
    if not fact or not files:
        raise ValueError(f"{path} has no line `# what holds`, or no line `file:`")
    return Edit(path.parts[-3], path.stem, fact, ", ".join(dict.fromkeys(files)))


def all_edits(root: Path) -> list[Edit]:
    """The edits of all crates, in the order of crates.txt, and by name."""
    return [read_edit(path) for crate in listed(root) for path in sorted((root / "crates" / crate / "must-fail").glob("*.edit"))]


def table(root: Path) -> str:
    """The table as docs/PROOFS.md has it."""
    found = all_edits(root)
    rows = [f"| {edit.crate}/{edit.name} | {edit.fact} | {edit.file} |\n" for edit in found]
    head = f"\n{len(found)} edits.\n\n| Edit | What holds, and is broken by it | It changes |\n|---|---|---|\n"
    return head + "".join(rows) + "\n"
