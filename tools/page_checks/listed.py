"""The crates of crates.txt, in its order."""

from pathlib import Path


def listed(root: Path) -> dict[str, list[str]]:
    """Each crate with the names behind its colon. What kind of crate it is may stand in front of the colon too, and is left out."""
    lines = (root / "crates.txt").read_text(encoding="utf-8").splitlines()
    found = [line.partition("#")[0].partition(":") for line in lines]
    return {name.split()[0]: needs.split() for name, colon, needs in found if colon}
