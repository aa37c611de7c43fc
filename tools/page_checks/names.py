"""Paths, crates and edits that the pages name: each must be there.

A name is a word with a slash in it, of letters, digits and . _ + - * only, or a word that begins with the prefix of a family of crates and
stands outside of backquotes. A list in braces stands for each of its parts. A path counts from the repository's root, from crates/, from
beside/, or from the page's own folder or the one above. One that begins with ../../ may count from a crate's folder. The suffixes .antt and
.rt may be left out, and crate/edit stands for an edit.
"""

import re
from dataclasses import dataclass
from pathlib import Path

PAGES = "*.md", "docs/*.md", "*/README.md", "*/*/README.md"
PATH = re.compile(r"(?<![\w/<>·.-])(?:\.\./)*[\w.+*-]+/(?:[\w.+*/-]*\{[^}|]*\}|[\w.+*/-]*)")
CRATE = re.compile(r"(?<![\w/`:.-])(?:state|cfg|sheet|text)_[a-z_]*\b(?![(:])")
FAMILIES = "state_", "cfg_", "sheet_", "text_"
# What has a slash and is no path of this repository: made by a command, of the Rust or of a user, or a form of text.
MADE = "target/", "region.index/", "region.place/", "src/cfg.rs", "spv/", "Rust-GPU/", "../rukvetta/", "laws/paths", "laws/shown"
# What rt makes in a crate's folder.
OUT = re.compile(r"crates/\w+/out(/.*)?")
# A part of a path that stands for any name: CRATE, NAME.edit.
ANY = re.compile(r"[A-Z]+(\.[a-z]+)?")
# In crates/, a path may begin at one of these when the text has named the crate.
PARTS = "src/", "specs/", "proofs/", "must-fail/"


@dataclass(frozen=True)
class Mention:
    """A name on a page."""

    page: Path
    line: int
    name: str


def expanded(name: str) -> list[str]:
    """The names that a list in braces stands for."""
    found = re.fullmatch(r"(.*)\{([^}]*)\}(.*)", name)
    return [found[1] + part.strip() + found[3] for part in found[2].split(",")] if found else [name]


def without_blocks(text: str) -> str:
    """The page with an empty line for each line of a block of code."""
    kept, fenced = [], False
    for line in text.split("\n"):
        fence = line.strip().startswith("```")
        fenced ^= fence
        kept.append("" if fenced or fence or line.startswith("      ") else line)
    return "\n".join(kept)


def mentions(page: Path) -> list[Mention]:
    """All names on a page."""
    found = []
    for number, line in enumerate(without_blocks(page.read_text(encoding="utf-8")).split("\n"), 1):
        line = re.sub(r"https?://\S+|\*\*", " ", line)
        for match in PATH.finditer(line):
            found += [Mention(page, number, name.rstrip(".,")) for name in expanded(match[0])]
        bare = re.sub(r"`[^`]*`", "", line)
        found += [Mention(page, number, match[0]) for match in CRATE.finditer(PATH.sub("", bare)) if match[0] not in FAMILIES]
    return found


def is_there(root: Path, page: Path, name: str) -> bool:
    """Whether a name is a path, a crate or an edit."""
    if (
        name.startswith(MADE)
        or OUT.fullmatch(name)
        or name[0].isdigit()
        or name in PARTS
        or any(ANY.fullmatch(part) for part in name.split("/")[:-1])
    ):
        return True
    if "/" not in name:
        return (root / "crates" / name).is_dir()
    bare = name.rstrip("/")
    if ANY.fullmatch(bare.rpartition("/")[2]) and not bare.endswith(".md"):
        return True
    if bare.startswith("../../") and (root / bare.removeprefix("../../")).exists():
        return True
    for folder in (root, root / "crates", root / "beside", page.parent, page.parent.parent):
        for suffix in ("", ".antt", ".rt", ".py"):
            if any(True for _ in folder.glob(bare + suffix)) if "*" in bare else (folder / (bare + suffix)).exists():
                return True
    crate, _, label = bare.partition("/")
    if (root / "crates" / crate / "must-fail" / f"{label}.edit").is_file():
        return True
    return bare.startswith(PARTS) and any(True for _ in (root / "crates").glob(f"*/{bare}*"))


def pages(root: Path) -> list[Path]:
    """The pages of the repository."""
    return sorted({page for pattern in PAGES for page in root.glob(pattern) if "target" not in page.relative_to(root).parts})


def not_there(root: Path) -> list[Mention]:
    """The names of all pages that are not there."""
    return [one for page in pages(root) for one in mentions(page) if not is_there(root, page, one.name)]
