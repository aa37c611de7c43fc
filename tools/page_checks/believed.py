"""What must be believed: the definitions that the statements rest on, found by their names.

A file is a list of pieces, parted by empty lines. A piece defines names; the names that stand in it, and that its file defines or imports,
lead to other pieces. From the statements on all pieces are gathered that can be reached so. Lemmas are reached by proofs alone, and
statements have none. What the toolchain's own libraries define is not counted, and neither are the types that code declares.
"""

import re
from collections.abc import Callable
from dataclasses import dataclass, field
from pathlib import Path

from .listed import listed

# The statements: those of the theorem, and the contracts of the routines that a user calls.
STATEMENTS = (
    "follows/specs/Statements",
    "accept/specs/Accepts Accepts",
    "nester/specs/Nests Nests",
    "text_nest/specs/Prints Prints",
    "text_show/specs/Shows",
    "c_interface/specs/Exported",
)
USE = re.compile(r"^(?:pub )?use Rattle\.([a-z_]+)\.(\S+?)(?:\.\{([^}]*)\}| as (\S+))?$", re.M)
HOLES = "◌"  # where the arguments of an operator go
DEFINED = re.compile(
    r"^(?: {2,4})?(?:abbrev |unfoldable |pub |data |record )*([^\s(){}:;]+(?:,? [^\s(){}:;]+)*)(?: [({].*)? :(?: |$)", re.M
)
TYPE = re.compile(r"^(?: {2})?(?:pub )?(?:data|record) (\S+)", re.M)
WORD = re.compile(r"[^\s(){}\[\];,]+")


@dataclass
class File:
    """A file of definitions: its pieces by the names that they define, and where imported names come from."""

    path: Path
    lines: int
    pieces: dict[str, list[int]] = field(default_factory=dict)
    texts: list[str] = field(default_factory=list)
    nameless: set[int] = field(default_factory=set)
    imports: dict[str, tuple[str, str]] = field(default_factory=dict)
    whole: dict[str, str] = field(default_factory=dict)


def module_path(crates: Path, crate: str, dotted: str) -> str | None:
    """The file of a module, below crates/ and without its suffix; none for a library's, or for a type that code declares."""
    parts = dotted.split(".")
    if "declared" in parts or not (crates / crate).is_dir():
        return None
    for size in range(len(parts), 0, -1):
        path = "/".join([crate, *parts[:size]])
        if (crates / f"{path}.antt").is_file():
            return path
    raise ValueError(f"there is no file for the module {crate} {dotted}")


def several(names: str) -> list[str]:
    """The names in front of a colon; none if it is no signature that stands there."""
    parts = re.split(r",? ", names)
    return [] if {"=", "→", "|", "↦"} & set(parts) else parts


def read_file(crates: Path, name: str) -> File:
    """A file with its pieces and imports."""
    path = crates / f"{name}.antt"
    text = path.read_text(encoding="utf-8")
    made = File(path, len(text.splitlines()))
    for found in USE.finditer(text):
        crate, dotted, names, alias = found.groups()
        target = module_path(crates, crate, dotted)
        if target is None:
            continue
        for one in (names or "").split(","):
            made.imports[one.strip().strip(HOLES)] = (target, one.strip().strip(HOLES))
        if alias:
            made.whole[alias] = target
    body = re.sub(r"^(?:pub )?use .*$", "", re.sub(r"--.*", "", text), flags=re.M)
    for piece in re.split(r"\n(?:[ \t]*\n)+", body):
        if piece.strip():
            defined = {one.strip(HOLES) for names in DEFINED.findall(piece) + TYPE.findall(piece) for one in several(names)}
            for one in sorted(defined):
                made.pieces.setdefault(one, []).append(len(made.texts))
            if not defined:
                made.nameless.add(len(made.texts))
            made.texts.append(piece)
    return made


def believed(crates: Path, statements: tuple[str, ...] = STATEMENTS) -> dict[str, tuple[int, int]]:
    """The files that are reached, each with the lines that are reached in it and all of its lines."""
    files: dict[str, File] = {}
    reached: dict[str, set[int]] = {}

    def opened(name: str) -> File:
        if name not in files:
            files[name] = read_file(crates, name)
        return files[name]

    todo: list[tuple[str, int]] = []
    for statement in statements:
        name, _, chosen = statement.partition(" ")
        file = opened(name)
        todo += [(name, at) for one in ([chosen] if chosen else file.pieces) for at in file.pieces[one]]
    while todo:
        name, at = todo.pop()
        if at not in reached.setdefault(name, set()):
            reached[name].add(at)
            for word in WORD.findall(files[name].texts[at]):
                todo += found_at(files[name], name, word, opened)
    return {
        name: (sum(len(files[name].texts[at].strip("\n").splitlines()) for at in pieces | files[name].nameless), files[name].lines)
        for name, pieces in sorted(reached.items())
    }


def found_at(file: File, name: str, word: str, opened: Callable[[str], File]) -> list[tuple[str, int]]:
    """The pieces that a word of a file may lead to: its own, imported ones, or those of a module with a short name."""
    if word.startswith("."):
        return []
    head, _, rest = word.partition(".")
    found = []
    if head in file.whole and rest:
        found += [(file.whole[head], at) for at in opened(file.whole[head]).pieces.get(rest.strip(HOLES + "«»"), [])]
    for one in sorted({word, word.strip(HOLES), head}):
        found += [(name, at) for at in file.pieces.get(one, [])]
        if one in file.imports:
            module, wanted = file.imports[one]
            found += [(module, at) for at in opened(module).pieces.get(wanted, [])]
    return found


def table(crates: Path) -> str:
    """The table as docs/PROOFS.md has it."""
    found = believed(crates)
    folders: dict[str, list[tuple[str, int, int]]] = {}
    for name, (lines, every) in found.items():
        folder, _, file = name.rpartition("/")
        folders.setdefault(folder, []).append((file, lines, every))
    order = list(listed(crates.parent))
    rows = []
    for folder in sorted(folders, key=lambda one: (order.index(one.partition("/")[0]), one)):
        parts = ", ".join(f"{file} ({lines} of {every})" for file, lines, every in folders[folder])
        rows.append(f"| {folder} | {parts} |\n")
    lines, every = (sum(counts[k] for counts in found.values()) for k in (0, 1))
    head = f"\n{len(found)} files. {lines:,} of their {every:,} lines are reached.\n\n"
    return head + "| Folder | Files, with the lines reached of all |\n|---|---|\n" + "".join(rows) + "\n"
