#!/usr/bin/env python3
"""Brings this repository's own definitions and lemmas to snake case, once, after the toolchain's own script.

usage: python3 tools/port_names.py [--anyway]    at the top of the repository

In specs/ and in lemma files every name with a dash is respelled, but for a library's. In a function's proof and in the clauses of
the sources only names that the repository declares are. It stops, with nothing written, where two names would fall together.
"""

import collections
import os
import re
import sys
from collections.abc import Iterator

NAME = re.compile(r"(?<![\w'◌\-])([A-Za-zα-ωΑ-Ω_][\w']*(?:-[\w']+)+)(?![\w'◌\-])")
IMPORT = re.compile(r"\buse\s+([\w.·:+-]+)(?:\.\{([^}]*)\}|\s+as\s+([\w'-]+))", re.S)
DECLARED = re.compile(
    r"^\s*(?:abbrev |unfoldable |pub |opaque |mutual |module |record |data |ruleset |where |let )*([A-Za-z_][\w']*(?:-[\w']+)+)\s*:(?!:)",
    re.M,
)
HEADS = re.compile(r"^\s*(?:pub |abbrev |unfoldable )*(?:record|data|module|ruleset)\s+([A-Za-z_][\w']*(?:-[\w']+)+)", re.M)
SEVERAL = re.compile(r"^\s*(?:abbrev |unfoldable |pub )*((?:[A-Za-z_][\w']*(?:-[\w']+)*\s+)+[A-Za-z_][\w']*(?:-[\w']+)*)\s*:(?!:)", re.M)


def files(*ends: str) -> Iterator[str]:
    for folder, dirs, names in os.walk("crates"):
        dirs[:] = sorted(d for d in dirs if d != "out")
        for name in sorted(names):
            if name.endswith(ends):
                yield os.path.join(folder, name)


def is_lemma_file(path: str) -> bool:
    """A file of specs/, or one of proofs/ that is no function's."""
    return "/specs/" in path or os.path.basename(path) not in ("Proof.antt", "Answers.antt", "Invariants.antt")


def snake(name: str) -> str:
    return name.replace("-", "_")


def own(module: str, crates: set[str]) -> bool:
    parts = module.split(".")
    return (
        len(parts) > 1
        and parts[0] == "Rattle"
        and parts[1] in crates
        and not module.endswith((".Tie", ".Lts", ".Goals", ".Given", ".Statement"))
    )


def main() -> int:
    crates = set(os.listdir("crates"))
    texts = {p: open(p, encoding="utf-8").read() for p in files(".antt", ".rt")}
    declared = set()
    for path, text in texts.items():
        if path.endswith(".antt") and is_lemma_file(path):
            declared |= set(DECLARED.findall(text)) | set(HEADS.findall(text))
            for group in SEVERAL.findall(text):
                declared |= {n for n in group.split() if "-" in n}
    wrong, written = [], {}
    for path, text in texts.items():
        foreign, alias = set(), set()
        for module, names, other in IMPORT.findall(text):
            if not own(module, crates):
                foreign |= {w for n in (names or "").split(",") for w in n.split()[:1] if "-" in w}
                alias |= {other} if other else set()
        lemmas = path.endswith(".antt") and is_lemma_file(path)
        renamed = set()

        def new(match, text=text, foreign=foreign, alias=alias, lemmas=lemmas, renamed=renamed):
            name = match.group(1)
            at = match.start()
            before = text[at - 1] if at else " "
            if before == ".":
                head = re.search(r"([\w'-]+)\.$", text[max(0, at - 80) : at])
                if name not in declared or (head and head.group(1) in alias):
                    return name
            elif name in foreign or (name not in declared and not lemmas):
                return name
            if before == '"' or text.startswith("--", text.rfind("\n", 0, at) + 1) and name not in declared:
                return name
            renamed.add(name)
            return snake(name)

        if path.endswith(".rt"):
            # Only ghost imports and clauses: code has no name with a dash.
            result = "".join(NAME.sub(new, part) if not part.startswith('"') else part for part in re.split(r'("(?:[^"\\\n]|\\.)*")', text))
        else:
            result = NAME.sub(new, text)
        # Module paths and comments speak of the sources, whose names have underscores.
        code = re.sub(r"--.*", "", text)
        plain = set(re.findall(r"(?<![\w'.-])[A-Za-z_][\w']*(?![\w'.-])", code))
        for name in sorted(renamed):
            if path.endswith(".antt") and snake(name) in plain:
                wrong.append(f"{path}: {name} would fall together with {snake(name)}")
        groups = collections.defaultdict(set)
        for name in renamed:
            groups[snake(name)].add(name)
        wrong += [f"{path}: {sorted(g)} would be one" for g in groups.values() if len(g) > 1]
        if result != text:
            written[path] = result
    for line in wrong:
        print(line, file=sys.stderr)
    if wrong and "--anyway" not in sys.argv:
        return 1
    for path, text in written.items():
        with open(path, "w", encoding="utf-8") as f:
            f.write(text)
    print(f"{len(written)} files, {len(declared)} declared names")
    return 0


if __name__ == "__main__":
    if sys.argv[1:] in (["-h"], ["--help"]):
        print(__doc__.strip())
        sys.exit(0)
    sys.exit(main())
