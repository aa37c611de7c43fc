"""What a call needs of stack at most: python3 interface/stack [--write] FOLDER, or python3 interface/stack PROCESSOR ASSEMBLY

With an assembly of a processor, as interface/module/compile makes it: a line for each exported function, its name and the most bytes.
FOLDER has PROCESSOR.s and PROCESSOR.su for each processor, and PROCESSOR.o for those of a board, as interface/module/compile makes them.
Printed are bytes of code, of data and of stack. The stack is compared with rukvetta.h; with --write it is put there.
docs/STACK.md says how it is worked out.
Status: 0 all is right, 1 the header differs, or something is not bounded, 2 the command is at fault.
"""

import pathlib
import sys
from typing import NoReturn

from assembly import read
from bound import bounds
from depths import ROOT, by_proof, by_regions
from header import TARGETS, Bounds, differs, written
from machines import Unbounded
from sizes import sizes

HEADER = ROOT / "interface" / "rukvetta.h"


def fail(sentence: str, status: int) -> NoReturn:
    print(f"interface/stack: {sentence}", file=sys.stderr)
    sys.exit(status)


def told(folder: pathlib.Path, processor: str, regions: dict[str, int], proof: dict[str, int]) -> str:
    """What is printed of a processor."""
    lines = [f"{processor}:"]
    if (folder / f"{processor}.o").exists():
        found = sizes(folder / f"{processor}.o")
        lines = [f"{processor}: code {found.code:,} bytes, data {found.data:,} bytes"]
    for function, size in regions.items():
        lines.append(f"  {function}: stack at most {size:,} bytes; by what is proved alone {proof[function]:,}")
    return "\n".join(lines)


def main(folder: pathlib.Path, write: bool) -> None:
    """Prints all, then compares or writes."""
    regions: Bounds = {}
    proof: Bounds = {}
    for processor in TARGETS:
        try:
            functions = read(folder / f"{processor}.s", processor)
            regions[processor], proof[processor] = bounds(functions, by_regions()), bounds(functions, by_proof())
        except Unbounded as error:
            fail(f"{processor}: {error}", 1)
        print(told(folder, processor, regions[processor], proof[processor]))
    text = HEADER.read_text(encoding="utf-8")
    if write:
        HEADER.write_text(written(text, regions, proof), encoding="utf-8")
        text = HEADER.read_text(encoding="utf-8")
    if found := differs(text, regions, proof):
        fail(found, 1)


def one(processor: str, assembly: pathlib.Path) -> None:
    """The bounds of one assembly."""
    try:
        for function, size in bounds(read(assembly, processor), by_regions()).items():
            print(function, size)
    except Unbounded as error:
        fail(f"{assembly}: {error}", 1)


if __name__ == "__main__":
    words = sys.argv[1:]
    if words in (["-h"], ["--help"]):
        print(__doc__.strip())
        sys.exit(0)
    try:
        if len(words) == 2 and words[0] in TARGETS:
            one(words[0], pathlib.Path(words[1]))
        elif len(words) == 1 + ("--write" in words) and pathlib.Path(words[-1]).is_dir():
            main(pathlib.Path(words[-1]), "--write" in words)
        else:
            fail("usage: python3 interface/stack [--write] FOLDER, or python3 interface/stack PROCESSOR ASSEMBLY", 2)
    except OSError as error:
        fail(f"{error.filename}: {error.strerror}", 2)
