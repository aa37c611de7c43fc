"""Compares the reading with the Rust on random records.

    python3 -m generate.compare SOURCE SEED COUNT

SOURCE is the folder of spirt's source files, for tools/beside. Where twice is 0 both must
print the same; the reading without the mark must print what the Rust prints, always.
structurize_func must give what the claim gives (of a leftover, line 1).
"""

import collections
import itertools
import pathlib
import subprocess
import sys
import time
from collections.abc import Iterable

from reading.nesting import Nesting
from reading.record import Record, refer, words_of
from reading.sheet import nest, text
from reading.store import Refused, pack
from reading.unmarked import Panic, Unmarked
from .arguments import arguments, whole, source
from .records import records

TOOL = pathlib.Path(__file__).resolve().parents[2] / "tools" / "beside"


def rust(source: str, stores: Iterable[bytes], *options: str) -> list[str]:
    """The Rust's answers to some stores."""
    given = "".join(f"store {store.hex()}\n.\n" for store in stores)
    told = subprocess.run([TOOL, *options, source], input=given, capture_output=True, text=True)
    if told.returncode:
        print(told.stderr, end="", file=sys.stderr)
        sys.exit(2 if told.returncode == 2 else 3)
    answers: list[str] = []
    answer: str | None = None
    for line in told.stdout.splitlines(keepends=True):
        if answer is None:
            answer = ""
        elif line == ".\n":
            answers.append(answer)
            answer = None
        else:
            answer += line
    return answers


def sheet(record: Record, nesting: type[Nesting] = Nesting) -> tuple[str, int]:
    """The reading's answer, without `twice`; and twice, also for a refusal."""
    state = nesting(record, refer(record))
    try:
        result = nest(state)
        return text(result).replace(f" twice {result.twice}\n", "\n", 1), result.twice
    except Refused as refused:
        return f"{refused}\n", state.twice
    except Panic as panic:
        return f"panic {panic}\n", 0


def compare(record: Record, answer: str, whole: str) -> str:
    """How the answers to a record agree; prints what should not be."""
    ours, twice = sheet(record)
    bare, _ = sheet(record, Unmarked)
    first = " ".join(ours.split()[:2]) if ours.startswith("refused") else ours.split()[0]
    theirs = "panic" if answer.startswith("panic") else "same" if ours == answer else "other"
    if theirs != "same" and not twice and first != "refused 9":
        wrong("differs", record, ours, answer)
    if bare != answer:
        wrong("differs without the mark", record, bare, answer)
    if whole != (answer.split("\n")[0] + "\n" if answer.startswith("leftover") else answer):
        wrong("structurize_func differs", record, answer, whole)
    return f"{first}{' twice' * twice}, {theirs}"


def wrong(what: str, record: Record, *answers: str) -> None:
    print(what.upper(), pack(words_of(record)).hex(), *answers, sep="\n")


def main(source: str, seed: int, count: int) -> None:
    seen: collections.Counter[str] = collections.Counter()
    start, theirs = time.time(), 0.0
    made = records(seed)
    for batch in range(0, count, 5000):
        some = list(itertools.islice(made, min(5000, count - batch)))
        stores = [pack(words_of(record)) for record in some]
        before = time.time()
        told, wholes = rust(source, stores), rust(source, stores, "--func")
        theirs += time.time() - before
        seen.update(map(compare, some, told, wholes))
        assert len(some) == len(told) == len(wholes)
    for what, times in sorted(seen.items()):
        print(f"{times:8} {what}")
    print(f"{time.time() - start:.0f} s, the Rust {theirs:.0f} s of them")


if __name__ == "__main__":
    main(*arguments(__doc__, source, whole, whole))
