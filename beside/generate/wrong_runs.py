"""Makes run vectors that are wrong, each in one way: tools/compute must find that all differ.

    python3 -m generate.wrong_runs > VECTORS
"""

import pathlib
import random
import re
import sys
from collections.abc import Callable, Iterator

from reading.nesting import Nesting
from reading.sheet import accepted, nest
from .arguments import arguments
from .runs import Vector

SEED, TIMES = 13, 4
LIST = pathlib.Path(__file__).resolve().parents[1] / "lists" / "runs.vectors"


def first(pattern: str, new: str | Callable[[re.Match[str]], str], line: str) -> str:
    """The line with its first match replaced, or the line."""
    return re.sub(pattern, new, line, count=1)


def ways() -> Iterator[tuple[str, int, Callable[[str], str]]]:
    """A name, the line that is changed (1 given, 2 graph, 3 nested), and the change."""
    for line, run in ((2, "graph"), (3, "nested")):
        yield f"{run}: an event without its reads", line, lambda t: first(r"(\d+\.\d+/\d+)/[\du,]+", r"\1/-", t)
        yield f"{run}: a word of 16 bits", line, lambda t: first(r"\b\d{6,}\b", lambda m: str(int(m[0]) % 65536), t)
        yield f"{run}: a mark read as 0", line, lambda t: first(r"(?<=[,/ ])u\b", "0", t)
        yield f"{run}: an event of another region", line, lambda t: first(r"\b(\d+)(\.\d+/)", lambda m: f"{int(m[1]) + 1}{m[2]}", t)
        yield f"{run}: an event of another index", line, lambda t: first(r"(\d+\.)(\d+)/", lambda m: f"{m[1]}{int(m[2]) + 1}/", t)
        yield f"{run}: another opcode", line, lambda t: first(r"(\d+\.\d+/)(\d+)", lambda m: f"{m[1]}{int(m[2]) + 1}", t)
        yield f"{run}: an event lost", line, lambda t: first(r";[^; ]+", "", t)
        yield f"{run}: two events in the other order", line, lambda t: first(r" ([^; ]+);([^; ]+)", r" \2;\1", t)
        yield f"{run}: another word returned", line, lambda t: first(r"returned (\d+)", lambda m: f"returned {int(m[1]) ^ 1}", t)
        yield f"{run}: nothing returned", line, lambda t: first(r"returned [\du,]+", "returned -", t)
        yield f"{run}: an exit for a return", line, lambda t: first("returned", "exited 0", t)
        yield f"{run}: an exit of another opcode", line, lambda t: first(r"exited (\d+)", lambda m: f"exited {int(m[1]) + 1}", t)
        yield f"{run}: no end", line, lambda t: f"{run} none"
        yield f"{run}: an end for none", line, lambda t: first("none", "returned - -" + " cost 0 over 0" * (line == 3), t)
    yield "another cost", 3, lambda t: first(r"cost (\d+)", lambda m: f"cost {int(m[1]) + 1}", t)
    yield "another over", 3, lambda t: first(r"over (\d)", lambda m: f"over {1 - int(m[1])}", t)
    for place, what in enumerate(("opcode", "reads", "what went before", "the number")):

        def without(line: str, place: int = place) -> str:
            words = line.split(" ")
            words[3 + place] = "0"
            return " ".join(words)

        yield f"a rule without {what}", 1, without


def differs(lines: list[str]) -> bool:
    """Whether the reading's runs with this `given` are others than these."""
    store = bytes.fromhex(lines[0].split()[1])
    _, constants, inputs, *numbers = lines[1].split()
    words = ([] if list == "-" else [int(word) for word in list.split(",")] for list in (constants, inputs))
    made = Vector(nest(Nesting(*accepted(store))), *words, tuple(map(int, numbers)), (10**4, 10**4))
    return str(made).splitlines()[2:4] != lines[2:4]


def main() -> None:
    rng = random.Random(SEED)
    vectors = [vector.splitlines() for vector in LIST.read_text().split(".\n") if vector]
    for name, place, change in ways():
        rng.shuffle(vectors)
        made = 0
        for lines in vectors:
            wrong = lines[:place] + [change(lines[place])] + lines[place + 1 :]
            if wrong != lines and (place > 1 or differs(wrong)):
                sys.stdout.write("\n".join(wrong) + "\n.\n")
                made += 1
            if made == TIMES:
                break
        print(f"{made:3} {name}", file=sys.stderr)


if __name__ == "__main__":
    arguments(__doc__)
    main()
