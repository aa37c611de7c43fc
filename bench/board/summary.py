"""summary.py NAME < LINES                      what the lines of main.c show: the first is case A's, the next four are the chains'
summary.py --room STATE BOARD < LINES           how many words of a sheet have room on the board beside the state and the deepest stack
summary.py --budget STATE BOARD WORDS < LINES   where the board's bytes go; WORDS are lent for the sheet
summary.py --below ACCEPT NESTING WHOLE < LINES fails with status 1 where a stack is deeper than these bounds of the three calls
"""

import statistics
import sys
from dataclasses import dataclass
from typing import NoReturn

CALLS = "accept", "nesting", "whole"
OTHER = 256  # bytes for the caller's own frame, and for an interrupt's
NAMED = 5  # lines of case A and the four chains
COUNTS = {"--room": 2, "--budget": 3, "--below": 3}


@dataclass(frozen=True)
class Line:
    """Of one record: the words of its sheet, and the bytes of stack and the instructions of each call."""

    sheet: int
    stack: list[int]
    took: list[int]

    @staticmethod
    def read(text: str) -> "Line":
        """A line of main.c: nine numbers, or ValueError."""
        numbers = [int(word) for word in text.split()]
        if len(numbers) != 9:
            raise ValueError("a line has nine numbers")
        return Line(numbers[2], numbers[3:6], numbers[6:9])


def deepest(lines: list[Line]) -> int:
    """The deepest stack of the whole."""
    return max(line.stack[2] for line in lines)


def table(name: str, lines: list[Line]) -> None:
    """Prints stack and instructions of each call."""
    print(f"{name}, {len(lines):,} records")
    print("             stack: case A, branches, selects, of four cases,   loops,   others | instructions: case A,    median,     worst")
    for place, call in enumerate(CALLS):
        stack = [line.stack[place] for line in lines]
        took = [line.took[place] for line in lines]
        counted = f"{took[0]:20,} {statistics.median_high(took):10,} {max(took):10,}" if any(took) else "not counted"
        others = max(stack[NAMED:], default=0)
        print(f"  {call:8} {stack[0]:13,} {stack[1]:9,} {stack[2]:8,} {stack[3]:14,} {stack[4]:8,} {others:8,} | {counted}")


def budget(lines: list[Line], state: int, board: int, words: int) -> None:
    """Prints where the board's bytes go."""
    stack = deepest(lines)
    left = board - state - stack - OTHER
    fit = sum(state + line.stack[2] + OTHER + 4 * line.sheet <= board for line in lines if line.sheet)
    print(
        f"  {board:,} bytes: state {state:,}, deepest stack {stack:,}, caller {OTHER:,}, "
        + (f"left for the sheet {left:,}, {words:,} words" if left > 0 else f"{-left:,} too many even without a sheet")
    )
    print(
        f"  records for which state, own stack, caller and own sheet are no more than that: "
        f"{fit:,} of the {sum(line.sheet > 0 for line in lines):,} that have a sheet"
    )


def below(lines: list[Line], bounds: list[int]) -> None:
    """Prints the bounds beside the deepest stacks; status 1 where one is passed."""
    most = [max(line.stack[place] for line in lines) for place in range(len(CALLS))]
    pairs = [f"{call} {found:,} of {bound:,}" for call, found, bound in zip(CALLS, most, bounds)]
    print(f"  deepest stack, and the bound that interface/stack gives: {', '.join(pairs)}")
    if any(found > bound for found, bound in zip(most, bounds)):
        print("summary.py: a stack is deeper than its bound", file=sys.stderr)
        sys.exit(1)


def refuse(sentence: str) -> NoReturn:
    """Says what is wrong, and ends."""
    print(f"summary.py: {sentence}", file=sys.stderr)
    sys.exit(2)


def read_lines() -> list[Line]:
    """What main.c printed; a sentence and status 2 where it is something else."""
    try:
        lines = [Line.read(text) for text in sys.stdin]
    except OSError as error:
        refuse(f"standard input: {error.strerror}")
    except ValueError:
        lines = []
    if len(lines) < NAMED:
        refuse("standard input is not what main.c prints: a line for case A, one for each chain, and so on")
    return lines


def main(what: str = "", *given: str) -> None:
    """Reads the command and the lines, and prints what was asked for."""
    if not what or len(given) != COUNTS.get(what, 0) or (what.startswith("-") and what not in COUNTS):
        refuse("usage: summary.py NAME, --room STATE BOARD, --budget STATE BOARD WORDS, or --below ACCEPT NESTING WHOLE")
    try:
        numbers = [int(word) for word in given]
    except ValueError:
        refuse(f"{' '.join(given)} are not all numbers")
    lines = read_lines()
    if what == "--room":
        state, board = numbers
        print((board - state - deepest(lines) - OTHER) // 4)
    elif what == "--budget":
        budget(lines, *numbers)
    elif what == "--below":
        below(lines, numbers)
    else:
        table(what, lines)


if __name__ == "__main__":
    if sys.argv[1:] in (["-h"], ["--help"]):
        print(__doc__.strip())
        sys.exit(0)
    main(*sys.argv[1:])
