"""Answers a store on standard input, or every store of a vector file.

    python3 -m reading < STORE                      the sheet, as the program prints it
    python3 -m reading words < STORE                the sheet's words, on one line
    python3 -m reading show < STORE                 the record
    python3 -m reading vectors [words | show] < VECTORS     all stores, answered anew
"""

import sys
from collections.abc import Callable
from typing import NoReturn

from .nesting import Nesting
from .record import show
from .sheet import accepted, nest, printed, words
from .store import Refused


def refuse(sentence: str) -> NoReturn:
    print(f"reading: {sentence}", file=sys.stderr)
    sys.exit(2)


def shown(store: bytes) -> str:
    try:
        return show(accepted(store)[0])
    except Refused as refused:
        return f"{refused}\n"


def in_words(store: bytes) -> str:
    try:
        return " ".join(map(str, words(nest(Nesting(*accepted(store)))))) + "\n"
    except Refused as refused:
        return f"{refused}\n"


def vectors(answer: Callable[[bytes], str]) -> None:
    found = False
    for line in sys.stdin:
        if line.startswith("store"):
            found = True
            try:
                store = bytes.fromhex(line.removeprefix("store").strip())
            except ValueError:
                refuse(f"a store that is not hexadecimal: {line[:60].strip()}")
            sys.stdout.write(f"store {store.hex()}\n{answer(store)}.\n")
    if not found:
        refuse("no line begins with `store`: this is no vector file")


def main(asked: list[str]) -> int:
    answers = {"": printed, "words": in_words, "show": shown}
    how = " ".join(asked)
    if how in ("-h", "--help"):
        print(__doc__.strip())
    elif how in answers:
        sys.stdout.write(answers[how](sys.stdin.buffer.read()))
    elif asked[0] == "vectors" and " ".join(asked[1:]) in answers:
        vectors(answers[" ".join(asked[1:])])
    else:
        print(f"`{how}` is none of these:\n\n{__doc__.split(chr(10), 2)[2]}", file=sys.stderr)
        return 2
    return 0


try:
    sys.exit(main(sys.argv[1:]))
except OSError as error:
    refuse(f"standard input or output: {error.strerror}")
except UnicodeDecodeError:
    refuse("a vector file is plain text, and this is not")
