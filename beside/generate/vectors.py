"""Vector files: a line `store` and its bytes, the lines of its answer, a line with a dot. With `wrong` for `store` the
answer is wrong on purpose: a test has to find that it differs. With `nest` the answer is the sheet's words in hexadecimal on
one line, an empty one for a refusal, and then the text; with `wrong-nest` likewise, wrong on purpose."""

import os
from collections.abc import Iterator


def vector(store: bytes, answer: str, word: str = "store") -> str:
    return f"{word} {store.hex()}\n{answer}.\n"


WORDS = ("store", "wrong", "nest", "wrong-nest")


def all_vectors(path: str | os.PathLike[str]) -> Iterator[tuple[str, bytes, str]]:
    """The word, the store and the answer of every vector of a file; ValueError if it is none."""
    with open(path) as lines:
        for line in lines:
            word, _, digits = line.rstrip("\n").partition(" ")
            if word not in WORDS:
                raise ValueError("a vector begins with a line `store`, `wrong`, `nest` or `wrong-nest`")
            answer = ""
            for line in lines:
                if line == ".\n":
                    break
                answer += line
            yield word, bytes.fromhex(digits), answer


def read_vectors(path: str | os.PathLike[str]) -> Iterator[tuple[bytes, str]]:
    """The stores with their answers, but for those that are wrong on purpose or have words."""
    return ((store, answer) for word, store, answer in all_vectors(path) if word == "store")
