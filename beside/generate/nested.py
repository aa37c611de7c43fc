"""Puts vectors of sheets with their words behind the stores of lists/stores.vectors, in place of those that stand there, and
behind them a few with answers that are wrong on purpose (`WRONG`).

    python3 -m generate.nested

The stores are those of the three lists. Texts come from lists/sheets.vectors and lists/full.vectors, as the Rust has them
wherever it does, for stores of lists/stores.vectors from the reading; words come from the reading.
"""

import pathlib
import random
from collections.abc import Callable, Iterator

from reading.nesting import Nesting
from reading.sheet import accepted, nest, printed, words
from reading.store import Refused
from .arguments import arguments
from .stores import next_digit, refusal
from .vectors import all_vectors, read_vectors, vector

Answered = tuple[bytes, list[int], str]  # a store, its sheet's words, its text
Change = Callable[[list[int], str], tuple[list[int], str]]

SEED = 11
LISTS = pathlib.Path(__file__).resolve().parents[1] / "lists"
STORES = LISTS / "stores.vectors"

KEPT = 65536  # a vector of so many bytes is not kept whole (crates/vectors)
SHORT = 6000  # every shorter sheet of sheets.vectors is taken
LONGER = 20  # and so many of the others
OTHERS = 300  # sheets of stores.vectors
SMALL = 1024  # the longest refused store of stores.vectors


def words_of(store: bytes) -> list[int]:
    try:
        return words(nest(Nesting(*accepted(store))))
    except Refused:
        return []


def with_words(sheet: list[int], text: str) -> str:
    return "".join(f"{word:08x}" for word in sheet) + f"\n{text}"


def is_refused(text: str) -> bool:
    return text.startswith("refused")


def taken(rng: random.Random) -> Iterator[Answered]:
    """The chosen stores, each with its words and its text."""
    sheets = [(store, words_of(store), text) for name in ("sheets", "full") for store, text in read_vectors(LISTS / f"{name}.vectors")]
    seen = {store for store, _, _ in sheets}
    stores = [(store, words_of(store), printed(store)) for store, _ in read_vectors(STORES) if store not in seen]

    def size(answer):
        store, sheet, text = answer
        return len(vector(store, with_words(sheet, text), "wrong-nest"))

    longer = [one for one in sheets if not is_refused(one[2]) and SHORT <= size(one) < KEPT]
    left = set(map(sheets.index, rng.sample(longer, LONGER)))
    yield from (one for at, one in enumerate(sheets) if is_refused(one[2]) or size(one) < SHORT or at in left)
    nested = [at for at, one in enumerate(stores) if not is_refused(one[2]) and size(one) < SHORT]
    left = set(rng.sample(nested, OTHERS))
    yield from (one for at, one in enumerate(stores) if at in left or is_refused(one[2]) and len(one[0]) <= SMALL)


def text_changed(change: Callable[[str], str]) -> Change:
    return lambda sheet, text: (sheet, change(text))


def words_changed(change: Callable[[list[int]], list[int]]) -> Change:
    return lambda sheet, text: (change(sheet), text)


# Answers that are wrong on purpose: of a refusal or a sheet, and what is done to its words and its text.
WRONG = (
    (False, words_changed(lambda sheet: [*sheet[:-3], sheet[-3] ^ 1, *sheet[-2:]])),
    (False, words_changed(lambda sheet: [*sheet, 0])),
    (False, words_changed(lambda sheet: sheet[:-1])),
    (False, text_changed(next_digit)),
    (True, text_changed(refusal(1, 0))),
    (True, text_changed(refusal(0, 1))),
    (True, words_changed(lambda sheet: [0])),
    (True, lambda sheet, text: ([0, 0, 0, 0], "untouched figure - attempts 0 twice 0\n")),
    (False, lambda sheet, text: ([], "refused 9 0\n")),
)


def wrong(rng: random.Random, good: list[Answered]) -> Iterator[tuple[bytes, tuple[list[int], str]]]:
    for refused, change in WRONG:
        store, sheet, text = rng.choice([one for one in good if is_refused(one[2]) == refused and len(one[0]) == 512])
        yield store, change(sheet, text)


def main() -> None:
    rng = random.Random(SEED)
    good = list(taken(rng))
    kept = [vector(store, answer, word) for word, store, answer in all_vectors(STORES) if not word.endswith("nest")]
    right = [vector(store, with_words(sheet, text), "nest") for store, sheet, text in good]
    changed = [vector(store, with_words(*answer), "wrong-nest") for store, answer in wrong(rng, good)]
    STORES.write_text("".join(kept + right + changed))
    refusals = sum(is_refused(text) for _, _, text in good)
    print(f"{len(good) - refusals} sheets, {refusals} refusals, {len(changed)} wrong on purpose")


if __name__ == "__main__":
    arguments(__doc__)
    main()
