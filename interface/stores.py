"""Writes chosen stores of the lists as files, for interface/test: python3 interface/stores.py FOLDER

The first store of each refusal, and of each outcome with each `twice`; and every hundredth store.
"""

import pathlib
import sys
from collections.abc import Iterator
from typing import NoReturn

ROOT = pathlib.Path(__file__).resolve().parents[1]
sys.path.insert(0, str(ROOT / "beside"))

from generate.vectors import read_vectors  # noqa: E402  (found by the line above)


def chosen() -> Iterator[bytes]:
    """The stores, in the order of the lists."""
    seen: set[tuple[str, ...]] = set()
    number = 0
    for name in "sheets", "full":
        for store, answer in read_vectors(ROOT / "beside" / "lists" / f"{name}.vectors"):
            words = answer.split("\n")[0].split()
            kind = tuple(words[:2]) if words[0] == "refused" else (words[0], words[-1])
            if number % 100 == 0 or kind not in seen:
                yield store
            seen.add(kind)
            number += 1


def refuse(sentence: str) -> NoReturn:
    print(f"interface/stores.py: {sentence}", file=sys.stderr)
    sys.exit(2)


def main(folder: pathlib.Path) -> None:
    for number, store in enumerate(chosen()):
        (folder / f"{number:03}.store").write_bytes(store)


if __name__ == "__main__":
    if sys.argv[1:] in (["-h"], ["--help"]):
        print(__doc__.strip())
        sys.exit(0)
    if len(sys.argv) != 2 or not pathlib.Path(sys.argv[1]).is_dir():
        refuse("usage: python3 interface/stores.py FOLDER, an existing folder")
    try:
        main(pathlib.Path(sys.argv[1]))
    except OSError as error:
        refuse(f"{error.filename}: {error.strerror}")
