"""Stores as bytes, each led by three bytes of its length: python3 packed.py WHAT.. > PACKED

WHAT is the name of a vector file, or `chains`: the four records of 32 regions that nest deepest (generate.large).
"""

import pathlib
import sys
from collections.abc import Iterable, Iterator

END = b"\xff\xff\xff"  # of a list
FLASH = 896 * 1024  # what interface/board/board.ld has for a list
ROOT = pathlib.Path(__file__).resolve().parents[1]
sys.path.insert(0, str(ROOT / "beside"))

from generate.large import chains  # noqa: E402  (found by the line above)
from generate.vectors import read_vectors  # noqa: E402


def packed(store: bytes) -> bytes:
    return len(store).to_bytes(3, "little") + store


def lists(stores: Iterable[bytes], most: int = FLASH) -> list[bytes]:
    """The stores as lists for the board, each of at most so many bytes, its end included (interface/board/board.h)."""
    made = [b""]
    for store in stores:
        item = packed(store)
        if len(made[-1]) + len(item) + len(END) > most:
            made.append(b"")
        made[-1] += item
    return [whole + END for whole in made]


def stores(names: Iterable[str]) -> Iterator[bytes]:
    """The stores that are named; a sentence and status 2 where a file is no vector file."""
    for name in names:
        try:
            yield from chains() if name == "chains" else (store for store, _ in read_vectors(name))
        except (OSError, ValueError) as error:
            print(f"{name} is no vector file: {getattr(error, 'strerror', None) or error}", file=sys.stderr)
            sys.exit(2)


if __name__ == "__main__":
    if sys.argv[1:] in (["-h"], ["--help"]):
        print(__doc__.strip())
        sys.exit(0)
    if not sys.argv[1:]:
        print(__doc__, file=sys.stderr)
        sys.exit(2)
    for each in stores(sys.argv[1:]):
        sys.stdout.buffer.write(packed(each))
