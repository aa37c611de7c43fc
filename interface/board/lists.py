"""Every store of the lists, packed for the board: python3 interface/board/lists.py FOLDER [STORE] writes FOLDER/list.00 and on.

With a STORE it is that alone. The lists are stores, sheets and full of beside/lists, with the vectors that are wrong on purpose: their
stores are as good as others. Behind them come the four chains of 32 regions that nest deepest.
"""

import pathlib
import sys
from collections.abc import Iterator

ROOT = pathlib.Path(__file__).resolve().parents[2]
sys.path[:0] = [str(ROOT / "bench"), str(ROOT / "beside")]

from generate.large import chains  # noqa: E402  (found by the line above)
from generate.vectors import all_vectors  # noqa: E402
from packed import lists  # noqa: E402

NAMES = "stores", "sheets", "full"


def every() -> Iterator[bytes]:
    """The stores, list by list."""
    for name in NAMES:
        for _, store, _ in all_vectors(ROOT / "beside" / "lists" / f"{name}.vectors"):
            yield store
    yield from chains()


if __name__ == "__main__":
    if sys.argv[1:] in (["-h"], ["--help"]):
        print(__doc__.strip())
        sys.exit(0)
    if len(sys.argv) not in (2, 3) or not pathlib.Path(sys.argv[1]).is_dir():
        print("lists.py: usage: python3 interface/board/lists.py FOLDER [STORE], FOLDER an existing one", file=sys.stderr)
        sys.exit(2)
    stores = every() if len(sys.argv) == 2 else [pathlib.Path(sys.argv[2]).read_bytes()]
    for place, whole in enumerate(lists(stores)):
        (pathlib.Path(sys.argv[1]) / f"list.{place:02}").write_bytes(whole)
