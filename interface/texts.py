"""Every store of the lists that has a sheet's text for its answer, for interface/test: python3 interface/texts.py FOLDER

Writes FOLDER/packed, the stores as interface/printed.c reads them, and FOLDER/texts, what it must print.
"""

import pathlib
import sys
from collections.abc import Iterator

ROOT = pathlib.Path(__file__).resolve().parents[1]
sys.path[:0] = [str(ROOT / "bench"), str(ROOT / "beside")]

from generate.vectors import all_vectors  # noqa: E402  (found by the line above)
from packed import packed  # noqa: E402

# Which vectors of a list have a sheet's text, and how many lines stand in front of it.
LISTS = ("stores", "nest", 1), ("sheets", "store", 0), ("full", "store", 0)


def texts() -> Iterator[tuple[bytes, str]]:
    """The stores with their texts."""
    for name, wanted, front in LISTS:
        for word, store, answer in all_vectors(ROOT / "beside" / "lists" / f"{name}.vectors"):
            if word == wanted:
                yield store, "".join(answer.splitlines(keepends=True)[front:])


def main(folder: pathlib.Path) -> None:
    """Writes both files."""
    found = list(texts())
    (folder / "packed").write_bytes(b"".join(packed(store) for store, _ in found))
    (folder / "texts").write_text("".join(f"{text}.\n" for _, text in found))


if __name__ == "__main__":
    if sys.argv[1:] in (["-h"], ["--help"]):
        print(__doc__.strip())
        sys.exit(0)
    if len(sys.argv) != 2 or not pathlib.Path(sys.argv[1]).is_dir():
        print("texts.py: usage: python3 interface/texts.py FOLDER, an existing folder", file=sys.stderr)
        sys.exit(2)
    main(pathlib.Path(sys.argv[1]))
