"""pack.py OUT VECTORS..: case A, four chains of 32 regions, then the stores of vector files, packed into OUT/list.00 and on, each no
longer than the board's flash."""
import pathlib
import sys
from typing import NoReturn

ROOT = pathlib.Path(__file__).resolve().parents[2]
sys.path.insert(0, str(ROOT / "bench"))

from packed import lists, stores  # noqa: E402  (found by the line above)


def refuse(sentence: str) -> NoReturn:
    print(f"pack.py: {sentence}", file=sys.stderr)
    sys.exit(2)


def main(out: str, *files: str) -> None:
    first = (ROOT / "crates/show/stdin").read_bytes()
    for number, whole in enumerate(lists([first, *stores(["chains", *files])])):
        (pathlib.Path(out) / f"list.{number:02}").write_bytes(whole)


if __name__ == "__main__":
    if sys.argv[1:] in (["-h"], ["--help"]):
        print(__doc__.strip())
        sys.exit(0)
    if len(sys.argv) < 3:
        refuse("usage: pack.py OUT VECTORS..")
    if not pathlib.Path(sys.argv[1]).is_dir():
        refuse(f"{sys.argv[1]} is no folder")
    try:
        main(*sys.argv[1:])
    except OSError as error:
        refuse(f"{error.filename}: {error.strerror}")
