"""page.py FOLDER PAGE: puts what was measured into a page.

Between a line `<!-- measured: NAME -->` and the next line `<!-- end -->` stands what FOLDER/NAME.txt has: a table as it is, anything else
as a block of text.
"""

import pathlib
import re
import sys
from typing import NoReturn

BLOCK = re.compile(r"(<!-- measured: (\w+) -->\n).*?(<!-- end -->\n)", re.DOTALL)


def refuse(sentence: str) -> NoReturn:
    print(f"page.py: {sentence}", file=sys.stderr)
    sys.exit(2)


def main(folder: str, page: str) -> None:
    def block(found: re.Match[str]) -> str:
        text = (pathlib.Path(folder) / f"{found[2]}.txt").read_text(encoding="utf-8")
        return found[1] + (f"\n{text}\n" if text.startswith("|") else f"\n```text\n{text}```\n\n") + found[3]

    path = pathlib.Path(page)
    path.write_text(BLOCK.sub(block, path.read_text(encoding="utf-8")), encoding="utf-8")


if __name__ == "__main__":
    if sys.argv[1:] in (["-h"], ["--help"]):
        print(__doc__.strip())
        sys.exit(0)
    if len(sys.argv) != 3:
        refuse("usage: page.py FOLDER PAGE")
    try:
        main(*sys.argv[1:])
    except OSError as error:
        refuse(f"{error.filename}: {error.strerror}")
    except UnicodeDecodeError:
        refuse("the page, or what was measured, is no text in UTF-8")
