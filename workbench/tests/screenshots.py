"""Makes the pictures of the docs: /usr/bin/python3 -m tests.screenshots, in the folder of the workbench."""

import os
import sys
import tempfile
from typing import NoReturn

from .browser import Browser, missing
from .support import WORKBENCH
from .test_report import catalogue_texts

from rukvetta.needs import MISSING, USAGE
from rukvetta.page import RoutineOptions, routine_page
from rukvetta.record import record_words
from rukvetta.routine import load

PICTURES = ("sweep-markers", False), ("ramp-nested", True), ("trigger-chase", False)


def refuse(sentence: str, status: int) -> NoReturn:
    """Says why nothing is made, and ends."""
    print(f"screenshots: {sentence}", file=sys.stderr)
    raise SystemExit(status)


def main() -> None:
    """Makes the pictures."""
    if sys.argv[1:] in (["-h"], ["--help"]):
        print(__doc__.strip())
        return
    if sys.argv[1:]:
        refuse("usage: /usr/bin/python3 -m tests.screenshots, with nothing behind it", USAGE)
    if missing():
        refuse(missing(), MISSING)
    look = Browser(1400, 2000)  # tall, so that no picture has to be scrolled
    with tempfile.TemporaryDirectory() as folder:
        for name, dark in PICTURES:
            path = os.path.join(folder, name + ".html")
            words = record_words(load(os.path.join(WORKBENCH, "catalogue", name + ".routine")).record)[0]
            with open(path, "w", encoding="utf-8") as file:
                file.write(routine_page(name, catalogue_texts(name), RoutineOptions(1e6, words)))
            look.open(path, dark)
            below = look.run("return document.querySelector('.listings').getBoundingClientRect().top")
            look.screenshot(os.path.join(WORKBENCH, "docs", f"{name}-{'dark' if dark else 'light'}.png"), below - 4)
    look.close()


if __name__ == "__main__":
    main()
