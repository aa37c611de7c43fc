"""What is given on the command line, or a sentence and status 2."""

import os
import sys
from collections.abc import Callable
from typing import Any


def whole(text: str) -> int:
    """A number from 0 on."""
    if not text.isdecimal():
        raise ValueError(f"`{text}` is no number")
    return int(text)


def source(text: str) -> str:
    """The folder of spirt's source files."""
    if not any(os.path.isfile(os.path.join(text, *inner, "cfg.rs")) for inner in ((), ("src",))):
        raise ValueError(f"`{text}` has no cfg.rs, nor has its src: it is not the folder of spirt's source files")
    return text


def arguments(text: str, *kinds: Callable[[str], Any]) -> list[Any]:
    """The arguments, each as its kind has it. `text` is the module's own, which says what they are."""
    usage = next((line.strip() for line in text.splitlines() if line.strip().startswith("python3 -m")), "")
    words = sys.argv[1:]
    if words in (["-h"], ["--help"]):
        print(text.strip())
        sys.exit(0)
    try:
        if len(words) != len(kinds):
            raise ValueError(f"{len(words)} arguments in place of {len(kinds)}" if words else "arguments are missing")
        return [kind(word) for kind, word in zip(kinds, words)]
    except ValueError as wrong:
        print(f"{wrong}; usage: {usage}", file=sys.stderr)
        sys.exit(2)
