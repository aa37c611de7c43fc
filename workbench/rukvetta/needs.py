"""What the workbench needs from Debian, in one place, and a sentence where it is missing."""

from __future__ import annotations

import argparse
import importlib
import os
import sys
from collections.abc import Callable
from types import ModuleType
from typing import NoReturn

from . import streams
from .faults import escaped

PACKAGES = {
    "lark": "python3-lark",  # the source form
    "rich": "python3-rich",  # tables and the progress line
    "dagre": "node-dagre-layout",  # the graph's layout, inlined into a page
    "selenium": "python3-selenium",  # the browser test alone
    "chromium": "chromium chromium-driver",
}
COMMAND = "apt-get install " + " ".join(PACKAGES.values())
DAGRE = "/usr/share/nodejs/dagre/dist/dagre.min.js"

REFUSED, USAGE, MISSING = 1, 2, 3  # statuses: the input is at fault, the command is, something is not there


class Missing(Exception):
    """Something that is needed is not there; its text is the sentence to print."""


def need(module: str) -> ModuleType:
    """A Python module of a Debian package."""
    try:
        return importlib.import_module(module)
    except ImportError:
        raise Missing(
            f"This needs Debian's {PACKAGES[module.split('.')[0]]} and Debian's Python, /usr/bin/python3; "
            f"`{COMMAND}` installs all that the workbench uses."
        ) from None


def need_dagre() -> str:
    """The text of the layout library."""
    try:
        with open(DAGRE, encoding="utf-8") as file:
            return file.read()
    except OSError:
        raise Missing(
            f"This needs Debian's {PACKAGES['dagre']}, which has {DAGRE}; " f"`{COMMAND}` installs all that the workbench uses."
        ) from None


def leave_output() -> None:
    """Give up standard output, so that nothing is written to it when Python ends."""
    os.dup2(os.open(os.devnull, os.O_WRONLY), 1)


def run(main: Callable[[], int]) -> int:
    """Run a command's main; what is missing, or cannot be read or written, ends in a sentence and a status."""
    streams.prepare()
    try:
        return run_to_the_end(main)
    except Missing as missing:
        print(missing, file=sys.stderr)
        return MISSING
    except KeyboardInterrupt:
        print("Stopped.", file=sys.stderr)
        return MISSING
    except BrokenPipeError:
        leave_output()
        return REFUSED
    except OSError as error:
        if error.filename == streams.OUTPUT:
            leave_output()
        print(f"{escaped(str(error.filename or 'a file'))}: {error.strerror}", file=sys.stderr)
        return USAGE


def run_to_the_end(main: Callable[[], int]) -> int:
    """Run it, and write what it printed."""
    try:
        status = main()
    except SystemExit as ended:  # of the parser of arguments
        status = ended.code if isinstance(ended.code, int) else 0
    sys.stdout.flush()
    return status


class Parser(argparse.ArgumentParser):
    """A parser of arguments whose messages are safe to print."""

    def error(self, message: str) -> NoReturn:
        super().error(escaped(message))
