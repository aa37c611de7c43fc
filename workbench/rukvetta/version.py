"""The version, which stands in one file: VERSION, in the folder of the repository, or beside the package where it is installed."""

from __future__ import annotations

import os

HERE = os.path.dirname(os.path.abspath(__file__))
PLACES = os.path.join(HERE, "..", "VERSION"), os.path.join(HERE, "..", "..", "VERSION")


def version() -> str:
    """The text of the file VERSION."""
    for path in PLACES:
        if os.path.exists(path):
            with open(path, encoding="ascii") as file:
                return file.read().strip()
    return "unknown"
