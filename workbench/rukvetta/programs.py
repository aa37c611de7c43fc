"""The proved programs: where they are, and what they answer to a store."""

from __future__ import annotations

import argparse
import os
import subprocess

from .faults import escaped
from .needs import Missing

VARIABLE = "RUKVETTA_PROGRAMS"
HERE = os.path.dirname(os.path.abspath(__file__))
CRATES = os.path.normpath(os.path.join(HERE, "..", "..", "crates"))
INSTALLED = os.path.normpath(os.path.join(HERE, "..", "..", "..", "bin"))  # of PREFIX, where the package is in share/rukvetta
IS_INSTALLED = os.path.basename(os.path.dirname(os.path.dirname(HERE))) == "share"
BUILT_BY = {"show": "`rt run` in crates/show builds it", "nest": "`rt run` in crates/nest builds it"}


def usual(name: str) -> str:
    """Where a program is put when it is built, or installed."""
    return os.path.join(INSTALLED, name) if IS_INSTALLED else os.path.join(CRATES, name, "out", name)


def add_option(parser: argparse.ArgumentParser) -> None:
    parser.add_argument(
        "--programs",
        metavar="FOLDER",
        default=os.environ.get(VARIABLE),
        help=f"the folder of show and nest (else ${VARIABLE}, else where they are built: crates/show/out and crates/nest/out)",
    )


class Programs:
    """The programs of one folder, or where each is put when it is built."""

    def __init__(self, folder: str | None = None) -> None:
        self.folder = folder or os.environ.get(VARIABLE) or None

    def place(self, name: str) -> str:
        """Where a program would be."""
        return os.path.join(self.folder, name) if self.folder else usual(name)

    def has(self, name: str) -> bool:
        return os.access(self.place(name), os.X_OK)

    def path(self, name: str) -> str:
        """Where a program is, if it is there."""
        if not self.has(name):
            raise Missing(
                f"The program `{name}` is not in {escaped(os.path.dirname(self.place(name)))}: {BUILT_BY[name]}; "
                f"--programs or ${VARIABLE} names another folder."
            )
        return self.place(name)

    def answer(self, name: str, store: bytes) -> str:
        """What a program prints for a store."""
        path = self.path(name)
        try:
            done = subprocess.run([path], input=store, capture_output=True, check=True, timeout=600)
            return done.stdout.decode("ascii")
        except (OSError, subprocess.SubprocessError, UnicodeDecodeError) as error:
            raise Missing(f"The program {escaped(path)} did not answer: {escaped(str(error)).rstrip('.')}.") from None

    def show(self, store: bytes) -> str:
        return self.answer("show", store)

    def nest(self, store: bytes) -> str:
        return self.answer("nest", store)


def refusal(answer: str) -> tuple[int, int] | None:
    """Number and word of a refusal, or None."""
    parts = answer.split()
    return (int(parts[1]), int(parts[2])) if parts[:1] == ["refused"] else None
