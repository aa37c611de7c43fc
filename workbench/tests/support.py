"""What the tests share: the programs, the fixed lists, the commands."""

import atexit
import os
import shutil
import subprocess
import sys
import tempfile
import unittest
from collections.abc import Iterator

ROOT = os.path.dirname(os.path.dirname(os.path.dirname(os.path.abspath(__file__))))
WORKBENCH = os.path.join(ROOT, "workbench")
CATALOGUE = os.path.join(WORKBENCH, "catalogue")
sys.path.insert(0, WORKBENCH)

from rukvetta.programs import BUILT_BY, VARIABLE, Programs  # noqa: E402 (the path comes first)


def one_folder() -> str:
    """The folder that the environment names, or one with links to the programs that are built."""
    if os.environ.get(VARIABLE):
        return os.environ[VARIABLE]
    folder = tempfile.mkdtemp(prefix="programs.")
    atexit.register(shutil.rmtree, folder, ignore_errors=True)
    for name in filter(Programs().has, BUILT_BY):
        os.symlink(Programs().place(name), os.path.join(folder, name))
    return folder


programs = Programs(one_folder())
needs_show = unittest.skipUnless(programs.has("show"), f"there is no show; {BUILT_BY['show']}")
needs_nest = unittest.skipUnless(programs.has("nest"), f"there is no nest; {BUILT_BY['nest']}")


def vectors(name: str) -> Iterator[tuple[bytes, str]]:
    """The stores of a fixed list, with their answers; one with `wrong` for `store` has a wrong answer on purpose and is passed over."""
    with open(os.path.join(ROOT, "beside", "lists", name), encoding="ascii") as lines:
        for line in lines:
            first, answer = line, []
            for line in iter(lines.readline, ".\n"):
                answer.append(line)
            if first.startswith("store"):
                yield bytes.fromhex(first.removeprefix("store").strip()), "".join(answer)


def command(name: str, *arguments: str, data: bytes = b"", folder: str | None = None) -> tuple[int, bytes, str]:
    """Run a command of the workbench: its status, output and messages."""
    done = subprocess.run(
        [os.path.join(WORKBENCH, name), *arguments],
        input=data,
        capture_output=True,
        check=False,
        timeout=300,
        env={**os.environ, "RUKVETTA_PROGRAMS": folder or programs.folder, "COLUMNS": "160"},
    )
    return done.returncode, done.stdout, done.stderr.decode()


def put(path: str, data: bytes) -> str:
    """Write a file; answer its path."""
    with open(path, "wb") as file:
        file.write(data)
    return path
