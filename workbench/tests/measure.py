"""Times `rukvetta check` in the folder of the workbench: /usr/bin/python3 -m tests.measure NUMBER... or routines

A NUMBER is of random stores in a folder, a tenth of them damaged; `routines` are 212 sources, the catalogue copied and varied.
The sheets are written before, which is not timed.
"""

import os
import random
import re
import subprocess
import sys
import tempfile
import time
from collections.abc import Iterator
from dataclasses import dataclass

from .random_records import damaged_store, random_store
from .support import BUILT_BY, CATALOGUE, ROOT, programs, put

from rukvetta.assemble import assemble
from rukvetta.needs import MISSING, USAGE

RUKVETTA = os.path.join(ROOT, "bin", "rukvetta")
ROUTINES = 212


def stores(count: int) -> Iterator[bytes]:
    """So many stores, the same ones each time. None is kept: what this process holds would count for the one it starts."""
    rng = random.Random(77)
    for _ in range(count):
        store = random_store(rng)
        yield damaged_store(rng, store) if rng.random() < 0.1 else store


@dataclass(frozen=True)
class Run:
    """One run: its last line, its seconds, those of the processor with all that was started, and its greatest process in megabytes."""

    said: str
    seconds: float
    work: float
    size: float


def timed(folder: str) -> Run:
    """Runs the check of a folder."""
    start = time.monotonic()
    with tempfile.TemporaryFile() as out:
        child = subprocess.Popen([RUKVETTA, "check", folder], stdout=out)
        _, _, used = os.wait4(child.pid, 0)
        child.returncode = 0
        seconds = time.monotonic() - start
        out.seek(0)
        return Run(out.read().decode().splitlines()[-1], seconds, used.ru_utime + used.ru_stime, used.ru_maxrss / 1024)


def random_stores(folder: str, count: int) -> None:
    """Random stores with the sheets that `nest` prints; those of refusals too, as if written by hand."""
    for number, store in enumerate(stores(count)):
        put(os.path.join(folder, f"r{number:05d}.store"), store)
        put(os.path.join(folder, f"r{number:05d}.sheet"), programs.nest(store).encode())


def varied_routines(folder: str) -> None:
    """The catalogue's sources, each six times with other costs, in folders of their own, until there are enough."""
    names = sorted(name for name in os.listdir(CATALOGUE) if name.endswith(".routine"))
    for number in range(ROUTINES):
        name = names[number % len(names)]
        with open(os.path.join(CATALOGUE, name), "rb") as file:
            source = re.sub(rb"cost ([0-9]+)", lambda match: b"cost %d" % (int(match[1]) + number // len(names)), file.read())
        place = os.path.join(folder, str(number // len(names)))
        os.makedirs(place, exist_ok=True)
        put(os.path.join(place, name), source)
        put(os.path.join(place, name[:-8] + ".sheet"), programs.nest(assemble(source)[0]).encode())


def main() -> None:
    """Times each word of the command."""
    if sys.argv[1:] in (["-h"], ["--help"]):
        print(__doc__.strip())
        return
    words = sys.argv[1:]
    if not words or not all(word == "routines" or (word.isdecimal() and int(word[:9])) for word in words):
        print("usage: /usr/bin/python3 -m tests.measure NUMBER... or routines, in the folder of the workbench", file=sys.stderr)
        raise SystemExit(USAGE)
    if not (programs.has("nest") and programs.has("show")):
        print(f"There is no nest or no show: {BUILT_BY['nest']}, {BUILT_BY['show']}.", file=sys.stderr)
        raise SystemExit(MISSING)
    for word in words:
        with tempfile.TemporaryDirectory() as folder:
            if word == "routines":
                varied_routines(folder)
            else:
                random_stores(folder, int(word))
            run = timed(folder)
            print(f"{word}: {run.said}, {run.seconds:.1f} s, {run.work:.1f} s of processor time, {run.size:.1f} MB", flush=True)


if __name__ == "__main__":
    main()
