"""check FOLDER: assembles and nests every routine of a folder and compares the sheets."""

from __future__ import annotations

import argparse
import multiprocessing
import os
import sys
from collections.abc import Iterator
from dataclasses import dataclass, field
from typing import NoReturn

from .answers import Output, Told, told
from .difference import sheet_changes
from .facts import Facts, add_clock, facts_of, heads
from .faults import escaped
from .needs import REFUSED, USAGE, Missing, Parser, need
from .programs import BUILT_BY, Programs, add_option, refusal
from .progress import live_console, tracked
from .refusals import several
from .routine import SOURCE, STORE, BadSource, load
from .sheet import Verdict
from .streams import replace_file

DESCRIPTION = (
    "Nests every source (.routine) and store (.store) of a folder and of those in it, and compares each with the sheet "
    "(.sheet) beside it."
)
WIDTHS = {"outcome": 12, "figure": 13, "attempts": 8, "regions": 7, "words": 5}
MOST_WORKERS = 64


@dataclass
class Check:
    """One routine's facts and what is wrong with it, or an empty text. `sheet` is what would be written for it, if anything."""

    path: str
    facts: Facts
    wrong: str = ""
    sheet: str | None = None
    faults: list[Told] = field(default_factory=list)  # plain data: what a worker answers is pickled


@dataclass
class Job:
    """What a worker needs for one file."""

    folder: str
    path: str  # within the folder
    programs: str | None

    def name(self) -> str:
        return escaped(os.path.splitext(self.path)[0])

    def file(self) -> str:
        return os.path.join(self.folder, self.path)


def beside(path: str) -> str:
    """The sheet beside a source or a store."""
    return os.path.splitext(path)[0] + ".sheet"


def expected_sheet(path: str) -> str | None:
    """The sheet that is checked in, or None."""
    if not os.path.exists(beside(path)):
        return None
    with open(beside(path), encoding="ascii", errors="replace", newline="") as file:
        return file.read()


def compare(path: str, sheet: str) -> str:
    """What is wrong with a sheet beside the one checked in, or an empty text."""
    expected = expected_sheet(path)
    if expected is None and refusal(sheet):
        return (
            f"{sheet.strip()}, and there is no {escaped(os.path.basename(beside(path)))}; "
            "only a sheet written by hand can expect a refusal"
        )
    if expected is None:
        return f"there is no {escaped(os.path.basename(beside(path)))} beside it"
    if sheet == expected:
        return ""
    new, old = sheet.splitlines(), expected.splitlines()
    if new == old:
        return "the sheet differs in the ends of its lines alone"
    at = next((k for k, (a, b) in enumerate(zip(new, old)) if a != b), min(len(new), len(old)))
    shown = [escaped(lines[at]) if at < len(lines) else "nothing more" for lines in (new, old)]
    return f"line {at + 1} of the sheet is `{shown[0]}`, expected `{shown[1]}`"


def check(job: Job) -> Check:
    """Nest one routine and compare. Runs in a worker."""
    programs = Programs(job.programs)
    try:
        routine = load(job.file())
        shown, sheet = programs.show(routine.store), programs.nest(routine.store)
        wrong = compare(job.file(), sheet)
        proposed = sheet if wrong and not refusal(sheet) else None
        return Check(job.file(), facts_of(job.name(), routine.store, shown, sheet), wrong, proposed)
    except BadSource as fault:
        return Check(job.file(), Facts(job.name(), Verdict("no store")), str(fault), faults=told(fault.fault))
    except Missing as missing:
        return Check(job.file(), Facts(job.name(), Verdict("no answer")), str(missing))
    except OSError as error:
        return Check(job.file(), Facts(job.name(), Verdict("no file")), f"{escaped(str(error.filename))}: {error.strerror}")


class Table:
    """The rows as they come, in columns of fixed width; or nothing, where a document is wanted."""

    def __init__(self, jobs: list[Job], clock: float | None, silent: bool) -> None:
        self.clock, self.silent, self.heads = clock, silent, heads(clock)
        self.wide = max(len(self.heads[0]), *(len(job.name()) for job in jobs))
        console = need("rich.console").Console
        terminal = sys.stdout.isatty()
        self.table = console(width=None if terminal else 250, highlight=False, soft_wrap=True)
        self.live = self.table if terminal and not silent else live_console()

    def line(self, cells: tuple[str, ...]) -> str:
        """Cells below each other: names and outcomes to the left, numbers to the right."""
        name, outcome, *rest = cells
        widths = [WIDTHS.get(head, max(10, len(head))) for head in self.heads[2:]]
        return "  ".join([name.ljust(self.wide), outcome.ljust(WIDTHS["outcome"]), *(c.rjust(w) for c, w in zip(rest, widths))])

    def print(self, text: str, style: str | None = None) -> None:
        if not self.silent:
            self.table.print(text, style=style, markup=False)

    def row(self, done: Check) -> None:
        self.print(self.line(done.facts.cells(self.clock)).rstrip(), "red" if done.wrong else None)
        if done.wrong:
            self.print("    failed: " + done.wrong.replace("\n", "\n    "), "red")


class Checker:
    """Checks the routines of a folder; writes sheets where that is wanted."""

    def __init__(self, options: argparse.Namespace, output: Output) -> None:
        self.options, self.output, self.failed = options, output, 0
        self.proposed: list[Check] = []

    def check_all(self, jobs: list[Job]) -> None:
        table = Table(jobs, self.options.clock, self.output.as_json)
        table.print(table.line(table.heads), "bold")
        at_a_time = min(self.options.jobs or 1, len(jobs))
        with multiprocessing.Pool(at_a_time) as pool:
            for done in tracked(pool.imap(check, jobs, chunksize=4), len(jobs), table.live):
                self.take(done)
                table.row(done)

    def take(self, done: Check) -> None:
        """Note one routine; with --write a sheet that is missing is written at once."""
        written = None
        if done.sheet is not None and self.options.write and expected_sheet(done.path) is None:
            written = self.write(done)
            done.wrong = ""
        elif done.sheet is not None and self.options.update:
            self.proposed.append(done)
        self.failed += bool(done.wrong)
        if self.output.as_json:
            answer = self.output.answer(done.path)
            if done.facts.said.attempts is not None or done.facts.said.refused:
                answer.take_facts(done.facts, self.options.clock)
            answer.faults = done.faults
            answer.wrong, answer.written = done.wrong or None, written

    def write(self, done: Check) -> str:
        path = beside(done.path)
        replace_file(path, (done.sheet or "").encode("ascii"))
        return escaped(path)

    def update(self) -> None:
        """Show what would change, ask, and write."""
        if not self.proposed:
            return
        for done in self.proposed:
            self.show(done)
        if not self.agreed():
            return
        answers = {answer.file: answer for answer in self.output.routines}
        for done in self.proposed:
            path = self.write(done)
            self.failed -= 1
            answer = answers.get(escaped(done.path))
            if answer:
                answer.wrong, answer.written = None, path
        self.output.say(f"{several(len(self.proposed), 'sheet')} written")

    def show(self, done: Check) -> None:
        path, old = escaped(beside(done.path)), expected_sheet(done.path)
        if old is None:
            self.output.say(f"\n{path}, new:\n  + {(done.sheet or '').splitlines()[0]}")
            return
        self.output.say(f"\n{path}:")
        for one in sheet_changes(old, done.sheet or ""):
            self.output.say(f"  {one.sign} {one.text}")

    def agreed(self) -> bool:
        """Whether the sheets shall be written: by --yes, or by an answer on a terminal."""
        if self.options.yes:
            return True
        if not sys.stdin or not sys.stdin.isatty() or self.output.as_json:
            self.output.complain("Nothing is written: standard input is no terminal to ask on, and there is no --yes.")
            return False
        print(f"\nWrite {several(len(self.proposed), 'sheet')}? [y/N] ", end="", flush=True)
        return sys.stdin.readline().strip().lower() in ("y", "yes")


def unreadable(error: OSError) -> NoReturn:
    """A folder that cannot be read is told, and not passed over."""
    raise error


def routines_in(folder: str) -> Iterator[str]:
    """The sources and stores of a folder and of those in it, as paths within it, in order."""
    found: list[str] = []
    for place, _, names in os.walk(folder, onerror=unreadable):
        found += [os.path.relpath(os.path.join(place, name), folder) for name in names if name.endswith((SOURCE, STORE))]
    yield from sorted(found, key=os.path.splitext)


def workers(text: str) -> int:
    """How many are checked at a time."""
    if text.isdecimal() and 1 <= int(text[:9]) <= MOST_WORKERS:
        return int(text)
    raise argparse.ArgumentTypeError(f"found {text}, expected 1 to {MOST_WORKERS}")


def arguments(parser: argparse.ArgumentParser) -> None:
    parser.add_argument("folder", metavar="FOLDER")
    parser.add_argument("--write", action="store_true", help="write the sheets that are missing; never that of a refusal")
    parser.add_argument("--update", action="store_true", help="show what changes in the sheets, ask, and write them")
    parser.add_argument("--yes", action="store_true", help="with --update: write without asking")
    parser.add_argument("--jobs", type=workers, default=os.cpu_count(), metavar="N", help="how many at a time (else one a core)")
    add_clock(parser)
    add_option(parser)


def perform(options: argparse.Namespace, output: Output) -> int:
    """Check a folder."""
    jobs = [Job(options.folder, path, options.programs) for path in routines_in(options.folder)]
    if not jobs:
        output.complain(f"{escaped(options.folder)}: there is no file that ends with {SOURCE} or {STORE}")
        return USAGE
    programs = Programs(options.programs)
    for program in BUILT_BY:
        programs.path(program)
    checker = Checker(options, output)
    checker.check_all(jobs)
    if options.update:
        checker.update()
    output.passed, output.failed = len(jobs) - checker.failed, checker.failed
    output.say(f"{output.passed} passed, {output.failed} failed")
    return REFUSED if checker.failed else 0


def main() -> int:
    parser = Parser(prog="check-catalogue", description=DESCRIPTION)
    arguments(parser)
    return perform(parser.parse_args(), Output("check"))
