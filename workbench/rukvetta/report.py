"""report STORE... -o PAGE.html: a page for a routine, or an index with a page for each."""

from __future__ import annotations

import argparse
import errno
import os
from collections.abc import Iterable, Iterator
from dataclasses import dataclass

from .answers import Answer, Output
from .explain import Differs, named, refused_text
from .facts import Facts, add_clock, facts_of, heads
from .faults import escaped
from .needs import REFUSED, USAGE, Parser, need_dagre
from .page import RoutineOptions, RoutineTexts, index_page, routine_page
from .programs import BUILT_BY, Programs, add_option, refusal
from .progress import tracked
from .routine import BadSource, Routine, name_of, routine_of
from .streams import read_file, replace_file

DESCRIPTION = "Draws the graph and the nest of stores, or of sources that it assembles first, in self-contained pages."


def routine_texts(routine: Routine, programs: Programs) -> tuple[str, RoutineTexts]:
    """What `show` prints, and what a page is drawn from."""
    shown, sheet = programs.show(routine.store), programs.nest(routine.store)
    explained = refused_text(routine, sheet, programs)[1:] if refusal(sheet) else []
    return shown, RoutineTexts(
        record="" if refusal(shown) else shown,
        sheet=sheet,
        names="\n".join(routine.names.lines()) if routine.names else "",
        explained="\n".join(named(routine, text) for text in explained),
    )


def draw(routine: Routine, programs: Programs, clock: float | None) -> tuple[str, Facts]:
    """A routine's page, and its facts for an index."""
    shown, texts = routine_texts(routine, programs)
    facts = facts_of(routine.name, routine.store, shown, texts.sheet)
    return routine_page(routine.name, texts, RoutineOptions(clock, facts.words)), facts


def page_names(paths: Iterable[str]) -> Iterator[str]:
    """A page's file name for each path, no two the same."""
    used: dict[str, int] = {}
    for path in paths:
        stem = os.path.splitext(os.path.basename(path))[0]
        used[stem] = used.get(stem, 0) + 1
        yield stem + (f"-{used[stem]}" if used[stem] > 1 else "") + ".html"


@dataclass(frozen=True)
class Drawn:
    """A routine's page, with what is told of it."""

    page: str
    facts: Facts
    answer: Answer


class Reporter:
    """Draws the routines of a command, and notes its status."""

    def __init__(self, options: argparse.Namespace, output: Output) -> None:
        self.options, self.output = options, output
        self.programs, self.status = Programs(options.programs), 0

    def files(self) -> list[tuple[str, bytes]] | None:
        """The bytes of all files, and all else that will be needed; None where a file is missing, which is told."""
        page = self.options.output
        if not os.path.isdir(os.path.dirname(page) or "."):
            raise FileNotFoundError(errno.ENOENT, os.strerror(errno.ENOENT), page)
        found, missing = [], False
        for path in self.options.store:
            try:
                found.append((path, read_file(path)))
            except OSError as error:
                self.output.complain(f"{escaped(str(error.filename))}: {error.strerror}")
                missing = True
        for program in BUILT_BY:
            self.programs.path(program)
        need_dagre()
        return None if missing else found

    def drawn(self, path: str, data: bytes) -> Drawn | None:
        """A routine's page and facts; None where there is none, which is told. A refusal is told too."""
        answer = self.output.answer(path)
        try:
            page, facts = draw(routine_of(path, data), self.programs, self.options.clock)
        except (BadSource, Differs) as fault:
            self.status, answer.wrong = REFUSED, str(fault)
            if isinstance(fault, BadSource):
                answer.take_faults(fault.fault)
            self.output.complain(str(fault))
            return None
        answer.take_facts(facts, self.options.clock)
        if facts.said.refused:
            self.status, answer.wrong = REFUSED, facts.said.outcome
            self.output.complain(f"{escaped(path)}: {facts.said.outcome}")
        return Drawn(page, facts, answer)

    def write(self, path: str, page: str, answer: Answer | None = None) -> None:
        replace_file(os.path.realpath(path), page.encode("utf-8"))
        if answer:
            answer.written = escaped(path)

    def one(self, path: str, data: bytes) -> None:
        drawn = self.drawn(path, data)
        if drawn:
            self.write(self.options.output, drawn.page, drawn.answer)

    def index(self, files: list[tuple[str, bytes]]) -> None:
        """A page for each routine in a folder beside the index. What does not assemble is told and left out."""
        folder = os.path.splitext(self.options.output)[0]
        os.makedirs(folder, exist_ok=True)
        rows: list[tuple] = [heads(self.options.clock)]
        named_files = list(zip(files, page_names(path for path, _ in files)))
        for (path, data), name in tracked(named_files, len(named_files)):
            drawn = self.drawn(path, data)
            if drawn:
                self.write(os.path.join(folder, name), drawn.page, drawn.answer)
                cells = drawn.facts.cells(self.options.clock)
                rows.append(((cells[0], f"{os.path.basename(folder)}/{name}"), *cells[1:]))
        self.write(self.options.output, index_page(name_of(self.options.output), rows))


def arguments(parser: argparse.ArgumentParser) -> None:
    parser.add_argument("store", metavar="STORE", nargs="+", help="a store or a source")
    parser.add_argument("-o", dest="output", metavar="PAGE.html", required=True, help="the page, or the index of several")
    add_clock(parser)
    add_option(parser)


def perform(options: argparse.Namespace, output: Output) -> int:
    """Draw the pages. What is missing is told before anything is written."""
    if not options.output.endswith(".html"):
        output.complain(f"{escaped(options.output)}: a page's name ends with .html")
        return USAGE
    reporter = Reporter(options, output)
    files = reporter.files()
    if files is None:
        return USAGE
    if len(files) > 1:
        reporter.index(files)
    else:
        reporter.one(*files[0])
    return reporter.status


def main() -> int:
    parser = Parser(prog="report", description=DESCRIPTION)
    arguments(parser)
    return perform(parser.parse_args(), Output("report"))
