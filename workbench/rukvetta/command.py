"""rukvetta COMMAND: one program for people. It starts the proved programs `nest` and `show`, and decides nothing itself."""

from __future__ import annotations

import argparse
import sys
from collections.abc import Callable
from dataclasses import dataclass

from . import catalogue, compare, explain, report
from .answers import Answer, Output
from .assemble import assemble
from .facts import add_clock, facts_of
from .faults import Fault, escaped
from .needs import MISSING, REFUSED, USAGE, Missing, Parser
from .programs import Programs, add_option, refusal
from .progress import tracked
from .routine import BadSource, Routine, routine_of, text_of
from .streams import OUTPUT, read_file, write_file
from .version import version

DESCRIPTION = "From a routine's store of bytes, or its source, to its nested sheet. The answers are those of the proved programs."
ENDING = """Statuses: 0 good; 1 refused, failed or different; 2 the command is wrong, or a file cannot be read or written;
3 a program or a package is missing. `rukvetta COMMAND --help` has the options of each; `man rukvetta` has more."""


@dataclass(frozen=True)
class Command:
    """One word behind `rukvetta`."""

    description: str
    arguments: Callable[[argparse.ArgumentParser], None]
    perform: Callable[[argparse.Namespace, Output], int]


def file_arguments(parser: argparse.ArgumentParser) -> None:
    parser.add_argument(
        "store",
        metavar="FILE",
        nargs="*",
        default=["-"],
        help="a store, or a source that is assembled first; - or nothing for standard input",
    )
    add_option(parser)


def nest_arguments(parser: argparse.ArgumentParser) -> None:
    file_arguments(parser)
    add_clock(parser)


class Printer:
    """Prints what a proved program answers to each file."""

    def __init__(self, options: argparse.Namespace, output: Output, program: str) -> None:
        self.options, self.output, self.program = options, output, program
        self.programs, self.status = Programs(options.programs), 0

    def all(self) -> int:
        files = [(path, read_file(path)) for path in self.options.store]
        self.programs.path(self.program)
        counted = files if sys.stdout.isatty() else tracked(files, len(files))  # on a terminal the text itself is the progress
        for place, (path, data) in enumerate(counted):
            if len(files) > 1:
                self.output.say("\n" * bool(place) + f"{escaped(path)}:")
            self.one(path, data)
        return self.status

    def one(self, path: str, data: bytes) -> None:
        answer = self.output.answer(path)
        try:
            routine = routine_of(path, data)
        except BadSource as fault:
            self.status, answer.wrong = REFUSED, str(fault)
            answer.take_faults(fault.fault)
            self.output.complain(str(fault))
            return
        text = self.programs.answer(self.program, routine.store)
        self.output.say(text.removesuffix("\n"))
        if refusal(text):
            self.status = REFUSED
            answer.take_verdict(text.strip(), None, None, None)
        self.take(answer, routine, text)

    def take(self, answer: Answer, routine: Routine, text: str) -> None:
        """What the document has of it."""
        if self.program == "show":
            answer.record = [] if refusal(text) else text.splitlines()
        elif self.output.as_json:
            shown = self.programs.show(routine.store)
            answer.sheet = text.splitlines()
            answer.take_facts(facts_of(routine.name, routine.store, shown, text), self.options.clock)


def nest(options: argparse.Namespace, output: Output) -> int:
    return Printer(options, output, "nest").all()


def show(options: argparse.Namespace, output: Output) -> int:
    return Printer(options, output, "show").all()


def assemble_arguments(parser: argparse.ArgumentParser) -> None:
    parser.add_argument("source", metavar="IN", nargs="?", default="-", help="a source; - or nothing for standard input")
    parser.add_argument("-o", dest="output", metavar="OUT", required=True, help="the store; - for standard output")


def assemble_file(options: argparse.Namespace, output: Output) -> int:
    """Assemble a source; where it fails nothing is written."""
    if options.output == "-" and output.as_json:
        output.complain("The store and the document cannot both go to standard output; name a file behind -o.")
        return USAGE
    answer, data = output.answer(options.source), read_file(options.source)
    try:
        store, record, _ = assemble(data)
    except Fault as fault:
        answer.take_faults(fault)
        answer.wrong = fault.text(text_of(data), "source" if options.source == "-" else options.source)
        output.complain(answer.wrong)
        return REFUSED
    write_file(options.output, store)
    answer.regions, answer.written = len(record.regions), escaped(options.output)
    return 0


COMMANDS = {
    "nest": Command("Prints the sheet of each file, as the proved program `nest` does.", nest_arguments, nest),
    "show": Command("Prints the record of each file, as the proved program `show` does.", file_arguments, show),
    "assemble": Command("Writes the store of a source. Where that fails nothing is written.", assemble_arguments, assemble_file),
    "explain": Command(explain.DESCRIPTION, explain.arguments, explain.perform),
    "report": Command(report.DESCRIPTION, report.arguments, report.perform),
    "check": Command(catalogue.DESCRIPTION, catalogue.arguments, catalogue.perform),
    "diff": Command(compare.DESCRIPTION, compare.arguments, compare.perform),
}


def parser() -> Parser:
    made = Parser(prog="rukvetta", description=DESCRIPTION, epilog=ENDING, formatter_class=argparse.RawDescriptionHelpFormatter)
    made.add_argument("--version", action="version", version=f"rukvetta {version()}")
    commands = made.add_subparsers(dest="command", metavar="COMMAND", required=True)
    for name, command in COMMANDS.items():
        one = commands.add_parser(name, help=command.description.split(". ")[0].rstrip("."), description=command.description)
        one.add_argument("--json", action="store_true", help="print one JSON document (workbench/docs/JSON.md)")
        command.arguments(one)
    return made


def main() -> int:
    options = parser().parse_args()
    output = Output(options.command, options.json)
    try:
        return output.finish(COMMANDS[options.command].perform(options, output))
    except Missing as missing:
        return ended(output, str(missing), MISSING)
    except BrokenPipeError:
        raise
    except OSError as error:
        if error.filename == OUTPUT:
            raise
        return ended(output, f"{escaped(str(error.filename or 'a file'))}: {error.strerror}", USAGE)


def ended(output: Output, message: str, status: int) -> int:
    """End with a message; it goes to standard error in any case."""
    if output.as_json:
        print(message, file=sys.stderr)
    output.complain(message)
    return output.finish(status)
