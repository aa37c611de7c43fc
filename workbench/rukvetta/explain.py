"""explain STORE: why a store was refused, and where; or what it holds, in words."""

from __future__ import annotations

import argparse
import re

from .answers import Answer, Output
from .needs import MISSING, REFUSED, Missing, Parser
from .places import read_store
from .programs import Programs, add_option, refusal
from .record import Record, value_text
from .references import check_references
from .refusals import RULES, Refused, several
from .routine import BadSource, Routine, load
from .sheet import verdict
from .source import read_source
from .store import words_of
from .summary import record_sentences, sheet_sentences

DESCRIPTION = (
    "Says of a store, or of a source that it assembles first, why it is refused and where, or what it holds. "
    "Number and word are those of the proved program."
)


class Differs(Exception):
    """The proved program and the search for the place do not agree."""

    def __init__(self, answer: str, found: Refused | None) -> None:
        ours = f"refused {found.number} {found.word}: {found.sentence}" if found else "no fault."
        super().__init__(
            f"The proved program says `{answer}`; the search for the place found {ours} " "The program is right, and no place is given."
        )


def place_of(store: bytes) -> Refused | None:
    """Our own search for a refusal from 1 to 8: the refusal, or None."""
    try:
        check_references(read_store(store))
    except Refused as refused:
        return refused
    return None


def line_of(record: Record | None, part: tuple | None) -> str:
    """The line of a source that a part of its record stands in, as the end of a sentence."""
    if record is None or part is None:
        return ""
    if part[0] == "entry":
        return " (the source's `record` line)"
    region = record.regions[part[1]]
    if part[0] == "instruction":
        line = region.instructions()[part[2]].line
    else:
        line = region.lines.get(part[:1] + part[2:] if part[0] == "pass" else part[0]) or region.lines.get("terminator")
    return f" (line {line} of the source)" if line else ""


def named(routine: Routine, sentence: str) -> str:
    """The sentence with the source's own names behind its regions and values."""
    if routine.names is None:
        return sentence
    called = {f"region {number}": name for name, number in routine.names.regions.items()}
    called |= {value_text(value): name for value, name in routine.names.values.items()}

    def with_name(match: re.Match[str]) -> str:
        name = called.get(match[0].lower())
        return f"{match[0]} ({name})" if name else match[0]

    return re.sub(r"\b(?:[Rr]egion [0-9]+|c[0-9]+|[id][0-9]+\.[0-9]+)\b", with_name, sentence)


def nesting_sentence(number: int, word: int, record: Record) -> str:
    """For the refusals that nesting, figure and output give; the program does not say more than the number."""
    if number == 9:
        return (
            f"Nesting the record's {several(len(record.regions), 'region')} would define too much. Fewer ways that cross "
            "each other, fewer values passed, or two routines in place of one, would be allowed."
        )
    if number == 11:
        dear = sorted(((region.limit, place) for place, region in enumerate(record.regions) if region.limit > 1), reverse=True)
        limits = ", ".join(f"region {place} {limit:,}" for limit, place in dear[:4]) or "none above 1"
        return f"Turn limits are multiplied along nested loops; the greatest are: {limits}. Smaller limits would be allowed."
    if number == 10:
        return "The sheet has more than the 16,384 words that the program lends."
    return f"Region {word} is the target. This is proved never to happen: please keep the store."


def refused_text(routine: Routine, answer: str, programs: Programs) -> list[str]:
    """The sentences for a refusal that a proved program gave."""
    number, word = refusal(answer) or (0, 0)
    found = place_of(routine.store)
    expected = (number, word) if number <= 8 else None  # the search knows no later ones
    if (found and (found.number, found.word)) != expected:
        raise Differs(answer.strip(), found)
    if found:
        sentence = found.sentence.removesuffix(".") + line_of(routine.record, found.part) + "."
    else:
        sentence = nesting_sentence(number, word, read_source(programs.show(routine.store).encode())[0])
    return [answer.strip(), f"Rule {number} of document 01: {RULES[number]}.", sentence]


def accepted_text(routine: Routine, shown: str) -> tuple[Record, list[str]]:
    """The summary of a record that `show` printed."""
    found = place_of(routine.store)
    if found:
        raise Differs("accepted", found)
    record, _ = read_source(shown.encode())
    return record, list(record_sentences(record, words_of(routine.store)[0]))


def explain(routine: Routine, programs: Programs) -> tuple[list[str], int]:
    """The sentences, and a status: 0 for what is accepted, and nested as far as that is known."""
    shown = programs.show(routine.store)
    if refusal(shown):
        return refused_text(routine, shown, programs), REFUSED
    record, sentences = accepted_text(routine, shown)
    try:
        sheet = programs.nest(routine.store)
    except Missing as missing:
        return ["accepted", *sentences, str(missing)], MISSING
    if refusal(sheet):
        return refused_text(routine, sheet, programs) + sentences, REFUSED
    return [sheet.split("\n", 1)[0], *sentences, *sheet_sentences(record, sheet)], 0


def arguments(parser: argparse.ArgumentParser) -> None:
    parser.add_argument("store", metavar="STORE", help="a store, or a source; - for standard input")
    add_option(parser)


def perform(options: argparse.Namespace, output: Output) -> int:
    """Say what a store or a source is."""
    answer = output.answer(options.store)
    try:
        routine = load(options.store)
        sentences, status = explain(routine, Programs(options.programs))
    except BadSource as fault:
        answer.take_faults(fault.fault)
        return failed(answer, output, str(fault))
    except Differs as fault:
        return failed(answer, output, str(fault))
    answer.sentences = [named(routine, sentence) for sentence in sentences]
    if sentences[0] != "accepted":
        said = verdict(sentences[0])
        answer.take_verdict(said.outcome, said.figure, said.attempts, said.twice)
    output.say("\n".join(answer.sentences))
    return status


def failed(answer: Answer, output: Output, wrong: str) -> int:
    answer.wrong = wrong
    output.say(wrong)
    return REFUSED


def main() -> int:
    parser = Parser(prog="explain", description=DESCRIPTION)
    arguments(parser)
    return perform(parser.parse_args(), Output("explain"))
