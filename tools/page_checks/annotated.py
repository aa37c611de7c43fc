"""The store of the example, byte by byte, and its sheet, word by word: parts of docs/FORMAT.md.

What a word means comes from the record as the second reading (beside/reading) has read it. The words of the rows, one after another,
must be the store's own.
"""

from collections.abc import Iterator, Sequence
from pathlib import Path

from reading.nesting import Nesting
from reading.record import BOOL, EXIT, UNDEF, Record, Region, Value, list_words, read, value_text
from reading.sheet import BLOCK, LOOP, REGION, SELECT, Line, Result, accepted, all_lines, item_words, items
from reading.sheet import EXIT as EXIT_LINE
from reading.sheet import line_text, line_words, nest, one, text, value_words, words
from reading.store import WORDS, payload

TERMINATORS = "unreachable", "return", "exit", "branch", "select on a boolean", "select on a number"
KINDS = "constant", "input", "output of an instruction", "", "boolean", "undefined"
Row = tuple[list[int], str]  # words, and what they say


def some(count: int, what: str) -> str:
    """`no inputs`, `1 input`, `2 inputs`."""
    return f"{count or 'no'} {what}{'' if count == 1 else 's'}"


def value_row(value: Value, role: str) -> Row:
    """The three words of a value."""
    kind, region, index = value
    place = f"type {index}" if kind == UNDEF else "" if kind == BOOL else f"number {index}"
    own = f" of region {region}" if KINDS[kind].startswith(("input", "output")) else ""
    return list(value), f"{role} {value_text(value)}: kind {kind} ({KINDS[kind]}{own}{', ' + place if place else ''})"


def types_row(types: Sequence[int], what: str) -> Row:
    """A count and so many types."""
    return [len(types), *types], some(len(types), what) + (f", of type {', '.join(map(str, types))}" if types else "")


def numbers_row(numbers: Sequence[int], what: str) -> Row:
    """A count and so many regions."""
    return [len(numbers), *numbers], some(len(numbers), what) + (f": {', '.join(map(str, numbers))}" if numbers else "")


def region_rows(number: int, region: Region) -> Iterator[Row]:
    """The rows of a region."""
    types, said = types_row(region.inputs, "input")
    yield types, f"region {number}: {said}"
    yield [len(region.blocks)], some(len(region.blocks), "block")
    index = 0
    for block in region.blocks:
        yield [len(block)], f"a block with {some(len(block), 'instruction')}"
        for inst in block:
            head = [inst.opcode, inst.type, inst.cost, len(inst.reads)]
            output = f"type {inst.type}" if inst.type else "type 0 (no output)"
            yield head, f"{number}.{index}: opcode {inst.opcode}, {output}, cost {inst.cost}, {some(len(inst.reads), 'read')}"
            yield from (value_row(value, "reads") for value in inst.reads)
            index += 1
    yield [region.limit], f"turn limit {region.limit}"
    yield [region.kind], f"terminator {region.kind}: {TERMINATORS[region.kind]}"
    if region.kind == EXIT:
        yield [region.opcode], f"opcode {region.opcode}"
    yield [len(region.values)], some(len(region.values), "value")
    yield from (value_row(value, "value") for value in region.values)
    yield numbers_row(region.targets, "target")
    for target, values in region.passed.items():
        yield [len(values)], f"passed to region {target}: {some(len(values), 'value')}"
        yield from (value_row(value, "passes") for value in values)
    yield [len(region.exits), *region.exits], f"exit list: {', '.join(map(str, region.exits)) or 'empty'}"


def record_rows(record: Record, used: int) -> Iterator[Row]:
    """The rows of a record, W in front."""
    yield [used], f"W: words 0 to {used - 1} are the record"
    yield [len(record.regions)], some(len(record.regions), "region")
    yield [record.entry], f"the entry is region {record.entry}"
    yield [record.test], f"a test costs {record.test}"
    yield types_row(record.constants, "constant")
    for number, region in enumerate(record.regions):
        yield from region_rows(number, region)


def row(at: int, data: bytes, word: int | None, numbers: Sequence[int], said: str) -> str:
    """A line of the part: bytes, words, meaning."""
    shown = "" if word is None else f"{word}"
    return f"    {at:>3}  {data.hex(' '):<23}  {shown:>3}  {' '.join(map(str, numbers)):<11}  {said}\n"


def store_part(path: Path) -> str:
    """The bytes of a store of one block, each with its word and meaning."""
    store = path.read_bytes()
    found = payload(store)
    used = found[0]
    rows = list(record_rows(read(found), used))
    if len(found) != WORDS or [word for numbers, _ in rows for word in numbers] != found[:used]:
        raise ValueError(f"{path.name}: the rows are not the words of the store, or it has more than one block")
    lines = [f"    byte {'bytes':<23} word  {'numbers':<11}  what they say\n", row(0, store[:2], None, [0], "number of the block")]
    word = 0
    for numbers, said in rows:
        at = 2 + 2 * word
        lines.append(row(at, store[at : at + 2 * len(numbers)], word, numbers, said))
        word += len(numbers)
    end = 2 + 2 * WORDS
    lines.append(f"    {2 + 2 * used:>3}  {'00 ..':<23}  {used:>3}  {'0 ..':<11}  zeros, up to byte {end - 1}, word {WORDS - 1}\n")
    check = int.from_bytes(store[end:], "little")
    lines.append(row(end, store[end:], None, [check], "the check"))
    return "\n" + "".join(lines) + "\n"


def fields(line: Line) -> list[list[int]]:
    """The words of a line, field by field; those of line_words, cut where a field ends."""
    lead, number, of, *rest = line
    if lead == REGION:
        found = [list_words(of, one), list_words(rest[0], one), list_words(rest[1], value_words)]
    elif lead == BLOCK:
        found = [[len(items(of))], *map(item_words, items(of))]
    elif lead == SELECT:
        kind = line_words(*line)[2]
        found = [[kind], value_words(of.value), list_words(of.cases, one), list_words(of.types, one)]
    elif lead == LOOP:
        found = [list_words(of.first, value_words), [of.body], value_words(of.repeat)]
    elif lead == EXIT_LINE:
        found = [[of.opcode], list_words(of.values, value_words)]
    else:
        found = [line_words(*line)[2:]]
    return [[lead], [number], *found]


def result_of(store: bytes) -> Result:
    """The nested form of a store, by the second reading."""
    return nest(Nesting(*accepted(store)))


def sheet_part(path: Path) -> str:
    """The words of a store's sheet, line by line, with the line that is printed."""
    result = result_of(path.read_bytes())
    every = words(result)
    parts = [([[word] for word in every[:4]], text(result).partition("\n")[0])]
    parts += [(fields(line), line_text(*line)) for line in all_lines(result)]
    if [word for cut, _ in parts for field in cut for word in field] != every:
        raise ValueError(f"{path.name}: the fields are not the words of the sheet")
    lines, at = [f"    word  {'words, field by field':<56}  the line as it is printed\n"], 0
    for cut, printed in parts:
        lines.append(f"    {at:>4}  {' | '.join(' '.join(map(str, field)) for field in cut):<56}  {printed}\n")
        at += sum(map(len, cut))
    return "\n" + "".join(lines) + f"    {at:>4}  the first word behind the sheet\n\n"
