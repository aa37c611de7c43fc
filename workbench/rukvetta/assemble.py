"""assemble < SOURCE > STORE"""

from __future__ import annotations

import sys

from .faults import Fault
from .names import Names
from .needs import REFUSED, Parser
from .record import Record, record_words
from .source import read_source
from .store import MOST_WORDS, store_of
from .streams import read_input, write_output

DESCRIPTION = "Reads the source of a routine from standard input and writes its store to standard output."


def assemble(data: bytes) -> tuple[bytes, Record, Names]:
    """The store of a source's bytes, its record and its names."""
    record, names = read_source(data)
    words = record_words(record)
    if len(words) > MOST_WORDS:
        raise Fault(1, 1, f"found a record of {len(words)} words, expected at most {MOST_WORDS}, which fill a store")
    return store_of(words), record, names


def main() -> int:
    Parser(prog="assemble", usage="assemble < SOURCE > STORE", description=DESCRIPTION).parse_args()
    data = read_input()
    try:
        store, _, _ = assemble(data)
    except Fault as fault:
        print(fault.text(data.decode("utf-8-sig", "replace")), file=sys.stderr)
        return REFUSED
    write_output(store)
    return 0
