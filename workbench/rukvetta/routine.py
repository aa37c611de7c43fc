"""A routine from a file: a store, or a source that is assembled first."""

from __future__ import annotations

import os
from dataclasses import dataclass

from .assemble import assemble
from .faults import Fault, escaped
from .names import Names
from .record import Record
from .streams import read_file

SOURCE, STORE = ".routine", ".store"


@dataclass
class Routine:
    name: str
    store: bytes
    names: Names | None = None  # of a source
    record: Record | None = None  # of a source: it knows the lines


class BadSource(Exception):
    """A source that does not assemble; its text is for people."""

    def __init__(self, fault: Fault, source: str, path: str) -> None:
        super().__init__(fault.text(source, path))
        self.fault = fault


def is_source(path: str, data: bytes) -> bool:
    """By the file's ending; a file with another ending is a source if it has no zero byte."""
    ending = os.path.splitext(path)[1]
    return ending == SOURCE or (ending != STORE and bool(data) and 0 not in data)


def name_of(path: str) -> str:
    """A file's name without its ending, as text that can be printed."""
    return escaped(os.path.splitext(os.path.basename(path))[0]) if path != "-" else "routine"


def routine_of(path: str, data: bytes) -> Routine:
    """The routine of a file's bytes."""
    if not is_source(path, data):
        return Routine(name_of(path), data)
    try:
        store, record, names = assemble(data)
        return Routine(name_of(path), store, names, record)
    except Fault as fault:
        raise BadSource(fault, text_of(data), path) from None


def text_of(data: bytes) -> str:
    """A source's text, for its lines in messages."""
    return data.decode("utf-8-sig", "replace")


def load(path: str) -> Routine:
    """The routine of a file."""
    return routine_of(path, read_file(path))
