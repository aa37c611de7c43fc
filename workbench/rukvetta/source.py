"""From a source to its record: names become numbers, and lists are held against document 01's ranges."""

from __future__ import annotations

from typing import Any

from . import record as r
from .faults import Fault, Gathered
from .limits import headers
from .loops import loop_exits
from .names import Names, Opcode, number
from .recovery import Draft, parse_on
from .regions import RegionReader, within
from .syntax import decoded, trees

MOST_BYTES = 262144  # of a source; what `show` prints of a full store has some 40,000


class SourceReader:
    """Reads one tree. Every fault is gathered, and reading goes on behind it."""

    def __init__(self, tree: Any, draft: Draft, gathered: Gathered) -> None:
        self.tree, self.draft, self.gathered = tree, draft, gathered
        self.names = Names(draft.lost, draft.lost_region)
        self.wanted: list[tuple[int, int]] = []  # regions whose exits are to be found, with their lines
        self.unlimited: dict[int, Any] = {}  # regions without a limit, with the place of the name

    def define(self) -> None:
        """Types, then opcodes, which name types, then the default cost, then regions."""
        for part in trees(self.tree, "type_definition"):
            with self.gathered.told():
                name, given = part.children
                self.names.define(self.names.types, name, 1)
                self.names.types[name.value] = number(given, r.TYPE, "type")
        for part in trees(self.tree, "opcode_definition"):
            self.define_opcode(*part.children)
        for part in trees(self.tree, "default_cost"):
            with self.gathered.told():
                if self.names.default_cost is not None:
                    raise Fault.at(part.meta, "found `default cost` a second time, expected it once")
                self.names.default_cost = number(part.children[0], r.WORD, "cost")
        for place, part in enumerate(trees(self.tree, "region")):
            self.define_region(place, part.children[0].children[0])

    def define_opcode(self, name: Any, code: Any, given: Any, cost: Any) -> None:
        made = Opcode(0, 1 if given else 0, 0)
        with self.gathered.told():
            made = Opcode(
                number(code, r.WORD, "opcode"), self.names.type(given) if given else 0, number(cost, r.WORD, "cost") if cost else None
            )
        with self.gathered.told():
            self.names.define(self.names.opcodes, name, made)

    def define_region(self, place: int, token: Any) -> None:
        with self.gathered.told():
            if place == r.REGIONS[1]:
                raise Fault.at(token, f"found one region more than {place}, expected at most {place}")
            if token.type == "WORD":
                self.names.define(self.names.regions, token, place)
            elif number(token) != place and not self.draft.patched:
                raise Fault.at(token, f"found region {token}, expected {place}, its place in the source, or a name")

    def constants(self, header: Any) -> list[int]:
        """The types of all constants: the header's, then the others in their order."""
        types: list[int] = []
        for part in trees(header.children[3]) + trees(self.tree, "constant_definition"):
            name, of = part.children
            with self.gathered.told():
                if name:
                    self.names.name_value(self.names.constants, name, (r.CONSTANT, 0, len(types)))
            types.append(1)
            with self.gathered.told():
                types[-1] = self.names.type(of)
        with self.gathered.told():
            within(types, r.CONSTANTS, header.meta, "constants")
        return types

    def header(self, regions: list[Any]) -> r.Record:
        header = trees(self.tree, "header")[0]
        count, entry, test, _, auto = header.children
        record = r.Record(0, 0, [], [])
        with self.gathered.told():
            if count and number(count) != len(regions) and not self.draft.patched:
                raise Fault.at(count, f"found regions {count}, expected {len(regions)}: as many as there are")
        with self.gathered.told():
            record.entry = self.names.region(entry) if entry else 0
        with self.gathered.told():
            record.test = number(test, r.WORD, "test cost") if test else 0
        record.constants = self.constants(header)
        return record

    def read(self) -> r.Record:
        """The record, as far as the tree has one."""
        self.define()
        regions = trees(self.tree, "region")
        record = self.header(regions)
        auto = trees(self.tree, "header")[0].children[4]
        for place, part in enumerate(regions):
            reader = RegionReader(self.names, place, part, self.gathered, self.draft)
            record.regions.append(reader.region())
            if reader.wants_exits or (reader.wants_exits is None and auto):
                self.wanted.append((place, part.meta.line))
            if not reader.has_limit and part.meta.line not in self.draft.patched:
                self.unlimited[place] = part.children[0].children[0]
        for region in record.regions:  # by first standing; a target that is passed nothing gets no values
            region.passed = {target: region.passed.get(target, []) for target in region.targets}
        return record

    def loops(self, record: r.Record) -> None:
        """Fill in the exit lists that are to be found; a region that heads a loop must have a limit."""
        if len(record.regions) > r.REGIONS[1]:
            return
        with self.gathered.told():
            find_exits(record, self.wanted)
        for place, origin in headers(record).items():
            if place in self.unlimited:
                token = self.unlimited[place]
                why = (
                    "which its exit list marks as the head of a loop"
                    if origin is None
                    else f"to which region {self.names.region_name(origin)} leads back"
                )
                self.gathered.found.append(
                    Fault.at(
                        token,
                        f"found region {token} without a limit, {why}, expected `limit N`: "
                        "how many turns the loop takes at most, 1 to 65535",
                    )
                )


def find_exits(record: r.Record, wanted: list[tuple[int, int]]) -> None:
    """Fill in the lists of the regions that want them found."""
    if not wanted:
        return
    for target in [record.entry, *(target for region in record.regions for target in region.targets)]:
        if target >= len(record.regions):
            raise Fault(
                wanted[0][1],
                1,
                f"found a way to region {target}, which is not there; expected regions of the record, "
                "or `exits auto` cannot look for loops",
            )
    found = loop_exits(record)
    for place, _ in wanted:
        record.regions[place].exits = found.get(place, [])


def read_source(data: bytes) -> tuple[r.Record, Names]:
    """The record of a source's bytes, and its names; or all its Faults."""
    if len(data) > MOST_BYTES:
        raise Fault(1, 1, f"found a source of more than {MOST_BYTES:,} bytes, expected a shorter one")
    gathered = Gathered()
    tree, draft = parse_on(*decoded(data), gathered)
    if tree is None:
        gathered.tell()
    reader = SourceReader(tree, draft, gathered)
    record = reader.read()
    reader.loops(record)
    gathered.tell()
    return record, reader.names
