"""The names of a source: types, opcodes, regions, constants and the values of each region."""

from __future__ import annotations

import re
from collections.abc import Iterator
from dataclasses import dataclass
from typing import Any

from . import record as r
from .faults import Fault, Lost, near

NUMBERED = re.compile(r"c(?P<constant>[0-9]+)|(?P<letter>[idn])(?P<region>[0-9]+)\.(?P<index>[0-9]+)|undef(?P<type>[0-9]+)|true|false")
LETTERS = {"i": r.INPUT, "d": r.INSTRUCTION}


@dataclass(frozen=True)
class Opcode:
    """An opcode's number, and the type and cost of instructions that say none; None where the definition says none either."""

    number: int
    type: int = 0
    cost: int | None = None


def decimal(digits: str) -> int:
    """A number in base ten; of one with very many digits, a part that is too great as well."""
    return int((digits.lstrip("0") or "0")[:9])


def number(token: Any, allowed: tuple[int, int] = r.WORD, what: str = "number") -> int:
    """A number of the source, within what is allowed."""
    value = int(token, 16) if token.startswith("0x") else decimal(token)
    least, most = allowed
    if not least <= value <= most:
        raise Fault.at(token, f"found {what} {token}, expected {least} to {most}")
    return value


def numbered_value(token: Any) -> r.Value | None:
    """A value written with numbers, as `show` prints it; None for any other word."""
    match = NUMBERED.fullmatch(token)
    if not match:
        return None
    words = {key: decimal(digits) for key, digits in match.groupdict().items() if digits and key != "letter"}
    if any(word > 65535 for word in words.values()) or not 1 <= words.get("type", 1) <= 255:
        raise Fault.at(token, f"found `{token}`, expected numbers up to 65535 and a type from 1 to 255")
    if match["letter"] == "n":
        raise Fault.at(token, f"found `{token}`, the output of a node, expected a value: nodes arise only in nesting")
    if match["letter"]:
        return LETTERS[match["letter"]], words["region"], words["index"]
    if match["constant"]:
        return r.CONSTANT, 0, words["constant"]
    if match["type"]:
        return r.UNDEFINED, 0, words["type"]
    return r.TRUE if token == "true" else r.FALSE


class Names:
    """What a source's names mean. `lost` are words that stood in lines which do not parse, and may have been names; `lost_region` says
    that such a line began a region, and its name is not known."""

    def __init__(self, lost: set[str] | None = None, lost_region: bool = False) -> None:
        self.types: dict[str, int] = {}
        self.regions: dict[str, int] = {}
        self.constants: dict[str, r.Value] = {}
        self.opcodes: dict[str, Opcode] = {}
        self.values: dict[r.Value, str] = {}  # for pictures: what each value is called
        self.default_cost: int | None = None
        self.lost, self.lost_region = lost or set(), lost_region

    @staticmethod
    def define(table: dict[str, Any], token: Any, meaning: Any) -> None:
        if NUMBERED.fullmatch(token):
            raise Fault.at(token, f"found `{token}`, which is a value, expected a name")
        if "." in token:
            raise Fault.at(token, f"found `{token}`, expected a name without a dot")
        if token.value in table:
            raise Fault.at(token, f"found the name `{token}` a second time, expected another name")
        table[token.value] = meaning

    def unknown(self, token: Any, message: str, lost: bool = False) -> Fault:
        """The fault of a name that means nothing."""
        return (Lost if lost or token.value in self.lost else Fault).at(token, message)

    def find(self, table: dict[str, Any], token: Any, what: str) -> Any:
        if token.value not in table:
            raise self.unknown(
                token,
                f"found `{token}`, expected the name or the number of {what}{near(token, table)}",
                table is self.regions and self.lost_region,
            )
        return table[token.value]

    def type(self, tree: Any) -> int:
        if tree.data == "boolean_type":
            return 1
        token = tree.children[0]
        return number(token, r.TYPE, "type") if token.type == "NUMBER" else self.find(self.types, token, "a type")

    def opcode(self, tree: Any) -> Opcode:
        """An opcode's number, and the type and cost that its definition gives."""
        token = tree.children[0]
        if token.type == "NUMBER":
            return Opcode(number(token, r.WORD, "opcode"))
        return self.find(self.opcodes, token, "an opcode")

    def region(self, tree: Any) -> int:
        token = tree.children[0]
        return number(token, r.WORD, "region") if token.type == "NUMBER" else self.find(self.regions, token, "a region")

    def region_name(self, place: int) -> str:
        """A region's name, or its number."""
        return next((name for name, number in self.regions.items() if number == place), str(place))

    def name_value(self, table: dict[str, Any], token: Any, value: r.Value) -> None:
        self.define(table, token, value)
        self.values[value] = token.value

    def value(self, tree: Any, own: dict[str, r.Value], where: str) -> r.Value:
        """A value: of the region's own, a constant, or one with numbers."""
        if tree.data == "undefined":
            return r.UNDEFINED, 0, self.type(tree.children[0])
        token = tree.children[0]
        for table in own, self.constants:
            if token.value in table:
                return table[token.value]
        value = numbered_value(token)
        if value is None:
            raise self.unknown(
                token, f"found `{token}`, expected a value of region {where} or a constant" f"{near(token, [*own, *self.constants])}"
            )
        return value

    def lines(self) -> Iterator[str]:
        """The names as text, a line each, for the page: what, number, name."""
        called = {opcode.number: name for name, opcode in reversed(self.opcodes.items())}
        yield from (f"region {number} {name}" for name, number in self.regions.items())
        yield from (f"type {number} {name}" for name, number in self.types.items())
        yield from (f"opcode {number} {name}" for number, name in called.items())
        yield from (f"value {r.value_text(value)} {name}" for value, name in self.values.items())
