"""How many bytes of flash and of memory an object file takes, by its section table (ELF of 32 bits, lowest byte first)."""

import pathlib
import struct
from dataclasses import dataclass

WRITE, ALLOCATED = 1, 2  # flags of a section
UNWINDING = 0x70000001  # the type of a section that only unwinding needs; board.ld leaves it out


@dataclass(frozen=True)
class Sizes:
    """Code with its constants, and data."""

    code: int = 0
    data: int = 0


def sizes(path: pathlib.Path) -> Sizes:
    """The sums over the sections that are loaded."""
    bytes_ = path.read_bytes()
    if bytes_[:6] != b"\x7fELF\1\1":
        raise ValueError(f"{path} is no object file of a Cortex-M")
    (table,) = struct.unpack_from("<I", bytes_, 32)
    size, count = struct.unpack_from("<HH", bytes_, 46)
    code = data = 0
    for place in range(count):
        kind, flags, _, _, length = struct.unpack_from("<5I", bytes_, table + place * size + 4)
        if flags & ALLOCATED and kind != UNWINDING:
            code += 0 if flags & WRITE else length
            data += length if flags & WRITE else 0
    return Sizes(code, data)
