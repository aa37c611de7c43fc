"""librukvetta.a, linked so that Python can call it."""

import ctypes
import pathlib
import random
import re
import shutil
import subprocess
import sys
from collections.abc import Sequence

ROOT = pathlib.Path(__file__).resolve().parents[2]
HEADER = ROOT / "interface" / "rukvetta.h"


class Missing(Exception):
    """Something that is needed is not there; its text is the sentence to print. Status 2 where the command names it."""

    status = 3


class NoLibrary(Missing):
    """A folder that was named has not our library."""

    status = 2


def numbers(header: pathlib.Path) -> list[int]:
    """How many words are lent for a sheet and for the state, where the record ends and where its index does, by a header."""
    try:
        found = dict(re.findall(r"^#define RUKVETTA_(\w+) (\d+)$", header.read_text(encoding="latin-1"), re.MULTILINE))
        return [int(found[name]) for name in ("USUAL_LENT", "WORDS", "RECORD_WORDS", "NESTING_FROM")]
    except OSError as error:
        raise Missing(f"{header}: {error.strerror}") from None
    except KeyError as missing:
        raise Missing(f"{header} has no number RUKVETTA_{missing.args[0]}") from None


try:
    LENT, STATE, *ENDS = numbers(HEADER)
except Missing as missing:
    print(missing, file=sys.stderr)
    sys.exit(3)
INDEX = range(*ENDS)
MARK = 0xA5  # in each lent byte


def linked(folder: pathlib.Path | None, into: pathlib.Path) -> pathlib.Path:
    """The library of a folder, or the one that interface/build makes, linked to a file in `into`."""
    wrong = Missing if folder is None else NoLibrary
    if folder is None:
        folder = ROOT / "target" / "interface"
        if subprocess.run([ROOT / "interface" / "build"], stdout=subprocess.DEVNULL).returncode:
            raise Missing("interface/build could not build the library")
    archive, path = pathlib.Path(folder) / "librukvetta.a", into / "librukvetta.so"
    if not archive.is_file():
        raise wrong(f"{archive} is not there: interface/build makes it")
    beside = archive.with_name("rukvetta.h")
    if beside.is_file() and numbers(beside) != numbers(HEADER):
        raise wrong(f"{beside} has other numbers than interface/rukvetta.h: the library is of another version")
    if not shutil.which("cc"):
        raise Missing("this needs a C compiler (cc) to link the library for Python; Debian: gcc")
    done = subprocess.run(
        ["cc", "-shared", "-o", path, "-Wl,--whole-archive", archive, "-Wl,--no-whole-archive"], capture_output=True, text=True
    )
    if done.returncode:
        raise wrong(f"cc could not link {archive}: {done.stderr.strip()}")
    for routine in ("rukvetta_nest", "rukvetta_write"):
        if not hasattr(ctypes.CDLL(str(path)), routine):
            raise wrong(f"{archive} has no {routine}")
    return path


class Library:
    """rukvetta_nest and rukvetta_write, with memory to lend that has a pattern in it."""

    def __init__(self, path: pathlib.Path) -> None:
        library = ctypes.CDLL(str(path))
        self.write = library.rukvetta_write
        self.write.restype = ctypes.c_uint32
        self.write.argtypes = ctypes.c_void_p, ctypes.c_void_p, ctypes.c_size_t
        self.bytes = (ctypes.c_uint8 * (8192 + 513))()
        self.nest = library.rukvetta_nest
        self.nest.restype = ctypes.c_uint64
        self.nest.argtypes = ctypes.c_char_p, ctypes.c_size_t, ctypes.c_void_p, ctypes.c_void_p, ctypes.c_size_t
        self.state = (ctypes.c_uint16 * STATE)()
        self.out = (ctypes.c_uint32 * (LENT + 1))()
        pattern = random.Random(1)
        self.state_was, self.out_was = pattern.randbytes(2 * STATE), pattern.randbytes(4 * LENT + 4)

    def answer(self, store: bytes, lent: int) -> tuple[int, int]:
        """What is answered where so many words are lent: a number and a word. 0 and n are a sheet of n words."""
        ctypes.memmove(self.state, self.state_was, len(self.state_was))
        ctypes.memmove(self.out, self.out_was, len(self.out_was))
        answer = self.nest(store, len(store), ctypes.addressof(self.state), ctypes.addressof(self.out), lent)
        return answer >> 32, answer & 0xFFFFFFFF

    def sheet(self, n: int) -> list[int]:
        return list(self.out[:n])

    def kept(self, n: int) -> bool:
        """Whether the lent words behind the first n are as lent."""
        return memoryview(self.out).cast("B")[4 * n :] == self.out_was[4 * n :]

    def state_right(self, front: bytes, number: int) -> bool:
        """Whether the record's words stand in front; and, after a refusal 1 to 8, all else as lent, but for the index."""
        state = memoryview(self.state).cast("B")
        if state[: len(front)] != front:
            return False
        if number in range(1, 9):
            first, last = (2 * INDEX.start, 2 * INDEX.stop) if front else (len(front), len(front))
            return state[len(front) : first] == self.state_was[len(front) : first] and state[last:] == self.state_was[last:]
        return True

    def written(self, lent: int) -> tuple[int, bytes]:
        """What is answered where the state's record is written back into so many lent bytes, and these with those behind them."""
        ctypes.memset(self.bytes, MARK, len(self.bytes))
        answer = self.write(ctypes.addressof(self.state), ctypes.addressof(self.bytes), lent)
        return answer, bytes(self.bytes)

    def written_back(self, store: bytes) -> bool:
        """Whether the record in the state is written back as this store, all else as lent, and refused where a byte is missing."""
        state, marks = bytes(self.state), bytes([MARK]) * len(self.bytes)
        size = len(store)
        whole = all(self.written(size + more) == (size, store + marks[size:]) for more in (0, 1, 511, 512))
        return whole and self.written(size - 1) == (10 << 16, marks) and bytes(self.state) == state

    def written_of(self, words: Sequence[int], lent: int) -> tuple[int, bytes]:
        """The same of words that are put in front of the state."""
        self.state[: len(words)] = list(words)
        return self.written(lent)
