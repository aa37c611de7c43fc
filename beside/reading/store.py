"""Stores: blocks of 512 bytes with a number, 253 payload words and a check."""

import struct
from collections.abc import Sequence

BLOCK, WORDS, MOST = 512, 253, 16


class Refused(Exception):
    """A refusal: its number and its one word."""

    def __init__(self, number: int, word: int = 0) -> None:
        super().__init__(number, word)
        self.number, self.word = number, word

    def __str__(self) -> str:
        return f"refused {self.number} {self.word}"


def check(block: bytes) -> int:
    return sum(byte * (place + 1) for place, byte in enumerate(block[:508]))


def payload(store: bytes) -> list[int]:
    """The payload words of all blocks, or 1, 2 or 3."""
    if not store or len(store) > MOST * BLOCK or len(store) % BLOCK:
        raise Refused(1)
    words: list[int] = []
    for number in range(len(store) // BLOCK):
        block = store[BLOCK * number : BLOCK * (number + 1)]
        if int.from_bytes(block[:2], "little") != number:
            raise Refused(2, number)
        if int.from_bytes(block[508:], "little") != check(block):
            raise Refused(3, number)
        words += struct.unpack("<253H", block[2:508])
    return words


def blocks(words: Sequence[int]) -> bytes:
    """The store whose payload is these words, filled up with zeros."""
    store = b""
    for number in range(max(1, -(-len(words) // WORDS))):
        part = list(words[WORDS * number : WORDS * (number + 1)])
        block = struct.pack("<254H", number, *part, *[0] * (WORDS - len(part)))
        store += block + check(block).to_bytes(4, "little")
    return store


def pack(words: Sequence[int]) -> bytes:
    """The store of a record's words (those after W)."""
    return blocks([len(words) + 1, *words])


def write_back(state: Sequence[int], lent: int) -> bytes:
    """The store of the record in front of a state's words, which so many lent bytes have to hold, or 4 or 10."""
    used = state[0]
    if not 1 <= used <= MOST * WORDS:
        raise Refused(4)
    store = blocks(state[:used])
    if len(store) > lent:
        raise Refused(10)
    return store
