"""A store's bytes and its payload words (document 01, "store and record")."""

from __future__ import annotations

BLOCK, PAYLOAD, CHECK = 512, 2, 508  # a block's length, and where its payload and its check begin
WORDS = (CHECK - PAYLOAD) // 2  # payload words of a block
BLOCKS = 16
MOST_WORDS = WORDS * BLOCKS


def check_of(block: bytes) -> int:
    """The sum over the bytes before the check of byte times (place + 1)."""
    return sum(byte * place for place, byte in enumerate(block[:CHECK], 1))


def blocks_of(store: bytes) -> list[bytes]:
    return [store[at : at + BLOCK] for at in range(0, len(store), BLOCK)]


def words_of(store: bytes) -> list[int]:
    """The payload words of all blocks, joined."""
    return [block[at] | block[at + 1] << 8 for block in blocks_of(store) for at in range(PAYLOAD, CHECK, 2)]


def store_of(words: list[int]) -> bytes:
    """The store that holds these payload words, W the first of them, in as many blocks as they need."""
    blocks = []
    for number in range(-(-len(words) // WORDS)):
        here = words[number * WORDS : (number + 1) * WORDS]
        payload = b"".join(word.to_bytes(2, "little") for word in here)
        block = number.to_bytes(2, "little") + payload.ljust(CHECK - PAYLOAD, b"\0")
        blocks.append(block + check_of(block).to_bytes(4, "little"))
    return b"".join(blocks)
