"""Makes the list of crates/damage: every single-bit change of a store, as it is and with its check made right again, and
every length of a long store, with the answers. It is bytes, in five parts: a store of one block; the answers to its 4,096
changes; those to bits 16 to 4,063 with a right check; a store of 16 blocks with 512 zeros behind it; the answers to its
lengths 0 to 8,704. An answer is two bytes: a refusal's number and its word; 0 and the sum of its text's bytes, by 256, for
an accepted record. A few answers are wrong on purpose (`WRONG`).

    python3 -m generate.changes > ../crates/damage/stdin
"""

import sys

from reading.store import BLOCK
from .arguments import arguments
from .damage import repaired
from .stores import answer
from .vectors import read_vectors

STORES = "lists/stores.vectors"

# Answers that are wrong on purpose: which of the three lists of answers, at which place, and what is added to its two bytes.
WRONG = (0, 0, 1, 0), (0, 4095, 0, 1), (1, 0, 1, 0), (1, 2024, 0, 1), (1, 4047, 255, 0), (2, 0, 1, 0), (2, 8704, 0, 1)


def brief(store: bytes) -> bytes:
    text = answer(store)
    if text.startswith("refused"):
        number, word = map(int, text.split()[1:])
        return bytes([number, word])
    return bytes([0, sum(text.encode()) % 256])


def flipped(store: bytes, bit: int) -> bytes:
    changed = bytearray(store)
    changed[bit // 8] ^= 1 << bit % 8
    return bytes(changed)


def accepted() -> list[bytes]:
    return [store for store, text in read_vectors(STORES) if not text.startswith("refused")]


def main() -> None:
    """The store of one block with the longest text, and the longest store."""
    stores = accepted()
    one = max((store for store in stores if len(store) == BLOCK), key=lambda store: len(answer(store)))
    long = max(stores, key=len)
    bits = [flipped(one, bit) for bit in range(8 * BLOCK)]
    whole = long + bytes(17 * BLOCK - len(long))
    asked = (bits, [repaired(s) for s in bits[16:4064]], [whole[:n] for n in range(len(whole) + 1)])
    answers = [bytearray(b"".join(map(brief, each))) for each in asked]
    for which, place, number, word in WRONG:
        for i, more in enumerate((number, word)):
            answers[which][2 * place + i] = (answers[which][2 * place + i] + more) % 256
    sys.stdout.buffer.write(one + answers[0] + answers[1] + whole + answers[2])


if __name__ == "__main__":
    arguments(__doc__)
    main()
