"""Damage to stores. Word damage is repaired at the checks, so that deep refusals are reached."""

from random import Random

from reading.record import CONST, INPUT, INSTR, RETURN, UNDEF, Record, words_of
from reading.store import BLOCK, WORDS, blocks, check, pack, payload

EDGES = (0, 1, 2, 3, 4, 5, 6, 7, 8, 9, 31, 32, 33, 63, 64, 65, 255, 256, 4047, 4048, 4049, 32768, 65534, 65535)


def repaired(store: bytes) -> bytes:
    """The same blocks with right checks."""
    return b"".join(store[at : at + 508] + check(store[at : at + BLOCK]).to_bytes(4, "little") for at in range(0, len(store), BLOCK))


def length(rng: Random, store: bytes) -> bytes:
    if rng.random() < 0.5:
        return store[: rng.randrange(len(store))]
    return store + bytes(rng.choice((1, 2, 10, 508, 511)))


def byte(rng: Random, store: bytes) -> bytes:
    at = rng.randrange(len(store))
    return store[:at] + bytes([store[at] ^ 1 << rng.randrange(8)]) + store[at + 1 :]


def number(rng: Random, store: bytes) -> bytes:
    at = rng.randrange(len(store) // BLOCK) * BLOCK + rng.randrange(2)
    bad = store[:at] + bytes([store[at] ^ rng.randint(1, 255)]) + store[at + 1 :]
    return repaired(bad) if rng.random() < 0.5 else bad


def checked(rng: Random, store: bytes) -> bytes:
    at = rng.randrange(len(store) // BLOCK) * BLOCK + 508 + rng.randrange(4)
    return store[:at] + bytes([store[at] ^ rng.randint(1, 255)]) + store[at + 1 :]


def swapped(rng: Random, store: bytes) -> bytes:
    """Two payload bytes or two blocks exchanged."""
    if len(store) > BLOCK and rng.random() < 0.5:
        one, two = sorted(rng.sample(range(len(store) // BLOCK), 2))
        cut = [store[at : at + BLOCK] for at in range(0, len(store), BLOCK)]
        cut[one], cut[two] = cut[two], cut[one]
        return b"".join(cut)
    at = rng.randrange(2, 507)
    return store[:at] + store[at + 1 : at + 2] + store[at : at + 1] + store[at + 2 :]


def used(rng: Random, store: bytes) -> bytes:
    """Another W."""
    words = payload(store)
    words[0] = rng.choice((0, 1, words[0] - 1, words[0] + 1, WORDS, WORDS + 1, words[0] + WORDS, 65535, rng.randrange(4100)))
    return blocks(words)


def after(rng: Random, store: bytes) -> bytes:
    """A word after W that is not zero, if there is one."""
    words = payload(store)
    if words[0] < len(words):
        words[rng.choice((words[0], len(words) - 1, rng.randrange(words[0], len(words))))] = rng.randint(1, 65535)
    return blocks(words)


def count(rng: Random, store: bytes) -> bytes:
    """A block too many or too few."""
    words = payload(store)
    return blocks(words + [0] * WORDS if rng.random() < 0.5 or len(words) == WORDS else words[:-WORDS])


def word(rng: Random, store: bytes) -> bytes:
    """One to three words of the record changed, often to the edge of a range."""
    words = payload(store)
    for _ in range(rng.choice((1, 1, 1, 2, 3))):
        at = rng.randrange(1, words[0]) if words[0] > 1 else 0
        words[at] = rng.choice((rng.choice(EDGES), words[at] + 1 & 65535, words[at] - 1 & 65535, rng.randrange(65536)))
    return blocks(words)


def moved(rng: Random, store: bytes) -> bytes:
    """Words left out or put in, with W put right or not."""
    words = payload(store)
    record = words[1 : words[0]]
    at, size = rng.randint(0, len(record)), rng.randint(1, 3)
    if rng.random() < 0.5:
        del record[at : at + size]
    else:
        record[at:at] = [rng.choice(EDGES[:9]) for _ in range(size)]
    return pack(record[:4047])


def meaning(rng: Random, record: Record) -> bytes:
    """A record changed in one place, so that it most often means nothing allowed."""
    count = len(record.regions)
    region = rng.choice(record.regions)
    here = record.regions.index(region)
    choice = rng.randrange(9)

    def value():
        return rng.choice(
            (
                (CONST, 0, rng.choice((len(record.constants), 0, 64))),
                (CONST, 1, 0),
                (INPUT, here, len(region.inputs)),
                (INPUT, (here + 1) % count, 0),
                (INPUT, 33, 0),
                (INSTR, here, len(region.insts)),
                (INSTR, (here + 1) % count, 0),
                (INSTR, here, max(0, len(region.insts) - 1)),
                (4, 0, 2),
                (4, here + 1, 0),
                (UNDEF, 0, rng.choice((1, 2, 3, 255, 256, 0))),
                (UNDEF, 1, 1),
                (3, 0, 0),
                (6, 0, 0),
                (65535, 0, 0),
            )
        )

    if choice == 0:
        record.entry = rng.choice((count, count + 1, 65535))
    elif choice == 1 and region.insts:
        inst = rng.choice(region.insts)
        inst.reads = [*inst.reads[: rng.randint(0, 2)], value()]
    elif choice == 2 and region.values:
        region.values = [*region.values[:-1], value()]
    elif choice == 3 and region.kind == RETURN:
        region.values = [*region.values[:3], (UNDEF, 0, 1)] if rng.random() < 0.5 else region.values[:-1]
    elif choice == 4 and region.targets:
        old = rng.choice(region.targets)
        new = rng.choice((count, 31, 32, 65535))
        region.targets = [new if t == old else t for t in region.targets]
        region.passed = {new if t == old else t: v for t, v in region.passed.items()}
    elif choice == 5 and region.passed:
        target = rng.choice(list(region.passed))
        region.passed[target] = rng.choice((region.passed[target] + [(UNDEF, 0, 2)], region.passed[target][:-1]))
    elif choice == 6 and any(region.passed.values()):
        target = rng.choice([t for t, v in region.passed.items() if v])
        values = list(region.passed[target])
        values[rng.randrange(len(values))] = value()
        region.passed[target] = values
    elif choice == 7:
        region.exits = [*region.exits, rng.choice((count, 32, 65535, rng.randrange(count)))]
    elif choice == 8:
        one = rng.randrange(count)
        region.exits = [one, *region.exits, one]
    return pack(words_of(record)[:4047])


BYTES = length, byte, number, checked, swapped
REPAIRED = used, after, count, word, word, word, word, moved
