"""Random accepted records, and damage to stores and sources. Everything comes from a seeded generator."""

from random import Random

from rukvetta import record as r
from rukvetta.loops import loop_exits
from rukvetta.store import BLOCK, CHECK, check_of, store_of, words_of

EDGES = (0, 1, 2, 3, 4, 5, 6, 8, 9, 31, 32, 33, 64, 65, 255, 256, 4048, 4049, 65535)
Known = tuple[r.Value, int]  # a value that may be used, and its type


def value(rng: Random, record: r.Record, number: int, known: list[Known], wanted: int | None = None) -> r.Value:
    """A value that may be used in a region, of a wanted type if one is wanted."""
    fitting = [value for value, given in known if wanted in (None, given)]
    fitting += [(r.CONSTANT, 0, k) for k, given in enumerate(record.constants) if wanted in (None, given)]
    fitting += [r.TRUE, r.FALSE] if wanted in (None, 1) else []
    if fitting and rng.random() < 0.9:
        return rng.choice(fitting)
    return r.UNDEFINED, 0, wanted or rng.choice((1, 2, 255))


def blocks(rng: Random, record: r.Record, number: int, known: list[Known]) -> list[list[r.Instruction]]:
    """The blocks of a region; what they give is known behind them."""
    made, place = [], 0
    for _ in range(rng.choice((0, 1, 1, 2, 8)) if rng.random() < 0.9 else 0):
        block = []
        for _ in range(rng.randint(1, rng.choice((2, 8)))):
            reads = [value(rng, record, number, known) for _ in range(rng.randint(0, 3))]
            given = rng.choice((0, 1, 2, 255))
            block.append(r.Instruction(rng.choice((0, 7, 65535)), given, rng.randint(0, 99), reads))
            if given:
                known.append(((r.INSTRUCTION, number, place), given))
            place += 1
        made.append(block)
    return made


def region(rng: Random, record: r.Record, number: int, inputs: list[list[int]], returned: list[int]) -> r.Region:
    """A region of a record whose regions' inputs are known."""
    known = [((r.INPUT, number, k), given) for k, given in enumerate(inputs[number])]
    made = r.Region(
        inputs[number], blocks(rng, record, number, known), rng.choice((1, 10, 65535)), rng.choices(range(6), (1, 2, 1, 4, 5, 3))[0]
    )
    if made.kind == r.RETURN:
        made.values = [value(rng, record, number, known, wanted) for wanted in returned]
    elif made.kind == r.EXIT:
        made.opcode = rng.randint(0, 65535)
        made.values = [value(rng, record, number, known) for _ in range(rng.randint(0, 4))]
    elif made.kind in (r.SELECT_BOOL, r.SELECT_NUM):
        made.values = [value(rng, record, number, known, 1 if made.kind == r.SELECT_BOOL else None)]
    made.targets = [rng.randrange(len(inputs)) for _ in range(rng.randint(*r.TARGETS[made.kind]))]
    for target in dict.fromkeys(made.targets):
        made.passed[target] = [value(rng, record, number, known, wanted) for wanted in inputs[target]]
    return made


def random_record(rng: Random) -> r.Record:
    count = rng.choice((1, 2, 3, 4, 5, 6, 8, 12, 20, 32))
    inputs = [[rng.choice((1, 2, 2, 255)) for _ in range(rng.randint(0, 4))] for _ in range(count)]
    record = r.Record(
        rng.randrange(count), rng.choice((0, 2, 65535)), [rng.choice((1, 2, 255)) for _ in range(rng.choice((0, 1, 2, 64)))], []
    )
    returned = [rng.choice((1, 2)) for _ in range(rng.randint(0, 4))]
    record.regions = [region(rng, record, number, inputs, returned) for number in range(count)]
    found = loop_exits(record)
    for number, made in enumerate(record.regions):
        made.exits = found.get(number, []) if rng.random() < 0.8 else rng.sample(range(count), rng.randint(0, min(3, count)))
    return record


def random_store(rng: Random) -> bytes:
    """The store of a random record that fits."""
    while True:
        words = r.record_words(random_record(rng))
        if len(words) <= 4048:
            return store_of(words)


def damaged_store(rng: Random, store: bytes) -> bytes:
    """A store with another length, byte or word; words mostly with the checks put right, so that they are reached."""
    store, choice = bytearray(store), rng.random()
    if choice < 0.1:
        return bytes(store[: rng.randrange(len(store))] if rng.random() < 0.5 else store + bytes(rng.choice((1, 512, 8192))))
    if choice < 0.25:
        store[rng.randrange(len(store))] ^= 1 << rng.randrange(8)
        return bytes(store)
    words = words_of(bytes(store))
    for _ in range(rng.choice((1, 1, 2, 3))):
        at = rng.randrange(min(max(words[0], 1), len(words)))
        words[at] = rng.choice((rng.choice(EDGES), (words[at] + 1) & 65535, rng.randrange(65536)))
    blocks = bytearray(store_of(words))
    if rng.random() < 0.1:
        blocks[rng.randrange(len(blocks) // BLOCK) * BLOCK] ^= 1
        for at in range(0, len(blocks), BLOCK):
            blocks[at + CHECK : at + BLOCK] = check_of(blocks[at : at + BLOCK]).to_bytes(4, "little")
    return bytes(blocks)


def damaged_source(rng: Random, source: bytes) -> bytes:
    """A source with bytes or words changed, left out, doubled or put in."""
    words = source.split(b" ")
    choice, at = rng.randrange(7), rng.randrange(max(len(source), 1))
    if choice == 0:
        return source[:at]
    if choice == 1:
        return source[:at] + bytes([rng.randrange(256)]) + source[at + 1 :]
    if choice == 2:
        return source[:at] + source[at + rng.randint(1, 20) :]
    if choice == 3:
        words[rng.randrange(len(words))] = rng.choice(words)
        return b" ".join(words)
    if choice == 4:
        put = rng.choice((b"-", b",", b"65536", b"99999999999999999999", b"n1.0", b"auto", b"\xff", b"\0", b"((", b"i0.9", b"block"))
        words.insert(rng.randrange(len(words)), put)
        return b" ".join(words)
    lines = source.split(b"\n")
    if choice == 5:
        lines.insert(rng.randrange(len(lines)), rng.choice(lines))
    else:
        del lines[rng.randrange(len(lines))]
    return b"\n".join(lines)
