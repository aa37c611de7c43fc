"""Makes lists/stores.vectors: stores, more than half of them damaged, with `show` or refusal, and behind them a few with
answers that are wrong on purpose (`WRONG`).

    python3 -m generate.stores > lists/stores.vectors
"""

import collections
import random
import sys
from collections.abc import Callable, Iterator, Sequence
from typing import Any

from reading.record import BRANCH, EXIT, IF, RETURN, SWITCH, UNDEF, UNREACHABLE, Inst, Record, Region, read, refer, show, words_of
from reading.store import Refused, blocks, pack, payload
from . import damage
from .arguments import arguments
from .records import record
from .vectors import vector

SEED = 5


def answer(store: bytes) -> str:
    try:
        found = read(payload(store))
        refer(found)
        return show(found)
    except Refused as refused:
        return f"{refused}\n"


def plain(**changed: Any) -> Region:
    """A region that returns nothing, but for what is changed."""
    given: dict[str, Any] = dict(inputs=[], blocks=[], limit=1, kind=RETURN)
    return Region(**{**given, **changed})


def only(*regions: Region, entry: int = 0, test: int = 0, constants: Sequence[int] = ()) -> bytes:
    return pack(words_of(Record(entry, test, constants, list(regions))))


def filled(rng: random.Random, used: int) -> bytes:
    """An accepted record of exactly so many words (W), by instructions put in."""
    while True:
        made = record(rng, rng.choice((2, 6, 32)))
        missing = used - 1 - len(words_of(made))
        for _ in range(1000):
            region, reads = rng.choice(made.regions), rng.randint(0, 3)
            last = region.blocks[-1] if region.blocks else []
            new = not 0 < len(last) < 8 or len(region.blocks) < 8 and rng.random() < 0.2
            size = 4 + 3 * reads + new
            if new and len(region.blocks) == 8 or size > missing or 0 < missing - size < 4:
                continue
            inst = Inst(rng.randint(0, 20), rng.randint(0, 2), rng.randint(0, 9), [(UNDEF, 0, 2)] * reads)
            if new:
                region.blocks.append([inst])
            else:
                last.append(inst)
            region.insts.append(inst)
            missing -= size
        if missing == 0:
            return pack(words_of(made))


def edges() -> Iterator[bytes]:
    """Stores at the edges of every range."""

    def one(**changed):
        return only(plain(**changed))

    def to(count, kind=SWITCH, **changed):
        return plain(kind=kind, values=[(4, 0, 1)], targets=[0] * count, passed={0: []}, **changed)

    inst = Inst(1, 0, 1, [])
    for n in (0, 1, 8, 9):
        yield one(blocks=[[inst]] * n)
        yield one(blocks=[[inst] * n])
        yield only(to(n))
    for n in (0, 3, 4, 5):
        yield one(inputs=[2] * n)
        yield one(values=[(UNDEF, 0, 9)] * n)
        yield one(kind=EXIT, values=[(UNDEF, 0, 9)] * n)
        yield one(blocks=[[Inst(1, 2, 1, [(4, 0, 0)] * n)]])
        yield only(plain(kind=BRANCH, targets=[1], passed={1: [(4, 0, 0)] * n}), plain(inputs=[1] * min(n, 4)))
    for n in (0, 1, 2, 3):
        yield only(to(n, IF))
        yield one(kind=UNREACHABLE, values=[(4, 0, 0)] * n)
        for kind, targets in ((BRANCH, [0]), (IF, [0, 0]), (SWITCH, [0, 0])):
            yield one(kind=kind, values=[(4, 0, 0)] * n, targets=targets, passed={0: []})
        for kind in (UNREACHABLE, RETURN, EXIT, BRANCH):
            yield one(kind=kind, targets=[0] * n, passed={0: []} if n else {})
    for n in (0, 1, 255, 256, 65535):
        yield one(inputs=[n])
        yield only(plain(), constants=[n])
        yield one(blocks=[[Inst(n, n, n, [])]])
        yield one(values=[(UNDEF, 0, n)])
        yield one(limit=n)
        yield only(plain(), entry=n)
        yield only(plain(), test=n)
    for n in (0, 1, 2, 3, 4, 5, 6, 7, 255, 256, 65535):
        yield one(kind=n)
        yield one(values=[(n, 0, 0)])
        yield one(values=[(n, 0, 1)])
        yield one(values=[(n, 1, 0)])
        yield one(inputs=[2], values=[(n, 0, 0)])
        yield only(plain(values=[(n, 0, 1)]), constants=[2, 3])
        yield one(blocks=[[Inst(1, 2, 3, []), Inst(1, 0, 3, [])]], values=[(n, 0, 0)])
        yield one(blocks=[[Inst(1, 2, 3, []), Inst(1, 0, 3, [])]], values=[(n, 0, 1)])
        yield one(blocks=[[Inst(1, 2, 3, [(n, 0, 0)]), Inst(1, 0, 3, [])]])
        yield one(blocks=[[Inst(1, 2, 3, []), Inst(1, 0, 3, [(n, 0, 0)])]])
    for n in (63, 64, 65):
        yield only(plain(), constants=[3] * n)
    for n in (31, 32, 33):
        yield only(*[plain() for _ in range(n)])
        yield only(*[plain() for _ in range(n)], entry=n - 1)
        yield only(*[plain(exits=list(range(n))) if r == 30 else plain() for r in range(32)])
        yield only(*[plain(exits=[n, n]) if r == 7 else plain() for r in range(32)])
    yield only(plain(exits=[0, 0]))
    yield only(plain(exits=[1, 1]))
    yield only(plain(values=[(UNDEF, 0, 1)]), plain(), plain(values=[(UNDEF, 0, 2)]))
    yield only(plain(values=[(UNDEF, 0, 1)]), plain(values=[(UNDEF, 0, 1)]), plain(values=[(UNDEF, 0, 2)]))
    yield only(plain(kind=IF, values=[(0, 0, 0)], targets=[1, 1], passed={1: []}), plain(), constants=[2])
    yield only(plain(kind=IF, values=[(UNDEF, 0, 1)], targets=[1, 1], passed={1: []}), plain())
    for words in ([], [0], [1], [1, 0], [1, 0, 0], [1, 0, 0, 0], [33], [32, 0, 0, 65], [1, 0, 0, 1], [1, 0, 0, 1, 0]):
        yield pack(words)
    yield blocks([0])
    yield blocks([1, 5])
    yield blocks([0] * 254)
    yield blocks([65535])


def many_small(rng: random.Random) -> Record:
    """Up to 32 regions in one block, so that late regions can be wrong."""
    count = rng.randint(8, 30)
    regions = []
    for number in range(count):
        kind = rng.choice((UNREACHABLE, RETURN, BRANCH))
        targets = [rng.randrange(count)] if kind == BRANCH else []
        regions.append(plain(kind=kind, targets=targets, passed={t: [] for t in targets}))
    return Record(rng.randrange(count), rng.randrange(9), [], regions)


def stores() -> Iterator[bytes]:
    rng = random.Random(SEED)
    for size in (0, 1, 2, 508, 511, 513, 1023, 1025, 8191, 8193, 8704, 9000):
        yield bytes(size)
    yield bytes(512)
    yield bytes(1024)
    yield from edges()
    for used in (253, 254, 506, 507, 759, 760):
        store = filled(rng, used)
        yield store
        for harm in (damage.byte, damage.number, damage.checked, damage.used, damage.after):
            yield harm(rng, store)
        if used in (253, 506):
            yield damage.count(rng, store)
    full = filled(rng, 4048)
    yield full
    for harm, block in ((damage.number, 15), (damage.number, 9), (damage.checked, 15), (damage.checked, 12)):
        yield full[: 512 * block] + harm(rng, full[512 * block : 512 * block + 512]) + full[512 * block + 512 :]
    yield full[:-512]
    yield full + bytes(512)
    yield damage.after(rng, filled(rng, 4047))

    def good(most=1):
        while True:
            made = many_small(rng) if rng.random() < 0.15 else record(rng, 20)
            if len(words_of(made)) + 1 <= 253 * most:
                return made

    for _ in range(720):
        yield pack(words_of(good()))
    for most, times in ((2, 12), (3, 10), (5, 6)):
        for _ in range(times):
            store = pack(words_of(good(most)))
            yield store
            yield rng.choice(damage.BYTES + damage.REPAIRED)(rng, store)
    for harm in damage.BYTES:
        for _ in range(12):
            yield harm(rng, pack(words_of(good())))
    for _ in range(420):
        store = rng.choice(damage.REPAIRED)(rng, pack(words_of(good())))
        if len(store) <= 1024:
            yield store
    seen: collections.Counter[str] = collections.Counter()
    while sum(seen.values()) < 480:  # at most nine of each answer
        store = damage.meaning(rng, good())
        line = answer(store)
        if len(store) <= 1024 and line.startswith("refused") and seen[line] < 9:
            seen[line] += 1
            yield store


def refusal(number: int, word: int) -> Callable[[str], str]:
    """The number and the word of a refusal, each so much higher."""

    def changed(text):
        refused, n, w = text.split()
        return f"{refused} {int(n) + number} {int(w) + word}\n"

    return changed


def next_digit(text: str) -> str:
    """The last digit of a record's text one higher, 0 after 9."""
    at = max(i for i, c in enumerate(text) if c.isdigit())
    return text[:at] + str((int(text[at]) + 1) % 10) + text[at + 1 :]


def without_last_line(text: str) -> str:
    return text[: text.rindex("\n", 0, -1) + 1]


# Answers that are wrong on purpose: of a refused store or of a record, and what is done to the text.
WRONG = (
    (True, refusal(1, 0)),
    (True, refusal(0, 1)),
    (True, lambda text: ""),
    (False, next_digit),
    (False, without_last_line),
    (False, lambda text: text + "exits -\n"),
    (False, lambda text: "refused 8 0\n"),
)


def wrong(good: list[bytes]) -> Iterator[tuple[bytes, str]]:
    """A few of the stores once more, each with a wrong answer."""
    rng = random.Random(SEED)
    for is_refused, change in WRONG:
        fitting = [store for store in good if answer(store).startswith("refused") == is_refused and len(store) == 512]
        store = rng.choice(fitting)
        yield store, change(answer(store))


if __name__ == "__main__":
    arguments(__doc__)
    good = list(dict.fromkeys(stores()))  # each store once
    for store in good:
        sys.stdout.write(vector(store, answer(store)))
    for store, text in wrong(good):
        sys.stdout.write(vector(store, text, "wrong"))
