"""The assembler of the page says what that of the workbench says: the same bytes and names, or the same faults at the same places."""

import os
import random
import re
import subprocess
import sys
import unittest

from .support import InBrowser, ROOT, needs_browser, of_page, of_workbench

from tests.random_records import damaged_source

DAMAGED, STRANGE, EXCHANGED = 2000, 500, 1000
VALUE, TARGET = rb"(?<![\w.])(?:c\d+|[id]\d+\.\d+|true|false|undef\d+)(?![\w.])", rb"(?:(?<=exits )|(?<= to )|(?<=entry ))\d+"
LETTERS = (
    *"\u00a0\u0085\u2028\u2029\u200b\u202e\ufeff\u00e9\u0301\u0663\u00b2\u4e2d\U0001d7d8\U0001f600\U000e0001\x00\x1c\x1f\x7f\x0b\r\t#,-.`",
    *(b"\xff", b"\xc0\x80", b"\xe2\x82", b"\xed\xa0\x80", b"\xf0\x9f\x98", b"\xf4\x90\x80\x80", b"\xef\xbb\xbf"),
)
CHOSEN = (
    b"",
    b"\n\n",
    b"record",
    b"\xef\xbb\xbfrecord\nregion a\n    return\n",
    b"region a\n    return\n",
    b"record\nregion a\nregion b\nregion c\n    retrun\n",
    b"record\r\nregion a\r\n    return\r\n",
    b"record regions 0x1\nregion 00000000000000000000\n    return\n",
    b"record test 0xffffffffffffffffffffffffffffffff\nregion a\n    return\n",
    b"record constants " + b",".join(b"x%d : 2" % k for k in range(66)) + b"\nregion a\n    return\n",
    b"record\nregion a\n    " + b"word" * 60 + b"\n    return " + b"word" * 59 + b"wore\n",
    b"opcode x" + b"abcdefghij" * 30 + b" 1 cost 0\nrecord\nregion a\n    y" + b"abcdefghij" * 30 + b"\n    return\n",
    b"record\n" + b"".join(b"region r%d\n    return\n" % k for k in range(35)),
    b"record\nregion a\n" + b"    7 cost 0 (\n" * 300 + b"    return\n",
    b"record\nregion a\n    select num true to b, c\nregion b\n    branch to a\nregion c\n    branch to a\n",
    b"record\nregion a in 2,2,2,2\n    7 (i0.9) cost 0\n    return\n",
    b"record constants 2,2,2,2,2\nregion a\n    7 (c9) cost 0\n    return\n",
    b"record entry 3\nregion a\n    return\n",
    b"#" * 262145,
    b"#" * 262144,
    "record\nregion \U0001f600 a\n    retürn\n".encode(),
    "record\n# \U0001f600 is one letter".encode(),
    "record # \U0001f600 is one letter ".encode() + b"\xff\nregion a\n    return\n",
    "opcode x\u0301 1\nrecord\nregion a\n    ret.urn\n".encode(),
)


def catalogue() -> list[bytes]:
    return [path.read_bytes() for path in sorted((ROOT / "workbench" / "catalogue").glob("*.routine"))]


def records(step: int = 20) -> list[bytes]:
    """Texts of records, as `show` prints them, of the fixed lists: one in so many."""
    from generate.vectors import read_vectors

    texts = [answer.encode() for _, answer in read_vectors(ROOT / "beside" / "lists" / "stores.vectors") if answer.startswith("record")]
    return texts[::step]


def damaged(rng: random.Random, source: bytes) -> bytes:
    for _ in range(rng.randint(1, 3)):
        source = damaged_source(rng, source)
    return source


def strange(rng: random.Random, source: bytes) -> bytes:
    """A source with letters put in that few sources have, and bytes that are no text."""
    for _ in range(rng.randint(1, 4)):
        at, put = rng.randrange(len(source) + 1), rng.choice(LETTERS)
        source = source[:at] + (put if isinstance(put, bytes) else put.encode()) + source[at:]
    return source


def exchanged(rng: random.Random, source: bytes) -> bytes:
    """A record's text with a value, a target or an exit replaced: most are still assembled, and name what they may not."""
    values = re.findall(VALUE, source) + [b"c9", b"i0.3", b"d1.1", b"undef2", b"true"]
    kind, place = rng.choice((VALUE, VALUE, VALUE, TARGET)), rng.random()
    found = list(re.finditer(kind, source))
    if not found:
        return source
    match = found[int(place * len(found))]
    put = rng.choice(values) if kind == VALUE else rng.choice((b"%d" % rng.randrange(33), match[0] + b"," + match[0], b"0"))
    return source[: match.start()] + put + source[match.end() :]


@needs_browser
class Agreement(InBrowser):
    """In a page that has the assembler alone."""

    def setUp(self) -> None:
        from browser.pages import assembler_script

        path = os.path.join(self.folder.name, "assembler.html")
        with open(path, "w", encoding="utf-8") as file:
            shown = "window.rukvetta = { assemble, Faults, placeOf, withNames };"
            file.write(f'<meta charset="utf-8"><script>(function () {{ "use strict";\n{assembler_script()}{shown} }})();</script>')
        self.assertEqual(self.browser.open(path), [])

    def agree(self, sources: list[bytes]) -> tuple[list, list]:
        """Of the answers, which both assemblers give: the lists of faults, and the refusals."""
        wanted = [of_workbench(source) for source in sources]
        for source, ours, theirs in zip(sources, of_page(self.browser, sources), wanted, strict=True):
            self.assertEqual(ours, theirs, source[:3000])
        made = [answer for answer in wanted if isinstance(answer[0], str)]
        return [answer for answer in wanted if isinstance(answer[0], list)], [place for _, _, place in made if place]

    def test_catalogue_and_records(self) -> None:
        self.assertGreater(len(catalogue()), 30)
        self.assertEqual(self.agree(catalogue()), ([], []))
        self.assertEqual(self.agree(records()), ([], []))

    def test_damaged_sources(self) -> None:
        rng, whole = random.Random(7), catalogue() + records()
        faulty, _ = self.agree([damaged(rng, rng.choice(whole)) for _ in range(DAMAGED)])
        self.assertGreater(len(faulty), DAMAGED // 2)
        self.assertGreater(len({message for faults in faulty for _, _, message in faults}), 1000)

    def test_records_that_are_refused(self) -> None:
        """What a record may not name is told as the workbench tells it: number, word, sentence and line."""
        rng, whole = random.Random(9), records(2)
        _, refused = self.agree([exchanged(rng, rng.choice(whole)) for _ in range(EXCHANGED)])
        self.assertEqual({number for number, *_ in refused}, {6, 7, 8})
        self.assertGreater(len({sentence for _, _, sentence, _ in refused}), 100)

    def test_strange_letters(self) -> None:
        rng, whole = random.Random(8), catalogue()
        self.assertGreater(len(self.agree([strange(rng, rng.choice(whole)) for _ in range(STRANGE)])[0]), STRANGE // 2)

    def test_chosen_sources(self) -> None:
        self.assertGreater(len(self.agree(list(CHOSEN))[0]), 10)


@needs_browser
class Tables(unittest.TestCase):
    def test_a_pattern_that_javascript_reads_otherwise_is_refused(self) -> None:
        import lark

        from browser.grammar import tables

        for pattern in r"\d+", r"\w+", r"(?i:a)b", r"a\b":
            with self.subTest(pattern=pattern), self.assertRaises(ValueError):
                tables(lark.Lark(f"start: A\nA: /{pattern}/", parser="lalr", lexer="basic"))

    def test_they_are_the_same_each_time(self) -> None:
        """Python orders sets anew in each run; the page does not depend on it."""
        script = "from browser.tests import support; from browser.pages import assembler_script; print(assembler_script())"
        made = {
            subprocess.run(
                [sys.executable, "-c", script], cwd=ROOT, env={**os.environ, "PYTHONHASHSEED": seed}, capture_output=True, check=True
            ).stdout
            for seed in "123"
        }
        self.assertEqual(len(made), 1)
