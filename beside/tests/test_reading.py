"""The second reading: document 01's own cases, each refusal, and the fixed lists."""

import itertools
import pathlib
import unittest

from generate.printed import printed as printed_from_words
from generate.vectors import read_vectors
from reading.nesting import Nesting
from reading.record import BRANCH, CONST, IF, INPUT, INSTR, RETURN, SWITCH, UNREACHABLE, Inst, Record, Region, read, refer, show, words_of
from reading.runs import NestedRun, graph_run, place_taken
from reading.sheet import accepted, nest, printed, words
from reading.store import BLOCK, Refused, blocks, pack, payload, write_back

ROOT = pathlib.Path(__file__).resolve().parents[2]
LISTS = ROOT / "beside" / "lists"


def region(kind: int, targets: list[int], values: tuple = (), passed: dict | None = None, **more: object) -> Region:
    """A region with what a test needs of it."""
    given = {"inputs": [], "blocks": [], "limit": 1, "exits": [], **more}
    return Region(
        given["inputs"],
        given["blocks"],
        given["limit"],
        kind,
        values=list(values),
        targets=targets,
        passed=passed or {target: [] for target in targets},
        exits=given["exits"],
    )


def sheet(*regions: Region, constants: list[int] | None = None, test: int = 0) -> str:
    """What is printed of a record."""
    return printed(pack(words_of(Record(0, test, constants or [], list(regions)))))


def case_a() -> bytes:
    """The store of document 01's case A."""
    return (ROOT / "crates" / "nest" / "stdin").read_bytes()


class Stores(unittest.TestCase):
    """Blocks, checks, and refusals 1 to 4."""

    def test_round_trip(self) -> None:
        """What was packed is read again, over several blocks."""
        record = list(range(600))
        store = pack(record)
        self.assertEqual(len(store), 3 * BLOCK)
        self.assertEqual(payload(store)[: len(record) + 1], [len(record) + 1, *record])

    def test_written_back(self) -> None:
        """As many blocks as W words need; 4 before 10; no word behind W."""
        for used, blocks_needed in ((1, 1), (253, 1), (254, 2), (4048, 16)):
            state = [used] + [7] * 4399
            store = write_back(state, BLOCK * blocks_needed)
            self.assertEqual(len(store), BLOCK * blocks_needed)
            self.assertEqual(payload(store), state[:used] + [0] * (253 * blocks_needed - used))
            with self.assertRaisesRegex(Refused, "refused 10 0"):
                write_back(state, len(store) - 1)
        for used in (0, 4049, 65535):
            with self.assertRaisesRegex(Refused, "refused 4 0"):
                write_back([used] + [0] * 4399, 0)

    def refusal(self, store: bytes) -> str:
        """The line of a refusal."""
        answer = printed(store)
        self.assertTrue(answer.startswith("refused "), answer)
        return answer.rstrip("\n")

    def test_refused(self) -> None:
        """A wrong length, block number, check, and word count."""
        store = case_a()
        self.assertEqual(self.refusal(b""), "refused 1 0")
        self.assertEqual(self.refusal(store[:-1]), "refused 1 0")
        self.assertEqual(self.refusal(bytes(17 * BLOCK)), "refused 1 0")
        self.assertEqual(self.refusal(b"\1" + store[1:]), "refused 2 0")
        self.assertEqual(self.refusal(store[:100] + bytes([store[100] ^ 1]) + store[101:]), "refused 3 0")
        self.assertEqual(self.refusal(blocks([0])), "refused 4 0")
        self.assertEqual(self.refusal(blocks([3, 1, 0, 9])), "refused 4 0")

    def test_a_refusal_is_told(self) -> None:
        """Its number and its word."""
        self.assertEqual(str(Refused(5, 3)), "refused 5 3")


class Records(unittest.TestCase):
    """Reading and references."""

    def test_written_and_read(self) -> None:
        """A record's words are read as the record that has them."""
        record, _ = accepted(case_a())
        again = read([len(words_of(record)) + 1, *words_of(record), *[0] * (252 - len(words_of(record)))])
        self.assertEqual(show(again), show(record))

    def test_ranges(self) -> None:
        """8 targets and 32 regions are read, one more is 5."""
        end = region(RETURN, [])
        eight = region(SWITCH, [1] * 8, ((CONST, 0, 0),), {1: []})
        nine = region(SWITCH, [1] * 9, ((CONST, 0, 0),), {1: []})
        self.assertTrue(sheet(eight, end, constants=[2]).startswith("whole"))
        self.assertEqual(sheet(nine, end, constants=[2]), "refused 5 0\n")
        self.assertTrue(sheet(*[end] * 32).startswith("whole"))
        self.assertEqual(sheet(*[end] * 33), "refused 5 0\n")

    def test_references(self) -> None:
        """6, 7 and 8, with the region as the word."""
        end = region(RETURN, [])
        self.assertEqual(sheet(region(BRANCH, [5])), "refused 6 0\n")
        self.assertEqual(sheet(region(RETURN, [], ((CONST, 0, 0),))), "refused 6 0\n")
        self.assertEqual(sheet(end, region(RETURN, [], ((CONST, 0, 0),)), constants=[2]), "refused 7 1\n")
        self.assertEqual(sheet(region(IF, [1, 1], ((CONST, 0, 0),), {1: []}), end, constants=[2]), "refused 7 0\n")
        self.assertEqual(sheet(end, region(RETURN, [], exits=[0, 0])), "refused 8 1\n")


class Sheets(unittest.TestCase):
    """Document 01's cases, and the fixed list."""

    def test_case_a(self) -> None:
        """As the paper prints it."""
        self.assertEqual(printed(case_a()), (ROOT / "crates" / "nest" / "stdout").read_text())

    def test_case_b(self) -> None:
        """A loop: figure 100, attempts 7, wrapper region 5, one body input."""
        header = region(
            IF,
            [1, 2],
            ((INSTR, 1, 0),),
            {1: [(INPUT, 1, 0), (INSTR, 1, 0)], 2: []},
            inputs=[2, 1],
            blocks=[[Inst(1, 1, 6, [])]],
            limit=10,
            exits=[2],
        )
        start = region(BRANCH, [1], passed={1: [(CONST, 0, 0), (CONST, 0, 1)]})
        answer = sheet(start, header, region(RETURN, []), constants=[2, 1], test=2)
        self.assertTrue(answer.startswith("whole figure 100 attempts 7 twice 0\n"), answer)

    def test_small_ones(self) -> None:
        """One region that returns; one that is Unreachable; a branch to the entry; both targets the same empty Return region."""
        self.assertEqual(sheet(region(RETURN, [])), "whole figure 0 attempts 1 twice 0\nregion 0 in - kids - out -\n")
        self.assertEqual(sheet(region(UNREACHABLE, [])), "closed figure 0 attempts 1 twice 0\nregion 0 in - kids - out -\n")
        self.assertEqual(sheet(region(BRANCH, [0])), "untouched figure - attempts 0 twice 0\n")
        both = region(IF, [1, 1], ((CONST, 0, 0),), {1: []})
        self.assertIn("attempts 4 ", sheet(both, region(RETURN, []), constants=[1]))

    def test_listed(self) -> None:
        """The first sheets of the list, most of them the Rust's, and the text made from the words alone."""
        for store, answer in itertools.islice(read_vectors(LISTS / "sheets.vectors"), 150):
            self.assertEqual(printed(store), answer)
            if not answer.startswith("refused"):
                made = words(nest(Nesting(*accepted(store))))
                first, rest = answer.split("\n", 1)
                self.assertEqual(printed_from_words(made), first.rpartition(" twice ")[0] + "\n" + rest)

    def test_too_few_words(self) -> None:
        """10 comes at one word fewer than the sheet has."""
        size = len(words(nest(Nesting(*accepted(case_a())))))
        self.assertFalse(printed(case_a(), size).startswith("refused"))
        self.assertEqual(printed(case_a(), size - 1), "refused 10 0\n")


class Runs(unittest.TestCase):
    """Both runs of case A."""

    def test_places(self) -> None:
        """A boolean takes place 0 when true; a number the place it equals, else the last; a mark none."""
        self.assertEqual([place_taken(IF, word, 2) for word in (1, 7, 0)], [0, 0, 1])
        self.assertEqual([place_taken(SWITCH, word, 3) for word in (0, 2, 3, 99)], [0, 2, 2, 2])
        self.assertIsNone(place_taken(IF, None, 2))

    def test_case_a(self) -> None:
        """The nested run has the graph's events and end, for either answer of the test."""
        record, returned = accepted(case_a())
        result = nest(Nesting(record, returned))
        for word, end, cost in ((1, 30, 10), (0, 40, 11)):
            events, ended, _ = graph_run(record, [30, 40], [], lambda *_: word, 9)
            run = NestedRun(result, [30, 40], [], lambda *_: word, 9)
            self.assertEqual((events, ended), (run.events, ("return", [end])))
            self.assertEqual((run.end, run.cost), (ended, cost))

    def test_types_returned(self) -> None:
        """The types that all Return regions agree on."""
        self.assertEqual(refer(accepted(case_a())[0]), [2])


if __name__ == "__main__":
    unittest.main()
