"""explain: a sentence with the place for each refusal, number and word as the proved program has them; summaries."""

import os
import re
import tempfile
import unittest

from .support import command, needs_nest, needs_show, programs, vectors
from .test_assemble import SWEEP

from rukvetta.assemble import assemble
from rukvetta.explain import explain, place_of
from rukvetta.record import record_words
from rukvetta.routine import Routine
from rukvetta.store import store_of

HEAD = "default cost 0\nrecord entry a test 1 constants 2\n"
A = "region a in - limit 1\n"

# A source, and what is said where the store that it gives is refused.
REFUSALS = [
    ("record entry 3\n" + A + "return\n", "refused 6 0", "The entry is region 3; region 0 would be allowed"),
    (
        HEAD + A + "7 (c1)\nreturn\n",
        "refused 6 0",
        "Region 0 reads c1 (block 0, instruction 0, read 0): the record has 1 constant; c0 would be allowed.",
    ),
    (
        HEAD + A + "7 (i0.0)\nreturn\n",
        "refused 6 0",
        "reads i0.0 (block 0, instruction 0, read 0): it has 0 inputs; none would be allowed.",
    ),
    (HEAD + A + "7 (i1.0)\nreturn\n", "refused 6 0", "only region 0's own inputs and outputs would be allowed, or a constant"),
    (HEAD + A + "7 (d0.0) : 2\nreturn\n", "refused 6 0", "that instruction is no earlier one; none would be allowed."),
    (HEAD + A + "7\n8 (d0.0)\nreturn\n", "refused 6 0", "that instruction has type 0 and no output; none would be allowed."),
    (HEAD + A + "7 (d0.5)\nreturn\n", "refused 6 0", "it has 1 instruction; none would be allowed."),
    (HEAD + A + "7 : 2\n" * 7 + "return d0.7\n", "refused 6 0", "it has 7 instructions; d0.0, d0.1 .. d0.6 would be allowed."),
    (HEAD + A + "7 : 2\n8\n9 (d0.2)\nreturn\n", "refused 6 0", "that instruction is no earlier one; d0.0 would be allowed."),
    (HEAD + A + "branch to 7\n", "refused 6 0", "goes to region 7 (target 0); region 0 would be allowed"),
    (
        HEAD + A + "return\nregion b limit 1\nreturn\nexits 2\n",
        "refused 6 1",
        "Region 1 has region 2 in its exit list (exit 0); regions 0 to 1",
    ),
    (HEAD + A + "select bool c0 to a, a\n", "refused 7 0", "has a boolean test of c0, which has type 2; type 1 would be allowed"),
    (HEAD + A + "branch to b\nregion b in 2\nreturn\n", "refused 7 0", "passes 0 values to region 1, which has 1 input."),
    (
        HEAD + A + "branch to b(true)\nregion b in 2\nreturn\n",
        "refused 7 0",
        "passes true of type 1 to region 1 as input 0, which has type 2",
    ),
    (HEAD + A + "return\nregion b\nreturn true\n", "refused 7 1", "returns 1 value, and region 0, the first that returns, 0"),
    (HEAD + A + "return c0\nregion b\nreturn true\n", "refused 7 1", "returns true of type 1 as value 0; region 0 returns type 2 there"),
    (HEAD + A + "return\nexits 0,0\n", "refused 8 0", "has region 0 twice in its exit list (exits 0 and 1); once would be allowed"),
]


def changed(place: int, word: int) -> bytes:
    """The sweep's store with another word at a place, its check right."""
    words = record_words(assemble(SWEEP)[1])
    words[place] = word
    return store_of(words)


class Explain(unittest.TestCase):
    def setUp(self) -> None:
        self.folder = tempfile.TemporaryDirectory()
        self.addCleanup(self.folder.cleanup)

    def explain(self, data: bytes, ending: str = ".store", folder: str | None = None) -> tuple[int, str]:
        path = os.path.join(self.folder.name, "r" + ending)
        with open(path, "wb") as file:
            file.write(data)
        status, out, said = command("explain", path, folder=folder)
        self.assertEqual("", said)
        return status, out.decode()


@needs_show
class Refusals(Explain):
    def test_number_and_word_on_the_lists(self) -> None:
        """The search for the place gives the proved answers on all 2,023 stores of the list."""
        for store, answer in vectors("stores.vectors"):
            found = place_of(store)
            self.assertEqual(f"refused {found.number} {found.word}\n" if found else answer, answer)

    def test_sentences_of_references(self) -> None:
        for source, answer, said in REFUSALS:
            with self.subTest(source=source):
                store = assemble(source.encode())[0]
                self.assertEqual(programs.show(store).strip(), answer)
                status, text = self.explain(store)
                self.assertEqual((status, text.split("\n")[0]), (1, answer))
                self.assertIn(said, text)

    def test_sentences_with_lines_and_names(self) -> None:
        status, text = self.explain(SWEEP.replace(b"to sweep(next)", b"to sweep(next, true)"), ".routine")
        self.assertEqual(status, 1)
        self.assertIn("Region 1 (sweep) passes 2 values to region 1 (sweep), which has 1 input (line 17 of the source).", text)

    def test_sentences_of_store_and_words(self) -> None:
        store = assemble(SWEEP)[0]
        for bad, answer, said in (
            (b"", "refused 1 0", "The store has 0 bytes; 512 to 8,192 in blocks of 512 would be allowed."),
            (b"\1" + store[1:], "refused 2 0", "Block 0 has the number 1 in its bytes 0 and 1; 0 would be allowed."),
            (store[:511] + b"\1", "refused 3 0", "Block 0 has the check"),
            (changed(0, 0), "refused 4 0", "W, word 0, is 0"),
            (changed(0, 254), "refused 4 0", "W is 254, which needs 2 blocks of 253 words; the store has 1."),
            (changed(0, 70), "refused 4 0", "Word 70 (block 0, byte 142) comes after W, 70, and holds 1; 0 would be allowed."),
            (changed(0, 75), "refused 4 0", "Region 2, the last, ends before word 74, and W is 75: 1 word stays over."),
            (changed(1, 4), "refused 4 0", "The record runs past W: W is 74, and region 3, the count of inputs would be word 74."),
            (changed(1, 33), "refused 5 0", "Word 1 (block 0, byte 4) is the region count and holds 33; 1 to 32 would be allowed."),
            (changed(10, 0), "refused 5 0", "region 0, the turn limit and holds 0; 1 to 65,535 would be allowed."),
            (changed(16, 3), "refused 5 0", "and holds 3, which arises only in nesting; 0, 1, 2, 4 or 5 would be allowed."),
        ):
            with self.subTest(said=said):
                status, text = self.explain(bad)
                self.assertEqual((status, text.split("\n")[0]), (1, answer))
                self.assertIn(said, text)

    def test_where_the_two_differ_it_says_so(self) -> None:
        program = os.path.join(self.folder.name, "show")
        with open(program, "w", encoding="ascii") as file:
            file.write("#!/bin/sh\necho refused 6 2\n")
        os.chmod(program, 0o755)
        status, text = self.explain(assemble(SWEEP)[0], folder=self.folder.name)
        self.assertEqual(status, 1)
        self.assertIn("The proved program says `refused 6 2`; the search for the place found no fault", text)


@needs_show
class Missing(Explain):
    def test_without_the_programs(self) -> None:
        status, _, said = command("explain", "-", data=SWEEP, folder=self.folder.name)
        self.assertEqual(status, 3)
        self.assertIn("The program `show` is not in", said)
        os.symlink(os.path.join(programs.folder, "show"), os.path.join(self.folder.name, "show"))
        status, text = self.explain(SWEEP, ".routine", self.folder.name)
        self.assertEqual(status, 3)
        self.assertIn("Region 1 (sweep) heads a loop of at most 401 turns, left to region 2 (done).", text)
        self.assertIn("The program `nest` is not in", text)


@needs_nest
class Summaries(Explain):
    def test_the_list_of_sheets(self) -> None:
        """The first line is the program's, and that is the list's, on all 1,147 stores."""
        for store, answer in vectors("sheets.vectors"):
            sentences, status = explain(Routine("listed", store), programs)
            self.assertEqual((sentences[0], status), (answer.split("\n")[0], 1 if answer.startswith("refused") else 0))
            self.assertTrue(all(re.match(r"[A-Z].+\.\Z", sentence) for sentence in sentences[1:]), sentences)

    def test_outcomes(self) -> None:
        for source, said in (
            (SWEEP, "It nests whole: 1 select, 1 loop and 0 exits, after 7 attempts of at most 19."),
            (SWEEP, "A run within the turn limits costs at most 7,619, the figure."),
            (b"record\nregion a\nunreachable\n", "It nests closed (no run returns)"),
            (b"record\nregion a limit 9\nbranch to a\n", "It stays untouched: the entry's incoming count is 2"),
            (
                b"record\nregion a\nselect bool true to b, c\nregion b limit 9\nbranch to c\nregion c\nbranch to b\n",
                "Region 0 (a) still branches to region 1 (b), with 1 of that region's 2 incoming edges.",
            ),
        ):
            status, text = self.explain(source, ".routine")
            self.assertEqual(status, 0)
            self.assertIn(said, text)

    def test_a_figure_too_great(self) -> None:
        status, text = self.explain(SWEEP.replace(b"limit 401", b"limit 65535").replace(b"cost 12", b"cost 65535"), ".routine")
        self.assertEqual(status, 1)
        self.assertIn("refused 11 0", text)
        self.assertIn("the greatest are: region 1 (sweep) 65,535", text)
