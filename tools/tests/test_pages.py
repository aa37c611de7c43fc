"""The checks of the pages: each must catch what it is there for."""

import pathlib
import re
import shutil
import tempfile
import unittest

from tools.page_checks import annotated, believed, decisions, definitions, edits, marked, names, numbers, sentences, stepped

ROOT = pathlib.Path(__file__).resolve().parents[2]


class WithFolder(unittest.TestCase):
    """A folder of its own for each test."""

    def setUp(self) -> None:
        """Makes the folder."""
        made = tempfile.TemporaryDirectory()
        self.addCleanup(made.cleanup)
        self.folder = pathlib.Path(made.name)

    def write(self, name: str, text: str) -> pathlib.Path:
        """A file in the folder."""
        path = self.folder / name
        path.parent.mkdir(parents=True, exist_ok=True)
        path.write_text(text, encoding="utf-8")
        return path


class Sentences(WithFolder):
    """Sentences and their words."""

    def words(self, text: str) -> list[int]:
        """The words of each sentence of a page."""
        return [one.words for one in sentences.sentences(self.write("page.md", text))]

    def test_ends(self) -> None:
        """A full stop, a paragraph, an item and a cell end a sentence; a number and a name do not."""
        self.assertEqual(self.words("One two. Three\nfour five!\n\nSix"), [2, 3, 1])
        self.assertEqual(self.words("- one two\n- three\n  four\n"), [2, 2])
        self.assertEqual(self.words("It has 1.5 of docs/PAGE.md in it.\n"), [7])
        self.assertEqual(self.words("It is so. docs/PAGE.md has it.\n"), [3, 3])

    def test_left_out(self) -> None:
        """Headings, code, comments, labels and rules of a table are no sentences."""
        text = "# A heading of words\n\n```\ncode code\n```\n\n    more code\n\n<!-- a comment -->\n\n"
        text += "| a | label |\n|---|---|\n| x | one two three four |\n"
        self.assertEqual(self.words(text), [4])

    def test_average(self) -> None:
        """Words on average."""
        found = sentences.sentences(self.write("page.md", "One two three. Four.\n"))
        self.assertEqual(sentences.average(found), 2.0)
        self.assertEqual(sentences.average([]), 0.0)

    def test_too_long(self) -> None:
        """A long sentence is told of a strict page, an average of an averaged one; both are pages that are there."""
        long = "Word " * 30 + "end.\n"
        found = sentences.sentences(self.write("page.md", "Short.\n\n" + long))
        self.assertEqual(sentences.too_long("workbench/README.md", found), [f"workbench/README.md:3: 31 words: {long.strip()}"])
        self.assertEqual(sentences.too_long("docs/PROOFS.md", found), [])
        self.assertEqual(sentences.too_long("docs/PROOFS.md", found[1:]), ["docs/PROOFS.md: more than 20 words on average"])
        self.assertEqual(sentences.too_long("docs/PATH.md", found), [])
        self.assertEqual([name for name in (*sentences.STRICT, *sentences.AVERAGED) if not (ROOT / name).is_file()], [])


class Names(WithFolder):
    """Names on pages."""

    def missing(self, text: str) -> list[str]:
        """The names of a page that are not there, in a repository of one crate with an edit."""
        self.write("crates/store/specs/Layout.antt", "")
        self.write("crates/store/must-fail/first_word.edit", "")
        self.write("crates/text_sheet/src/lib.rt", "")
        self.write("docs/PAGE.md", text)
        return [one.name for one in names.not_there(self.folder)]

    def test_there(self) -> None:
        """Paths with and without suffix, edits, crates, lists in braces, names that stand for any."""
        self.assertEqual(
            self.missing("store/specs/Layout, crates/store/specs/Layout.antt, store/specs/{Layout}, src/lib.rt, docs/PAGE.md"), []
        )
        self.assertEqual(self.missing("`store/first_word`, text_sheet, text_, target/x, crates/CRATE/must-fail/NAME.edit"), [])
        self.assertEqual(self.missing("crates/store/out/store, crates/store/out, ../../docs/PAGE.md"), [])

    def test_not_there(self) -> None:
        """A file, a part of a list, an edit, a crate and a page that are not there."""
        self.assertEqual(self.missing("store/specs/Layuot."), ["store/specs/Layuot"])
        self.assertEqual(self.missing("store/specs/{Layout, Loaded}"), ["store/specs/Loaded"])
        self.assertEqual(self.missing("`store/last_word`"), ["store/last_word"])
        self.assertEqual(self.missing("sheet_text says"), ["sheet_text"])
        self.assertEqual(self.missing("docs/PAPER.md"), ["docs/PAPER.md"])
        self.assertEqual(self.missing("../../docs/PAPER.md"), ["../../docs/PAPER.md"])

    def test_of_this_repository(self) -> None:
        """All names on the pages are there."""
        self.assertEqual(names.not_there(ROOT), [])


class Parts(WithFolder):
    """Parts of pages that are made."""

    def test_put(self) -> None:
        """A stale part is found, and made anew unless it is only checked."""
        page = self.write("page.md", f"before\n{marked.start('edits')}\nold\n{marked.END}\nafter\n")
        self.assertFalse(marked.put(page, "edits", "new\n", only_check=True))
        self.assertIn("old", page.read_text())
        self.assertFalse(marked.put(page, "edits", "new\n", only_check=False))
        self.assertTrue(marked.put(page, "edits", "new\n", only_check=True))
        self.assertEqual(page.read_text(), f"before\n{marked.start('edits')}\nnew\n{marked.END}\nafter\n")

    def test_no_part(self) -> None:
        """A page without the part is refused."""
        with self.assertRaises(ValueError):
            marked.put(self.write("page.md", "nothing\n"), "edits", "new\n", only_check=True)

    def test_edits(self) -> None:
        """The table has each edit; one that does not say what holds is refused."""
        self.write("crates.txt", "# edits: none\nstore staticlib: meaning\n")
        self.write("crates/store/must-fail/late.edit", "# a fact\nfile: src/lib.rt\nold: 1\nnew: 2\n")
        self.assertIn("| store/late | a fact | src/lib.rt |\n", edits.table(self.folder))
        self.write("crates/store/must-fail/bare.edit", "file: src/lib.rt\nold: 1\nnew: 2\n")
        with self.assertRaises(ValueError):
            edits.table(self.folder)

    def test_all_edits_of_this_repository(self) -> None:
        """No edit of a crate is left out."""
        self.assertEqual(len(edits.all_edits(ROOT)), len(list(ROOT.glob("crates/*/must-fail/*.edit"))))

    def test_decisions(self) -> None:
        """Entries by number; a number twice, a gap, and an entry without its cost are refused."""
        entry = "#### {}. A title\nText.\n\n*Cost:* none.\n\n"
        text = '## Part\n\n### Group ("Section")\n\n' + entry.format(2) + entry.format(1)
        self.assertEqual([(one.number, one.group) for one in decisions.read_decisions(text)], [(1, "Group"), (2, "Group")])
        for wrong in (text + entry.format(2), text + entry.format(4), text + "#### 3. A title\nText.\n"):
            with self.assertRaises(ValueError):
                decisions.read_decisions(wrong)


class Believed(WithFolder):
    """What must be believed."""

    def test_reached(self) -> None:
        """What a statement names is reached, through files; what it does not name is not."""
        self.write(
            "crates/a/specs/Top.antt",
            "use Rattle.b.specs.Low.{size}\n\nabbrev pub Top : Type 0\nTop = size ≡ 1\n\npub other : Top\nother = refl\n",
        )
        self.write(
            "crates/b/specs/Low.antt",
            "use Rattle.b.specs.Base.{one, two}\n\nabbrev pub size : ℕ\nsize = one\n\nabbrev pub wide : ℕ\nwide = two\n",
        )
        self.write("crates/b/specs/Base.antt", "abbrev pub one : ℕ\none = 1\n\nabbrev pub two : ℕ\ntwo = 2\n")
        found = believed.believed(self.folder / "crates", ("a/specs/Top Top",))
        self.assertEqual({name: lines for name, (lines, _) in found.items()}, {"a/specs/Top": 2, "b/specs/Low": 2, "b/specs/Base": 2})

    def test_of_this_repository(self) -> None:
        """The three long files and the sections are reached, no law is."""
        found = believed.believed(ROOT / "crates")
        for name in ("meaning/specs/Runs", "nesting/specs/Nesting", "nesting/specs/Sheet", "state_words/specs/Sections"):
            self.assertIn(name, found)
        self.assertEqual([name for name in found if "/laws/" in name or "/facts/" in name], [])


if __name__ == "__main__":
    unittest.main()


class Numbers(WithFolder):
    """Numbers on the pages, beside the definitions."""

    def wrong(self, text: str, claim: str, closed: bool = True) -> list[str]:
        """What is said of a page with one claim."""
        shown = {"a.most": "4,048", "values.x": "0 to 4"}
        return [one.what for one in numbers.check("page", text, (claim,), shown, closed)]

    def test_claims(self) -> None:
        """A claim with another number, one that the page does not have, one that is broken over lines."""
        self.assertEqual(self.wrong("It has\n4,048 words.", "has {a.most} words"), [])
        self.assertEqual(self.wrong("It has 4,047 words.", "has {a.most} words"), ["says 4,047, and a.most is 4,048"])
        self.assertEqual(self.wrong("It has 4048 words.", "has {a.most} words"), ["says 4048, and a.most is 4,048"])
        self.assertEqual(self.wrong("It had 4,048 words.", "has {a.most} words", closed=False), ["does not say: has {a.most} words"])
        self.assertEqual(self.wrong("| 0 to 4 |", "| {values.x} |"), [])
        self.assertEqual(self.wrong("| 1 to 4 |", "| {values.x} |"), ["says 1 to 4, and values.x is 0 to 4"])
        self.assertEqual(self.wrong("| 4 |", "| {values.x} |"), ["says 4, and values.x is 0 to 4"])

    def test_closed(self) -> None:
        """On a closed page a number without a claim is found, behind code too; code and made parts are left out."""
        made = f"{marked.start('x')}\n7\n{marked.END}\n"
        text = f"{made}\n    code 5\n\n1. `c0` and i1.0, has 4,048 words.\n\n"
        self.assertEqual(self.wrong(text, "has {a.most} words"), [])
        self.assertEqual(self.wrong(text + "And 9 more.\n", "has {a.most} words"), ["has the number 9, which no claim compares"])

    def test_of_this_repository(self) -> None:
        """All numbers are right; any of them, made another, is caught."""
        shown = numbers.names(ROOT)
        for page in numbers.CLOSED:
            text, claims = (ROOT / page).read_text(encoding="utf-8"), numbers.CLAIMS[page]
            self.assertEqual(numbers.check(page, text, claims, shown, True), [])
            prose = numbers.LEFT_OUT.sub(lambda found: " " * len(found[0]), text)
            tried = list(re.finditer(rf"(?<![\w.])(?:{numbers.NUMBER})(?!\w)", prose))
            self.assertGreater(len(tried), 10)
            for match in tried:
                other = f"{int(match[0].replace(',', '')) + 1:,}"
                changed = text[: match.start()] + other + text[match.end() :]
                with self.subTest(page=page, line=text.count("\n", 0, match.start()) + 1, number=match[0]):
                    self.assertNotEqual(numbers.check(page, changed, claims, shown, True), [])
        self.assertEqual(numbers.all_wrong(ROOT)[1], [])

    def test_ends(self) -> None:
        """What is no end has the definition's names, all of them."""
        text = (ROOT / numbers.PLAYER).read_text(encoding="utf-8")
        self.assertEqual(numbers.check_ends(ROOT, text), [])
        for changed in (text.replace("| `ran_off` |", "| `ran_out` |"), re.sub(r"\| `no_case` \|.*\n", "", text)):
            self.assertEqual(len(numbers.check_ends(ROOT, changed)), 1)

    def test_crates(self) -> None:
        """What a program stands on is counted with all below it, without the toolchain's libraries."""
        self.write("crates.txt", "# all: of them\na:\nb: a io\nc staticlib: b # a: more\nd: a\n")
        self.assertEqual(numbers.reached(self.folder, "c"), (3, 4))


class Definitions(WithFolder):
    """Numbers read off definitions, code and header."""

    def setUp(self) -> None:
        """Copies the files that are read."""
        super().setUp()
        self.files = list(definitions.Definitions(ROOT).texts)
        for file in self.files:
            (self.folder / file).parent.mkdir(parents=True, exist_ok=True)
            shutil.copy(ROOT / file, self.folder / file)

    def edit(self, file: str, old: str, new: str) -> None:
        """A file with one piece changed."""
        path = self.folder / file
        text = path.read_text(encoding="utf-8")
        self.assertEqual(text.count(old), 1, old)
        path.write_text(text.replace(old, new), encoding="utf-8")

    def test_same(self) -> None:
        """The copy says what the repository says."""
        self.assertEqual(definitions.Definitions(self.folder).numbers, definitions.Definitions(ROOT).numbers)

    def test_differ(self) -> None:
        """A number that one file has changed is found, and one that can no longer be read."""
        for file, old, new in (
            (definitions.NUMBERS, "lead_loop = 3", "lead_loop = 6"),
            (definitions.SHEET_CODE, "LEAD_LOOP: u32 = 3", "LEAD_LOOP: u32 = 6"),
            (definitions.HEADER, "RUKVETTA_LINE_LOOP = 3", "RUKVETTA_LINE_LOOP = 6"),
            (definitions.REFUSALS, "too_many = 9", "too_many = 13"),
            (definitions.REFUSALS_CODE, "TOO_MANY: u16 = 9", "TOO_MANY: u16 = 13"),
            (definitions.GRAPH, "undef_kind = 5", "undef_kind = 8"),
            (definitions.READ, "  n ← within 1 32", "  n ← within 1 33"),
            (definitions.READ, "terminator_exit = 2", "terminator_exit = 7"),
            (definitions.STORE, "leb n 8192", "leb n 4096"),
            (definitions.SHEET, "answer store 16384", "answer store 16383"),
            (definitions.READ, "limit ← within 1 65535", "limit ← bounded 1 65535"),
        ):
            with self.subTest(file=file, new=new):
                self.edit(file, old, new)
                with self.assertRaises(ValueError):
                    definitions.Definitions(self.folder)
                self.edit(file, new, old)

    def test_changed(self) -> None:
        """Numbers that one file alone has are the file's: what a terminator has, what a run does."""
        self.edit(
            definitions.READ, "fewest_values k = pick (leb terminator_bool k) 1 0", "fewest_values k = pick (leb terminator_bool k) 2 0"
        )
        self.edit(definitions.RUNS, "place_taken bool_cond zero n = 1", "place_taken bool_cond zero n = 0")
        found = definitions.Definitions(self.folder)
        self.assertEqual((found.shown("values.terminator_bool"), found.numbers["run.place-false"]), ("2 to 1", 0))
        self.assertEqual(found.shown("targets.terminator_number"), "1 to 8")


class Examples(WithFolder):
    """The parts that show the example: bytes, sheet, runs."""

    def test_any_number(self) -> None:
        """Any number of a part, made another, is stale."""
        store = ROOT / "docs" / "example.store"
        made = {
            "FORMAT": {"bytes": annotated.store_part(store), "sheet": annotated.sheet_part(store)},
            "PLAYER": {
                "swap": stepped.swapped(),
                "places": stepped.places(),
                "returns": stepped.returns(store),
                "exits": stepped.exits(store),
            },
        }
        for page, parts in made.items():
            text = (ROOT / "docs" / f"{page}.md").read_text(encoding="utf-8")
            for name, part in parts.items():
                head, stands, tail = marked.split(text, name)
                self.assertEqual(stands, part)
                for match in re.finditer(r"\d+", stands):
                    changed = stands[: match.start()] + str(int(match[0]) + 1) + stands[match.end() :]
                    self.assertNotEqual(marked.split(head + changed + tail, name)[1], part)

    def test_another_store(self) -> None:
        """Another store gives another part: its bytes, its sheet, its run."""
        store = bytearray((ROOT / "docs" / "example.store").read_bytes())
        store[54] += 1  # the cost of the first instruction
        weighed = sum(byte * (place + 1) for place, byte in enumerate(store[:508]))
        path = self.folder / "example.store"
        path.write_bytes(bytes(store[:508]) + weighed.to_bytes(4, "little"))
        self.assertIn("opcode 16, type 0 (no output), cost 13, 1 read", annotated.store_part(path))
        self.assertIn("whole figure 29674 ", annotated.sheet_part(path))
        self.assertIn("1.0: opcode 16 reads 10                                      13\n", stepped.returns(path))

    def test_runs(self) -> None:
        """The swap is seen: inputs change all at once. The exit is seen, and what a number takes."""
        self.assertIn("returns i1.0 = 8, i1.1 = 7", stepped.swapped())
        self.assertIn("ends the run: opcode 96, with i1.0 = 15", stepped.exits(ROOT / "docs" / "example.store"))
        self.assertIn("num          3    4294967295    2\n", stepped.places())
