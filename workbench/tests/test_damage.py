"""Bad input: 2,000 damaged sources, 2,000 damaged stores and commands that make no sense, each with a clear sentence and no traceback."""

import os
import random
import re
import tempfile
import unittest
from collections.abc import Iterator

from .random_records import damaged_source, damaged_store, random_store
from .support import CATALOGUE, command, needs_nest, needs_show, programs

from rukvetta.assemble import assemble
from rukvetta.explain import explain, named
from rukvetta.faults import Fault
from rukvetta.refusals import RULES
from rukvetta.routine import Routine

DAMAGED = 2000


def sources() -> Iterator[bytes]:
    """The catalogue's sources, and what `show` prints of their stores where it is there."""
    for name in sorted(os.listdir(CATALOGUE)):
        if name.endswith(".routine"):
            with open(os.path.join(CATALOGUE, name), "rb") as file:
                source = file.read()
            yield source
            if programs.has("show"):
                yield programs.show(assemble(source)[0]).encode()


class Sources(unittest.TestCase):
    def explained(self, routine: Routine) -> None:
        """What is a record all the same is explained, with names and lines."""
        sentences, _ = explain(routine, programs)
        self.assertGreater(len(sentences), 1)
        for sentence in sentences:
            self.assertRegex(named(routine, sentence), r"\A\S.*\Z")

    def test_damaged_sources(self) -> None:
        rng, whole, refused = random.Random(3), list(sources()), 0
        for _ in range(DAMAGED):
            source = rng.choice(whole)
            for _ in range(rng.randint(1, 3)):
                source = damaged_source(rng, source)
            try:
                store, record, names = assemble(source)
                self.assertEqual(len(store) % 512, 0)
                if programs.has("show"):
                    self.explained(Routine("damaged", store, names, record))
            except Fault as fault:
                refused += 1
                text = fault.text(source.decode("utf-8", "replace"))
                self.assertRegex(text, r"\Asource: line \d+, column \d+: found (?s:.+)expected .+\n    .*\n    *\^\Z")
                self.assertLessEqual(fault.line, source.count(b"\n") + 1)
        self.assertGreater(refused, DAMAGED // 2)

    def test_damaged_sources_by_the_command(self) -> None:
        rng, whole = random.Random(4), list(sources())
        for _ in range(10):
            status, store, said = command("assemble", data=damaged_source(rng, damaged_source(rng, rng.choice(whole))))
            self.assertIn((status, bool(store), bool(said)), ((0, True, False), (1, False, True)))
            self.assertNotIn("Traceback", said)


@needs_show
class Stores(unittest.TestCase):
    def damaged(self, rng: random.Random) -> Iterator[bytes]:
        """Stores of catalogue and random records, damaged."""
        whole = [assemble(source)[0] for source in sources()] + [random_store(rng) for _ in range(50)]
        while True:
            yield damaged_store(rng, rng.choice(whole))

    def test_damaged_stores(self) -> None:
        numbers = dict.fromkeys(RULES, 0)
        for _, store in zip(range(DAMAGED), self.damaged(random.Random(5))):
            sentences, status = explain(Routine("damaged", store), programs)
            if status == 1:
                number = int(re.fullmatch(r"refused (\d+) \d+", sentences[0])[1])
                numbers[number] += 1
                self.assertEqual(sentences[1], f"Rule {number} of document 01: {RULES[number]}.")
                self.assertRegex(sentences[2], r"\A[A-Z].+\.\Z")
            else:
                self.assertIn(status, (0, 3))
        self.assertTrue(all(numbers[number] for number in range(1, 8)), numbers)

    def test_damaged_stores_by_the_command(self) -> None:
        with tempfile.TemporaryDirectory() as folder:
            path = os.path.join(folder, "r.store")
            for _, store in zip(range(10), self.damaged(random.Random(6))):
                with open(path, "wb") as file:
                    file.write(store)
                status, text, said = command("explain", path)
                self.assertEqual("", said)
                self.assertIn(status, (0, 1, 3))
                self.assertGreater(len(text.splitlines()), 2)


@needs_nest
class Usage(unittest.TestCase):
    """Each command with nothing, with nonsense, and with files that are not what it takes."""

    def setUp(self) -> None:
        folder = tempfile.TemporaryDirectory()
        self.addCleanup(folder.cleanup)
        self.folder = folder.name
        os.mkdir(self.path("folder"))
        junk = bytes(range(256))
        for name, data in ("junk.store", junk), ("junk.routine", junk), ("empty.store", b""), ("one.store", b"\0"):
            with open(self.path(name), "wb") as file:
                file.write(data)

    def path(self, name: str) -> str:
        return os.path.join(self.folder, name)

    def says(self, status: int, said: str, name: str, *arguments: str) -> None:
        with self.subTest(command=name, arguments=arguments):
            got, out, messages = command(name, *arguments)
            self.assertEqual(got, status)
            self.assertIn(said, out.decode() + messages)
            self.assertNotIn("Traceback", out.decode() + messages)

    def test_arguments(self) -> None:
        self.says(1, "found the end of the source", "assemble")
        self.says(2, "unrecognized arguments: file", "assemble", "file")
        for name, wanted in ("explain", "STORE"), ("report", "STORE, -o"), ("check-catalogue", "FOLDER"):
            self.says(2, f"the following arguments are required: {wanted}", name)
            self.says(2, "required", name, "--nonsense")
        self.says(2, "There are no tests of the name `nonsense`", "test", "nonsense")
        for clock in "0", "5furlongs", "1e400", "":
            self.says(2, "is no clock; 20MHz or 5e6 would be one", "check-catalogue", CATALOGUE, "--clock", clock)
        for jobs in "0", "-1", "x", "65", "9" * 99:
            self.says(2, f"found {jobs}, expected 1 to 64", "check-catalogue", CATALOGUE, f"--jobs={jobs}")

    def test_files(self) -> None:
        page = self.path("page.html")
        for name, *rest in ("explain",), ("report", "-o", page):
            self.says(2, "No such file or directory", name, self.path("none"), *rest)
            self.says(2, "Is a directory", name, self.path("folder"), *rest)
            self.says(1, "found the byte 128, expected text in UTF-8", name, self.path("junk.routine"), *rest)
        self.says(1, "The store has 256 bytes", "explain", self.path("junk.store"))
        self.says(1, "The store has 0 bytes", "explain", self.path("empty.store"))
        self.says(1, "one.store: refused 1 0", "report", self.path("one.store"), "-o", page)
        self.says(2, "a page's name ends with .html", "report", self.path("one.store"), "-o", self.path("page"))
        self.says(2, "No such file or directory", "report", self.path("one.store"), "-o", self.path("none/page.html"))
        self.says(2, "No such file or directory", "check-catalogue", self.path("none"))
        self.says(2, "Not a directory", "check-catalogue", self.path("one.store"))
        self.says(2, "there is no file that ends with .routine or .store", "check-catalogue", self.path("folder"))
        self.says(1, "0 passed, 4 failed", "check-catalogue", self.folder)
        self.says(3, "The program `show` is not in", "explain", self.path("one.store"), "--programs", self.path("none"))

    def test_a_file_name_that_is_no_text(self) -> None:
        source = os.path.join(self.folder.encode(), b"\xff.routine")
        with open(source, "wb") as file:
            file.write(b"record\nregion a\nreturn\n")
        self.says(0, "It nests whole", "explain", source)
        self.says(1, "one.store: refused 1 0", "report", source, self.path("one.store"), "-o", self.path("page.html"))
        with open(self.path("page.html"), encoding="utf-8") as page:
            self.assertIn('href="page/%FF.html"', page.read())
        self.says(1, "there is no \\udcff.sheet beside it", "check-catalogue", self.folder)
