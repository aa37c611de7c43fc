"""The makers: vector files, damage, seeds, and what the commands refuse."""

import itertools
import pathlib
import random
import subprocess
import sys
import tempfile
import unittest

from generate import damage
from generate.claims import bound
from generate.records import records
from generate.vectors import all_vectors, read_vectors, vector
from generate.wrong_runs import ways
from reading.record import refer, words_of
from reading.sheet import printed
from reading.store import pack, payload

FOLDER = pathlib.Path(__file__).resolve().parents[1]
COMMANDS = "stores", "changes", "nested", "runs", "sheets", "claims", "compare", "large", "smallest", "tangled", "wrong_runs"


class Vectors(unittest.TestCase):
    """Vector files."""

    def read(self, text: str) -> list[tuple[str, bytes, str]]:
        """All vectors of a file with this text."""
        with tempfile.NamedTemporaryFile("w", suffix=".vectors") as file:
            file.write(text)
            file.flush()
            return list(all_vectors(file.name))

    def test_the_list_of_replay(self) -> None:
        """crates/replay is run on lists/stores.vectors: its copy is the same, byte for byte."""
        own, copy = (FOLDER / "lists" / "stores.vectors"), (FOLDER.parent / "crates" / "replay" / "stdin")
        self.assertFalse(own.is_symlink() or copy.is_symlink())
        self.assertTrue(own.read_bytes() == copy.read_bytes(), "cp beside/lists/stores.vectors crates/replay/stdin")

    def test_round_trip(self) -> None:
        """What was written is read; a vector that is wrong on purpose is passed over by readers."""
        text = vector(b"\1\2", "refused 1 0\n") + vector(b"\3", "refused 2 0\n", "wrong")
        self.assertEqual(self.read(text), [("store", b"\1\2", "refused 1 0\n"), ("wrong", b"\3", "refused 2 0\n")])
        with tempfile.NamedTemporaryFile("w", suffix=".vectors") as file:
            file.write(text)
            file.flush()
            self.assertEqual(list(read_vectors(file.name)), [(b"\1\2", "refused 1 0\n")])

    def test_no_vector_file(self) -> None:
        """Another word, and digits that are none, are refused."""
        for text in ("something else\n.\n", "store 0g\n.\n"):
            with self.assertRaises(ValueError):
                self.read(text)


class Made(unittest.TestCase):
    """Records and damage."""

    def test_seeded(self) -> None:
        """The same seed makes the same records, and each has right references."""
        first, again = ([words_of(record) for record in itertools.islice(records(7), 20)] for _ in range(2))
        self.assertEqual(first, again)
        other = [words_of(record) for record in itertools.islice(records(8), 20)]
        self.assertNotEqual(first, other)
        for record in itertools.islice(records(7), 20):
            refer(record)

    def test_bound(self) -> None:
        """Attempts stay within their bound, and it is the formula's for one region."""
        record = next(record for record in records(3) if len(record.regions) == 1 and not record.regions[0].targets)
        self.assertEqual(bound(record), 2)

    def test_repaired(self) -> None:
        """Repaired blocks have right checks."""
        store = pack(list(range(300)))
        broken = store[:10] + b"\xff" + store[11:]
        self.assertTrue(printed(broken).startswith("refused 3 "))
        payload(damage.repaired(broken))

    def test_length(self) -> None:
        """A store of another length is refused with 1."""
        rng = random.Random(1)
        for _ in range(20):
            self.assertNotEqual(len(damage.length(rng, pack([0] * 10))), 512)

    def test_ways(self) -> None:
        """Each way to make a run wrong has its own name."""
        found = [name for name, _, _ in ways()]
        self.assertEqual((len(found), len(set(found))), (34, 34))


class Commands(unittest.TestCase):
    """What is given on the command line."""

    def run_module(self, *words: str) -> subprocess.CompletedProcess:
        """A command in beside/."""
        return subprocess.run([sys.executable, "-m", *words], cwd=FOLDER, capture_output=True, text=True, input="", timeout=60)

    def test_help(self) -> None:
        """Each command answers --help, and does nothing else."""
        for name in COMMANDS:
            told = self.run_module(f"generate.{name}", "--help")
            self.assertEqual((told.returncode, told.stderr), (0, ""), name)
            self.assertIn(f"python3 -m generate.{name}", told.stdout)
        self.assertIn("python3 -m reading", self.run_module("reading", "--help").stdout)

    def test_nonsense(self) -> None:
        """Nonsense is refused with a sentence and status 2."""
        for words in (("generate.claims", "x", "1"), ("generate.large",), ("generate.sheets", "/"), ("reading", "nothing")):
            told = self.run_module(*words)
            self.assertEqual((told.returncode, told.stdout), (2, ""), words)
            self.assertNotIn("Traceback", told.stderr)


if __name__ == "__main__":
    unittest.main()
