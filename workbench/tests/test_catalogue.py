"""The catalogue, and check-catalogue: the table, the comparison, the last line and the status."""

import os
import pty
import re
import shutil
import subprocess
import tempfile
import unittest

from .support import CATALOGUE, WORKBENCH, command, needs_nest, needs_show, programs, vectors

from rukvetta.assemble import assemble
from rukvetta.facts import clock, duration
from rukvetta.sheet import verdict


def routines() -> list[str]:
    return sorted(name[:-8] for name in os.listdir(CATALOGUE) if name.endswith(".routine"))


def read(name: str) -> bytes:
    with open(os.path.join(CATALOGUE, name), "rb") as file:
        return file.read()


class Catalogue(unittest.TestCase):
    def test_each_routine_is_commented_and_has_its_sheet(self) -> None:
        self.assertGreaterEqual(len(routines()), 24)
        for name in routines():
            self.assertTrue(read(name + ".routine").startswith(b"# "), name)
            self.assertTrue(os.path.exists(os.path.join(CATALOGUE, name + ".sheet")), name)
        self.assertEqual(len(os.listdir(CATALOGUE)), 2 * len(routines()))

    def test_one_for_each_outcome(self) -> None:
        outcomes = {verdict(read(name + ".sheet").decode()).outcome for name in routines()}
        self.assertEqual(outcomes, {"whole", "closed", "leftover", "untouched", "refused 11 0"})

    @needs_show
    def test_all_are_accepted(self) -> None:
        for name in routines():
            self.assertTrue(programs.show(assemble(read(name + ".routine"))[0]).startswith("record"), name)

    def test_clocks(self) -> None:
        self.assertEqual([clock(text) for text in ("20MHz", "100 kHz", "5e6", "1ghz", "50hz")], [2e7, 1e5, 5e6, 1e9, 50])
        self.assertEqual(
            [duration(*pair) for pair in ((11, 1e6), (0, 1e6), (7143324, 1e7), (4011439590, 1e6))], ["11 µs", "0 ns", "714.3 ms", "4011 s"]
        )


@needs_nest
class Check(unittest.TestCase):
    def setUp(self) -> None:
        folder = tempfile.TemporaryDirectory()
        self.addCleanup(folder.cleanup)
        self.folder = os.path.join(folder.name, "some")
        os.mkdir(self.folder)

    def copy(self, *names: str) -> None:
        for name in names:
            shutil.copy(os.path.join(CATALOGUE, name), self.folder)

    def put(self, name: str, data: bytes) -> None:
        with open(os.path.join(self.folder, name), "wb") as file:
            file.write(data)

    def test_the_catalogue_passes(self) -> None:
        status, out, _ = command("check-catalogue", CATALOGUE, "--clock", "10MHz")
        lines = out.decode().splitlines()
        self.assertEqual((status, lines[-1]), (0, f"{len(routines())} passed, 0 failed"))
        self.assertEqual(lines[0].split(), ["routine", "outcome", "figure", "time", "at", "10", "MHz", "attempts", "regions", "words"])
        self.assertEqual([line.split()[0] for line in lines[1:-1]], routines())
        row = next(line for line in lines if line.startswith("case-a"))
        self.assertEqual(row.split(), ["case-a", "whole", "11", "1.1", "µs", "8", "4", "71"])

    def test_the_progress_line(self) -> None:
        """On a terminal the rows come above a line that counts them."""
        ours, theirs = pty.openpty()
        done = subprocess.Popen(
            [os.path.join(WORKBENCH, "check-catalogue"), CATALOGUE, "--programs", programs.folder],
            stdout=theirs,
            stderr=theirs,
            env={**os.environ, "TERM": "xterm", "COLUMNS": "120"},
        )
        os.close(theirs)
        shown = b""
        while True:
            try:
                shown += os.read(ours, 65536)
            except OSError:  # the terminal's other end is closed
                break
        os.close(ours)
        self.assertEqual(done.wait(), 0)
        for said in "37/37", "two-tone-step     whole", "37 passed, 0 failed":
            self.assertIn(said, shown.decode())

    def test_what_fails(self) -> None:
        self.copy("case-a.routine", "case-a.sheet", "case-b.routine", "monitor.routine", "monitor.sheet")
        self.put("case-a.sheet", read("case-a.sheet").replace(b"kids 0,3", b"kids 0,4"))
        self.put("bad.routine", b"record\nregion a\nretrun\n")
        self.put("short.store", b"\0" * 100)
        self.put("short.sheet", b"refused 1 0\n")
        status, out, _ = command("check-catalogue", self.folder)
        text = out.decode()
        self.assertEqual((status, text.splitlines()[-1]), (1, "2 passed, 3 failed"))
        for said in (
            "line 2 of the sheet is `region 0 in - kids 0,3 out n3.0`, expected `region 0 in - kids 0,4 out n3.0`",
            "there is no case-b.sheet beside it",
            "line 3, column 1: found `retrun`",
            "refused 1 0",
        ):
            self.assertIn(said, text)

    def test_the_list_of_sheets(self) -> None:
        """A folder with the 1,147 stores and sheets of the fixed list; one sheet is another."""
        for number, (store, sheet) in enumerate(vectors("sheets.vectors")):
            self.put(f"{number:04d}.store", store)
            self.put(f"{number:04d}.sheet", sheet.encode() if number else b"refused 1 0\n")
        status, out, said = command("check-catalogue", self.folder)
        lines = out.decode().splitlines()
        self.assertEqual((status, lines[-1], said), (1, "1146 passed, 1 failed", ""))
        self.assertIn("expected `refused 1 0`", lines[2])

    def test_sheets_are_written_where_they_are_missing(self) -> None:
        self.put("a.store", assemble(read("case-a.routine"))[0])
        self.assertEqual(command("check-catalogue", self.folder)[0], 1)
        status, out, _ = command("check-catalogue", self.folder, "--write", "--jobs", "1")
        self.assertEqual((status, out.decode().splitlines()[-1]), (0, "1 passed, 0 failed"))
        with open(os.path.join(self.folder, "a.sheet"), "rb") as sheet:
            self.assertEqual(sheet.read(), read("case-a.sheet"))


class Missing(unittest.TestCase):
    def test_an_empty_folder_and_none(self) -> None:
        with tempfile.TemporaryDirectory() as folder:
            status, _, said = command("check-catalogue", folder)
            self.assertEqual(status, 2)
            self.assertIn("there is no file that ends with .routine or .store", said)
            self.assertEqual(command("check-catalogue", os.path.join(folder, "none"))[0], 2)

    def test_without_nest(self) -> None:
        with tempfile.TemporaryDirectory() as folder:
            status, out, said = command("check-catalogue", CATALOGUE, folder=folder)
            self.assertEqual((status, out), (3, b""))
            self.assertTrue(re.match("The program `show` is not in ", said))
