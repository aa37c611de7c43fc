"""What bench/ does without rt, the Rust or a board: packing, summing up, putting into a page, counting lines, drawing."""

import contextlib
import io
import pathlib
import subprocess
import sys
import tempfile
import unittest

import packed
import page
import summary

from tools.tests.loading import script

FOLDER = pathlib.Path(__file__).resolve().parents[1]
COMMANDS = "accept", "board/run", "lines", "measured/build", "nesting", "plot", "run", "sizes", "times"
MODULES = "packed.py", "page.py", "board/pack.py", "board/summary.py"


class Packed(unittest.TestCase):
    """Stores led by their length."""

    def test_packed(self) -> None:
        """Three bytes of length, then the store."""
        self.assertEqual(packed.packed(b"abc"), b"\3\0\0abc")

    def test_lists(self) -> None:
        """A list is full before the next begins; each has its end."""
        self.assertEqual(packed.lists([b"abc", b"de"], 14), [b"\3\0\0abc\2\0\0de\xff\xff\xff"])
        self.assertEqual(packed.lists([b"abc", b"de"], 13), [b"\3\0\0abc\xff\xff\xff", b"\2\0\0de\xff\xff\xff"])

    def test_chains(self) -> None:
        """The four chains are whole stores."""
        found = list(packed.stores(["chains"]))
        self.assertEqual(len(found), 4)
        self.assertTrue(all(len(store) % 512 == 0 for store in found))

    def test_no_file(self) -> None:
        """A file that is not there is told with status 2."""
        with contextlib.redirect_stderr(io.StringIO()) as said, self.assertRaises(SystemExit) as ended:
            list(packed.stores(["/nowhere"]))
        self.assertEqual(ended.exception.code, 2)
        self.assertIn("/nowhere", said.getvalue())


class Pages(unittest.TestCase):
    """What was measured, put into a page."""

    def test_put(self) -> None:
        """A table as it is, anything else as a block; the rest of the page stays."""
        with tempfile.TemporaryDirectory() as made:
            folder = pathlib.Path(made)
            (folder / "lines.txt").write_text("| a |\n")
            (folder / "sizes.txt").write_text("1 byte\n")
            text = "top\n<!-- measured: {} -->\nold\n<!-- end -->\nbottom\n"
            (folder / "PAGE.md").write_text(text.format("lines") + text.format("sizes"))
            page.main(made, str(folder / "PAGE.md"))
            told = (folder / "PAGE.md").read_text()
        self.assertNotIn("old", told)
        self.assertIn("<!-- measured: lines -->\n\n| a |\n\n<!-- end -->\nbottom\n", told)
        self.assertIn("```text\n1 byte\n```\n", told)


class Summary(unittest.TestCase):
    """The board's lines."""

    LINES = ["0 0 9 100 200 300 5 6 7"] * 4 + ["0 0 9 100 200 400 5 6 8"]

    def test_line(self) -> None:
        """Nine numbers: sheet, stack and instructions among them; anything else is refused."""
        line = summary.Line.read(self.LINES[-1])
        self.assertEqual((line.sheet, line.stack, line.took), (9, [100, 200, 400], [5, 6, 8]))
        with self.assertRaises(ValueError):
            summary.Line.read("1 2 3")

    def test_room(self) -> None:
        """What the state, the deepest stack and the caller leave, in words."""
        command = [sys.executable, str(FOLDER / "board" / "summary.py"), "--room", "1000", "2000"]
        told = subprocess.run(command, input="\n".join(self.LINES) + "\n", capture_output=True, text=True)
        self.assertEqual(told.stdout, f"{(2000 - 1000 - 400 - 256) // 4}\n")

    def test_below(self) -> None:
        """A stack may be as deep as its bound; a byte less, and it is told with status 1."""
        for bounds, status in (["100", "200", "400"], 0), (["100", "200", "399"], 1), (["99", "200", "400"], 1):
            command = [sys.executable, str(FOLDER / "board" / "summary.py"), "--below", *bounds]
            told = subprocess.run(command, input="\n".join(self.LINES) + "\n", capture_output=True, text=True)
            self.assertEqual(told.returncode, status, bounds)

    def test_nonsense(self) -> None:
        """Too few lines, and no numbers, are refused with status 2."""
        for given in (["--room", "a", "b"], ["--room", "1", "2"], ["--room"], []):
            command = [sys.executable, str(FOLDER / "board" / "summary.py"), *given]
            told = subprocess.run(command, input="1\n", capture_output=True, text=True)
            self.assertEqual((told.returncode, told.stdout), (2, ""), given)


class Plot(unittest.TestCase):
    """Axes and pictures."""

    def test_axis(self) -> None:
        """The least number is at the start, the most at the end; a power of ten lies between by its logarithm."""
        plot = script(FOLDER / "plot")
        axis = plot.Axis(0, 100, 1, 100)
        self.assertEqual([axis.at(value) for value in (1, 10, 100)], [0, 50, 100])
        self.assertEqual(axis.marks(), [1, 10, 100])
        self.assertEqual(plot.Axis(0, 100, 0, 10, False).at(5), 50)
        self.assertEqual(plot.named(1000), "1,000")

    def test_picture(self) -> None:
        """Plots stand side by side in one picture."""
        plot = script(FOLDER / "plot")
        one = plot.Plot("Title", "across", "up", (1, 10), (1, 10))
        one.dots([(1, 1), (10, 10)], plot.OURS)
        told = plot.picture([one, one])
        self.assertTrue(told.startswith("<svg ") and told.endswith("</svg>\n"))
        self.assertEqual(told.count("Title"), 2)


class Commands(unittest.TestCase):
    """What a person types."""

    def test_help(self) -> None:
        """Each command answers --help."""
        for name in COMMANDS:
            told = subprocess.run([FOLDER / name, "--help"], capture_output=True, text=True, timeout=60)
            self.assertEqual((told.returncode, told.stderr), (0, ""), name)
            self.assertIn(name.rpartition("/")[2], told.stdout)
        for name in MODULES:
            told = subprocess.run([sys.executable, FOLDER / name, "--help"], capture_output=True, text=True, timeout=60)
            self.assertEqual((told.returncode, told.stderr), (0, ""), name)

    def test_lines(self) -> None:
        """A row for each crate of crates.txt, and one for all."""
        told = subprocess.run([FOLDER / "lines", "--table"], capture_output=True, text=True, timeout=60)
        crates = [line for line in (FOLDER.parent / "crates.txt").read_text().splitlines() if ":" in line and not line.startswith("#")]
        rows = [line for line in told.stdout.splitlines() if line.startswith("| ")]
        self.assertEqual(len(rows), len(crates) + 2)
        self.assertTrue(rows[-1].startswith("| all "))


if __name__ == "__main__":
    unittest.main()
