"""Faults are told all at once, at their places, in text that is safe to print; streams that cannot be used end in a sentence."""

import os
import re
import subprocess
import tempfile
import unittest

from .support import CATALOGUE, ROOT, WORKBENCH, command, needs_nest, needs_show, programs, put
from .test_assemble import SWEEP
from .test_silent import catalogue, faults_of

from rukvetta.assemble import assemble
from rukvetta.explain import explain
from rukvetta.routine import Routine

OLD = "assemble", "explain", "report", "check-catalogue"


class AllAtOnce(unittest.TestCase):
    def places(self, source: bytes) -> list[tuple[int, int]]:
        return [(line, column) for line, column, _ in faults_of(source)]

    def test_names_values_and_numbers(self) -> None:
        source = SWEEP.replace(b"below(next", b"belw(nxt").replace(b"test 2", b"test 70000").replace(b"limit 401", b"limit 0")
        self.assertEqual(self.places(source), [(6, 25), (12, 33), (15, 12), (15, 17)])

    def test_lines_that_do_not_parse(self) -> None:
        source = (
            SWEEP.replace(b"type hertz 2", b"type hertz two")
            .replace(b"branch to sweep", b"branch tow sweep")
            .replace(b"    set(f)\n", b"    set(f\n")
            .replace(b"region done", b"region done 7")
        )
        self.assertEqual(self.places(source), [(2, 12), (11, 12), (13, 10), (18, 13)])

    def test_both_kinds(self) -> None:
        source = SWEEP.replace(b"branch to sweep", b"branch tow sweep").replace(b"belw", b"below").replace(b"add(f", b"ad(f")
        self.assertEqual(self.places(source), [(11, 12), (14, 12)])

    def test_regions_without_a_terminator(self) -> None:
        source = b"record\nregion a\nregion b\nregion c\n    retrun\n"
        self.assertEqual(self.places(source), [(3, 1), (4, 1), (5, 5)])

    def test_what_only_follows_from_a_fault_is_not_told(self) -> None:
        """A name that a faulty line would have defined is not unknown as well."""
        for good, bad in (
            (b"opcode add 3 : hertz cost 2", b"opcode add three : hertz cost 2"),
            (b"type hertz 2", b"type hertz"),
            (b"constant from : hertz", b"constant from hertz"),
            (b"next = add(f, step)", b"next = add(f step)"),
            (b"region sweep in f : hertz limit 401", b"region sweep in f : limit 401"),
            (b"next = add(", b"next = ad("),
            (b"type hertz 2", b"type hertz 256"),
            (b"select bool more to", b"select bool more too"),
            (b"record entry start", b"record entry start 7"),
        ):
            with self.subTest(bad=bad):
                self.assertIn(good, SWEEP)
                self.assertEqual(len(faults_of(SWEEP.replace(good, bad))), 1, faults_of(SWEEP.replace(good, bad)))

    def test_one_bad_line_is_one_fault(self) -> None:
        """Each line of the catalogue's sources, spoilt at its end: one fault, at that line."""
        spoilt = 0
        for name, source in catalogue().items():
            lines = source.split(b"\n")
            for at, line in enumerate(lines):
                code = line.split(b"#")[0].rstrip()
                for end in (b" %", b";", b" ( (") if code else ():
                    found = faults_of(b"\n".join([*lines[:at], code + end, *lines[at + 1 :]]))
                    self.assertEqual([place for place, _, _ in found], [at + 1], (name, code, found))
                    spoilt += 1
        self.assertGreater(spoilt, 3000)

    def test_the_command_tells_them_all(self) -> None:
        status, store, said = command("assemble", data=SWEEP.replace(b"below(next", b"belw(nxt"))
        self.assertEqual((status, store), (1, b""))
        self.assertEqual(re.findall(r"line \d+, column \d+", said), ["line 15, column 12", "line 15, column 17"])

    def test_very_many(self) -> None:
        status, _, said = command("assemble", data=b"record\nregion a\n" + b"    7 cost 0 (\n" * 9000 + b"    return\n")
        self.assertEqual(status, 1)
        self.assertGreater(said.count("found "), 40)
        self.assertLess(said.count("found "), 60)


class Places(unittest.TestCase):
    def test_a_byte_order_mark_is_read_over(self) -> None:
        self.assertEqual(assemble(b"\xef\xbb\xbf" + SWEEP)[0], assemble(SWEEP)[0])
        bad = SWEEP.replace(b"# A comment", b"tipe x 1")
        self.assertEqual(faults_of(b"\xef\xbb\xbf" + bad), faults_of(bad))
        status, _, said = command("assemble", data=b"\xef\xbb\xbf" + bad)
        self.assertEqual((status, said.split("\n")[1:3]), (1, ["    tipe x 1", "    ^"]))

    def test_too_many_regions(self) -> None:
        source = b"record\n" + b"".join(b"region r%d\n    return\n" % k for k in range(35))
        self.assertEqual(faults_of(source), [(2 * 32 + 2, 8, "found one region more than 32, expected at most 32")])


class Printing(unittest.TestCase):
    """What a name has is shown, and not sent to the terminal."""

    NASTY = "red\x1b[31m\x07\u202e\nname"

    def setUp(self) -> None:
        folder = tempfile.TemporaryDirectory()
        self.addCleanup(folder.cleanup)
        self.folder = folder.name

    def shown(self, status: int, *words: str) -> None:
        got, out, said = command(*words)
        self.assertEqual(got, status, said)
        text = out.decode() + said
        self.assertNotRegex(text, r"[\x00-\x09\x0b-\x1f\u202e]")
        self.assertIn(r"red\x1b[31m\x07\u202e\nname", text)

    @needs_nest
    def test_file_names(self) -> None:
        path = put(os.path.join(self.folder, self.NASTY + ".routine"), b"record\nregion a\nretrun\n")
        page = os.path.join(self.folder, "p.html")
        self.shown(1, "explain", path)
        self.shown(1, "report", path, "-o", page)
        self.shown(1, "check-catalogue", self.folder)
        for arguments in ("explain", path + "x"), ("report", path + "x", "-o", page), ("check-catalogue", path + "x"):
            self.shown(2, *arguments)
        self.shown(2, "report", path, "-o", path)

    @needs_nest
    def test_arguments_programs_and_sheets(self) -> None:
        source = os.path.join(CATALOGUE, "case-a.routine")
        self.shown(2, "explain", source, "--" + self.NASTY)
        self.shown(3, "explain", source, "--programs", os.path.join(self.folder, self.NASTY))
        put(os.path.join(self.folder, "a.routine"), b"record\nregion a\nreturn\n")
        put(os.path.join(self.folder, "a.sheet"), self.NASTY.replace("\n", r"\n").replace("\u202e", r"\u202e").encode())
        self.shown(1, "check-catalogue", self.folder)


@needs_show
class Check(unittest.TestCase):
    def test_the_check_that_would_fit_is_not_offered(self) -> None:
        store = bytearray(assemble(SWEEP)[0])
        right = int.from_bytes(store[508:], "little")
        store[40] ^= 1
        fits = right + (41 if store[40] & 1 else -41)
        sentences, status = explain(Routine("r", bytes(store)), programs)
        self.assertEqual((status, sentences[0]), (1, "refused 3 0"))
        self.assertNotIn(f"{fits:,}", " ".join(sentences))
        self.assertNotIn("would be allowed", " ".join(sentences))
        self.assertIn("Take the store from its source again", sentences[2])


@needs_nest
class Streams(unittest.TestCase):
    """Standard input and output that are closed, endless, full or a folder; by the shell, as a person would."""

    def run_shell(self, line: str) -> tuple[int, str]:
        """The status of a line, and what it says on standard error."""
        env = {
            **os.environ,
            "RUKVETTA_PROGRAMS": programs.folder,
            "PATH": os.pathsep.join((WORKBENCH, os.environ["PATH"])),
            "R": os.path.join(CATALOGUE, "case-a.routine"),
            "C": CATALOGUE,
            "RUKVETTA": os.path.join(ROOT, "bin", "rukvetta"),
        }
        with tempfile.TemporaryDirectory() as folder:
            done = subprocess.run(
                line, shell=True, cwd=folder, env=env, stdin=subprocess.DEVNULL, capture_output=True, check=False, timeout=120
            )
        self.assertNotIn(b"Traceback", done.stderr + done.stdout)
        self.assertNotIn(b"Exception ignored", done.stderr)
        return done.returncode, done.stderr.decode()

    def says(self, status: int, said: str, line: str) -> None:
        with self.subTest(line=line):
            self.assertEqual(self.run_shell(line), (status, said))

    def test_input(self) -> None:
        for command_line in "assemble", "explain -", "report - -o p.html":
            self.says(2, "standard input: it is closed\n", f"{command_line} <&-")
            self.says(2, "standard input: Is a directory\n", f"{command_line} < /")
        status, said = self.run_shell("assemble < /dev/zero")
        self.assertEqual(
            (status, said.split("\n")[0]),
            (1, "source: line 1, column 1: found a source of more than 262,144 bytes, expected a shorter one"),
        )
        self.says(1, "-: refused 1 0\n", "report - -o p.html < /dev/zero")
        self.says(1, "/dev/zero: refused 1 0\n", "report /dev/zero -o p.html")
        self.says(1, "", "explain - < /dev/zero")
        self.says(1, "", "explain /dev/zero | grep -q 'The store has more than 262,144 bytes' && exit 1")

    def test_output(self) -> None:
        closed, full = "standard output: it is closed\n", "standard output: No space left on device\n"
        for line in "assemble < $R", "explain $R", "check-catalogue $C", "$RUKVETTA nest $R", "$RUKVETTA --version":
            self.says(2, closed, f"{line} >&-")
            self.says(2, full, f"{line} > /dev/full")
        self.says(0, "", "report $R -o p.html >&-")
        self.says(0, "", "report $R -o p.html <&- >&- 2>&-")
        self.says(1, "", "assemble < /dev/null 2>&-")

    def test_a_reader_that_leaves(self) -> None:
        for line in "explain $R", "check-catalogue $C", "$RUKVETTA nest $R":
            self.says(0, "", f"{line} | true")
