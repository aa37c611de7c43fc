"""bin/rukvetta: each command, its statuses, the JSON document beside the schema of docs/JSON.md, and the version in one place."""

import json
import os
import pty
import re
import shutil
import subprocess
import tempfile
import unittest

from .support import CATALOGUE, ROOT, command, needs_nest, programs, put, vectors
from .test_assemble import SWEEP

from rukvetta.assemble import assemble
from rukvetta.difference import Same, read_sheet, sheet_changes, sheet_lines

RUKVETTA = "../bin/rukvetta"
KINDS = {"object": dict, "array": list, "string": str, "integer": int, "number": (int, float), "null": type(None)}


def page(*path: str) -> str:
    with open(os.path.join(ROOT, *path), encoding="utf-8") as file:
        return file.read()


def stored(path: str) -> bytes:
    with open(path, "rb") as file:
        return file.read()


def schema() -> dict:
    return json.loads(re.findall(r"```json\n(.*?)```", page("workbench", "docs", "JSON.md"), re.S)[0])


def wrong_in(value: object, wanted: dict, where: str = "document") -> list[str]:
    """Where a value is not as a schema says."""
    if "enum" in wanted:
        return [] if any(value == one and type(value) is type(one) for one in wanted["enum"]) else [f"{where}: {value!r}"]
    kinds = wanted["type"] if isinstance(wanted["type"], list) else [wanted["type"]]
    if isinstance(value, bool) or not isinstance(value, tuple(kind for one in kinds for kind in (KINDS[one],))):
        return [f"{where}: {value!r} is not {kinds}"]
    if isinstance(value, list):
        return [text for k, item in enumerate(value) for text in wrong_in(item, wanted["items"], f"{where}[{k}]")]
    if isinstance(value, dict):
        known = wanted["properties"]
        found = [f"{where}: no {name}" for name in wanted["required"] if name not in value]
        found += [f"{where}: {name} is too much" for name in value if name not in known]
        return found + [text for name in value if name in known for text in wrong_in(value[name], known[name], f"{where}.{name}")]
    return []


class Folder(unittest.TestCase):
    def setUp(self) -> None:
        folder = tempfile.TemporaryDirectory()
        self.addCleanup(folder.cleanup)
        self.folder = folder.name

    def path(self, *names: str) -> str:
        return os.path.join(self.folder, *names)

    def rukvetta(self, *arguments: str, data: bytes = b"", folder: str | None = None) -> tuple[int, str, str]:
        status, out, said = command(RUKVETTA, *arguments, data=data, folder=folder)
        self.assertNotIn("Traceback", said)
        return status, out.decode(), said


@needs_nest
class Commands(Folder):
    """Each command, as a person would use it."""

    def test_help_and_version(self) -> None:
        status, out, _ = self.rukvetta("--help")
        self.assertEqual(status, 0)
        for name in "nest", "show", "assemble", "explain", "report", "check", "diff":
            self.assertRegex(out, rf"(?m)^    {name} ")
            status, text, _ = self.rukvetta(name, "--help")
            self.assertEqual(status, 0)
            self.assertIn("--json", text)
        self.assertEqual(self.rukvetta("--version"), (0, f"rukvetta {page('VERSION').strip()}\n", ""))
        for arguments in (), ("nonsense",), ("nest", "--nonsense"), ("assemble", "x"), ("check",), ("diff", "a"):
            self.assertEqual(self.rukvetta(*arguments)[0], 2, arguments)

    def test_nest_and_show(self) -> None:
        source = os.path.join(CATALOGUE, "case-a.routine")
        store = put(self.path("a.store"), assemble(page("workbench", "catalogue", "case-a.routine").encode())[0])
        sheet, shown = page("workbench", "catalogue", "case-a.sheet"), programs.show(assemble(SWEEP)[0])
        self.assertEqual(self.rukvetta("nest", source), (0, sheet, ""))
        self.assertEqual(self.rukvetta("nest", store), (0, sheet, ""))
        self.assertEqual(self.rukvetta("show", "-", data=SWEEP), (0, shown, ""))
        self.assertEqual(self.rukvetta("show", data=SWEEP), (0, shown, ""))
        self.assertEqual(self.rukvetta("nest", store, source), (0, f"{store}:\n{sheet}\n{source}:\n{sheet}", ""))
        self.assertEqual(self.rukvetta("nest", os.path.join(CATALOGUE, "calibration.routine")), (1, "refused 11 0\n", ""))
        self.assertEqual(self.rukvetta("nest", store, folder=self.folder)[0], 3)
        self.assertEqual(self.rukvetta("nest", self.path("none")), (2, "", f"{self.path('none')}: No such file or directory\n"))

    def test_a_terminal_is_told_that_it_is_read(self) -> None:
        ours, theirs = pty.openpty()
        done = subprocess.Popen(
            [os.path.join(ROOT, "bin", "rukvetta"), "nest", "--programs", programs.folder],
            stdin=theirs,
            stdout=subprocess.PIPE,
            stderr=subprocess.PIPE,
        )
        os.write(ours, b"record\nregion a\nreturn\n\x04")
        out, said = done.communicate(timeout=60)
        os.close(ours)
        os.close(theirs)
        self.assertEqual((done.returncode, out.split(b" ")[0]), (0, b"whole"))
        self.assertEqual(said, b"reading standard input, a terminal; Ctrl-D ends it\n")

    def test_a_progress_line_stands_beside_the_text(self) -> None:
        """Standard output is a file, standard error a terminal: the text goes to the one, the line to the other."""
        paths = [os.path.join(CATALOGUE, name) for name in sorted(os.listdir(CATALOGUE)) if name.endswith(".routine")][:6]
        for words, wanted in (["nest", *paths], b"whole figure"), (["report", *paths, "-o", self.path("i.html")], b""):
            ours, theirs = pty.openpty()
            done = subprocess.Popen(
                [os.path.join(ROOT, "bin", "rukvetta"), *words, "--programs", programs.folder],
                stdout=subprocess.PIPE,
                stderr=theirs,
                env={**os.environ, "TERM": "xterm", "COLUMNS": "100"},
            )
            os.close(theirs)
            out = done.communicate(timeout=60)[0]
            shown = b""
            try:
                while part := os.read(ours, 65536):
                    shown += part
            except OSError:  # the terminal's other end is closed
                pass
            os.close(ours)
            self.assertIn(wanted, out)
            self.assertIn(b"6/6", shown)
            self.assertNotIn(b"whole figure", shown)

    def test_it_decides_nothing_itself(self) -> None:
        """What is printed is what the programs answer, whatever that is."""
        for name, text in ("nest", "whole figure 5 attempts 1 twice 0"), ("show", "refused 8 3"):
            put(self.path(name), f"#!/bin/sh\necho {text}\n".encode())
            os.chmod(self.path(name), 0o755)
        self.assertEqual(self.rukvetta("nest", data=SWEEP, folder=self.folder), (0, "whole figure 5 attempts 1 twice 0\n", ""))
        self.assertEqual(self.rukvetta("show", data=SWEEP, folder=self.folder), (1, "refused 8 3\n", ""))

    def test_assemble_writes_nothing_where_it_fails(self) -> None:
        out = self.path("a.store")
        source = put(self.path("a.routine"), SWEEP)
        self.assertEqual(self.rukvetta("assemble", source, "-o", out), (0, "", ""))
        self.assertEqual(stored(out), assemble(SWEEP)[0])
        put(source, SWEEP.replace(b"below(", b"belw("))
        status, _, said = self.rukvetta("assemble", source, "-o", out)
        self.assertEqual(status, 1)
        self.assertIn(f"{source}: line 15, column 12: found `belw`", said)
        self.assertEqual(stored(out), assemble(SWEEP)[0])  # as it was
        self.assertEqual(self.rukvetta("assemble", source, "-o", self.path("b.store"))[0], 1)
        self.assertEqual(sorted(os.listdir(self.folder)), ["a.routine", "a.store"])
        self.assertEqual(self.rukvetta("assemble", source, "-o", self.path("none", "b.store"), data=SWEEP)[0], 1)
        self.assertEqual(self.rukvetta("assemble", "-", "-o", self.path("none", "b.store"), data=SWEEP)[0], 2)
        self.assertEqual(command(RUKVETTA, "assemble", "-", "-o", "-", data=SWEEP), (0, assemble(SWEEP)[0], ""))

    def test_the_old_commands_say_the_same(self) -> None:
        source = os.path.join(CATALOGUE, "ramp-nested.routine")
        self.assertEqual(command("explain", source), command(RUKVETTA, "explain", source))
        self.assertEqual(command("check-catalogue", CATALOGUE), command(RUKVETTA, "check", CATALOGUE))
        for name, words in ("report", ["report"]), (RUKVETTA, ["report"]):
            out = self.path("p.html")
            self.assertEqual(command(name, *words[name == "report" :], source, "-o", out)[0], 0)


@needs_nest
class Check(Folder):
    def setUp(self) -> None:
        super().setUp()
        os.makedirs(self.path("some", "deep", "er"))
        self.top, self.deep = self.path("some"), self.path("some", "deep", "er")
        for name in "case-a.routine", "case-a.sheet":
            shutil.copy(os.path.join(CATALOGUE, name), self.top)
        for name in "sweep-markers.routine", "sweep-markers.sheet":
            shutil.copy(os.path.join(CATALOGUE, name), self.deep)

    def last(self, *options: str, **more: str) -> tuple[int, str, str]:
        status, out, said = self.rukvetta("check", self.top, *options, **more)
        return status, out.splitlines()[-1], out + said

    def change(self) -> None:
        """One instruction more in the deeper of the two."""
        text = page(self.deep, "sweep-markers.routine")
        put(os.path.join(self.deep, "sweep-markers.routine"), text.replace("    next = add(", "    wait\n    next = add(").encode())

    def test_subfolders(self) -> None:
        status, last, text = self.last()
        self.assertEqual((status, last), (0, "2 passed, 0 failed"))
        self.assertIn("deep/er/sweep-markers", text)

    def test_update_shows_and_takes_yes(self) -> None:
        self.change()
        sheet = os.path.join(self.deep, "sweep-markers.sheet")
        before = page(sheet)
        status, last, text = self.last("--update")
        self.assertEqual(status, 1)
        for said in (
            f"{sheet}:",
            "  - whole figure 96078 attempts 21 twice 0",
            "  + whole figure 106128 attempts 21 twice 0",
            "Nothing is written: standard input is no terminal to ask on, and there is no --yes.",
        ):
            self.assertIn(said, text)
        self.assertEqual(page(sheet), before)
        status, last, _ = self.last("--update", "--yes")
        self.assertEqual((status, last), (0, "2 passed, 0 failed"))
        self.assertEqual(self.last()[0], 0)
        self.assertIn("figure 106128", page(sheet))

    def test_update_asks(self) -> None:
        self.change()
        for answer, status, figure in (b"n\n", 1, "96078"), (b"y\n", 0, "106128"):
            ours, theirs = pty.openpty()
            done = subprocess.Popen(
                [os.path.join(ROOT, "bin", "rukvetta"), "check", self.top, "--update", "--programs", programs.folder],
                stdin=theirs,
                stdout=subprocess.PIPE,
                stderr=subprocess.PIPE,
            )
            os.write(ours, answer)
            out, _ = done.communicate(timeout=60)
            os.close(ours)
            os.close(theirs)
            self.assertIn(b"Write 1 sheet? [y/N]", out)
            self.assertEqual(done.returncode, status)
            self.assertIn(figure, page(self.deep, "sweep-markers.sheet"))

    def test_update_writes_no_refusal(self) -> None:
        shutil.copy(os.path.join(CATALOGUE, "calibration.routine"), self.top)
        self.assertEqual(self.last("--update", "--yes")[:2], (1, "2 passed, 1 failed"))
        self.assertFalse(os.path.exists(self.path("some", "calibration.sheet")))


@needs_nest
class Diff(Folder):
    def diff(self, old: bytes, new: bytes, ending: str = ".routine") -> tuple[int, list[str]]:
        one, other = put(self.path("a" + ending), old), put(self.path("b" + ending), new)
        status, out, said = self.rukvetta("diff", one, other)
        self.assertEqual(said, "")
        return status, out.splitlines()

    def test_the_same(self) -> None:
        self.assertEqual(self.diff(SWEEP, SWEEP), (0, []))
        moved = SWEEP.replace(b"region done\n    return\n", b"").replace(b"region start\n", b"region done\n    return\nregion start\n")
        self.assertEqual(self.diff(SWEEP, moved), (0, []))
        for name, other in (b"from", b"begin"), (b"sweep", b"tone"), (b"next", b"then"), (b"hertz", b"hz"):  # names are no difference
            self.assertEqual(self.diff(SWEEP, SWEEP.replace(name, other)), (0, []), name)

    def test_one_instruction_more(self) -> None:
        """A line for it and two for the figure; in the sheets as text some ten lines differ, in the records more."""
        old = page("workbench", "catalogue", "sweep-markers.routine").encode()
        new = old.replace(b"    next = add(", b"    wait\n    next = add(")
        expected = [
            "- whole figure 96078 attempts 21 twice 0",
            "+ whole figure 106128 attempts 21 twice 0",
            "region step-on:",
            "+ wait cost 50",
        ]
        self.assertEqual(self.diff(old, new), (1, expected))
        status, lines = self.diff(assemble(old)[0], assemble(new)[0], ".store")
        self.assertEqual((status, lines), (1, [*expected[:2], "region 5:", "+ 25 cost 50"]))
        sheets = [programs.nest(assemble(source)[0]).encode() for source in (old, new)]
        self.assertEqual(self.diff(*sheets, ".sheet"), (1, [*expected[:2], "+   5.new0/25/0/-"]))

    def test_one_region_more(self) -> None:
        """All numbers behind it move, and none of them is told."""
        new = SWEEP.replace(
            b"    branch to sweep(from)\nregion sweep",
            b"    branch to pause\nregion pause\n    add(from, from) cost 9\n    branch to sweep(from)\nregion sweep",
        )
        status, lines = self.diff(assemble(SWEEP)[0], assemble(new)[0], ".store")
        self.assertEqual(status, 1)
        self.assertEqual(
            lines,
            [
                "- whole figure 7619 attempts 7 twice 0",
                "+ whole figure 7628 attempts 8 twice 0",
                "region 0:",
                "- branch to 1",
                "- pass 1 in c0",
                "+ branch to new1",
                "region new1, which is new:",
                "+ in - limit 1",
                "+ new d1.0 = 3(c0, c0) : 2 cost 9",
                "+ branch to 1",
                "+ pass 1 in c0",
            ],
        )

    def test_a_change_in_each_part(self) -> None:
        for good, bad, told in (
            (b"limit 401", b"limit 400", "+ in 2 limit 400"),
            (b"test 2", b"test 3", "+ record entry start test 3"),
            (b"cost 12", b"cost 13", "+ set(f) cost 13"),
            (b"below(next,", b"below(f,", "+ more = below(f, stop)"),
            (b"to sweep(next), done", b"to sweep(f), done", "+ pass sweep in f"),
            (b"    return", b"    exit 9", "+ exit 9"),
        ):
            with self.subTest(bad=bad):
                status, lines = self.diff(SWEEP, SWEEP.replace(good, bad))
                self.assertEqual(status, 1)
                self.assertTrue(any(line.startswith(told) for line in lines), lines)

    def test_a_sheet_and_a_source(self) -> None:
        one, other = put(self.path("a.sheet"), programs.nest(assemble(SWEEP)[0]).encode()), put(self.path("a.routine"), SWEEP)
        self.assertEqual(self.rukvetta("diff", one, other), (0, "", ""))
        put(other, SWEEP.replace(b"limit 401", b"limit 1"))
        self.assertEqual(self.rukvetta("diff", one, other)[0], 1)

    def test_faults_and_refusals(self) -> None:
        self.assertEqual(self.rukvetta("diff", put(self.path("a.routine"), b"rec"), put(self.path("b.routine"), SWEEP))[0], 1)
        self.assertEqual(self.diff(b"\0" * 512, b"", ".store"), (1, ["- refused 4 0", "+ refused 1 0"]))
        self.assertEqual(self.diff(b"junk\n", b"more\nof it\n", ".sheet"), (1, ["- junk", "+ more", "+ of it"]))

    def test_sheets_of_the_list(self) -> None:
        """Each sheet is read and told again as it is, and differs in nothing from itself; the next one differs in something."""
        before = ""
        for _, sheet in vectors("sheets.vectors"):
            lines = sheet_lines(read_sheet(sheet), Same())
            told = re.sub(r"(block \d+)\n  ", r"\1 ", "\n".join(lines)).replace("\n  ", ",") + "\n"
            self.assertEqual(told, sheet)
            self.assertEqual([], sheet_changes(sheet, sheet))
            self.assertEqual(bool(sheet_changes(before, sheet)), before != sheet)
            before = sheet


@needs_nest
class Json(Folder):
    def document(self, status: int, *arguments: str, **more: object) -> dict:
        got, out, said = self.rukvetta(*arguments, "--json", **more)
        self.assertEqual(got, status, out + said)
        made = json.loads(out)
        self.assertEqual(wrong_in(made, schema()), [])
        self.assertEqual((made["status"], made["command"]), (status, arguments[0]))
        return made

    def test_the_schema_catches_what_is_wrong(self) -> None:
        good = self.document(0, "nest", os.path.join(CATALOGUE, "case-a.routine"))
        for field, value in ("schema", 2), ("status", "0"), ("messages", [1]), ("routines", {}), ("passed", "3"), ("status", True):
            self.assertTrue(wrong_in({**good, field: value}, schema()), field)
        self.assertTrue(wrong_in({name: good[name] for name in good if name != "changes"}, schema()))
        self.assertTrue(wrong_in({**good, "more": 1}, schema()))
        self.assertTrue(wrong_in({**good, "routines": [{**good["routines"][0], "outcome": "good"}]}, schema()))

    def test_each_command(self) -> None:
        good, refused = os.path.join(CATALOGUE, "case-a.routine"), os.path.join(CATALOGUE, "calibration.routine")
        bad = put(self.path("bad.routine"), SWEEP.replace(b"below(next", b"belw(nxt"))
        made = self.document(1, "nest", good, refused, bad, "--clock", "10MHz")
        one, two, three = made["routines"]
        self.assertEqual(
            (one["outcome"], one["figure"], one["seconds"], one["sheet"][1]), ("whole", 11, 1.1e-06, "region 0 in - kids 0,3 out n3.0")
        )
        self.assertEqual((two["outcome"], two["refusal"]), ("refused", {"number": 11, "word": 0}))
        self.assertEqual([(fault["line"], fault["column"]) for fault in three["faults"]], [(15, 12), (15, 17)])
        self.assertEqual(self.document(0, "show", good)["routines"][0]["record"][0], "record regions 4 entry 0 test 2 constants 2,2")
        self.assertEqual(self.document(0, "assemble", good, "-o", self.path("a.store"))["routines"][0]["written"], self.path("a.store"))
        self.assertEqual(self.document(1, "assemble", bad, "-o", self.path("b.store"))["routines"][0]["written"], None)
        self.document(2, "assemble", good, "-o", "-")
        self.assertIn("It nests whole", " ".join(self.document(0, "explain", good)["routines"][0]["sentences"]))
        self.assertEqual(self.document(1, "explain", refused)["routines"][0]["refusal"]["number"], 11)
        self.assertEqual(len(self.document(1, "explain", bad)["routines"][0]["faults"]), 2)
        made = self.document(1, "report", good, refused, "-o", self.path("i.html"))
        self.assertEqual([one["written"] for one in made["routines"]], [self.path("i", "case-a.html"), self.path("i", "calibration.html")])
        self.document(2, "report", self.path("none"), "-o", self.path("i.html"))
        made = self.document(0, "check", CATALOGUE)
        self.assertEqual((made["passed"], made["failed"], len(made["routines"])), (37, 0, 37))
        self.assertEqual(self.document(1, "diff", good, refused)["changes"][0], {"sign": "-", "text": "whole figure 11 attempts 8 twice 0"})
        made = self.document(1, "check", self.folder, "--update")
        self.assertEqual({one["file"]: len(one["faults"]) for one in made["routines"]}, {self.path("a.store"): 0, bad: 2})
        self.document(3, "nest", good, folder=self.folder)
        self.document(2, "nest", self.path("none"))


class Version(unittest.TestCase):
    """It stands in one file, and all others agree with it."""

    def test_places(self) -> None:
        version = page("VERSION").strip()
        self.assertRegex(version, r"\A\d+\.\d+\.\d+\Z")
        self.assertEqual([], disagreeing(version))
        self.assertEqual(sorted(disagreeing("9.8.7")), ["CHANGELOG.md", "interface/rukvetta.h", "interface/rust/Cargo.toml"])


def disagreeing(version: str) -> list[str]:
    """The files that have another version. Header and page of changes leave out a last 0."""
    short = version.removesuffix(".0")
    places = {
        "interface/rust/Cargo.toml": rf'(?m)^version = "{re.escape(version)}"$',
        "interface/rukvetta.h": rf"\A/\*\n \* Rukvetta {re.escape(short)}:",
    }
    found = [name for name, pattern in places.items() if not re.search(pattern, page(name))]
    newest = re.findall(r"(?m)^## (\d[\d.]*\d),", page("CHANGELOG.md"))[0]
    return found + ["CHANGELOG.md"] * (newest not in (short, version))
