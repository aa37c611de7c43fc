"""The docs say what the commands do: the sources, faults, explanations and sheets in docs/TEN-MINUTES.md are held against them."""

import os
import re
import subprocess
import tempfile
import unittest

from .support import CATALOGUE, ROOT, WORKBENCH, command, needs_nest, needs_show, programs

from rukvetta.assemble import assemble
from rukvetta.command import COMMANDS
from rukvetta.needs import COMMAND

RUKVETTA = "../bin/rukvetta"


def link_tree(folder: str) -> None:
    """Make a folder look like that of the repository."""
    for name in "bin", "workbench", "docs":
        os.symlink(os.path.join(ROOT, name), os.path.join(folder, name))


def run_line(line: str, folder: str) -> subprocess.CompletedProcess[bytes]:
    """Run a line of a page, as a person would."""
    return subprocess.run(
        line,
        shell=True,
        cwd=folder,
        capture_output=True,
        check=False,
        env={**os.environ, "RUKVETTA_PROGRAMS": os.path.abspath(programs.folder)},
    )


def page(name: str) -> str:
    with open(os.path.join(WORKBENCH, name), encoding="utf-8") as file:
        return file.read()


def blocks(kind: str) -> list[str]:
    return re.findall(rf"```{kind}\n(.*?)```", page("docs/TEN-MINUTES.md"), re.S)


def steps() -> list[tuple[str, str]]:
    """The page's sources and its commands, in their order: a pair each, one of the two empty."""
    text = re.sub(r"```(fault|explained|sheet)\n.*?```", "", page("docs/TEN-MINUTES.md"), flags=re.S)
    return re.findall(r"```routine\n(.*?)```|^    (\S[^\n]*)$", text, re.S | re.M)


class TenMinutes(unittest.TestCase):
    def test_the_sources_assemble(self) -> None:
        self.assertEqual(len(blocks("routine")), 3)
        for source in blocks("routine"):
            assemble(source.encode())

    def test_the_fault(self) -> None:
        source = blocks("routine")[-1].replace("frequency(f)", "frequncy(f)").encode()
        status, _, said = command(RUKVETTA, "assemble", "-o", "-", data=source)
        self.assertEqual((status, said), (1, blocks("fault")[0].replace("ping.routine", "source")))

    @needs_show
    def test_the_explanation(self) -> None:
        status, text, _ = command("explain", "-", data=blocks("routine")[-1].replace("tone(next)", "tone(next, low)").encode())
        self.assertEqual((status, text.decode()), (1, blocks("explained")[0]))

    @needs_nest
    def test_step_by_step(self) -> None:
        """The whole page: each source is written down as it comes, each command run, and the sheet is the page's."""
        with tempfile.TemporaryDirectory() as folder:
            link_tree(folder)
            printed = {}
            for source, line in steps():
                if source:
                    with open(os.path.join(folder, "ping.routine"), "w", encoding="utf-8") as file:
                        file.write(source)
                else:
                    done = run_line(line, folder)
                    self.assertEqual((done.returncode, done.stderr), (0, b""), line)
                    printed[line] = done.stdout.decode()
            self.assertEqual(len(printed), 8)
            self.assertEqual(printed["bin/rukvetta nest ping.routine"], blocks("sheet")[0])
            self.assertIn("costs at most 204", printed["bin/rukvetta explain ping.routine"])
            self.assertEqual(sorted(os.listdir(os.path.join(folder, "pings"))), ["ping.routine", "ping.sheet"])


def long_sentences(text: str) -> list[str]:
    """The sentences of more than thirty words; what is code is no sentence."""
    text = re.sub(r"```.*?```", ". ", text, flags=re.S)
    text = re.sub(r"(?m)^(    |#).*$", ". ", text)
    return [sentence for sentence in re.split(r"[.:;|]\s", text) if len(sentence.split()) > 30]


class CommandPage(unittest.TestCase):
    @needs_nest
    def test_each_line_is_run(self) -> None:
        with open(os.path.join(ROOT, "docs", "COMMAND.md"), encoding="utf-8") as file:
            lines = re.findall(r"(?m)^    (bin/rukvetta .*)$", file.read())
        self.assertEqual(len(lines), 10)
        with tempfile.TemporaryDirectory() as folder:
            link_tree(folder)
            for line in lines:
                wanted = re.search(r"# status (\d)", line)
                done = run_line(line, folder)
                self.assertEqual((done.returncode, done.stderr), (int(wanted[1]) if wanted else 0, b""), line)

    def test_every_command_is_named(self) -> None:
        with open(os.path.join(ROOT, "docs", "COMMAND.md"), encoding="utf-8") as file:
            text = file.read()
        for name in COMMANDS:
            self.assertIn(f"| `rukvetta {name} ", text)


class Sentences(unittest.TestCase):
    """No sentence of the pages for users is longer than thirty words."""

    def test_pages(self) -> None:
        for name in "docs/JSON.md", "../docs/COMMAND.md":
            self.assertEqual([], long_sentences(page(name)), name)
        self.assertEqual(len(long_sentences("Short. " + "so " * 31 + "long.\n\n    " + "code " * 40 + "\n\nShort.\n")), 1)


class Readme(unittest.TestCase):
    def test_what_it_names(self) -> None:
        text = page("README.md")
        self.assertIn(COMMAND, re.sub(r"\s+", " ", text.replace("\\\n", " ")))
        self.assertIn(f"{len(os.listdir(CATALOGUE)) // 2} routines", text)
        count = unittest.defaultTestLoader.discover(os.path.join(WORKBENCH, "tests"), top_level_dir=WORKBENCH).countTestCases()
        self.assertIn(f"runs all: {count} tests", text)

    def test_links_lead_somewhere(self) -> None:
        for name in "README.md", "docs/TEN-MINUTES.md", "docs/SOURCE-FORM.md", "docs/JSON.md", "../docs/COMMAND.md":
            for target in re.findall(r"\]\(([^)#]+)\)", page(name)):
                self.assertTrue(os.path.exists(os.path.join(WORKBENCH, os.path.dirname(name), target)), target)


class SourceForm(unittest.TestCase):
    """One source with every construct of docs/SOURCE-FORM.md."""

    def test_every_construct(self) -> None:
        source = b"""# a comment
type hertz 2
opcode set 0x10 : hertz cost 3
default cost 0
record regions 8 entry first test 1 constants 3, base : hertz exits auto
constant more : bool
region first in -
    x = set(base, more) : hertz cost 9
    set
    block
        set(x,
            undef : hertz, true)
    branch to second(x)
region second in f : hertz limit 4
    block 1.0/7/1/5/-,1.1/8/0/3/d1.0,i1.0
    select bool d1.0 to second(f), third
    exits third
region third
    select num c0 to fourth, 4, fifth, fifth
    pass fifth in -
    exits -
region fourth
    unreachable
region 4
    branch to sixth
    exits auto
region fifth
    exit set true, undef2
region sixth
    return c1
region seventh limit 1
    return base
    exits 6
"""
        record = assemble(source)[1]
        self.assertEqual([region.kind for region in record.regions], [3, 4, 5, 0, 3, 2, 1, 1])
        self.assertEqual(record.constants, [3, 2, 1])
