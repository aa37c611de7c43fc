"""./install and ./uninstall: what is put in place works there, and all of it goes again. The manual pages say what there is."""

import os
import re
import shutil
import subprocess
import tempfile
import unittest

from .support import CATALOGUE, ROOT, needs_nest, programs, put

from rukvetta import command

LIBRARY = os.environ.get("RUKVETTA_LIBRARY") or os.path.join(ROOT, "target", "interface")
has_library = os.path.exists(os.path.join(LIBRARY, "librukvetta.a"))
needs_library = unittest.skipUnless(has_library, f"there is no librukvetta.a in {LIBRARY}; interface/build builds it")
MAN = os.path.join(ROOT, "man")


def read(*path: str) -> str:
    with open(os.path.join(*path), encoding="utf-8") as file:
        return file.read()


def all_files(folder: str) -> list[str]:
    """The files of a folder and of those in it, as paths within it."""
    return sorted(os.path.relpath(os.path.join(place, name), folder) for place, _, names in os.walk(folder) for name in names)


class Folder(unittest.TestCase):
    def setUp(self) -> None:
        folder = tempfile.TemporaryDirectory()
        self.addCleanup(folder.cleanup)
        self.folder = os.path.realpath(folder.name)
        self.prefix = os.path.join(self.folder, "the prefix")

    def run_it(self, *words: str, **variables: str) -> tuple[int, str]:
        """The status and all that is said."""
        env = {**os.environ, "RUKVETTA_PROGRAMS": programs.folder, "RUKVETTA_LIBRARY": LIBRARY, **variables}
        done = subprocess.run(words, capture_output=True, check=False, cwd=self.folder, env=env)
        return done.returncode, done.stdout.decode() + done.stderr.decode()

    def install(self, *words: str, **variables: str) -> tuple[int, str]:
        return self.run_it(os.path.join(ROOT, "install"), *words, **variables)

    def uninstall(self, *words: str, **variables: str) -> tuple[int, str]:
        return self.run_it(os.path.join(ROOT, "uninstall"), *words, **variables)


@needs_nest
@needs_library
class Install(Folder):
    def test_what_is_there_works_and_goes_again(self) -> None:
        status, said = self.install(self.prefix)
        self.assertEqual(status, 0, said)
        version = read(ROOT, "VERSION").strip()
        here = {"RUKVETTA_PROGRAMS": ""}
        program = os.path.join(self.prefix, "bin", "rukvetta")
        self.assertEqual(self.run_it(program, "--version", **here), (0, f"rukvetta {version}\n"))
        source = os.path.join(CATALOGUE, "case-a.routine")
        self.assertEqual(self.run_it(program, "nest", source, **here), (0, read(CATALOGUE, "case-a.sheet")))
        self.assertEqual(self.run_it(program, "report", source, "-o", os.path.join(self.folder, "p.html"), **here), (0, ""))
        self.assertEqual(self.run_it(program, "check", CATALOGUE, **here)[0], 0)
        installed = all_files(self.prefix)
        for name in (
            "bin/nest",
            "bin/show",
            "lib/librukvetta.a",
            "include/rukvetta.h",
            "include/rukvetta_sheet.h",
            "lib/pkgconfig/rukvetta.pc",
            "share/doc/rukvetta/NOTICE",
            "share/man/man1/rukvetta.1",
            "share/man/man1/nest.1",
            "share/man/man3/rukvetta_nest.3",
        ):
            self.assertIn(name, installed)
        for name in "LICENSE-MIT", "LICENSE-APACHE":
            self.assertEqual(f"share/doc/rukvetta/{name}" in installed, os.path.exists(os.path.join(ROOT, name)))
        self.assertIn(f"Rukvetta {version}", read(self.prefix, "share", "man", "man1", "rukvetta.1"))
        self.assertEqual(self.install(self.prefix)[0], 0)  # over itself
        self.assertEqual(self.uninstall(self.prefix)[0], 0)
        self.assertEqual(os.listdir(self.prefix), [])
        self.assertEqual(self.uninstall(self.prefix)[0], 3)

    @unittest.skipUnless(shutil.which("cc") and shutil.which("pkg-config"), "there is no cc or no pkg-config here")
    def test_a_program_in_c(self) -> None:
        prefix = os.path.join(self.folder, "prefix")  # pkg-config's flags are words of a shell
        self.assertEqual(self.install(prefix)[0], 0)
        found = {"PKG_CONFIG_PATH": os.path.join(prefix, "lib", "pkgconfig")}
        self.assertEqual(self.run_it("pkg-config", "--modversion", "rukvetta", **found), (0, read(ROOT, "VERSION")))
        _, flags = self.run_it("pkg-config", "--cflags", "--libs", "rukvetta", **found)
        example = os.path.join(ROOT, "interface", "example.c")
        self.assertEqual(self.run_it("cc", "-std=c99", example, *flags.split(), "-o", "example"), (0, ""))
        status, said = self.run_it("./example", os.path.join(ROOT, "docs", "example.store"))
        self.assertEqual(status, 0, said)
        put(os.path.join(self.folder, "sheet.c"), b"#include <rukvetta_sheet.h>\nint main(void) { return 0; }\n")
        self.assertEqual(self.run_it("cc", "-std=c99", "sheet.c", *flags.split(), "-o", "sheet"), (0, ""))

    def test_what_was_there_stays(self) -> None:
        os.makedirs(os.path.join(self.prefix, "bin"))
        put(os.path.join(self.prefix, "bin", "other"), b"mine")
        self.assertEqual(self.install(self.prefix)[0], 0)
        self.assertEqual(self.uninstall(self.prefix)[0], 0)
        self.assertEqual(all_files(self.prefix), ["bin/other"])
        put(os.path.join(self.prefix, "bin", "nest"), b"mine")
        status, said = self.install(self.prefix)
        self.assertEqual(status, 1)
        self.assertIn("bin/nest is there already", said)
        self.assertEqual(all_files(self.prefix), ["bin/nest", "bin/other"])

    def test_in_front_of_the_prefix(self) -> None:
        stage = os.path.join(self.folder, "stage")
        self.assertEqual(self.install("/usr/local", DESTDIR=stage)[0], 0)
        self.assertIn("prefix=/usr/local\n", read(stage, "usr/local/lib/pkgconfig/rukvetta.pc"))
        for path in all_files(stage):
            with open(os.path.join(stage, path), "rb") as file:
                self.assertNotIn(stage.encode(), file.read(), path)
        self.assertEqual(self.uninstall("/usr/local", DESTDIR=stage)[0], 0)
        self.assertEqual(all_files(stage), [])


@unittest.skipUnless(shutil.which("git") and os.path.exists(os.path.join(ROOT, ".git")), "this is no clone, or there is no git")
class Archive(Folder):
    """What `git archive` makes has all that the commands and the pages' first lines need."""

    @needs_nest
    def test_it_works_without_the_repository(self) -> None:
        archive = subprocess.run(["git", "-C", ROOT, "archive", "HEAD"], capture_output=True, check=True).stdout
        put(os.path.join(self.folder, "a.tar"), archive)
        self.assertEqual(self.run_it("tar", "-xf", "a.tar"), (0, ""))
        self.assertEqual(self.run_it("bin/rukvetta", "--version"), (0, f"rukvetta {read(ROOT, 'VERSION').strip()}\n"))
        status, said = self.run_it("bin/rukvetta", "check", "workbench/catalogue")
        self.assertEqual((status, said.splitlines()[-1]), (0, "37 passed, 0 failed"))
        for name in "crates.txt", ".ci/run", "docs/example.store", "interface/build", "interface/rukvetta.h", "install", "uninstall":
            self.assertTrue(os.path.exists(os.path.join(self.folder, name)), name)


class Missing(Folder):
    def test_what_is_not_built(self) -> None:
        for name, variables in (("nest", {"RUKVETTA_PROGRAMS": self.folder}), ("librukvetta.a", {"RUKVETTA_LIBRARY": self.folder})):
            if name == "nest" or programs.has("nest"):
                status, said = self.install(self.prefix, **variables)
                self.assertEqual(status, 3)
                self.assertRegex(said, rf"there is no {name} in .*; .* builds it")
                self.assertFalse(os.path.exists(self.prefix))

    def test_wrong_use(self) -> None:
        for words in (), ("",), ("--nonsense",), ("a", "b"):
            self.assertEqual(self.install(*words)[0], 2, words)
            self.assertEqual(self.uninstall(*words)[0], 2, words)
        self.assertIn("./install PREFIX", self.install("--help")[1])
        self.assertIn("./uninstall PREFIX", self.uninstall("--help")[1])


class Manual(unittest.TestCase):
    def plain(self, name: str) -> str:
        """A page without the marks of its form."""
        return re.sub(r"\\f.|\\(?=-)", "", read(MAN, name))

    def test_every_command_and_option(self) -> None:
        text = self.plain("rukvetta.1")
        for name in command.COMMANDS:
            self.assertRegex(text, rf"(?m)^\.B rukvetta {name}$")
            self.assertRegex(text, rf"(?m)^\.BI {name} ")
        parsers = next(action.choices for action in command.parser()._actions if action.dest == "command")
        options = {option for parser in parsers.values() for action in parser._actions for option in action.option_strings}
        self.assertGreater(len(options), 8)
        for option in options:
            self.assertRegex(text, rf"(?m)^\.BI?R? (.* )?{option}( |$)")
        named = set(re.findall(r"(?m)^\.BI?R? (?:-h \", \" )?(--[a-z]+)", text))
        self.assertLessEqual(named, options | {"--version"})

    def test_every_function_of_the_header(self) -> None:
        header = read(ROOT, "interface", "rukvetta.h")
        functions = set(re.findall(r"\b(rukvetta_\w+)\(", header))
        self.assertGreaterEqual(len(functions), 6)
        names = read(MAN, "rukvetta_nest.3").split(".SH SYNOPSIS")[0]
        for name in functions:
            self.assertRegex(names, rf"\b{name}\b")
        page = read(MAN, "rukvetta.h.3")
        for name in re.findall(r"#define (RUKVETTA_\w+_STACK|RUKVETTA_VERSION\w*|RUKVETTA_STATE_BYTES) ", header):
            self.assertRegex(page, rf"\b{name}\b")
        cursor = read(ROOT, "interface", "rukvetta_sheet.h")
        functions = set(re.findall(r"\brukvetta_\w+(?= \(\))", page))
        self.assertGreaterEqual(len(functions), 6)
        for name in functions:
            self.assertIn(f" {name}(", cursor)
        refusals = re.findall(r"(RUKVETTA_\w+) = \d", re.findall(r"enum rukvetta_refusal \{(.*?)\}", header, re.S)[0])
        self.assertEqual(len(refusals), 11)
        for name in re.findall(r"enum (rukvetta_\w+)", header) + refusals:
            self.assertIn(name, page)

    @unittest.skipUnless(shutil.which("man"), "there is no man here")
    def test_they_can_be_set(self) -> None:
        for name in sorted(os.listdir(MAN)):
            if name not in ("rukvetta_accept.3", "rukvetta_write.3"):  # which lead to another
                done = subprocess.run(
                    ["man", "--warnings=w", "-E", "UTF-8", "-l", os.path.join(MAN, name)],
                    capture_output=True,
                    check=False,
                    env={**os.environ, "MANWIDTH": "100"},
                )
                self.assertEqual((done.returncode, done.stderr), (0, b""), name)
                self.assertIn(b"Rukvetta", done.stdout)

    def test_sentences_are_short(self) -> None:
        for name in sorted(os.listdir(MAN)):
            text = re.sub(r"(?m)^\.(TH|SH|TP|PP|nf|fi|br|so).*$", ". ", self.plain(name))
            text = re.sub(r"(?m)^\.[A-Z]+ ", "", text)
            for sentence in re.split(r"[.:;]\s", text):
                self.assertLessEqual(len(sentence.split()), 30, (name, sentence))
