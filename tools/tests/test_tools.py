"""What tools/ does without rt: edits found, scripts told apart, equations written, a status given."""

import ast
import contextlib
import io
import os
import pathlib
import subprocess
import tempfile
import unittest

from tools.tests.loading import script

FOLDER = pathlib.Path(__file__).resolve().parents[1]


class Edit(unittest.TestCase):
    """tools/edit."""

    def test_reached(self) -> None:
        """A crate, and all that it stands on; libraries of the toolchain are none of these."""
        edit = script(FOLDER / "edit")
        listed = edit.dependencies("# a: comment\na:\nb: a io\nc staticlib: b # more\nd: a\n")
        self.assertEqual(listed, {"a": [], "b": ["a", "io"], "c": ["b"], "d": ["a"]})
        self.assertEqual(edit.reached("c", listed), ["c", "b", "a"])

    def test_no_such_edit(self) -> None:
        """An edit that is not there is refused with status 2."""
        told = subprocess.run([FOLDER / "edit", "store/nothing"], capture_output=True, text=True)
        self.assertEqual((told.returncode, told.stderr), (2, "tools/edit: there is no edit store/nothing\n"))


class Lint(unittest.TestCase):
    """tools/lint."""

    def test_language(self) -> None:
        """A script is told by its suffix, or by its first line."""
        lint = script(FOLDER / "lint")
        with tempfile.TemporaryDirectory() as made:
            folder = pathlib.Path(made)
            texts = {
                "a.py": "",
                "b": "#!/usr/bin/env python3\n",
                "c": "#!/bin/sh\n",
                "d": "#!/usr/bin/env bash\n",
                "e": "text\n",
                "f.c": "",
                "g": '#!/bin/sh\n""":"\nexec python3 "$0"\n":"""\n',
            }
            for name, text in texts.items():
                (folder / name).write_text(text)
            found = [lint.language(folder / name) for name in texts]
        self.assertEqual(found, ["python", "python", "shell", "shell", "", "", "python"])

    def test_scripts(self) -> None:
        """Scripts without a suffix are among those that are checked, and those beside the folders."""
        lint = script(FOLDER / "lint")
        python, shell = lint.scripts(FOLDER.parent, "python"), lint.scripts(FOLDER.parent, "shell")
        for name in "tools/lint", "bin/rukvetta", "workbench/report", "workbench/rukvetta/command.py", "workbench/tests/support.py":
            self.assertIn(name, python)
        for name in "bench/run", "install", "uninstall":
            self.assertIn(name, shell)

    def test_no_command_left_out(self) -> None:
        """Whatever can be run and stands outside of crates/ is checked."""
        lint = script(FOLDER / "lint")
        known = {*lint.scripts(FOLDER.parent, "python"), *lint.scripts(FOLDER.parent, "shell")}
        every = [path.relative_to(FOLDER.parent) for path in FOLDER.parent.rglob("*") if path.is_file() and os.access(path, os.X_OK)]
        found = {str(path) for path in every if not {"crates", "target", ".git"} & set(path.parts)}
        self.assertEqual(found - known, set())

    def test_head(self) -> None:
        """The shell in front of Python is cut out, its lines at their places; there is none in front of other scripts."""
        lint = script(FOLDER / "lint")
        self.assertEqual(lint.head('#!/bin/sh\n""":"\nexec it\n":"""\nimport os\n'), "#!/bin/sh\n\nexec it\n")
        self.assertEqual(lint.head("#!/bin/sh\nexec it\n"), "")
        self.assertEqual(lint.head(""), "")


def untyped(text: str) -> list[str]:
    """The public functions of a script, and methods of its classes, that lack a type; what stands inside of a function is not public."""
    found = []
    todo: list[ast.AST] = [ast.parse(text)]
    while todo:
        for node in ast.iter_child_nodes(todo.pop()):
            if not isinstance(node, (ast.FunctionDef, ast.AsyncFunctionDef)):
                todo.append(node)
            elif node.name == "__init__" or not node.name.startswith("_"):
                every = node.args.posonlyargs + node.args.args + node.args.kwonlyargs + [node.args.vararg, node.args.kwarg]
                given = [one for one in every if one is not None and one.arg not in ("self", "cls")]
                if node.returns is None or any(one.annotation is None for one in given):
                    found.append(node.name)
    return found


class Types(unittest.TestCase):
    """Python has types on public functions."""

    def test_untyped(self) -> None:
        """A function without a type is found, at the top, in a class and below a condition; an inner one is not."""
        text = "def a(x: int) -> int:\n    def c(y): pass\n\ndef b(x): pass\n\n"
        text += "class D:\n    def e(self): pass\n\n    def f(self) -> None: pass\n\n"
        text += "if a(0):\n    async def g(*x) -> None: pass\n\n    def h(**x: int): pass\n"
        self.assertEqual(sorted(untyped(text)), ["b", "e", "g", "h"])

    def test_all_scripts(self) -> None:
        """All scripts have them."""
        for name in script(FOLDER / "lint").scripts(FOLDER.parent, "python"):
            self.assertEqual(untyped((FOLDER.parent / name).read_text(encoding="utf-8")), [], name)


class Compute(unittest.TestCase):
    """tools/compute."""

    def vectors(self, text: str) -> list[tuple[str, list[str]]]:
        """The vectors of a file with this text."""
        with tempfile.NamedTemporaryFile("w", suffix=".vectors") as file:
            file.write(text)
            file.flush()
            return list(script(FOLDER / "compute").vectors(file.name))

    def test_vectors(self) -> None:
        """Stores with their answers; those that are wrong on purpose are passed over."""
        self.assertEqual(self.vectors("store 00ff\nrefused 1 0\n.\nwrong 00\nx\n.\n"), [("00ff", ["refused 1 0"])])

    def test_no_vectors(self) -> None:
        """A file that ends within a vector, or has none, is refused with status 2."""
        for text in ("", "store 00\nrefused 1 0\n", "store 0g\nx\n.\n", "else 00\nx\n.\n"):
            with self.assertRaises(SystemExit) as ended, contextlib.redirect_stderr(io.StringIO()):
                self.vectors(text)
            self.assertEqual(ended.exception.code, 2)

    def test_equations(self) -> None:
        """A sheet's equation has the bytes and the text; without `twice` it is compared without it."""
        compute = script(FOLDER / "compute")
        self.assertIn('printed (hex "00") ≡ (ascii "refused 1 0\\n")', compute.sheet_equation("v0", "00", ["refused 1 0"]))
        self.assertIn("without_twice", compute.sheet_equation("v0", "00", ["whole figure 0 attempts 1"]))
        runs = compute.runs_equation("v0", "00", ["given 1,2 - 3 4 5 6", "graph none", "nested none"])
        self.assertIn("(given_words (1 ∷ 2 ∷ []) ([]) 3 4 5 6)", runs)


class Status(unittest.TestCase):
    """tools/status, with programs that only say something."""

    def status(self, text: str) -> int:
        """The status that is given to a program with this text."""
        with tempfile.TemporaryDirectory() as made:
            program = pathlib.Path(made) / "nest"
            program.write_text("#!/bin/sh\n" + text)
            program.chmod(0o755)
            given = {**os.environ, "RUKVETTA_PROGRAMS": made}
            return subprocess.run([FOLDER / "status", "nest"], env=given, capture_output=True, stdin=subprocess.DEVNULL).returncode

    def test_status(self) -> None:
        """0 a sheet, 1 a refusal, 2 what failed, 3 a program that was ended."""
        self.assertEqual(self.status("echo whole figure 0"), 0)
        self.assertEqual(self.status("echo refused 1 0"), 1)
        self.assertEqual(self.status("echo 'nest: standard input cannot be read' >&2"), 2)
        self.assertEqual(self.status("kill -9 $$"), 3)

    def test_command(self) -> None:
        """Another program is refused with status 2."""
        told = subprocess.run([FOLDER / "status", "ls"], capture_output=True)
        self.assertEqual(told.returncode, 2)


if __name__ == "__main__":
    unittest.main()
