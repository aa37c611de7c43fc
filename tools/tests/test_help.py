"""Every command answers --help: what can be run in the folders that tools/lint checks, and every module that is run by name."""

import os
import pathlib
import subprocess
import sys
import unittest

from tools.tests.loading import script

ROOT = pathlib.Path(__file__).resolve().parents[2]
# Nobody types it: rattle starts it as it starts clang.
LEFT_OUT = ("interface/module/clang",)
SUBCOMMANDS = "nest", "show", "assemble", "explain", "report", "check", "diff"


def python_scripts() -> list[str]:
    """All scripts in Python."""
    return script(ROOT / "tools" / "lint").scripts(ROOT, "python")


def executables() -> list[str]:
    """What can be run as it is."""
    every = [*python_scripts(), *script(ROOT / "tools" / "lint").scripts(ROOT, "shell")]
    return [name for name in every if os.access(ROOT / name, os.X_OK) and name not in LEFT_OUT]


def module(path: pathlib.Path) -> tuple[list[str], pathlib.Path]:
    """The words that run a module, and the folder: by its name in a package, by its path otherwise."""
    folder, names = path.parent, [path.stem] * (path.stem != "__main__")
    if not (folder / "__init__.py").is_file():
        return [sys.executable, str(path if names else folder)], ROOT
    while (folder / "__init__.py").is_file():
        names.insert(0, folder.name)
        folder = folder.parent
    if folder == ROOT / "browser":  # its modules are those of the folder above
        return [sys.executable, "-m", ".".join([folder.name, *names])], ROOT
    return [sys.executable, "-m", ".".join(names)], folder


def modules() -> list[str]:
    """The modules that do something when they are run, but tests, whose --help is unittest's."""
    found = [name for name in python_scripts() if name.endswith(".py") and not pathlib.Path(name).name.startswith("test_")]
    guard = '\nif __name__ == "__main__":'
    return [name for name in found if name.endswith("/__main__.py") or guard in (ROOT / name).read_text(encoding="utf-8")]


class Help(unittest.TestCase):
    """What a person types, with --help behind it."""

    def answers(self, command: list[str], folder: pathlib.Path, name: str) -> None:
        """It ends well, complains of nothing, and names itself."""
        told = subprocess.run([*command, "--help"], cwd=folder, stdin=subprocess.DEVNULL, capture_output=True, text=True, timeout=60)
        self.assertEqual((told.returncode, told.stderr), (0, ""), command)
        self.assertIn(name, told.stdout, command)

    def test_executables(self) -> None:
        """All that can be run as it is."""
        found = executables()
        self.assertGreaterEqual(len(found), 38)
        for name in found:
            self.answers([str(ROOT / name)], ROOT, name.rpartition("/")[2])

    def test_modules(self) -> None:
        """All that is run by Python."""
        found = modules()
        self.assertGreaterEqual(len(found), 25)
        for name in found:
            path = ROOT / name
            self.answers(*module(path), path.parent.name if path.stem == "__main__" else path.stem)

    def test_subcommands(self) -> None:
        """Each word behind rukvetta; and no other is told."""
        told = subprocess.run([ROOT / "bin" / "rukvetta", "--help"], capture_output=True, text=True, stdin=subprocess.DEVNULL, check=True)
        lines = told.stdout.splitlines()
        self.assertEqual(sorted(line.split()[0] for line in lines if line.startswith("    ") and line[4] != " "), sorted(SUBCOMMANDS))
        for name in SUBCOMMANDS:
            self.answers([str(ROOT / "bin" / "rukvetta"), name], ROOT, f"rukvetta {name}")


if __name__ == "__main__":
    unittest.main()
