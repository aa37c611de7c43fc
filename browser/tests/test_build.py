"""browser/build ends with the status that it says."""

import os
import pathlib
import subprocess
import tempfile
import unittest

from .support import ROOT, needs_browser

BUILD = ROOT / "browser" / "build"


class Statuses(unittest.TestCase):
    def build(self, *arguments: str, path: str | None = None) -> tuple[int, str]:
        env = {**os.environ, "PATH": path or os.environ["PATH"]}
        done = subprocess.run([BUILD, *arguments], env=env, capture_output=True, text=True, timeout=60)
        self.assertNotIn("Traceback", done.stderr)
        return done.returncode, done.stdout + done.stderr

    def test_help(self) -> None:
        status, said = self.build("--help")
        self.assertEqual(status, 0)
        self.assertIn("Status: 0 the page is made", said)

    def test_wrong_use(self) -> None:
        for arguments in (), ("page",), ("none/page.html",), ("a.html", "b.html"), ("--nonsense", "a.html"):
            with self.subTest(arguments=arguments):
                self.assertEqual(self.build(*arguments)[0], 2)
        with tempfile.TemporaryDirectory(suffix=".html") as folder:
            self.assertEqual(self.build(folder)[0], 2)

    @needs_browser
    def test_missing_programs(self) -> None:
        with tempfile.TemporaryDirectory() as folder:
            out = os.path.join(folder, "page.html")
            self.assertEqual(self.build(out, path=folder), (3, "browser/build: no rt on the path (the Rattle toolchain)\n"))
            self.assertFalse(os.path.exists(out))

    @needs_browser
    def test_a_linker_is_needed(self) -> None:
        """With an empty program for a toolchain, wasm-ld is what lacks."""
        with tempfile.TemporaryDirectory() as name:
            folder = pathlib.Path(name)
            (folder / "rt").touch(mode=0o755)
            said = self.build(str(folder / "page.html"), path=name)
            self.assertEqual(said, (3, "browser/build: no wasm-ld on the path (Debian's package lld)\n"))
