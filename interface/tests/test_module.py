"""interface/module: a module is compiled for each processor, and one that is not for every processor is refused. A toolchain of links."""

import pathlib
import shutil
import subprocess
import tempfile
import unittest

ROOT = pathlib.Path(__file__).resolve().parents[2]
COMPILE, KEEP, KIT = (ROOT / "interface" / "module" / name for name in ("compile", "keep", "kit"))
PROCESSORS = "cortex-m3", "cortex-m4", "cortex-m33", "wasm32"
HEAD = """target datalayout = "e-m:e-p270:32:32-p271:32:32-p272:64:64-i64:64-i128:128-f80:128-n8:16:32:64-S128"
target triple = "x86_64-unknown-linux-gnu"
"""
PLAIN = """define i32 @more(i32 %0) #0 {
  %2 = add i32 %0, 1
  ret i32 %2
}
attributes #0 = { nounwind "target-cpu"="x86-64" }
"""
AS_NUMBER = """define i64 @place(ptr %0) {
  %2 = ptrtoint ptr %0 to i64
  ret i64 %2
}
"""
WITH_FLOAT = """define float @twice(float %0) {
  %2 = fadd float %0, %0
  ret float %2
}
"""


@unittest.skipUnless(shutil.which("rt"), "no rt on the path")
class Compile(unittest.TestCase):
    def compiled(self, text: str, processor: str) -> tuple[int, str, set[str]]:
        """Its status, what it said, and the files that it wrote."""
        with tempfile.TemporaryDirectory() as name:
            folder = pathlib.Path(name)
            module = folder / "module.bc"
            module.write_text(HEAD + text)
            done = subprocess.run([COMPILE, module, processor, "O2", folder / "out"], capture_output=True, text=True, timeout=60)
            return done.returncode, done.stderr, {file.name for file in folder.iterdir()} - {"module.bc"}

    def test_for_each_processor(self) -> None:
        for processor in PROCESSORS:
            with self.subTest(processor=processor):
                status, said, files = self.compiled(PLAIN, processor)
                self.assertEqual((status, said), (0, ""))
                self.assertIn("out.o", files)
                self.assertEqual(files - {"out.o", "out.s", "out.su"}, set())

    def test_what_is_not_for_every_processor(self) -> None:
        for text, why in (AS_NUMBER, "an address is taken as a number"), (WITH_FLOAT, "the module has floats"):
            for processor in PROCESSORS:
                with self.subTest(why=why, processor=processor):
                    status, said, files = self.compiled(text, processor)
                    self.assertEqual((status, "out.o" in files), (1, False))
                    self.assertIn(why, said)

    def test_kit(self) -> None:
        """All of the toolchain is there, and it answers; clang is ours, and compiles."""
        with tempfile.TemporaryDirectory() as folder:
            done = subprocess.run([KIT, folder], capture_output=True, text=True, timeout=60)
            self.assertEqual((done.returncode, done.stderr, done.stdout), (0, "", f"{pathlib.Path(folder).resolve()}/kit\n"))
            kit = pathlib.Path(done.stdout.strip())
            theirs = pathlib.Path(shutil.which("rt") or "").resolve().parents[1]
            for place in ".", "bin", "toolchain", "toolchain/bin":
                missing = {file.name for file in (theirs / place).iterdir()} - {file.name for file in (kit / place).iterdir()}
                self.assertEqual(missing, set(), place)
            told = [subprocess.run([rt, "version"], capture_output=True, text=True, timeout=60).stdout for rt in ("rt", kit / "bin" / "rt")]
            self.assertEqual(told[0], told[1])
            self.assertFalse((kit / "toolchain" / "bin" / "clang").is_symlink())

    def test_nonsense(self) -> None:
        for words in [KEEP], [KEEP, "/", "/"], [KEEP, "/nowhere", "/"], [KIT], [KIT, "/nowhere"], [COMPILE, "/nowhere"]:
            with self.subTest(words=words):
                done = subprocess.run(words, capture_output=True, text=True, timeout=60)
                self.assertEqual((done.returncode, done.stdout), (2, ""))


if __name__ == "__main__":
    unittest.main()
