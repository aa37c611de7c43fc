"""The bound of a call's stack: what is read of an assembly, how deep a cycle may be, and what is not bounded."""

import pathlib
import subprocess
import sys
import tempfile
import unittest

import assembly
import bound
import header
from depths import Depths, Row, by_proof, by_regions
from machines import Unbounded

FOLDER = pathlib.Path(__file__).resolve().parents[1]
ARM = """\
\t.globl\tdoor
\t.type\tdoor,%function
door:                                   @ @door
\tpush\t{r4, lr}
\tsub\tsp, #16
\tbl\t"a::walk"
.LBB0_1:
\tadd\tsp, #16
\tpop\t{r4, pc}
\t.size\tdoor, .-door
\t.type\t"a::walk",%function
"a::walk":
\tpush.w\t{r4, r5, r7, lr}
\tcbz\tr0, .LBB1_2
@ %bb.1:
\tbl\t"a::walk"
\tbl\t__aeabi_memclr4
.LBB1_2:
\tpop.w\t{r4, r5, r7, pc}
"""
ARM_FRAMES = "m.ll:door\t24\tstatic\nm.ll:a::walk\t16\tstatic\n"
X86 = """\
\t.globl\tdoor
\t.type\tdoor,@function
door:                                   # @door
\tpushq\t%rbx
\tmovslq\t(%rcx,%rax,4), %rax
\tjmpq\t*%rax
.LBB0_1:
\tpushq\t$0
\tpushq\t$0
\tcallq\tmemset@PLT
\taddq\t$16, %rsp
.LBB0_2:
\tpopq\t%rbx
\tretq
\t.section\t.rodata
.LJTI0_0:
\t.long\t.LBB0_1-.LJTI0_0
\t.long\t.LBB0_2-.LJTI0_0
"""
X86_FRAMES = "m.ll:door\t8\tstatic\n"
DEPTHS = Depths({"regions": 10}, {"a::walk": Row("regions", 2, besides=3, last=1)})


def read(text: str, frames: str, processor: str) -> dict[str, assembly.Function]:
    """The functions of an assembly that is given as text."""
    with tempfile.TemporaryDirectory() as made:
        path = pathlib.Path(made) / "m.s"
        path.write_text(text)
        path.with_suffix(".su").write_text(frames)
        return assembly.read(path, processor)


class Reading(unittest.TestCase):
    """Frames and calls."""

    def test_arm(self) -> None:
        """Calls of ours and of the C library; the frame is the compiler's."""
        found = read(ARM, ARM_FRAMES, "cortex-m3")
        self.assertEqual({name: function.frame for name, function in found.items()}, {"door": 24, "a::walk": 16})
        self.assertEqual(found["door"].calls, {"a::walk"})
        self.assertEqual(found["a::walk"].calls, {"a::walk", "__aeabi_memclr4"})
        self.assertEqual([name for name, function in found.items() if function.exported], ["door"])

    def test_x86(self) -> None:
        """The return address, and arguments that are pushed behind the frame, count too; a table of jumps leads within the function."""
        found = read(X86, X86_FRAMES, "x86-64")
        self.assertEqual((found["door"].frame, found["door"].calls), (8 + 8 + 16, {"memset"}))

    def not_read(self, text: str, frames: str, processor: str, what: str) -> None:
        with self.assertRaisesRegex(Unbounded, what):
            read(text, frames, processor)

    def test_not_bounded(self) -> None:
        """A call by an address, a frame without a fixed size, a stack that is taken in another way."""
        for old, new, what in (
            ("bl\t__aeabi_memclr4", "blx\tr4", "calls by an address"),
            ("bl\t__aeabi_memclr4", "bx\tr4", "calls by an address"),
            ("bl\t__aeabi_memclr4", "sub\tsp, r4", "not known"),
            ("bl\t__aeabi_memclr4", "mov\tsp, r7", "not known"),
            ("bl\t__aeabi_memclr4", "vpush\t{d8}", "not known"),
            ("bl\t__aeabi_memclr4", "ldr\tpc, [r0]", "not known"),
            ("bl\t__aeabi_memclr4", "sub\tsp, #8", "comes to .LBB1_2 with"),
            ("add\tsp, #16", "add\tsp, #8", "leaves with 8 bytes"),
        ):
            self.not_read(ARM.replace(old, new), ARM_FRAMES, "cortex-m3", what)
        self.not_read(ARM, ARM_FRAMES.replace("16\tstatic", "16\tdynamic"), "cortex-m3", "no fixed size")
        self.not_read(ARM, "", "cortex-m3", "says nothing of the frame of door")
        for old, new, what in (
            ("callq\tmemset@PLT", "callq\t*%rax", "calls by an address"),
            (".long\t", ".quad\t", "has no table of jumps"),
            ("addq\t$16, %rsp", "leaq\t-8(%rbp), %rsp", "not known"),
            ("addq\t$16, %rsp", "subq\t%rax, %rsp", "not known"),
        ):
            self.not_read(X86.replace(old, new), X86_FRAMES, "x86-64", what)


class Bounds(unittest.TestCase):
    """The deepest way."""

    def test_cycle(self) -> None:
        """Two calls for each of ten regions and three besides; behind these the last, and the C library."""
        found = bound.bounds(read(ARM, ARM_FRAMES, "cortex-m3"), DEPTHS)
        self.assertEqual(found, {"door": 24 + 16 * (2 * 10 + 3) + 16 + bound.OUTSIDE})

    def test_last(self) -> None:
        """The last call of a cycle calls what is in no cycle; a cycle below is called by one before it."""
        functions = {
            "door": assembly.Function("door", True, [], 8, {"one"}),
            "one": assembly.Function("one", False, [], 100, {"one", "plain", "two"}),
            "plain": assembly.Function("plain", False, [], 20, set()),
            "two": assembly.Function("two", False, [], 30, {"two"}),
        }
        for calls, expected in ((1, 8 + 5 * 100 + 100 + 20), (9, 8 + 5 * 100 + 9 * 30)):
            depths = Depths({"a": 5}, {"one": Row("a", 1, last=1), "two": Row("a", 0, besides=calls)})
            self.assertEqual(bound.bounds(functions, depths), {"door": expected})

    def test_shared(self) -> None:
        """Two cycles on one way share a budget: each region counts for the dearer; with two budgets they add up."""
        functions = {
            "door": assembly.Function("door", True, [], 8, {"one"}),
            "one": assembly.Function("one", False, [], 100, {"one", "two"}),
            "two": assembly.Function("two", False, [], 30, {"two"}),
        }
        for other, expected in (("a", 8 + 10 * 100), ("b", 8 + 10 * 100 + 10 * 3 * 30)):
            depths = Depths({"a": 10, "b": 10}, {"one": Row("a", 1), "two": Row(other, 3)})
            self.assertEqual(bound.bounds(functions, depths), {"door": expected})

    def not_bounded(self, text: str, depths: Depths, what: str) -> None:
        with self.assertRaisesRegex(Unbounded, what):
            bound.bounds(read(text, ARM_FRAMES, "cortex-m3"), depths)

    def test_not_bounded(self) -> None:
        """A cycle without a row, and a function that nobody knows."""
        self.not_bounded(ARM, Depths({}, {}), "a::walk calls itself, .* has no depth")
        self.not_bounded(ARM.replace("__aeabi_memclr4", "door"), DEPTHS, "door calls itself, .* has no depth")
        self.not_bounded(ARM.replace("__aeabi_memclr4", "malloc"), DEPTHS, "a::walk calls malloc, which is not in the module")
        self.not_bounded(ARM.replace("\t.globl\tdoor\n", ""), DEPTHS, "exports no function")

    def test_tables(self) -> None:
        """Both tables have the same functions, and each of them is one of the crates."""
        self.assertEqual(by_regions().rows.keys(), by_proof().rows.keys())
        for name in by_regions().rows:
            parts = name.split("::")
            source = FOLDER.parent / "crates" / parts[0] / "src" / f"{parts[1] if len(parts) > 2 else 'lib'}.rt"
            self.assertRegex(source.read_text(), rf"\bfn {parts[-1]}\(", name)


class Header(unittest.TestCase):
    """The lines of rukvetta.h, and its words on them."""

    def test_words(self) -> None:
        """Header and page say how much of it is the C library's."""
        self.assertIn(f"; {bound.OUTSIDE} of them stand for memset", (FOLDER / "rukvetta.h").read_text())
        self.assertIn(f" {bound.OUTSIDE} bytes for memset", (FOLDER.parent / "docs" / "STACK.md").read_text())

    BOUNDS = {"cortex-m3": {"rukvetta_nest": 10}}
    PROOF = {"cortex-m3": {"rukvetta_nest": 20}}
    EMPTY = "top\n/* stack: made by interface/build --board --write */\n/* end */\nbottom\n"

    def test_written(self) -> None:
        """What is written is right, and a number, a name or a processor more is not."""
        text = header.written(self.EMPTY, self.BOUNDS, self.PROOF)
        self.assertIn("#define RUKVETTA_NEST_STACK 10\n#define RUKVETTA_NEST_STACK_PROVED 20\n", text)
        self.assertTrue(text.startswith("top\n") and text.endswith("bottom\n"))
        self.assertEqual(header.differs(text, self.BOUNDS, self.PROOF), "")
        self.assertIn("STACK 11", header.differs(text.replace("STACK 10", "STACK 11"), self.BOUNDS, self.PROOF))
        more = {"cortex-m3": {"rukvetta_nest": 10, "rukvetta_write": 5}}
        self.assertIn("RUKVETTA_WRITE_STACK 5", header.differs(text, more, {"cortex-m3": {"rukvetta_nest": 20, "rukvetta_write": 5}}))
        self.assertIn("no part", header.differs("", self.BOUNDS, self.PROOF))


class Commands(unittest.TestCase):
    """What a person types."""

    def test_help_and_nonsense(self) -> None:
        """Each command answers --help, and refuses nonsense with status 2."""
        python = [sys.executable]
        commands = [[*python, FOLDER / "stack"], [*python, FOLDER / "board" / "lists.py"]]
        commands += [[FOLDER / name] for name in ("build", "board/run", "board/image", "board/emulate", "module/kit", "module/compile")]
        for command in commands:
            told = subprocess.run([*command, "--help"], capture_output=True, text=True)
            self.assertEqual((told.returncode, told.stderr), (0, ""), command)
            told = subprocess.run([*command, "--nonsense"], capture_output=True, text=True)
            self.assertEqual((told.returncode, told.stdout), (2, ""), command)
            self.assertIn("usage", told.stderr, command)


if __name__ == "__main__":
    unittest.main()
