"""The source form: what `show` prints comes back as the store's own bytes; names, faults, `exits auto`."""

import os
import random
import subprocess
import sys
import unittest

from .random_records import random_store
from .support import WORKBENCH, command, needs_show, programs, vectors

from rukvetta.assemble import assemble
from rukvetta.faults import Fault
from rukvetta.loops import loop_exits
from rukvetta.programs import refusal
from rukvetta.source import read_source

RANDOM = int(os.environ.get("RUKVETTA_RANDOM", 1000))  # random stores that are shown and assembled again

SWEEP = b"""# A comment
type hertz 2
opcode set 0x11 cost 12
opcode add 3 : hertz cost 2     # adds
opcode below 4 : bool cost 1
record entry start test 2 exits auto
constant from : hertz
constant step : hertz
constant stop : hertz
region start
    branch to sweep(from)
region sweep in f : hertz limit 401
    set(f)
    next = add(f, step)
    more = below(next,      # the line goes on
                 stop)
    select bool more to sweep(next), done
region done
    return
"""
SWEEP_SHOWN = """record regions 3 entry 0 test 2 constants 2,2,2
region 0 in - limit 1
branch to 1
pass 1 in c0
exits -
region 1 in 2 limit 401
block 1.0/17/0/12/i1.0,1.1/3/2/2/i1.0,c1,1.2/4/1/1/d1.1,c2
select bool d1.2 to 1,2
pass 1 in d1.1
pass 2 in -
exits 2
region 2 in - limit 1
return -
exits -
"""

# A source, the place of its fault and a part of what is said of it.
HEAD = "default cost 0\nrecord entry a test 1\nregion a\n"
HEAD_LOOP = "default cost 0\nrecord entry a test 1\nregion a limit 9\n"
FAULTS = [
    ("", 1, 1, "expected `constant`, `default`, `opcode`, `record` or `type`"),
    ("record\n", 1, 7, "found the end of the source, expected `constant`, `default`, `opcode`, `region` or `type`"),
    ("recrd\n", 1, 1, "found `recrd`"),
    (HEAD, 3, 9, "found the end of the source"),
    (HEAD + "    retrun\n# end\n", 4, 5, "found `retrun`, expected an opcode or a terminator (near it: `return`)"),
    (HEAD + "    unreachabel\n\nregion b\n    return\n", 4, 5, "found `unreachabel`, expected an opcode or a terminator"),
    (HEAD + "    branch tow a\n", 4, 12, "found `tow`, expected `to`"),
    (HEAD + "    branch to b\n", 4, 15, "found `b`, expected the name or the number of a region"),
    (HEAD + "    return x\n", 4, 12, "found `x`, expected a value of region a or a constant"),
    (HEAD + "    return n1.0\n", 4, 12, "nodes arise only in nesting"),
    (HEAD + "    return undef0\n", 4, 12, "a type from 1 to 255"),
    (HEAD + "    return c70000\n", 4, 12, "up to 65535"),
    (HEAD + "    return true,true,true,true,true\n", 4, 12, "found 5 values, expected 0 to 4"),
    (HEAD_LOOP + "    select bool true to a\n", 4, 5, "found 1 target, expected 2"),
    (HEAD + "    x = 7\n    return\n", 4, 5, "expected `: TYPE`"),
    (HEAD + "    7 : 256\n    return\n", 4, 9, "found type 256, expected 1 to 255"),
    (HEAD + "    7 cost 65536\n    return\n", 4, 12, "found cost 65536, expected 0 to 65535"),
    (HEAD + "    c0 = 7 : 2\n    return\n", 4, 5, "which is a value, expected a name"),
    (HEAD + "    x = 7 : 2\n    x = 7 : 2\n    return\n", 5, 5, "a second time"),
    (HEAD + "    7 (true,true,true,true)\n    return\n", 4, 8, "found 4 values read, expected 0 to 3"),
    (HEAD + "block 1.0/7/1/5/-\nreturn -\n", 4, 7, "found the item 1.0, expected 0.0"),
    (HEAD + "block 0.0/7/300/5/-\nreturn -\n", 4, 7, "found 300 in an item"),
    (HEAD_LOOP + "    branch to a\n    pass 3 in -\n", 5, 10, "expected a target of this region"),
    (HEAD_LOOP + "    select bool true to a(true), a(false)\n", 4, 34, "other values for region 0 than before"),
    (HEAD + "    return\nregion a\n    return\n", 5, 8, "a second time"),
    (HEAD + "    return\nregion 2\n    return\n", 5, 8, "found region 2, expected 1"),
    (HEAD + "    branch to 9\n    exits auto\n", 3, 1, "`exits auto` cannot look for loops"),
    ("record regions 2\nregion a\nreturn\n", 1, 16, "found regions 2, expected 1"),
    ("record entry a\nregion a in 1,1,1,1,1\nreturn\n", 2, 1, "found 5 inputs, expected 0 to 4"),
    ("record entry a\nregion a limit 0\nreturn\n", 2, 16, "found limit 0, expected 1 to 65535"),
    ("record entry a\nregion a in f:hz\nreturn\n", 2, 15, "a type"),
    ("record entry a\nregion \u00e4\nreturn\n", 2, 8, "found `\u00e4`, expected a name or a number"),
    (HEAD + "    return;\n", 4, 11, "found `;`, expected a name, the end of the line, `-` or `undef`"),
    ("type hertz 2\nrecord entry a\nregion a in f:herz\nreturn\n", 3, 15, "near it: `hertz`"),
    (b"record entry a\nregion \xff\n", 2, 8, "expected text in UTF-8"),
    (HEAD + "    return true,\n", 4, 17, "found the end of the source, expected a name or `undef`"),
    ("a" * 9999, 1, 1, "found `" + "a" * 59 + "\N{HORIZONTAL ELLIPSIS}`, expected"),
    ("#\n" * 131073, 1, 1, "found a source of more than 262,144 bytes, expected a shorter one"),
]


class Assemble(unittest.TestCase):
    def test_names_become_numbers(self) -> None:
        self.assertEqual(assemble(SWEEP)[0], assemble(SWEEP_SHOWN.encode())[0])

    def test_the_names_are_kept_for_pictures(self) -> None:
        lines = list(assemble(SWEEP)[2].lines())
        for line in "region 1 sweep", "type 2 hertz", "opcode 17 set", "value c0 from", "value i1.0 f", "value d1.2 more":
            self.assertIn(line, lines)

    def test_line_ends_and_a_missing_last_one(self) -> None:
        self.assertEqual(assemble(SWEEP.replace(b"\n", b"\r\n"))[0], assemble(SWEEP)[0])
        self.assertEqual(assemble(SWEEP.rstrip())[0], assemble(SWEEP)[0])

    def test_faults(self) -> None:
        for source, line, column, said in FAULTS:
            with self.subTest(source=source):
                with self.assertRaises(Fault) as raised:
                    read_source(source if isinstance(source, bytes) else source.encode())
                fault = raised.exception
                self.assertEqual((fault.line, fault.column), (line, column), fault.message)
                self.assertIn(said, fault.message)

    def test_numbers(self) -> None:
        source = b"record entry 000 test 0x00ff\nregion 0 limit 00000000000000000012\n0x10 : 0x2 cost 007\nreturn\n"
        record, _ = read_source(source)
        region = record.regions[0]
        made = region.blocks[0][0]
        self.assertEqual((record.test, region.limit, made.opcode, made.type, made.cost), (255, 12, 16, 2, 7))

    def test_without_the_package(self) -> None:
        done = subprocess.run([sys.executable, "-S", os.path.join(WORKBENCH, "assemble")], input=SWEEP, capture_output=True, check=False)
        self.assertEqual((done.returncode, done.stdout), (3, b""))
        self.assertRegex(done.stderr.decode(), r"\AThis needs Debian's python3-lark .*`apt-get install .*` installs all that .*\.\n\Z")

    def test_a_record_too_long(self) -> None:
        block = b"block\n" + b"7 (true, true, true) cost 1\n" * 8
        region = b"region r%d\n" + block * 8 + b"return\n"
        with self.assertRaises(Fault) as raised:
            assemble(b"record\n" + b"".join(region % number for number in range(32)))
        self.assertIn("at most 4048", raised.exception.message)

    def test_the_command(self) -> None:
        status, store, said = command("assemble", data=SWEEP)
        self.assertEqual((status, store, said), (0, assemble(SWEEP)[0], ""))
        status, store, said = command("assemble", data=SWEEP.replace(b"below(", b"belw("))
        self.assertEqual((status, store), (1, b""))
        self.assertEqual(
            said.split("\n")[0],
            "source: line 15, column 12: found `belw`, expected the name or the number " "of an opcode (near it: `below`)",
        )
        self.assertEqual(said.split("\n")[1:3], ["        more = belw(next,      # the line goes on", " " * 15 + "^"])


@needs_show
class RoundTrip(unittest.TestCase):
    def same(self, store: bytes) -> None:
        self.assertEqual(assemble(programs.show(store).encode())[0], store)

    def test_the_lists(self) -> None:
        shown = [(store, answer) for store, answer in vectors("stores.vectors") if not answer.startswith("refused")]
        for store, answer in shown:
            self.assertEqual(assemble(answer.encode())[0], store)
        nested = [*vectors("sheets.vectors"), *vectors("full.vectors")]
        accepted = [store for store, answer in nested if (refusal(answer) or (9, 0))[0] > 8]
        for store in accepted:
            self.same(store)
        self.assertEqual((len(shown), len(accepted)), (855, 1116))

    def test_random_stores(self) -> None:
        rng = random.Random(12)
        for _ in range(RANDOM):
            self.same(random_store(rng))


class ExitsAuto(unittest.TestCase):
    @needs_show
    def test_the_lists_of_the_rust(self) -> None:
        """loop-exits.txt has what LoopFinder itself finds in the stores of sheets.vectors (tests/loop_exits.py)."""
        with open(os.path.join(WORKBENCH, "tests", "loop-exits.txt"), encoding="ascii") as lines:
            found = [line.strip() for line in lines]
        compared = loops = 0
        for (store, _), expected in zip(vectors("sheets.vectors"), found, strict=True):
            if expected.startswith("refused"):
                continue
            record, _ = read_source(programs.show(store).encode())
            exits = sorted(loop_exits(record).items())
            self.assertEqual("; ".join(f"exits {header} {','.join(map(str, to)) or '-'}" for header, to in exits) or "-", expected)
            compared, loops = compared + 1, loops + len(exits)
        self.assertGreater(compared, 1100)
        self.assertGreater(loops, 1000)

    def test_a_list_stays_and_auto_fills_in(self) -> None:
        source = SWEEP.replace(b"to sweep(next), done", b"to sweep(next), done\n    exits -")
        self.assertEqual([region.exits for region in read_source(source)[0].regions], [[], [], []])
        source = SWEEP.replace(b" exits auto", b"").replace(b"to sweep(next), done", b"to sweep(next), done\n    exits auto")
        self.assertEqual([region.exits for region in read_source(source)[0].regions], [[], [2], []])
