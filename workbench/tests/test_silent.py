"""No silent wrong answer: what used to be taken as 1, as 0 or as passed without a word is told."""

import os
import re
import shutil
import tempfile
import unittest

from .support import CATALOGUE, WORKBENCH, command, needs_nest, programs, put, vectors
from .test_assemble import SWEEP

from rukvetta.assemble import assemble
from rukvetta.faults import Fault
from rukvetta.limits import ways_back
from rukvetta.source import read_source


def faults_of(source: bytes) -> list[tuple[int, int, str]]:
    """Line, column and message of each fault of a source."""
    try:
        assemble(source)
    except Fault as fault:
        return [(one.line, one.column, one.message) for one in fault.all()]
    return []


def catalogue() -> dict[str, bytes]:
    """The sources of the catalogue by name."""
    found = {}
    for name in sorted(os.listdir(CATALOGUE)):
        if name.endswith(".routine"):
            with open(os.path.join(CATALOGUE, name), "rb") as file:
                found[name] = file.read()
    return found


class Limits(unittest.TestCase):
    def test_a_way_back_needs_a_limit(self) -> None:
        [(line, column, said)] = faults_of(SWEEP.replace(b" limit 401", b""))
        self.assertEqual((line, column), (12, 8))
        self.assertEqual(
            said,
            "found region sweep without a limit, to which region sweep leads back, expected `limit N`: "
            "how many turns the loop takes at most, 1 to 65535",
        )

    def test_an_exit_list_needs_a_limit(self) -> None:
        [(line, column, said)] = faults_of(b"record\nregion a\nbranch to b\nregion b\nreturn\nexits a\n")
        self.assertEqual((line, column), (4, 8))
        self.assertIn("found region b without a limit, which its exit list marks as the head of a loop, expected `limit N`", said)

    def test_a_loop_that_the_entry_does_not_reach(self) -> None:
        [(line, _, said)] = faults_of(b"record\nregion a\nreturn\nregion b\nbranch to c\nregion c\nbranch to b\n")
        self.assertEqual(line, 4)
        self.assertIn("to which region c leads back", said)

    def test_no_other_region_needs_one(self) -> None:
        self.assertEqual([], faults_of(b"record\nregion a\nselect bool true to b, c\nregion b\nbranch to c\nregion c\nreturn\n"))

    def test_every_limit_of_the_catalogue_is_needed(self) -> None:
        """Each limit taken away by itself is told at its region; four stand at regions that nesting makes no head of a loop."""
        needed = free = 0
        for name, source in catalogue().items():
            for limit in re.finditer(rb" limit [0-9]+", source):
                found = faults_of(source[: limit.start()] + source[limit.end() :])
                free += not found
                for line, _, said in found:
                    self.assertEqual(line, source.count(b"\n", 0, limit.start()) + 1, name)
                    self.assertIn("without a limit", said)
                    needed += 1
        self.assertGreater(needed, 35)
        self.assertEqual(free, 4)

    @needs_nest
    def test_no_loop_of_the_list_is_missed(self) -> None:
        """Each loop that nesting made, on all sheets of the list, is of a region that would need a limit."""
        loops = 0
        for store, sheet in vectors("sheets.vectors"):
            bodies = set(map(int, re.findall(r"(?m)^loop \d+ in \S+ body (\d+) ", sheet)))
            if bodies:
                self.assertLessEqual(bodies, set(ways_back(read_source(programs.show(store).encode())[0])))
                loops += len(bodies)
        self.assertGreater(loops, 800)


class Costs(unittest.TestCase):
    SOURCE = b"opcode go 7\nrecord\nregion a\n    go\n    8\n    return\n"

    def test_an_instruction_needs_a_cost(self) -> None:
        (line, column, said), second = faults_of(self.SOURCE)
        self.assertEqual((line, column), (4, 5))
        self.assertEqual(
            said,
            "found `go` without a cost, expected `cost N` behind the instruction or in the opcode's definition, "
            "or `default cost 0` once in the source",
        )
        self.assertEqual(second[:2], (5, 5))

    def test_each_place_for_it(self) -> None:
        for source in (
            self.SOURCE.replace(b"go 7", b"go 7 cost 3").replace(b"8\n", b"8 cost 0\n"),
            b"default cost 0\n" + self.SOURCE,
            self.SOURCE.replace(b"record\n", b"record\ndefault cost 0\n"),
        ):
            self.assertEqual([], faults_of(source))
        record = assemble(b"default cost 2\n" + self.SOURCE.replace(b"8\n", b"8 cost 5\n"))[1]
        self.assertEqual([one.cost for one in record.regions[0].instructions()], [2, 5])

    def test_the_default_stands_once(self) -> None:
        [(line, column, said)] = faults_of(b"default cost 0\ndefault cost 0\n" + self.SOURCE)
        self.assertEqual((line, column), (2, 1))
        self.assertIn("a second time", said)

    def test_an_exit_costs_nothing(self) -> None:
        self.assertEqual([], faults_of(b"opcode stop 9\nrecord\nregion a\n    exit stop\n"))

    def test_every_cost_of_the_catalogue_is_needed(self) -> None:
        for name, source in catalogue().items():
            for cost in re.finditer(rb"(?m)^opcode ([\w-]+) .*?( cost [0-9]+)", source):
                with self.subTest(name=name, opcode=cost[1]):
                    found = faults_of(source[: cost.start(2)] + source[cost.end(2) :])
                    used = len(re.findall(rb"(?m)^ +(?:[\w-]+ = )?" + cost[1] + rb"(?![\w-])(?!.* cost )", source))
                    self.assertEqual(len(found), used)


@needs_nest
class Refused(unittest.TestCase):
    """A refused routine fails, and is shown all the same."""

    def setUp(self) -> None:
        folder = tempfile.TemporaryDirectory()
        self.addCleanup(folder.cleanup)
        self.folder = os.path.join(folder.name, "some")
        os.mkdir(self.folder)
        shutil.copy(os.path.join(CATALOGUE, "calibration.routine"), self.folder)
        self.page = os.path.join(folder.name, "page.html")

    def path(self, name: str) -> str:
        return os.path.join(self.folder, name)

    def check(self, *options: str) -> tuple[int, str]:
        status, out, _ = command("check-catalogue", self.folder, *options)
        return status, out.decode()

    def test_no_sheet_of_a_refusal_is_written(self) -> None:
        for options in ((), ("--write",), ("--write",)):
            status, text = self.check(*options)
            self.assertEqual((status, text.splitlines()[-1]), (1, "0 passed, 1 failed"))
            self.assertIn("refused 11 0", text)
            self.assertEqual(os.listdir(self.folder), ["calibration.routine"])
        self.assertIn("only a sheet written by hand can expect a refusal", text)

    def test_a_sheet_by_hand_expects_just_that_refusal(self) -> None:
        put(self.path("calibration.sheet"), b"refused 11 0\n")
        self.assertEqual(self.check()[0], 0)
        put(self.path("calibration.sheet"), b"refused 9 0\n")
        status, text = self.check("--write")
        self.assertEqual(status, 1)
        self.assertIn("line 1 of the sheet is `refused 11 0`, expected `refused 9 0`", text)

    def test_a_report_of_it_has_status_1_and_is_written(self) -> None:
        routine = self.path("calibration.routine")
        status, _, said = command("report", routine, "-o", self.page)
        self.assertEqual((status, said), (1, f"{routine}: refused 11 0\n"))
        with open(self.page, encoding="utf-8") as page:
            self.assertIn("refused 11 0", page.read())
        status, _, said = command("report", os.path.join(CATALOGUE, "case-a.routine"), routine, "-o", self.page)
        self.assertEqual((status, said), (1, f"{routine}: refused 11 0\n"))
        self.assertEqual(sorted(os.listdir(os.path.splitext(self.page)[0])), ["calibration.html", "case-a.html"])


@needs_nest
class Report(unittest.TestCase):
    """What is missing is told before anything is written."""

    def setUp(self) -> None:
        folder = tempfile.TemporaryDirectory()
        self.addCleanup(folder.cleanup)
        self.folder = folder.name
        self.good = os.path.join(CATALOGUE, "case-a.routine")
        self.index = os.path.join(self.folder, "idx.html")

    def nothing_is_written(self, wanted: int, said: list[str], *arguments: str, **more: str) -> None:
        status, _, told = command("report", *arguments, **more)
        self.assertEqual(status, wanted, told)
        for one in said:
            self.assertIn(one, told)
        self.assertEqual([], os.listdir(self.folder))

    def test_files(self) -> None:
        nope, other = os.path.join(self.folder, "nope"), os.path.join(self.folder, "other")
        both = [f"{nope}: No such file or directory", f"{other}: No such file or directory"]
        self.nothing_is_written(2, both, self.good, nope, other, "-o", self.index)
        self.nothing_is_written(2, [f"{WORKBENCH}: Is a directory"], self.good, WORKBENCH, "-o", self.index)

    def test_the_folder_of_the_page(self) -> None:
        page = os.path.join(self.folder, "none", "idx.html")
        self.nothing_is_written(2, ["No such file or directory"], self.good, self.good, "-o", page)

    def test_programs(self) -> None:
        self.nothing_is_written(3, ["The program `show` is not in"], self.good, self.good, "-o", self.index, folder=self.folder)
