"""The page says one thing by one name, marks the whole path, and can be read: looked at in a real browser."""

import os
import random
import tempfile
import unittest
from dataclasses import replace

from . import browser
from .random_records import random_record
from .support import command, needs_nest, needs_show, programs, put
from .test_report import catalogue_texts, needs_browser

from rukvetta.assemble import assemble
from rukvetta.page import RoutineOptions, RoutineTexts, routine_page
from rukvetta.record import record_words
from rukvetta.store import store_of

# A loop of two regions, and work behind it.
BEHIND = b"""opcode go 7 cost 5
opcode ask 8 : bool cost 1
record entry start test 1 exits auto
region start
    go
    branch to head
region head limit 10
    go
    branch to tail
region tail
    more = ask
    select bool more to head, work
region work
    go
    branch to done
region done
    return
"""
# A loop that takes one turn, and says so.
ONE_TURN = b"""default cost 1
record exits auto
region a
    branch to b
region b limit 1
    more = 7 : bool
    select bool more to b, c
region c
    return
"""
CROSSED = """
    // The places where a line of a picture crosses the text of a box or of an edge.
    const found = [];
    for (const svg of document.querySelectorAll('svg')) {
        const texts = [...svg.querySelectorAll('text')].filter(text => text.textContent.trim()).map(text => [text, text.getBBox()]);
        const within = (point, b) => point.x > b.x + 1 && point.x < b.x + b.width - 1 && point.y > b.y + 3 && point.y < b.y + b.height - 3;
        for (const line of svg.querySelectorAll('path.mark, .box line')) {
            for (let at = 0; at <= line.getTotalLength(); at += 1) {
                const point = line.getPointAtLength(at);
                for (const [text, around] of texts) if (within(point, around)) found.push(text.textContent);
            }
        }
    }
    return [...new Set(found)];
"""
# Labels of edges stand above all lines: none of them is followed by a line that crosses it.
STRUCK_LABELS = """
    const parts = [...document.querySelectorAll('svg.graph .edge path, svg.graph .edge-label, svg.graph .edge text')];
    const first = parts.findIndex(part => part.tagName !== 'path');
    return parts.slice(first).filter(part => part.tagName === 'path').length;
"""


def program_texts(store: bytes, names: str = "") -> RoutineTexts:
    """What a page of a store is drawn from."""
    return RoutineTexts(programs.show(store), programs.nest(store), names)


def source_texts(source: bytes) -> RoutineTexts:
    store, _, names = assemble(source)
    return program_texts(store, "\n".join(names.lines()))


def store_of_32() -> bytes:
    """A store with 32 regions that nests."""
    rng = random.Random(32)
    while True:
        record = random_record(rng)
        words = record_words(record)
        if len(record.regions) == 32 and len(words) <= 4048:
            store = store_of(words)
            if programs.nest(store).startswith(("whole", "closed", "leftover")):
                return store


@needs_nest
@needs_browser
class Page(browser.InBrowser):
    def open(self, texts: RoutineTexts, options: RoutineOptions = RoutineOptions()) -> None:
        path = os.path.join(self.folder.name, "page.html")
        put(path, routine_page("page", texts, options).encode())
        self.assertEqual([], self.browser.open(path))

    def dear_edges(self) -> list[str]:
        """The marked arrows by the regions at their ends."""
        return self.browser.run(
            """
            const box = id => document.getElementById('graph-' + id).querySelector('rect').getBBox();
            const count = document.querySelectorAll('svg.graph a.box').length;
            const near = (point, b) => Math.max(b.x - point.x, point.x - b.x - b.width, b.y - point.y, point.y - b.y - b.height, 0);
            const closest = point => [...Array(count).keys()].sort((a, b) => near(point, box(a)) - near(point, box(b)))[0];
            return [...document.querySelectorAll('svg.graph .edge.dear path')].map(path =>
                closest(path.getPointAtLength(0)) + '>' + closest(path.getPointAtLength(path.getTotalLength())))"""
        )

    # Names.

    def test_a_name_means_one_value(self) -> None:
        """In ramp-nested the sheet's i2.0 is the record's i2.1, `l`: the record's i2.0, `f`, was left out of the loop."""
        self.open(catalogue_texts("ramp-nested"))
        nest = self.browser.texts("svg.nest text")
        for text in "l = low", "l ← next", "set-level(l)", "next = add(l, l-step)":
            self.assertIn(text, nest)
        for text in "f ← step-on.next", "repeat while step-on.more", "next = add(outer.f, f-step)":  # `inner` has these names too
            self.assertIn(text, nest)
        self.assertFalse([text for text in nest if "i2." in text])
        self.assertEqual(
            set(self.browser.run("return [...document.querySelectorAll('.moved')].map(e => e.textContent + e.dataset.is)")), {"i2.0l"}
        )

    def test_a_store_without_names(self) -> None:
        self.open(replace(catalogue_texts("ramp-nested"), names=""))
        nest = self.browser.texts("svg.nest text")
        self.assertIn("i2.1 = c3", nest)
        self.assertFalse([text for text in nest if "i2.0" in text])

    def test_which_input_is_not_known(self) -> None:
        """Two inputs of one type that nothing reads, of which one stays: it has a word of its own."""
        record = (
            "record regions 3 entry 0 test 0 constants 2\nregion 0 in - limit 1\nbranch to 1\npass 1 in c0,c0\nexits -\n"
            "region 1 in 2,2 limit 3\nselect bool true to 1,2\npass 1 in i1.0,c0\npass 2 in -\nexits 2\n"
            "region 2 in - limit 1\nreturn -\nexits -\n"
        )
        sheet = programs.nest(assemble(record.encode())[0])
        self.open(RoutineTexts(record, sheet))
        self.assertIn("i1.1 = c0", self.browser.texts("svg.nest text"))
        unclear = record.replace("pass 1 in i1.0,c0", "pass 1 in c0,c0")  # another record than the sheet's
        self.open(RoutineTexts(unclear, sheet))
        self.assertIn("loop1.0 = c0", self.browser.texts("svg.nest text"))

    # The dearest path.

    def test_the_path_goes_on_behind_a_loop_of_several_regions(self) -> None:
        self.open(source_texts(BEHIND))
        self.assertEqual(self.browser.count(".legend.wrong"), 0)
        self.assertEqual(sorted(self.dear_edges()), ["0>1", "1>2", "2>1", "2>3", "3>4"])

    def test_the_path_of_each_whole_routine_comes_to_its_end(self) -> None:
        """From the entry to a region that returns, along marked arrows alone. (In sweep-markers the dearest cases of two selects
        are such that no single run takes both.)"""
        for name in "ramp-nested", "ramp-triple", "sweep-stepped", "calibration-half", "burst-train":
            with self.subTest(name=name):
                self.open(catalogue_texts(name))
                edges = [tuple(map(int, edge.split(">"))) for edge in self.dear_edges()]
                reached, ends = {0}, {k for k, text in enumerate(self.region_ends()) if text.startswith("return")}
                for _ in edges:
                    reached |= {to for a, to in edges if a in reached}
                self.assertTrue(reached & ends)
                self.assertEqual(reached, {0} | {to for _, to in edges})

    def region_ends(self) -> list[str]:
        return self.browser.run(
            """return [...document.querySelectorAll('svg.graph a.box')].map(box =>
            [...box.querySelectorAll('text:not(.faint):not(.share)')].pop().textContent)"""
        )

    # What can be read.

    def test_the_graph_shows_every_limit(self) -> None:
        self.open(source_texts(ONE_TURN))
        self.assertIn("≤ 1 turn, exits c", self.browser.texts("#graph-1 text"))
        self.open(catalogue_texts("ramp-nested"))
        for region, text in (1, "≤ 101 turns, exits done"), (2, "≤ 21 turns, exits step-on"):
            self.assertIn(text, self.browser.texts(f"#graph-{region} text"))

    def test_no_line_crosses_a_text(self) -> None:
        for name in "front-panel", "case-a", "psk-eight", "sweep-markers", "power-up", "fsk-four", "hop-table", "self-test":
            with self.subTest(name=name):
                self.open(catalogue_texts(name))
                self.assertEqual(self.browser.run(CROSSED), [])
                self.assertEqual(self.browser.run(STRUCK_LABELS), 0)

    def test_times_stand_beside_their_clock(self) -> None:
        texts = catalogue_texts("case-a")
        self.open(texts, RoutineOptions(clock=1e7))
        self.assertEqual(self.browser.texts("[data-fact=figure] dd"), ["11 = 1.1 µs at 10 MHz"])
        self.open(texts)
        self.assertEqual(self.browser.texts("[data-fact=figure] dd"), ["11"])

    def test_32_regions(self) -> None:
        """Text of at least 10 pixels at first; all of it in the frame by `fit`; larger and smaller; moved by dragging."""
        self.open(program_texts(store_of_32()))
        self.assertEqual(self.browser.count("svg.graph a.box"), 32)
        self.assertGreaterEqual(self.scale() * 12, 10)
        self.click("fit")
        fits = self.browser.run(
            """
            const frame = document.querySelector('.scroll'), size = document.querySelector('svg.graph').getBoundingClientRect();
            return [size.width <= frame.clientWidth + 1, size.height <= innerHeight, frame.scrollWidth <= frame.clientWidth + 1]"""
        )
        self.assertEqual(fits, [True, True, True])
        small = self.scale()
        self.click("1:1")
        self.assertAlmostEqual(self.scale(), 1, 2)
        self.click("+")
        self.assertAlmostEqual(self.scale(), 1.25, 2)
        self.click("−")
        self.click("−")
        self.assertAlmostEqual(self.scale(), 0.8, 2)
        self.assertLess(small, 0.8)

    def test_dragging_moves_the_picture(self) -> None:
        self.open(program_texts(store_of_32()))
        self.click("1:1")
        before = self.scrolled()
        self.browser.run(
            """
            const frame = document.querySelector('.scroll'), box = frame.getBoundingClientRect();
            const at = (type, x, y, on) => on.dispatchEvent(new PointerEvent(type, { clientX: box.left + x, clientY: box.top + y,
                button: 0, pointerType: 'mouse', bubbles: true }));
            at('pointerdown', 300, 200, frame); at('pointermove', 220, 120, window); at('pointerup', 220, 120, window);"""
        )
        self.assertEqual(self.scrolled(), [before[0] + 80, before[1] + 80])

    def scale(self) -> float:
        return self.browser.run(
            "const svg = document.querySelector('svg.graph'); " "return svg.getBoundingClientRect().width / svg.width.baseVal.value"
        )

    def click(self, name: str) -> None:
        self.browser.run(
            "[...document.querySelectorAll('figure')][0].querySelectorAll('.tools button').forEach("
            "button => button.textContent === arguments[0] && button.click())",
            name,
        )

    def scrolled(self) -> list[int]:
        return self.browser.run("const frame = document.querySelector('.scroll'); return [frame.scrollLeft, frame.scrollTop]")


@needs_show
class Times(unittest.TestCase):
    """Tables have times only with a clock."""

    @needs_nest
    def test_tables(self) -> None:
        with tempfile.TemporaryDirectory() as folder:
            put(os.path.join(folder, "a.routine"), BEHIND)
            put(os.path.join(folder, "a.sheet"), programs.nest(assemble(BEHIND)[0]).encode())
            _, out, _ = command("check-catalogue", folder)
            self.assertEqual(out.decode().split("\n")[0].split(), ["routine", "outcome", "figure", "attempts", "regions", "words"])
            self.assertNotRegex(out.decode(), r"\d [mµn]?s\b")
            index, source = os.path.join(folder, "i.html"), os.path.join(folder, "a.routine")
            for options, wanted in ((), False), (("--clock", "20kHz"), True):
                self.assertEqual(command("report", source, source, "-o", index, *options)[0], 0)
                with open(index, encoding="utf-8") as page:
                    self.assertEqual("time at 20 kHz" in page.read(), wanted)
