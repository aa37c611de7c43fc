"""report: what is on the page, looked at in a real browser. Pages are drawn from `show` and the sheets checked in."""

import os
import re
import tempfile
import unittest
from dataclasses import replace

from . import browser
from .support import CATALOGUE, command, needs_nest, needs_show, programs, vectors

from rukvetta.page import RoutineOptions, RoutineTexts, routine_page
from rukvetta.programs import refusal
from rukvetta.routine import load

needs_browser = unittest.skipIf(browser.missing(), browser.missing())
LEFTOVERS = "sweep-resume", "trigger-chase"


def catalogue_texts(name: str) -> RoutineTexts:
    """What a page of the catalogue is drawn from, with the sheet that is checked in in place of `nest`."""
    routine = load(os.path.join(CATALOGUE, name + ".routine"))
    with open(os.path.join(CATALOGUE, name + ".sheet"), encoding="ascii") as sheet:
        return RoutineTexts(programs.show(routine.store), sheet.read(), "\n".join(routine.names.lines()))


@needs_show
@needs_browser
class Page(browser.InBrowser):
    def open(self, name: str, texts: RoutineTexts | None = None, dark: bool = False) -> str:
        path = os.path.join(self.folder.name, name + ".html")
        with open(path, "w", encoding="utf-8") as file:
            file.write(routine_page(name, texts or catalogue_texts(name), RoutineOptions(clock=1e6, words=71)))
        self.assertEqual([], self.browser.open(path, dark))
        return path

    def linked(self) -> tuple[int, int]:
        """Every line of the sheet leads to a box that can be seen, every box to a line; no text stands out of its box."""
        lines, boxes, lost, out = self.browser.run(
            """
            const rows = [...document.querySelectorAll('li[data-box]')], boxes = [...document.querySelectorAll('svg a.box')];
            const seen = id => {
                const size = (document.getElementById(id) || document.createElement('i')).getBoundingClientRect();
                return size.width > 2 && size.height > 2;
            };
            const stands = (text, around) => {
                const [a, b] = [text.getBBox(), around.getBBox()];
                return a.x >= b.x - 1 && a.y >= b.y - 3 && a.x + a.width <= b.x + b.width + 1 && a.y + a.height <= b.y + b.height + 3;
            };
            return [rows.length, boxes.length,
                [...rows.map(r => r.dataset.box), ...boxes.map(b => b.getAttribute('href').slice(1))].filter(id => !seen(id)),
                [...document.querySelectorAll('svg a.box text, svg .note text')]
                    .filter(text => !stands(text, text.parentNode.querySelector('rect'))).map(text => text.textContent)]"""
        )
        self.assertEqual(([], []), (lost, out))
        return lines, boxes

    def test_case_a(self) -> None:
        self.open("case-a")
        look = self.browser
        self.assertEqual(look.texts("h1, .badge"), ["case-a", "whole"])
        self.assertEqual(look.texts("[data-fact=figure] dd, [data-fact=attempts] dd"), ["11 = 11 µs at 1 MHz", "8 of at most 33 "])
        self.assertEqual(look.count("svg.graph a.box"), 4)
        self.assertEqual(look.count("svg.graph .edge"), 4)
        self.assertEqual(look.texts("svg.graph .edge-label text"), ["true", "false", "(left-value)", "(right-value)"])
        self.assertEqual(look.texts("#graph-0 text"), ["▸ test-it", "45%", "found = op 7", "5", "found ?"])
        self.assertEqual(look.texts("#nest-node-3 text"), ["found ?55%", "true", "false"])
        self.assertEqual(look.texts("#nest-node-2 text"), ["right", "36%", "op 9", "4"])
        self.assertEqual(look.texts("li a")[:2], ["region 0 in - kids 0,3 out n3.0", "block 0 0.0/7/1/-"])
        self.assertEqual(self.linked(), (7 + 19, 4 + 7))

    def test_the_dearest_path_is_marked_in_both(self) -> None:
        self.open("case-a")
        marked = "return [...document.querySelectorAll(arguments[0])].map(e => e.id)"
        self.assertEqual(self.browser.run(marked, "svg.graph a.dear"), ["graph-0", "graph-2", "graph-3"])
        self.assertEqual(self.browser.count("svg.graph .edge.dear"), 2)
        self.assertEqual(
            self.browser.run(marked, "svg.nest a.dear"), ["nest-region-0", "nest-node-0", "nest-node-3", "nest-region-2", "nest-node-2"]
        )

    def test_a_way_back_is_marked_where_the_path_takes_it(self) -> None:
        labels = "return [...document.querySelectorAll('svg.graph .edge-label.dear text')].map(e => e.textContent)"
        self.open("sweep-stepped")
        self.assertEqual(self.browser.run(labels), ["(from)", "true (next)", "false"])
        self.open("front-panel")  # the key that does nothing leads back too, and is not the dearest
        self.assertEqual(self.browser.run(labels), ["(f0, l0)", "4 (f, l)", "6 (f, l)", "(f, l)"])

    def test_a_region_has_one_colour(self) -> None:
        fills = """return [...document.querySelectorAll(arguments[0])].map(e => getComputedStyle(e.querySelector('rect')).fill)"""
        for dark in False, True:
            self.open("sweep-markers", dark=dark)
            graph = self.browser.run(fills, "svg.graph a.box")
            self.assertEqual(len(set(graph)), 7)
            self.assertEqual(self.browser.run(fills, "#nest-region-3, #nest-node-2"), [graph[3]] * 2)

    def test_light_and_dark(self) -> None:
        ground = "return getComputedStyle(document.body).backgroundColor"
        seen = []
        for dark in False, True:
            self.open("case-a", dark=dark)
            seen.append(self.browser.run(ground))
        self.assertEqual(seen, ["rgb(246, 245, 242)", "rgb(20, 23, 27)"])

    def test_a_loop(self) -> None:
        self.open("sweep-stepped")
        self.assertEqual(
            self.browser.texts("#nest-node-4 text"), ["loop sweep", "100%", "f = from", "f ← next", "repeat while more", "≤ 401 turns"]
        )
        self.assertIn("next = add(f, step)", self.browser.texts("svg.nest text"))
        self.assertEqual(self.browser.count("svg.graph .edge.back"), 1)

    def test_an_exit_has_the_colour_of_its_region(self) -> None:
        self.open("self-test")
        for region, text in (2, "exit passed"), (3, "exit failed"):
            hue, nest = self.browser.run(
                """
                const exit = [...document.querySelectorAll('svg.nest a.box')].find(a => a.textContent.includes(arguments[1]));
                return [document.getElementById('graph-' + arguments[0]).style.cssText, exit.style.cssText]""",
                region,
                text,
            )
            self.assertEqual(hue, nest)

    def test_a_leftover_shows_its_branches(self) -> None:
        for name in LEFTOVERS:
            self.open(name)
            sheet = catalogue_texts(name).sheet
            self.assertEqual(self.browser.count("[id^=nest-defer-]"), sheet.count("\ndefer "))
            self.assertEqual(self.browser.count(".stripe"), 0)
        texts = self.browser.texts("[id^=nest-defer-] text")
        for text in "→ left", "→ right", "→ both-done", "first is true", "1 of 2 edges":
            self.assertIn(text, texts)

    def test_untouched_and_refused(self) -> None:
        self.open("monitor")
        self.assertEqual((self.browser.count("svg.graph"), self.browser.count("svg.nest")), (1, 0))
        texts = replace(catalogue_texts("calibration"), explained="Too dear.\nAnd <b>why</b>")
        self.open("calibration", texts)
        self.assertEqual(self.browser.texts(".badge, .explained"), ["refused 11 0", "Too dear.\nAnd <b>why</b>"])
        self.open("bad", RoutineTexts(record="", sheet="refused 1 0\n", explained="Empty."))
        self.assertEqual(self.browser.count("svg"), 0)

    def test_pointing_and_links(self) -> None:
        self.open("case-a")
        self.browser.run("document.querySelector('#line-4').dispatchEvent(new MouseEvent('mouseenter'))")
        self.assertEqual(self.browser.run("return document.querySelector('.box.pointed').id"), "nest-node-3")
        self.browser.run("document.querySelector('#line-4 a').click()")
        self.assertEqual(self.browser.run("return document.querySelector(':target').id"), "nest-node-3")

    def test_where_the_figure_is_another_no_path_is_marked(self) -> None:
        texts = catalogue_texts("case-a")
        self.open("case-a", replace(texts, sheet=texts.sheet.replace("figure 11", "figure 12")))
        self.assertEqual(self.browser.count(".legend.wrong"), 1)
        self.assertEqual(self.browser.count(".stripe, .dear, text.share"), 0)

    def test_nothing_is_fetched(self) -> None:
        self.open("case-a")
        self.assertEqual(self.browser.run("return performance.getEntriesByType('resource').length"), 0)

    def test_paper(self) -> None:
        for name in "case-a", "case-b", "sweep-stepped", "sweep-markers", "self-test", "trigger-chase", "ramp-nested", "front-panel":
            self.open(name, dark=True)
            self.assertEqual(self.browser.printed()[1], 1, name)

    @needs_nest
    def test_the_whole_catalogue(self) -> None:
        """By the command, with an index: each routine's page has the sheet that is checked in, line for line."""
        names = sorted(name[:-8] for name in os.listdir(CATALOGUE) if name.endswith(".routine"))
        self.assertGreaterEqual(len(names), 24)
        index = os.path.join(self.folder.name, "all.html")
        paths = [os.path.join(CATALOGUE, name + ".routine") for name in names]
        refused = os.path.join(CATALOGUE, "calibration.routine")
        self.assertEqual(command("report", *paths, "-o", index), (1, b"", f"{refused}: refused 11 0\n"))
        self.assertEqual([], self.browser.open(index, True))
        self.assertEqual(self.browser.texts("td a"), names)
        links = self.browser.run("return [...document.querySelectorAll('td a')].map(a => a.href)")
        for name, link in zip(names, links):
            with self.subTest(name=name):
                self.assertEqual([], self.browser.open(link.removeprefix("file://")))
                self.linked()
                self.assertEqual(self.browser.count(".legend.wrong"), 0)
                sheet = self.browser.texts("[id^=line-]")
                self.assertEqual("\n".join(sheet) + "\n", catalogue_texts(name).sheet)
                self.assertEqual(self.browser.printed()[1], 1)

    def test_the_lists(self) -> None:
        """Every eighth sheet of the fixed list: all lines linked, and the shares add up to the program's figure."""
        self.open("case-a")
        drawn = 0
        for store, sheet in list(vectors("sheets.vectors"))[::8]:
            shown = programs.show(store)
            if refusal(shown):
                continue
            texts = {"record": shown.strip(), "sheet": sheet.strip(), "names": ""}
            self.browser.run("const main = document.querySelector('main'); main.replaceChildren(); drawRoutine(main, arguments[0])", texts)
            self.linked()
            self.assertEqual(self.browser.count(".legend.wrong"), 0, sheet)
            self.assertEqual(self.browser.count("svg.nest [id^=nest-defer-]"), len(re.findall("^defer", sheet, re.M)))
            drawn += 1
        self.assertGreater(drawn, 130)


@needs_nest
class Command(unittest.TestCase):
    def test_a_page_and_an_index(self) -> None:
        with tempfile.TemporaryDirectory() as folder:
            paths = [os.path.join(CATALOGUE, name + ".routine") for name in ("case-a", "monitor", "calibration")]
            one, index = os.path.join(folder, "one.html"), os.path.join(folder, "all.html")
            self.assertEqual(command("report", paths[0], "-o", one), (0, b"", ""))
            with open(one, encoding="utf-8") as page:
                text = page.read()
            self.assertIn("whole figure 11 attempts 8 twice 0", text)
            self.assertEqual(command("report", *paths, paths[0], "-o", index), (1, b"", f"{paths[2]}: refused 11 0\n"))
            self.assertEqual(
                sorted(os.listdir(os.path.join(folder, "all"))), ["calibration.html", "case-a-2.html", "case-a.html", "monitor.html"]
            )
            with open(index, encoding="utf-8") as page:
                text = page.read()
            for part in 'href="all/case-a.html">case-a<', "refused 11 0", "untouched", "4 routines":
                self.assertIn(part, text)
            with open(os.path.join(folder, "all", "calibration.html"), encoding="utf-8") as page:
                self.assertIn("the greatest are: region 1 (frequency) 401, region 3 (phase) 360, region 2 (level) 61.", page.read())

    def test_bad_sources_and_names(self) -> None:
        with tempfile.TemporaryDirectory() as folder:
            bad = os.path.join(folder, "bad.routine")
            with open(bad, "w", encoding="ascii") as file:
                file.write("record\nregio\n")
            status, _, said = command("report", bad, "-o", os.path.join(folder, "p.html"))
            self.assertEqual(status, 1)
            self.assertIn("line 2, column 1: found `regio`", said)
            self.assertEqual(command("report", bad, "-o", os.path.join(folder, "p.pdf"))[0], 2)
            self.assertEqual(command("report", os.path.join(folder, "none"), "-o", os.path.join(folder, "p.html"))[0], 2)


class Missing(unittest.TestCase):
    def test_without_nest(self) -> None:
        with tempfile.TemporaryDirectory() as folder:
            source, page = os.path.join(CATALOGUE, "case-a.routine"), os.path.join(folder, "p.html")
            status, _, said = command("report", source, "-o", page, folder=folder)
            self.assertEqual(status, 3)
            self.assertIn("The program `show` is not in", said)
