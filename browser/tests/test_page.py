"""The page as a person meets it: what is written, chosen, dropped and downloaded, in a real browser."""

import base64
import os
import tempfile
import time

from .support import InBrowser, PAGE, ROOT, needs_browser, needs_page, of_workbench

from rukvetta.assemble import assemble

CATALOGUE = ROOT / "workbench" / "catalogue"
EXAMPLE = ROOT / "docs" / "example.store"

WRITE = """const [text, done] = arguments, area = document.getElementById('source');
area.value = text;
area.dispatchEvent(new Event('input'));
requestAnimationFrame(() => requestAnimationFrame(() => done()));"""
CHOOSE = """const list = document.getElementById('catalogue');
list.value = arguments[0];
list.dispatchEvent(new Event('change'));"""
DROP = """const [name, data, done] = arguments, given = new DataTransfer();
const bytes = Uint8Array.from(atob(data), letter => letter.charCodeAt(0));
given.items.add(new File([bytes], name));
document.querySelector('.editor').dispatchEvent(new DragEvent('drop', { dataTransfer: given, bubbles: true, cancelable: true }));
setTimeout(done, 100);"""
STRETCH = "return [document.documentElement.scrollWidth, innerWidth]"


@needs_browser
@needs_page
class AtWork(InBrowser):
    def setUp(self) -> None:
        self.assertEqual(self.browser.open(str(PAGE)), [])
        self.browser.driver.execute_async_script("rukvetta.ready.then(arguments[0])")

    def write(self, text: str) -> None:
        self.browser.driver.execute_async_script(WRITE, text)

    def drop(self, name: str, data: bytes) -> None:
        self.browser.driver.execute_async_script(DROP, name, base64.b64encode(data).decode("ascii"))

    def sheet(self) -> str:
        """The sheet's lines as the page has them, without the names that it puts behind some inputs."""
        return "".join(line + "\n" for line in self.browser.texts(".listing:first-of-type li"))

    def source(self) -> str:
        return self.browser.run("return document.getElementById('source').value")

    def state(self) -> str:
        return self.browser.texts("#state")[0]

    def test_the_page_is_of_these_sources(self) -> None:
        """A page that was built before a script was changed would be tried for nothing."""
        from browser import pages

        text = PAGE.read_text(encoding="utf-8")
        for part in pages.drawing.script(), pages.assembler_script(), *(pages.text_of(f"{name}.js") for name in pages.REST):
            self.assertIn(part, text)

    def test_nothing_is_loaded(self) -> None:
        self.assertEqual(self.browser.run("return performance.getEntriesByType('resource').length"), 0)
        self.assertIn("default-src 'none'", PAGE.read_text(encoding="utf-8"))

    def test_a_library_that_does_not_run(self) -> None:
        from browser.pages import nesting_page

        path = os.path.join(self.folder.name, "broken.html")
        with open(path, "w", encoding="utf-8") as file:
            file.write(nesting_page(b"no module"))
        self.browser.open(path)
        self.browser.driver.execute_async_script("rukvetta.ready.catch(arguments[0])")
        self.assertIn("The compiled library does not run in this browser", self.state())

    def test_it_says_what_is_not_proved(self) -> None:
        self.assertIn("Compiling to WebAssembly is not.", self.browser.texts("summary")[0])
        self.assertIn("Compiling it to WebAssembly is outside of the proof.", self.browser.texts("details")[0])

    def test_every_routine_of_the_catalogue(self) -> None:
        names = sorted(path.stem for path in CATALOGUE.glob("*.routine"))
        self.assertEqual([name for name in self.browser.texts("#catalogue option") if name != "choose"], names)
        for name in names:
            self.browser.run(CHOOSE, name)
            self.assertEqual(self.sheet(), (CATALOGUE / f"{name}.sheet").read_text(encoding="ascii"), name)
            self.assertEqual(self.browser.texts("#result h1"), [name])
            self.assertEqual(self.source(), (CATALOGUE / f"{name}.routine").read_text(encoding="utf-8"))
            first = self.sheet().partition("\n")[0].partition(" attempts")[0].removesuffix(" figure -")
            self.assertEqual(self.state().replace(",", ""), first)

    def test_writing_changes_nest_and_figure(self) -> None:
        text = (CATALOGUE / "sweep-stepped.routine").read_text(encoding="utf-8")
        self.write(text)
        figures = [self.browser.texts("[data-fact=figure] b")[0]]
        self.write(text.replace("limit 401", "limit 400"))
        figures.append(self.browser.texts("[data-fact=figure] b")[0])
        self.assertEqual(len(set(figures)), 2, figures)
        self.assertEqual(self.browser.texts("#result h1"), ["my-routine"])
        self.assertEqual(self.browser.count("svg.graph"), 1)
        self.assertEqual(self.browser.count("svg.nest"), 1)

    def test_faults_stand_at_their_lines(self) -> None:
        text = (CATALOGUE / "sweep-stepped.routine").read_text(encoding="utf-8").replace("limit 401", "limit 0").replace("add(", "ad(")
        self.write(text)
        wanted = of_workbench(text.encode())
        self.assertEqual(len(wanted), 2)
        self.assertEqual(self.browser.texts("#faults li"), [f"line {line}, column {at}: {said}" for line, at, said in wanted])
        self.assertEqual(self.browser.texts(".gutter .wrong"), [f"{line}\n" for line, _, _ in wanted])
        self.assertEqual(self.browser.texts(".marks .fault"), ["0", "ad"])
        self.assertEqual(self.state(), "2 faults")
        self.assertEqual(self.browser.run("return [...document.querySelectorAll('#save-store:disabled, main.old')].length"), 2)
        self.browser.run("document.querySelectorAll('#faults button')[1].click()")
        chosen = "const a = document.getElementById('source'); return a.value.slice(a.selectionStart, a.selectionEnd)"
        self.assertEqual(self.browser.run(chosen), "ad")

    def test_the_picture_comes_back_behind_a_fault(self) -> None:
        text = (CATALOGUE / "case-a.routine").read_text(encoding="utf-8")
        self.write(text + "%")
        self.assertEqual(self.state(), "1 fault")
        self.write(text)
        self.assertEqual((self.browser.count("#state.wrong"), self.browser.count("main.old"), self.browser.count("#faults li")), (0, 0, 0))
        self.assertEqual(self.sheet(), (CATALOGUE / "case-a.sheet").read_text(encoding="ascii"))

    def test_a_store_that_is_dropped(self) -> None:
        from generate.vectors import read_vectors
        from reading.record import show
        from reading.sheet import accepted

        self.drop("example.store", EXAMPLE.read_bytes())
        self.assertEqual(self.source(), show(accepted(EXAMPLE.read_bytes())[0]))
        self.assertEqual(self.browser.texts("#result h1"), ["example"])
        for store, answer in list(read_vectors(ROOT / "beside" / "lists" / "sheets.vectors"))[::150]:
            self.drop("some.store", store)
            self.assertEqual(self.sheet(), answer)

    def test_a_store_that_is_refused(self) -> None:
        data = bytearray(EXAMPLE.read_bytes())
        data[40] ^= 1
        self.drop("damaged.store", bytes(data))
        self.assertEqual((self.sheet(), self.source()), ("refused 3 0\n", ""))
        self.assertEqual(self.browser.texts(".explained"), ["Refusal 3: a block's check is wrong."])

    def test_a_source_that_is_refused(self) -> None:
        self.write("record\nregion first\n    branch to last\nregion last\n    7 (d0.0) cost 1\n    return\n")
        self.assertEqual(self.sheet(), "refused 6 1\n")
        said = "Region 1 (last) reads d0.0 (block 0, instruction 0, read 0): only region 1 (last)'s own inputs and outputs would be allowed"
        self.assertIn(f"line 5: Refusal 6: a region, constant or value names nothing allowed. {said}", self.browser.texts("#faults li")[0])
        self.assertEqual((self.browser.texts(".gutter .wrong"), self.browser.texts(".marks .fault")), (["5\n"], ["7"]))

    def test_a_figure_that_is_too_great(self) -> None:
        """The sentence is the workbench's, with names for a source and without for its store."""
        from rukvetta.explain import named, nesting_sentence
        from rukvetta.routine import Routine

        source = (CATALOGUE / "calibration.routine").read_bytes()
        store, record, names = assemble(source)
        for name, data, called in ("c.routine", source, names), ("c.store", store, None):
            self.drop(name, data)
            sentence = named(Routine("c", store, called, record), nesting_sentence(11, 0, record))
            self.assertEqual(self.browser.texts(".explained"), [f"Refusal 11: the figure exceeds 4,294,967,295. {sentence}"])

    def test_a_source_that_is_dropped(self) -> None:
        source = (CATALOGUE / "am-plain.routine").read_bytes()
        self.drop("mine.routine", source)
        self.assertEqual(self.sheet(), (CATALOGUE / "am-plain.sheet").read_text(encoding="ascii"))
        self.drop("mine.txt", source + b"\xff")
        self.assertIn("found the byte 255, expected text in UTF-8", self.browser.texts("#faults li")[0])

    def test_what_was_written_can_be_had_back(self) -> None:
        self.write("record\nregion mine\n    return\n")
        self.browser.run(CHOOSE, "case-a")
        self.browser.run(CHOOSE, "my-routine")
        self.assertEqual(self.source(), "record\nregion mine\n    return\n")

    def test_zoom_stays_while_writing(self) -> None:
        text = self.source()
        self.browser.run("document.querySelector('.tools button').click()")
        zoom = "return document.querySelector('svg.graph').style.getPropertyValue('--zoom')"
        was = self.browser.run(zoom)
        self.assertTrue(was)
        self.write(text.replace("limit 201", "limit 202"))
        self.assertIn("≤ 202 turns", self.browser.texts("svg.graph")[0])
        self.assertEqual(self.browser.run(zoom), was)

    def test_downloads(self) -> None:
        text = (CATALOGUE / "case-b.routine").read_text(encoding="utf-8")
        with tempfile.TemporaryDirectory() as folder:
            self.browser.driver.execute_cdp_cmd("Browser.setDownloadBehavior", {"behavior": "allow", "downloadPath": folder})
            self.browser.run(CHOOSE, "case-b")
            for button, name, data in ("save-store", "case-b.store", assemble(text.encode())[0]), (
                "save-source",
                "case-b.routine",
                text.encode(),
            ):
                self.browser.run("document.getElementById(arguments[0]).click()", button)
                path = os.path.join(folder, name)
                for _ in range(100):
                    if os.path.exists(path) and os.path.getsize(path) == len(data):
                        break
                    time.sleep(0.1)
                with open(path, "rb") as file:
                    self.assertEqual(file.read(), data)

    def test_no_width_makes_the_page_scroll_sideways(self) -> None:
        for width in 390, 700, 1100, 1500, 2400:
            size = {"width": width, "height": 900, "deviceScaleFactor": 1, "mobile": False}
            self.browser.driver.execute_cdp_cmd("Emulation.setDeviceMetricsOverride", size)
            for name in "sweep-markers", "psk-eight", "calibration":
                self.browser.run(CHOOSE, name)
                wide, room = self.browser.run(STRETCH)
                self.assertLessEqual(wide, room, (width, name))
        self.browser.driver.execute_cdp_cmd("Emulation.clearDeviceMetricsOverride", {})
