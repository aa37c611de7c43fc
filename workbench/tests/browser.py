"""A real browser without a window: opens pages, looks at them, prints them."""

import base64
import os
import re
import tempfile
import unittest
from typing import Any

CHROMIUM, DRIVER = "/usr/bin/chromium", "/usr/bin/chromedriver"


def missing() -> str | None:
    """What a browser test lacks, or None."""
    if not (os.path.exists(CHROMIUM) and os.path.exists(DRIVER)):
        return "there is no Chromium here; rukvetta/needs.py names the packages"
    try:
        import selenium  # noqa: F401 (only asked for)
    except ImportError:
        return "there is no selenium here; rukvetta/needs.py names the packages"
    return None


class Browser:
    def __init__(self, width: int = 1500, height: int = 1000) -> None:
        from selenium import webdriver
        from selenium.webdriver.chrome.service import Service

        options = webdriver.ChromeOptions()
        options.binary_location = CHROMIUM
        for argument in "--headless=new", "--no-sandbox", "--disable-gpu", "--hide-scrollbars", f"--window-size={width},{height}":
            options.add_argument(argument)
        options.set_capability("goog:loggingPrefs", {"browser": "ALL"})
        self.driver = webdriver.Chrome(service=Service(DRIVER), options=options)

    def open(self, path: str, dark: bool = False) -> list[str]:
        """Open a page; answer what the browser complained of."""
        scheme = [{"name": "prefers-color-scheme", "value": "dark" if dark else "light"}]
        self.driver.execute_cdp_cmd("Emulation.setEmulatedMedia", {"features": scheme})
        self.driver.get("file://" + os.path.abspath(path))
        return [entry["message"] for entry in self.driver.get_log("browser") if entry["level"] == "SEVERE"]

    def run(self, script: str, *arguments: Any) -> Any:
        return self.driver.execute_script(script, *arguments)

    def texts(self, selector: str) -> list[str]:
        """The text of each element, a line for each text element of a picture."""
        return self.run("return [...document.querySelectorAll(arguments[0])].map(e => e.textContent)", selector)

    def count(self, selector: str) -> int:
        return self.run("return document.querySelectorAll(arguments[0]).length", selector)

    def screenshot(self, path: str, height: float) -> None:
        """The page from its top down to a height."""
        clip = {"x": 0, "y": 0, "width": self.run("return innerWidth"), "height": height, "scale": 1}
        answer = self.driver.execute_cdp_cmd("Page.captureScreenshot", {"clip": clip, "captureBeyondViewport": True})
        with open(path, "wb") as file:
            file.write(base64.b64decode(answer["data"]))

    def printed(self) -> tuple[bytes, int]:
        """The page as a PDF on A4, and how many sheets of paper it takes."""
        answer = self.driver.execute_cdp_cmd("Page.printToPDF", {"preferCSSPageSize": True, "printBackground": True})
        pdf = base64.b64decode(answer["data"])
        return pdf, len(re.findall(rb"/Type\s*/Page\b", pdf))

    def close(self) -> None:
        self.driver.quit()


class InBrowser(unittest.TestCase):
    """Tests that share a browser and a folder for its pages."""

    @classmethod
    def setUpClass(cls) -> None:
        cls.folder = tempfile.TemporaryDirectory()
        cls.addClassCleanup(cls.folder.cleanup)
        cls.browser = Browser()
        cls.addClassCleanup(cls.browser.close)
