"""Makes the pictures of browser/docs from the page that was built: /usr/bin/python3 -m browser.tests.screenshots [FOLDER].

Wide and narrow, each light and dark; in the dark ones a source with faults, and a store that is refused with its graph.
"""

import pathlib
import sys

from .support import Browser, PAGE, ROOT, lacking

from rukvetta.needs import MISSING, USAGE

CATALOGUE = ROOT / "workbench" / "catalogue"
WIDE, NARROW = (1240, 660), (390, 960)
WRITE = """const [text, done] = arguments, area = document.getElementById('source');
area.value = text;
area.dispatchEvent(new Event('input'));
requestAnimationFrame(() => requestAnimationFrame(done));"""
CHOOSE = """const list = document.getElementById('catalogue');
list.value = arguments[0];
list.dispatchEvent(new Event('change'));"""


def pictures() -> list[tuple[str, tuple[int, int], bool, str, str]]:
    """For each picture its name, its size, whether it is dark, the routine that is chosen, and a text to write then, or nothing."""
    spoilt = (CATALOGUE / "ramp-nested.routine").read_text(encoding="utf-8").replace("add(", "ad(", 1).replace("limit 101", "limit 0")
    return [
        ("wide-light", WIDE, False, "sweep-markers", ""),
        ("wide-dark", WIDE, True, "ramp-nested", spoilt),
        ("narrow-light", NARROW, False, "sweep-stepped", ""),
        ("narrow-dark", NARROW, True, "calibration", ""),
    ]


def refuse(sentence: str, status: int) -> None:
    print(f"screenshots: {sentence}", file=sys.stderr)
    sys.exit(status)


def main() -> None:
    """Makes the pictures."""
    if sys.argv[1:] in (["-h"], ["--help"]):
        print(__doc__.strip())
        return
    folder = pathlib.Path(sys.argv[1]) if sys.argv[1:] else ROOT / "browser" / "docs"
    if len(sys.argv) > 2 or not folder.is_dir():
        refuse("usage: /usr/bin/python3 -m browser.tests.screenshots [FOLDER], an existing folder", USAGE)
    if lacking() or not PAGE.is_file():
        refuse(lacking() or f"browser/build has not made {PAGE}", MISSING)
    look = Browser()
    for name, (width, height), dark, routine, text in pictures():
        size = {"width": width, "height": height, "deviceScaleFactor": 1, "mobile": False}
        look.driver.execute_cdp_cmd("Emulation.setDeviceMetricsOverride", size)
        look.open(str(PAGE), dark)
        look.driver.execute_async_script("rukvetta.ready.then(arguments[0])")
        look.run(CHOOSE, routine)
        if text:
            look.driver.execute_async_script(WRITE, text)
        look.screenshot(str(folder / f"{name}.png"), height)
    look.close()


if __name__ == "__main__":
    main()
