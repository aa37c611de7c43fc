"""Measures the page that was built: /usr/bin/python3 -m browser.tests.measure, in the repository's folder.

The size of the file, and the time from a keystroke to the drawn nest, for a routine of 5 regions and for two of 32 of
beside/lists/sheets.vectors: the one with the median and the one with the longest sheet of all that nest whole. The keys are a digit
behind a limit, and the one that takes it away; the browser's driver presses them. Nothing here fails for a time.
"""

import statistics
import sys

from .support import Browser, PAGE, ROOT, lacking

from generate.vectors import read_vectors
from reading.record import show
from reading.sheet import accepted
from rukvetta.needs import MISSING, USAGE

KEYS = 25
FIVE = ROOT / "workbench" / "catalogue" / "ramp-nested.routine"

# In the browser: notes for each key the times when it was pressed, when the nest stood in the page, and when it was painted.
WATCH = """window.times = [];
document.getElementById('source').addEventListener('keydown', event => {
  const pressed = event.timeStamp, old = document.querySelector('svg.nest');
  const wait = () => {
    if (document.querySelector('svg.nest') === old) return requestAnimationFrame(wait);
    const stands = performance.now(), channel = new MessageChannel();
    channel.port1.onmessage = () => times.push([stands - pressed, performance.now() - pressed]);
    channel.port2.postMessage(null);
  };
  setTimeout(() => requestAnimationFrame(wait));
}, true);"""
LOAD = """const [text, done] = arguments, area = document.getElementById('source');
area.value = text;
area.dispatchEvent(new Event('input'));
area.focus();
const limit = /limit [1-9]\\d{0,2}(?!\\d)/.exec(text), at = limit.index + limit[0].length;
area.setSelectionRange(at, at);
setTimeout(done, 500);"""


def sources() -> dict[str, str]:
    """The routines that are measured."""
    large = []
    for store, answer in read_vectors(ROOT / "beside" / "lists" / "sheets.vectors"):
        if store[4:6] == b"\x20\x00" and answer.startswith("whole"):
            large.append((answer.count("\n"), show(accepted(store)[0])))
    large.sort()
    (middle, median), (most, longest) = large[len(large) // 2], large[-1]
    five = FIVE.read_text(encoding="utf-8")
    return {"5 regions": five, f"32 regions, a sheet of {middle} lines": median, f"32 regions, a sheet of {most} lines": longest}


def measured(look: Browser, text: str) -> list[list[float]]:
    """The times of all keys but the first few, which the browser needs to warm up."""
    from selenium.webdriver.common.keys import Keys

    look.driver.execute_async_script(LOAD, text)
    look.run("times.length = 0")
    area = look.driver.find_element("id", "source")
    for count in range(1, KEYS + 1):
        area.send_keys("1" if count % 2 else Keys.BACKSPACE)
        look.driver.execute_async_script(
            "const [n, done] = arguments; const wait = () => times.length >= n ? setTimeout(done, 50) : setTimeout(wait, 5); wait();", count
        )
    return look.run("return times")[5:]


def main() -> None:
    """Measures, and prints what was measured."""
    if sys.argv[1:] in (["-h"], ["--help"]):
        print(__doc__.strip())
        return
    if sys.argv[1:]:
        print("measure: nothing stands behind the command", file=sys.stderr)
        sys.exit(USAGE)
    if lacking() or not PAGE.is_file():
        print(f"measure: {lacking() or 'browser/build has not made ' + str(PAGE)}", file=sys.stderr)
        sys.exit(MISSING)
    print(f"{PAGE.name}: {PAGE.stat().st_size:,} bytes")
    look = Browser(1500, 1000)
    look.open(str(PAGE))
    look.driver.execute_async_script("rukvetta.ready.then(arguments[0])")
    look.run(WATCH)
    for name, text in sources().items():
        stands, painted = zip(*measured(look, text))
        told = (
            f"{what} {statistics.median(times):.0f} ms, at most {max(times):.0f}"
            for what, times in (("drawn", stands), ("painted", painted))
        )
        print(f"{name}: {'; '.join(told)}")
    look.close()


if __name__ == "__main__":
    main()
