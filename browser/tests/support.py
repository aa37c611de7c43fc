"""What the tests share: the page that was built, a browser, and both assemblers' answers in one form."""

import base64
import os
import pathlib
import re
import sys
import unittest
from collections.abc import Iterator

ROOT = pathlib.Path(__file__).resolve().parents[2]
sys.path[:0] = [str(ROOT / "workbench"), str(ROOT / "beside")]

from rukvetta.assemble import assemble  # noqa: E402 (the path comes first)
from rukvetta.explain import line_of, named  # noqa: E402
from rukvetta.faults import Fault  # noqa: E402
from rukvetta.needs import Missing, need, need_dagre  # noqa: E402
from rukvetta.references import check_references  # noqa: E402
from rukvetta.refusals import Refused  # noqa: E402
from rukvetta.routine import Routine  # noqa: E402
from tests.browser import Browser, InBrowser, missing  # noqa: E402, F401 (for the tests)

PAGE = pathlib.Path(os.environ.get("RUKVETTA_PAGE") or ROOT / "target" / "browser" / "rukvetta.html")
BATCH = 250  # sources or stores that go to the browser at once


def lacking() -> str | None:
    """What a test in the browser lacks, or None."""
    try:
        need("lark")
        need_dagre()
    except Missing as told:
        return str(told)
    return missing()


needs_browser = unittest.skipIf(lacking(), lacking() or "")
needs_page = unittest.skipUnless(PAGE.is_file(), f"there is no page {PAGE.name}; browser/test builds it")

# In the browser: the answers of the page's assembler to sources in base64.
ANSWERS = """return arguments[0].map(source => {
  const bytes = Uint8Array.from(atob(source), letter => letter.charCodeAt(0));
  try {
    const { store, names, record } = rukvetta.assemble(bytes), found = rukvetta.placeOf(record);
    const place = found && [found.number, found.word, rukvetta.withNames(found.sentence, names), found.line];
    return [btoa(String.fromCharCode(...store)), names.lines(), place];
  } catch (faults) {
    if (!(faults instanceof rukvetta.Faults)) return String(faults.stack);
    return faults.found.map(fault => [fault.line, fault.column, fault.message]);
  }
});"""


def batches(items: list) -> Iterator[list]:
    for at in range(0, len(items), BATCH):
        yield items[at : at + BATCH]


def place_of(routine: Routine, source: bytes) -> list | None:
    """Number, word, sentence and line of a refusal from 6 to 8, as the workbench finds them."""
    try:
        check_references(routine.record)
        return None
    except Refused as refused:
        line = re.search(r"\d+", line_of(routine.record, refused.part))
        at = int(line[0]) if line else len(re.split(rb"(?m)^[ \t]*record\b", source)[0].split(b"\n"))
        return [refused.number, refused.word, named(routine, refused.sentence), at]


def of_workbench(source: bytes) -> list:
    """What the workbench's assembler says: store, names and the place of a refusal 6 to 8; or all faults."""
    try:
        store, record, names = assemble(source)
        return [base64.b64encode(store).decode("ascii"), "\n".join(names.lines()), place_of(Routine("", store, names, record), source)]
    except Fault as fault:
        return [[one.line, one.column, one.message] for one in fault.all()]


def of_page(browser: Browser, sources: list[bytes]) -> list:
    """What the page's assembler says of each source."""
    encoded = [base64.b64encode(source).decode("ascii") for source in sources]
    return [answer for batch in batches(encoded) for answer in browser.run(ANSWERS, batch)]
