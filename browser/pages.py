"""The page that nests in the browser, put together: scripts, styles, catalogue and the compiled library in one file."""

from __future__ import annotations

import base64
import json
import pathlib
import re
import sys

ROOT = pathlib.Path(__file__).resolve().parents[1]
FOLDER = ROOT / "browser" / "page"
sys.path.insert(0, str(ROOT / "workbench"))

from rukvetta import page as drawing  # noqa: E402 (the path comes first)
from rukvetta.refusals import RULES  # noqa: E402
from rukvetta.syntax import parser  # noqa: E402
from rukvetta.version import version  # noqa: E402

from .grammar import tables  # noqa: E402

ASSEMBLER = "letters", "near", "faults", "parser", "syntax", "recovery", "record", "loops", "names", "region", "source", "references"
REST = "library", "printed", "explained", "editor", "app"
WANTED = "WORDS", "USUAL_LENT"


def text_of(name: str) -> str:
    return (FOLDER / name).read_text(encoding="utf-8")


def constant(name: str, value: object) -> str:
    """A constant of the script. No `<` stands in it, so that it cannot end the script."""
    return f"const {name} = {json.dumps(value).replace('<', chr(92) + 'u003c')};\n"


def assembler_script() -> str:
    """The assembler of the page, with its tables."""
    return constant("TABLES", tables(parser())) + "\n".join(text_of(f"{part}.js") for part in ASSEMBLER)


def catalogue() -> dict[str, str]:
    """The workbench's routines by their names."""
    found = {path.stem: path.read_text(encoding="utf-8") for path in (ROOT / "workbench" / "catalogue").glob("*.routine")}
    return dict(sorted(found.items()))


def numbers() -> dict[str, int]:
    """Numbers of the library's header."""
    header = (ROOT / "interface" / "rukvetta.h").read_text(encoding="ascii")
    found = dict(re.findall(r"^#define RUKVETTA_(\w+) (\d+)$", header, re.M))
    return {name: int(found[name]) for name in WANTED}


def script(module: bytes) -> str:
    """All scripts of the page: the layout library, the drawing, and ours."""
    given = {"MODULE": base64.b64encode(module).decode("ascii"), "NUMBERS": numbers(), "CATALOGUE": catalogue(), "RULES": RULES}
    ours = "".join(constant(name, value) for name, value in given.items()) + assembler_script()
    ours += "\n".join(text_of(f"{part}.js") for part in REST)
    return f'{drawing.script()}(function () {{\n"use strict";\n{ours}}})();\n'


def nesting_page(module: bytes) -> str:
    """The whole page, around a compiled library."""
    parts = {
        "@STYLE@": drawing.text_of("style.css") + text_of("style.css"),
        "@VERSION@": version(),
        "@SCRIPT@": script(module),
        "@LICENCE@": drawing.text_of("dagre-licence.txt"),
    }
    return re.sub("|".join(parts), lambda mark: parts[mark[0]], text_of("page.html"))
