"""Self-contained pages: the texts that the programs print, and one script that draws them."""

from __future__ import annotations

import functools
import html
import json
import os
from dataclasses import asdict, dataclass
from urllib.parse import quote

from .facts import clock_text
from .needs import need_dagre

FOLDER = os.path.normpath(os.path.join(os.path.dirname(os.path.abspath(__file__)), "..", "page"))
PARTS = "texts.js", "inputs.js", "costs.js", "svg.js", "view.js", "graph.js", "form.js", "nest.js", "leftover.js", "page.js"
LAYOUT_NOTICE = "dagre, Copyright 2012-2014 Chris Pettitt, under the Expat licence, which the page repeats at its end."


@dataclass(frozen=True)
class RoutineTexts:
    """What a page is drawn from: what `show` and `nest` print, the source's names, a refusal's explanation. Each may be empty."""

    record: str
    sheet: str
    names: str = ""
    explained: str = ""


@dataclass(frozen=True)
class RoutineOptions:
    """What a page says besides: times by a clock in hertz, and the number of the record's words. None is not told."""

    clock: float | None = None
    words: int | None = None


def text_of(name: str) -> str:
    with open(os.path.join(FOLDER, name), encoding="utf-8") as file:
        return file.read()


@functools.cache
def script() -> str:
    """The one script of a page: the layout library, then ours."""
    ours = "\n".join(text_of(part) for part in PARTS)
    return f'/* {LAYOUT_NOTICE} */\n{need_dagre()}\n(function () {{\n"use strict";\n{ours}}})();\n'


def filled(title: str, body: str, scripts: str = "") -> str:
    page = text_of("page.html")
    for mark, text in ("@TITLE@", html.escape(title)), ("@STYLE@", text_of("style.css")), ("@BODY@", body), ("@SCRIPTS@", scripts):
        page = page.replace(mark, text, 1)
    return page


def kept(name: str, text: str) -> str:
    """A text that the page keeps for the script."""
    return f'<pre hidden id="text-{name}">\n{html.escape(text, quote=False)}</pre>\n'


def routine_page(title: str, texts: RoutineTexts, options: RoutineOptions) -> str:
    """The page of a routine."""
    clock = options.clock
    shown = {"title": title, "clock": clock, "clockText": clock_text(clock) if clock else None, "words": options.words}
    given = json.dumps(shown).replace("<", "\\u003c")
    named = asdict(texts)
    wanted = json.dumps(sorted(named))
    start = (
        f"const texts = {{}};\nfor (const name of {wanted}) "
        "texts[name] = document.getElementById('text-' + name).textContent.trim();\n"
        f"drawRoutine(document.querySelector('main'), texts, {given});\n"
    )
    scripts = "".join(kept(name, text) for name, text in named.items())
    scripts += f"<script>\n{script()}{start}</script>\n<!--\n{text_of('dagre-licence.txt')}-->\n"
    return filled(title, "", scripts)


def index_page(title: str, rows: list[tuple]) -> str:
    """A table of routines; a row is a link and the cells of the catalogue's table."""
    heads = "".join(f'<th class="{"number" if k > 1 else ""}">{head}</th>' for k, head in enumerate(rows[0]))
    lines = []
    for (name, link), outcome, *cells in rows[1:]:
        first = f'<td><a href="{html.escape(quote(os.fsencode(link)))}">{html.escape(name)}</a></td>'
        second = f'<td><span class="badge {html.escape(outcome.split()[0])}">{html.escape(outcome)}</span></td>'
        lines.append("<tr>" + first + second + "".join(f'<td class="number">{html.escape(cell)}</td>' for cell in cells) + "</tr>")
    body = (
        f"<header><h1>{html.escape(title)}</h1><p>{len(rows) - 1} routines</p></header>"
        f"<table><thead><tr>{heads}</tr></thead><tbody>\n" + "\n".join(lines) + "\n</tbody></table>"
    )
    return filled(title, body)
