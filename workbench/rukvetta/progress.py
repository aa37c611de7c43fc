"""A line that counts, on a terminal, while long work goes on."""

from __future__ import annotations

import sys
from collections.abc import Iterable, Iterator
from typing import Any, TypeVar

from .needs import need

Item = TypeVar("Item")
FEW = 4  # so many are done before a line could be read


def live_console() -> Any:
    """Where the line goes: standard error, or standard output where that is the same terminal as the text."""
    return need("rich.console").Console(stderr=True)


def tracked(items: Iterable[Item], total: int, live: Any = None) -> Iterator[Item]:
    """The items one by one, with a progress line where there is a terminal."""
    if total <= FEW or not (live.is_terminal if live else sys.stderr.isatty()):
        yield from items
        return
    progress = need("rich.progress")
    columns = progress.BarColumn(), progress.MofNCompleteColumn(), progress.TimeElapsedColumn()
    console = live or live_console()
    with progress.Progress(*columns, console=console, transient=True, redirect_stdout=False) as bar:  # which may be a file
        task = bar.add_task("", total=total)
        for item in items:
            yield item
            bar.advance(task)
