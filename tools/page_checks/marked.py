"""A part of a page that a script makes: what stands between a comment with its name and the next comment `end`."""

from pathlib import Path

END = "<!-- end -->"


def start(name: str) -> str:
    """The comment in front of the part."""
    return f"<!-- {name}: made by tools/pages {name} -->"


def split(text: str, name: str) -> tuple[str, str, str]:
    """What stands in front of the part, the part, and what stands behind it; ValueError if the page has no such part."""
    head, found, rest = text.partition(start(name) + "\n")
    part, ended, tail = rest.partition(END)
    if not found or not ended:
        raise ValueError(f"there is no part `{start(name)}` that ends with `{END}`")
    return head + found, part, ended + tail


def put(page: Path, name: str, made: str, only_check: bool) -> bool:
    """Whether the page had the part as it is made now. Where it had not it is put there, unless the page is only checked."""
    head, part, tail = split(page.read_text(encoding="utf-8"), name)
    if part == made:
        return True
    if not only_check:
        page.write_text(head + made + tail, encoding="utf-8")
    return False
