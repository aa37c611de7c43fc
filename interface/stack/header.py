"""The part of rukvetta.h that says what a call needs of stack: made from the bounds, and compared with them."""

import re

MADE = re.compile(r"(?<=/\* stack: made by interface/build --board --write \*/\n).*?(?=/\* end \*/\n)", re.DOTALL)
TARGETS = {
    "cortex-m3": ("__ARM_ARCH_7M__", "Cortex-M3, -O2"),
    "cortex-m4": ("__ARM_ARCH_7EM__", "Cortex-M4, -O2"),
    "cortex-m33": ("__ARM_ARCH_8M_MAIN__", "Cortex-M33, -O2"),
    "x86-64": ("__x86_64__", "x86-64, as rt compiles it"),
}

Bounds = dict[str, dict[str, int]]  # of each processor, of each exported function


def macro(function: str) -> str:
    return f"{function.upper()}_STACK"


def block(regions: Bounds, proof: Bounds) -> str:
    """The lines of the header."""
    lines = []
    for processor, bounds in regions.items():
        symbol, what = TARGETS[processor]
        lines.append(f"#{'elif' if lines else 'if'} defined({symbol}) /* {what} */")
        for function, size in bounds.items():
            lines.append(f"#define {macro(function)} {size}")
            lines.append(f"#define {macro(function)}_PROVED {proof[processor][function]}")
    return "\n".join(lines + ["#endif", ""])


def differs(text: str, regions: Bounds, proof: Bounds) -> str:
    """The first line of the header that is another than it should be, as a sentence; nothing where all are right."""
    found = MADE.search(text)
    if not found:
        return "rukvetta.h has no part that is made by interface/build --board --write"
    ours, theirs = found[0].splitlines(), block(regions, proof).splitlines()
    for one, other in zip(ours + [""] * len(theirs), theirs + [""] * len(ours)):
        if one != other:
            return f"rukvetta.h says `{one}` where the bound gives `{other}`; interface/build --board --write puts it right"
    return ""


def written(text: str, regions: Bounds, proof: Bounds) -> str:
    """The header with the right lines."""
    return MADE.sub(lambda _: block(regions, proof), text)
