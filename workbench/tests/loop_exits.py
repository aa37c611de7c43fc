"""Makes loop-exits.txt from the harness's answers, a line for each store; in the repository's folder, SOURCE as in beside/README.md:

tools/beside --lists SOURCE < beside/lists/sheets.vectors | python3 workbench/tests/loop_exits.py > workbench/tests/loop-exits.txt
"""

import sys


def main() -> None:
    """Reads the answers, and prints a line for each store."""
    found: list[str] = []
    for line in map(str.strip, sys.stdin):
        if line == ".":
            print("; ".join(found) or "-")
        elif line.startswith(("store", "wrong")):
            found = []
        else:
            found.append(line)


if __name__ == "__main__":
    if sys.argv[1:] in (["-h"], ["--help"]):
        print(__doc__.strip())
        sys.exit(0)
    if sys.argv[1:]:
        print("loop_exits.py: it takes standard input alone", file=sys.stderr)
        sys.exit(2)
    main()
