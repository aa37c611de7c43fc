"""Tests of interface/ that need neither rt nor a board."""

import pathlib
import sys

sys.path.insert(0, str(pathlib.Path(__file__).resolve().parents[1] / "stack"))
