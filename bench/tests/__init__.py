"""Tests of bench/. Its modules are found as the commands there find them."""

import pathlib
import sys

FOLDER = pathlib.Path(__file__).resolve().parents[1]
sys.path[:0] = [str(FOLDER), str(FOLDER / "board")]
