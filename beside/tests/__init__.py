"""Tests of beside/. Its packages are found as the commands there find them."""

import pathlib
import sys

sys.path.insert(0, str(pathlib.Path(__file__).resolve().parents[1]))
