"""Checks of the pages: sentences, names, numbers, and the parts that are made from other files. The second reading is found in beside/."""

import pathlib
import sys

sys.path.append(str(pathlib.Path(__file__).resolve().parents[2] / "beside"))
