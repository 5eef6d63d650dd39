"""Finds the packages for the scripts of this folder: see tools/house.py."""

import pathlib
import runpy

TOP = runpy.run_path(str(pathlib.Path(__file__).resolve().parents[1] / "tools/house.py"))["TOP"]
