"""Where the packages of this repository are: those of the tools beside this file, and those of the clients. Each folder
with scripts has a house.py that runs this file, so that a script finds them by `import house`. It is no link, which the
gate refuses. Nothing else edits the path."""

import pathlib
import sys

TOP = pathlib.Path(__file__).resolve().parent.parent

sys.dont_write_bytecode = True
sys.path[1:1] = [str(TOP / folder) for folder in ("tools", "clients/python", "clients/iscsi")]
