"""What the tests of the tools have in common."""

import contextlib
import importlib.machinery
import importlib.util
import io
import os
import pathlib
import subprocess
import sys
import unittest.mock

TOOLS = pathlib.Path(__file__).resolve().parent.parent
TOP = TOOLS.parent

# the proved program: another one may be named in the environment
PROGRAM = os.environ.get("COPYMGR", str(TOP / "crates/copymgr/out/copymgr"))
NO_PROGRAM = None if os.access(PROGRAM, os.X_OK) else f"no program at {PROGRAM}: the plain replay alone was asked"


def path_of(name):
    """Where a script is: in the folder of those who use it, or at a path of its own."""
    return next(iter(sorted(TOOLS.glob(f"[pc]*/{name}"))), TOOLS / name) if isinstance(name, str) else name


def tool(name):
    """A script of tools/ as a module."""
    loader = importlib.machinery.SourceFileLoader(name.replace("-", "_"), str(path_of(name)))
    module = importlib.util.module_from_spec(importlib.util.spec_from_loader(loader.name, loader))
    loader.exec_module(module)
    return module


def run(*words, data=b""):
    """A tool, by its words: what it wrote, what it said on standard error, and its exit status."""
    done = subprocess.run([path_of(words[0]), *words[1:]], input=data, capture_output=True, check=False, cwd=TOP)
    return done.stdout, done.stderr.decode(), done.returncode


def run_at(top, *words):
    """A tool that is told that the repository is at `top`: its lines, what it said, and its exit status."""
    module, status = tool(words[0]), 0
    with contextlib.ExitStack() as stack:
        stack.enter_context(unittest.mock.patch.object(module, "TOP", top))
        stack.enter_context(unittest.mock.patch.object(sys, "argv", list(words)))
        told = stack.enter_context(contextlib.redirect_stdout(io.StringIO()))
        said = stack.enter_context(contextlib.redirect_stderr(io.StringIO()))
        try:
            module.main()
        except SystemExit as end:
            status = end.code
    return told.getvalue().splitlines(), said.getvalue(), status
