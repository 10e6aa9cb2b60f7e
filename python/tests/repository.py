"""Where the tests find the package, the program, the examples, the second implementation, and the programs of others that judge."""
import importlib
import importlib.util
import os
import subprocess
import sys
import types
import unittest

ROOT = os.path.dirname(os.path.dirname(os.path.dirname(os.path.abspath(__file__))))
sys.path[:0] = [os.path.join(ROOT, "python"), os.path.join(ROOT, "tests", "random")]

import frameq as fq
from frameq._program import find_program


def program() -> str:
    """The program to test: that of FRAMEQ, which has to be there, or the one that is built here. Skips the test if that is not built."""
    if os.environ.get("FRAMEQ"):
        return find_program()
    try:
        return find_program(os.path.join(ROOT, "crates", "frameq", "out", "frameq"))
    except fq.ProgramNotFoundError as error:
        raise unittest.SkipTest(str(error)) from error


def require(peer: str, is_there: bool) -> None:
    """Ends a test that a program or a library of others judges, where that is missing: the test fails, unless FRAMEQ_WITHOUT, a list with
    commas, names it. Then it is left out."""
    if not is_there:
        if peer in os.environ.get("FRAMEQ_WITHOUT", "").split(","):
            raise unittest.SkipTest(f"{peer} is left out")
        raise AssertionError(f"{peer} is not installed. tests/setup installs it, and --without {peer} leaves its tests out")


def pandas() -> types.ModuleType:
    """The module pandas."""
    require("pandas", importlib.util.find_spec("pandas") is not None)
    return importlib.import_module("pandas")


def python_with(module: str) -> "str | None":
    """A Python that has this module: the one that runs the tests, or Debian's."""
    for python in (sys.executable, "/usr/bin/python3"):
        if subprocess.run([python, "-c", f"import {module}"], capture_output=True, check=False).returncode == 0:
            return python
    return None
