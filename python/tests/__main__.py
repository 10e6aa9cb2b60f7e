"""Runs the tests of the package, and says which programs and libraries of others judged, and how many tests.

    python3 python/tests [--without PEER]... [TEST]...

PEER is PostgreSQL, Dask or pandas: its tests are left out. Without this, tests whose peer is missing fail; tests/setup installs them. TEST
is a part of the names of the tests to run [all]. The program to test is that of FRAMEQ, or the one that is built here.
"""
import argparse
import os
import re
import subprocess
import sys
import unittest

from postgres import server_programs
from repository import pandas, python_with

PEERS = ("PostgreSQL", "Dask", "pandas")

# By what the names of a peer's tests are known.
NAMES = {"PostgreSQL": r"test_postgres\.", "Dask": "test_dask", "pandas": r"\.Pandas\.|test_pandas", "SQLite": r"test_sql\."}


class Passed(unittest.TextTestResult):
    """What a run comes to, with the names of the tests that passed."""

    def __init__(self, *words, **options):
        super().__init__(*words, **options)
        self.passed = []

    def addSuccess(self, test):
        super().addSuccess(test)
        self.passed.append(test.id())


def said(*words):
    """The first line that a command says."""
    return subprocess.run(words, capture_output=True, text=True, check=True).stdout.split("\n")[0]


def version_of(peer):
    """What a peer that has judged says of its version."""
    if peer == "PostgreSQL":
        return said(f"{server_programs()}/postgres", "--version")
    if peer == "Dask":
        return said(python_with("distributed"), "-c", "import distributed; print('Dask distributed', distributed.__version__)")
    if peer == "pandas":
        return f"pandas {pandas().__version__}"
    return said(sys.executable, "-c", "import sqlite3; print('SQLite', sqlite3.sqlite_version)")


def main():
    parser = argparse.ArgumentParser(prog="python3 python/tests", description="Runs the tests of the package.")
    parser.add_argument("--without", metavar="PEER", choices=PEERS, action="append", default=[], help=f"leave out: {', '.join(PEERS)}")
    parser.add_argument("tests", metavar="TEST", nargs="*", help="a part of the names of the tests to run [all]")
    given = parser.parse_args()
    os.environ["FRAMEQ_WITHOUT"] = ",".join(given.without)
    loader = unittest.TestLoader()
    loader.testNamePatterns = [f"*{test}*" for test in given.tests] or None
    tests = loader.discover(os.path.dirname(os.path.abspath(__file__)))
    runner = unittest.TextTestRunner(resultclass=Passed)
    result = runner.run(tests)
    assert isinstance(result, Passed)
    for test, why in result.skipped:
        print(f"left out: {test}: {why}")
    for peer, pattern in NAMES.items():
        count = sum(bool(re.search(pattern, name)) for name in result.passed)
        if count:
            print(f"{version_of(peer)}: {count} tests")
    failed = len(result.failures) + len(result.errors) + len(result.unexpectedSuccesses)
    print(f"{len(result.passed)} passed, {failed} failed")
    return 1 if failed or not result.passed else 0


if __name__ == "__main__":
    sys.exit(main())
