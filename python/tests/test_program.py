"""Which program the package runs, of those that are there. Scripts stand in for them."""
import io
import os
import shutil
import subprocess
import sys
import tempfile
import unittest
from concurrent.futures import ThreadPoolExecutor
from unittest import mock

from repository import ROOT, fq

FIND = "import sys, frameq._program as p; print(p.find_program(*sys.argv[1:]))"


class Terminal(io.StringIO):
    """A stream that is a terminal."""

    def isatty(self):
        return True


class Programs(unittest.TestCase):
    """A copy of the package, in a folder like that of the repository."""

    def setUp(self):
        room = tempfile.TemporaryDirectory()
        self.addCleanup(room.cleanup)
        self.room = os.path.realpath(room.name)
        shutil.copytree(os.path.join(ROOT, "python", "frameq"), os.path.join(self.room, "python", "frameq"))

    def program(self, name):
        path = os.path.join(self.room, name)
        os.makedirs(os.path.dirname(path), exist_ok=True)
        with open(path, "w", encoding="utf-8") as file:
            file.write(f'#!/bin/sh\necho "{name}" "$@"\n')
        os.chmod(path, 0o755)
        return path

    def ran(self, code, *words, **variables):
        path = os.path.join(self.room, "path")
        environment = {"PATH": path, "PYTHONPATH": os.path.join(self.room, "python"), **variables}
        return subprocess.run([sys.executable, "-c", code, *words], env=environment, capture_output=True, text=True, check=False)

    def test_order(self):
        """The one given, that of FRAMEQ, that inside the package, that on the path, that of the repository, or none."""
        given, named = self.program("given"), self.program("named")
        found = [self.program(name) for name in ("python/frameq/bin/frameq", "path/frameq", "crates/frameq/out/frameq", "frameq")]
        self.assertEqual(self.ran(FIND, given, FRAMEQ=named).stdout, f"{given}\n")
        self.assertEqual(self.ran(FIND, FRAMEQ=named).stdout, f"{named}\n")
        for path in found:
            self.assertEqual(self.ran(FIND).stdout, f"{path}\n")
            os.remove(path)
        self.assertIn("ProgramNotFoundError", self.ran(FIND).stderr)

    def test_folder_on_the_path(self):
        """A program in a folder that the path names from here is found for a task that runs elsewhere, too."""
        found = self.program("path/frameq")
        code = f"import os; os.chdir({self.room!r})\n{FIND}"
        self.assertEqual(self.ran(code, PATH="path").stdout, f"{found}\n")

    def test_no_program(self):
        """An executable file that is no program, and a script whose interpreter is not there, with and without progress."""
        path = self.program("frameq")
        lazy = fq.scan_csv("main.csv", schema={"n": fq.Int64})
        for text, words in [
            ("", "Exec format error"), ("not a program\n", "Exec format error"),
            ("#!/none/sh\n", "No such file"), ("#!/etc/passwd\n", "Permission denied"),
        ]:
            with open(path, "w", encoding="utf-8") as file:
                file.write(text)
            for progress in (False, True):
                with self.subTest(text, progress=progress), mock.patch("sys.stderr", Terminal()):
                    with self.assertRaisesRegex(fq.ProgramNotFoundError, f"{path}' is no program .*: {words}"):
                        lazy.collect(program=path, progress=progress)
        with ThreadPoolExecutor(1) as executor, self.assertRaises(fq.ProgramNotFoundError):
            lazy.collect(program=path, executor=executor)

    def test_command(self):
        """The command of a wheel is the program inside the package, whatever else there is."""
        self.program("python/frameq/bin/frameq")
        ran = self.ran("import frameq._program as p; p.run_inside()", "--plan", "a b", FRAMEQ=self.program("named"))
        self.assertEqual(ran.stdout, "python/frameq/bin/frameq --plan a b\n")


if __name__ == "__main__":
    unittest.main()
