"""`python -m frameq`, and the version of the package, where the package is only on PYTHONPATH."""
import os
import shutil
import subprocess
import sys
import tempfile
import unittest

from repository import ROOT, fq, program

LARGE_VALUES = os.path.join(ROOT, "examples", "large_values")


class Module(unittest.TestCase):
    """A copy of the package, with no program beside it."""

    def setUp(self):
        room = tempfile.TemporaryDirectory()
        self.addCleanup(room.cleanup)
        self.room = room.name
        shutil.copytree(os.path.join(ROOT, "python", "frameq"), os.path.join(self.room, "python", "frameq"))

    def ran(self, *words, text="", **variables):
        environment = {"PATH": os.path.join(self.room, "path"), "PYTHONPATH": os.path.join(self.room, "python"), **variables}
        command = [sys.executable, *words]
        ran = subprocess.run(command, env=environment, cwd=self.room, input=text, capture_output=True, text=True, check=False)
        return ran.returncode, ran.stdout, ran.stderr

    def test_version(self):
        """The program's version, the package's, and that of the copy are one."""
        self.assertEqual(self.ran("-m", "frameq", "--version", FRAMEQ=program()), (0, f"frameq {fq.__version__}\n", ""))
        self.assertEqual(self.ran("-c", "import frameq; print(frameq.__version__)"), (0, f"{fq.__version__}\n", ""))

    def test_streams(self):
        """The program reads what the command is given, and prints its answer there."""
        with open(f"{LARGE_VALUES}.txt", encoding="utf-8") as file, open(f"{LARGE_VALUES}.expected", encoding="utf-8") as expected:
            self.assertEqual(self.ran("-m", "frameq", text=file.read(), FRAMEQ=program()), (0, expected.read(), ""))

    def test_fault(self):
        """A fault has the line and the exit status that the program gives it."""
        words = ["--plan", "no plan.json", "a file.csv", ""]
        direct = subprocess.run([program(), *words], cwd=self.room, capture_output=True, text=True, check=False)
        self.assertNotEqual(direct.returncode, 0)
        self.assertEqual(self.ran("-m", "frameq", *words, FRAMEQ=program()), (direct.returncode, direct.stdout, direct.stderr))

    def test_no_program(self):
        """A line says that there is none, or which one doesn't run."""
        status, printed, said = self.ran("-m", "frameq", "--version")
        self.assertEqual((status, printed), (1, ""))
        self.assertRegex(said, r"\Aframeq: there is no program frameq: .+\n\Z")
        self.assertEqual(self.ran("-m", "frameq", FRAMEQ=self.room), (1, "", f"frameq: there is no program {self.room!r}\n"))


if __name__ == "__main__":
    unittest.main()
