"""Judges that are crates: `csv` judges what frameq reads of files, and `serde_json` which plans it takes for JSON.

Their program is that of rust/, which `cargo` builds, offline, from the sources in Debian's packages.

- csv: the frame for a plan of text columns has to be what the crate reads and writes, or the fault what its records imply. A file is named,
  or it comes through a pipe in small pieces, each of which a read of its own takes, or standard input is the plan and the file.
- serde_json: a text has to be refused as not JSON where the crate refuses it. Otherwise the answer has to be that for the value which the
  crate has read, as the crate writes it.
"""
import fcntl
import functools
import glob
import json
import os
import random
import shutil
import subprocess
import tempfile
import termios
import time
from collections import namedtuple

import compare
import texts
from oracle import Answer

HERE = os.path.dirname(os.path.abspath(__file__))
PACKAGES = {"csv": "librust-csv-dev", "serde_json": "librust-serde-json-dev"}
SOURCES = "/usr/share/cargo/registry"
NOT_JSON = Answer(3, b"", b"frameq: plan: not JSON\n")
IS_JSON = Answer(3, b"", b"any answer but that it is not JSON\n")
A_FRAME = "status 0: a frame"

# What is written for a run: the bytes of its plan and of its files.
Case = namedtuple("Case", "plan files")


# ---- runs


def is_waiting(pipe):
    """Whether bytes of a pipe were not read."""
    return fcntl.ioctl(pipe, termios.FIONREAD, bytes(4)) != bytes(4)


def pieces(draw, text):
    """A text in up to forty pieces."""
    places = range(max(0, len(text) - 200), len(text))
    cuts = sorted(draw.sample(places, min(len(places), draw.choice([3, 40]))))
    return [text[start:end] for start, end in zip([0, *cuts], [*cuts, len(text)])]


def fed(program, run, folder, draw):
    """The program's answer where its standard input comes in pieces, each once the one before it was read."""
    words, pipe, ends = [program, *run.words], subprocess.PIPE, time.monotonic() + compare.LONGEST_RUN
    with subprocess.Popen(words, cwd=folder, stdin=pipe, stdout=pipe, stderr=pipe, bufsize=0) as ran:
        try:
            for piece in pieces(draw, run.standard_input):
                ran.stdin.write(piece)
                while is_waiting(ran.stdin) and ran.poll() is None and time.monotonic() < ends:
                    time.sleep(0.0001)
        except BrokenPipeError:  # it reads no more
            pass
        try:
            output, error = ran.communicate(timeout=compare.LONGEST_RUN)
        except subprocess.TimeoutExpired:
            ran.kill()
            return Answer(-1, b"", b"no end\n")
    return Answer(ran.returncode, output, error)


class Kept(Exception):
    """The answers of a run differ; the text says where its case is."""


def agree(case, run, actual):
    """Gives the answer that a run is to give, if it does; otherwise keeps its case."""
    if actual != run.expected:
        raise Kept(compare.keep(case, run, actual))
    return actual


# ---- judges


def compare_csv(program, folder, draw, text, said):
    """The answer for a file, if it is what the crate implies."""
    case = Case(said["plan"].encode(), [text])
    compare.write_case(folder, case)
    expected = Answer(said["status"], said["output"].encode(), said["error"].encode())
    settings = ["--batch", str(draw.choice([1, 2, 3, 1024])), "--workers", str(draw.choice([1, 2, 3])), "--plan", "plan.json"]
    way = draw.choice(["named", "fed", "alone"])
    if way == "fed":
        run = compare.Run([*settings, "-"], text, expected)
        return agree(case, run, fed(program, run, folder, draw))
    named = compare.Run([*settings, *compare.file_names(case)], b"", expected)
    alone = compare.Run([], case.plan + b"\n" + text, expected)
    run = named if way == "named" else alone
    return agree(case, run, compare.answer_of(program, run, folder))


def explained(program, folder, text, expected=None):
    """The answer for a plan, if it is the expected one, or if none is."""
    case, run = Case(text, []), compare.Run(["--plan", "plan.json", "--explain"], b"", expected)
    compare.write_case(folder, case)
    actual = compare.answer_of(program, run, folder)
    return agree(case, run, actual) if expected else actual


def compare_json(program, folder, _, text, said):
    """The answer for a text, if it is refused where the crate refuses it, and otherwise is that for its value."""
    if said is None:
        return explained(program, folder, text, NOT_JSON)
    of_value = explained(program, folder, said.encode())
    return explained(program, folder, text, IS_JSON if of_value == NOT_JSON else of_value)


@functools.lru_cache
def plans():
    """The plans whose changed texts are judged."""
    return texts.plans()


class Crate(compare.Judge):
    """A crate that judges: how a text is drawn, from the seed and the number of a case, and how the program's answer is compared."""

    def __init__(self, name, text, compare_case, wanted):
        super().__init__(name, wanted)
        self.text, self.compare_case = text, compare_case

    def missing(self):
        crates = [package for crate, package in PACKAGES.items() if not glob.glob(f"{SOURCES}/{crate}-1.*")]
        return [*([] if shutil.which("cargo") else ["cargo"]), *crates]

    def build(self, room):
        if not os.path.exists(f"{room}/rust"):
            shutil.copytree(f"{HERE}/rust", f"{room}/rust")
            subprocess.run(["cargo", "build", "--quiet", "--target-dir", f"{room}/target"], cwd=f"{room}/rust", check=True)

    def said(self, room, paths):
        """What the crate says of each file."""
        said = subprocess.run([f"{room}/target/debug/{self.name}", *paths], stdout=subprocess.PIPE, check=True).stdout
        return [json.loads(line) for line in said.splitlines()]

    def endings(self, settings, numbers):
        with tempfile.TemporaryDirectory() as room:
            drawn = [self.text(settings.seed, number) for number in numbers]
            folders = [f"{room}/{number}" for number in numbers]
            for folder, text in zip(folders, drawn):
                os.mkdir(folder)
                compare.write(f"{folder}/text", text)
            said = self.said(settings.room, [f"{folder}/text" for folder in folders])
            for number, *case in zip(numbers, folders, drawn, said):
                yield self.ended(settings, number, *case)

    def ended(self, settings, number, folder, text, said):
        draw = random.Random(f"{self.name} run {settings.seed} {number}")
        try:
            return compare.Ended(compare.ending_of(self.compare_case(settings.program, folder, draw, text, said)))
        except Kept as kept:
            raise compare.Difference(number, str(kept)) from None


CSV = Crate("csv", texts.csv_text, compare_csv, {
    A_FRAME, "status 4: file N: header differs", "status 4: file N, row N: wrong number of fields",
    "status 4: file N, row N, column N: bad cell",
})
SERDE_JSON = Crate("serde_json", lambda seed, number: texts.json_text(seed, number, plans()), compare_json, {
    A_FRAME, "status 3: plan: not JSON", "status 3: plan: wrong shape",
})
