"""How the program is run and compared, which all judges share, and the first of them: the second implementation."""
import os
import re
import shlex
import subprocess
import tempfile
from collections import namedtuple

import cases
import oracle

ROOT = os.path.dirname(os.path.dirname(os.path.dirname(os.path.abspath(__file__))))
LONGEST_RUN = 60  # seconds
SETTINGS = [words.split() for words in ("", "--batch 1 --workers 1", "--batch 2 --workers 16", "--batch 3 --workers 3")]

# What the cases of a judge are drawn and run by: the program, the seed, the versions of plans, the most rows of a file, how many cases in a
# hundred have notations, and whether each runs at its random setting alone. Judges are built in the folder `room`.
Settings = namedtuple("Settings", "program seed versions rows notations once room")

# One run of the program: its arguments, its standard input, and the answer that it is to give.
Run = namedtuple("Run", "words standard_input expected")

# A case whose answers are alike: how it ended, what it has of that which some of many cases need, and how many runs it had.
Ended = namedtuple("Ended", "ending has runs", defaults=[(), 1])


class Difference(Exception):
    """The program and a judge have different answers for a case: its number, and how they differ."""

    def __init__(self, number, text):
        super().__init__(number, text)
        self.number, self.text = number, text


class Judge:
    """What the program is compared with. Of many cases, some have to end in or to have each of `wanted`."""

    def __init__(self, name, wanted=()):
        self.name, self.wanted = name, frozenset(wanted)

    def missing(self):
        """The packages of Debian that the judge needs, and that are not installed."""
        return []

    def build(self, room):
        """Makes in a folder what the judge needs."""

    def endings(self, settings, numbers):
        """How each of these cases ended. Raises a `Difference` at the first one in which the answers differ."""
        raise NotImplementedError


# ---- runs


def binary(given):
    """The program to compare: the one given, or else the one that tools/build builds."""
    if given:
        return os.path.abspath(given)
    subprocess.run([os.path.join(ROOT, "tools", "build")], check=True)
    return os.path.join(ROOT, "crates", "frameq", "out", "frameq")


def file_names(case):
    return [f"file-{number}.csv" for number in range(len(case.files))]


def write(path, data):
    with open(path, "wb") as file:
        file.write(data)


def write_case(folder, case):
    write(os.path.join(folder, "plan.json"), case.plan)
    for name, data in zip(file_names(case), case.files):
        write(os.path.join(folder, name), data)


def runs_of(case, once):
    """The runs of a case: once, at its own setting; or at each, and without arguments if there is one file and no notation."""
    expected = oracle.answer(case.plan, case.files, case.notations)
    drawn = ["--batch", str(case.batch), "--workers", str(case.workers)]
    words = ["--plan", "plan.json", *(word for pair in case.notations for word in pair), *file_names(case)]
    runs = [Run([*setting, *words], b"", expected) for setting in ([drawn] if once else [*SETTINGS, drawn])]
    if not once and len(case.files) == 1 and not case.notations:
        standard_input = case.plan + b"\n" + case.files[0]
        runs.append(Run([], standard_input, oracle.answer_without_words(standard_input)))
    return runs


def answer_of(program, run, folder):
    """The program's answer, or one that no program gives if the run does not end."""
    setting = {"cwd": folder, "input": run.standard_input, "capture_output": True, "timeout": LONGEST_RUN}
    try:
        ran = subprocess.run([program, *run.words], **setting, check=False)
    except subprocess.TimeoutExpired:
        return oracle.Answer(-1, b"", b"no end\n")
    return oracle.Answer(ran.returncode, ran.stdout, ran.stderr)


def keep(case, run, actual):
    """Keeps a case with the run's arguments and input, and both answers, in a new folder. Says which."""
    folder = tempfile.mkdtemp(prefix="frameq-difference-")
    write_case(folder, case)
    write(os.path.join(folder, "words"), shlex.join(["frameq", *run.words]).encode() + b"\n")
    write(os.path.join(folder, "standard_input"), run.standard_input)
    for name, answer in (("expected", run.expected), ("actual", actual)):
        write(os.path.join(folder, f"{name}.status"), b"%d\n" % answer.status)
        write(os.path.join(folder, f"{name}.output"), answer.output)
        write(os.path.join(folder, f"{name}.error"), answer.error)
    return f"the answers differ; the case is in {folder}"


def ending_of(answer):
    """The sort of an answer: its status, and its line without the numbers in it."""
    line = re.sub(rb"[0-9]+|'[^']*'", b"N", answer.error.partition(b"\n")[0]).decode(errors="replace")
    return f"status {answer.status}: {line.removeprefix('frameq: ') or 'a frame'}"


# ---- the second implementation


class Oracle(Judge):
    """The second implementation. Each case runs at five settings, one of them random, and, if it has one file and no notations, also
    without arguments. If it has 16 files, the random setting has 16 workers."""

    def __init__(self):
        super().__init__("oracle")

    def endings(self, settings, numbers):
        with tempfile.TemporaryDirectory() as folder:
            for number in numbers:
                case = cases.case(settings.seed, number, settings.versions, settings.rows, settings.notations)
                write_case(folder, case)
                runs = runs_of(case, settings.once)
                for run in runs:
                    actual = answer_of(settings.program, run, folder)
                    if actual != run.expected:
                        raise Difference(number, keep(case, run, actual))
                yield Ended(ending_of(runs[0].expected), runs=len(runs))
