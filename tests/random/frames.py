"""Judges that run the steps of a plan themselves: pandas and R's data.table, as Debian has them.

Where frameq gives a frame, a judge runs the steps of the plan, as by_pandas.py and by_data_table.py write them, on the rows that the
second implementation reads of the files. It has to come to the same columns and rows, in the same order. Where it adds up as floats,
plans are left out in which a number may not be exact.
"""
import csv
import functools
import io
import os
import pickle
import subprocess
import sys
import tempfile
from collections import namedtuple

import by_data_table
import cases
import compare
import oracle

HERE = os.path.dirname(os.path.abspath(__file__))

# A case of which frameq gives a frame: its number, as it was drawn, and its run; its plan; the columns of its sources, and those before
# each step; the rows of its sources; and the records of the frame.
Framed = namedtuple("Framed", "number drawn run plan columns along tables records")


def runs(words):
    """Whether a command runs, and ends well."""
    try:
        return subprocess.run(words, stdout=subprocess.DEVNULL, stderr=subprocess.DEVNULL, check=False).returncode == 0
    except FileNotFoundError:
        return False


@functools.lru_cache
def python_with_pandas():
    """A Python that has pandas: the one that runs this, or Debian's."""
    return next((python for python in (sys.executable, "/usr/bin/python3") if runs([python, "-c", "import pandas"])), None)


def records_by_pandas(some):
    """What each case gives by pandas, or None where it is left out."""
    words = [python_with_pandas(), f"{HERE}/by_pandas.py"]
    return pickle.loads(subprocess.run(words, input=pickle.dumps(some), stdout=subprocess.PIPE, check=True).stdout)


def framed(settings, number):
    """A case with the frame that frameq gives, or None if it gives none."""
    drawn = cases.case(settings.seed, number, settings.versions, settings.rows)
    run = compare.runs_of(drawn, once=True)[0]
    with tempfile.TemporaryDirectory() as folder:
        compare.write_case(folder, drawn)
        answer = compare.answer_of(settings.program, run, folder)
    if answer.status != 0:
        return None
    plan = oracle.read_plan(drawn.plan)
    columns, along = oracle.check(plan)
    tables = [stream.rows for stream in oracle.streams_of_sources(plan, columns, drawn.files)]
    records = list(csv.reader(io.StringIO(answer.output.decode(), newline="")))
    return Framed(number, drawn, run._replace(expected=answer), plan, columns, along, tables, records)


def keep(case, records):
    """Keeps a case with its frame, and that of a judge as the actual one."""
    text = b"".join(oracle.text_of_record([field.encode() for field in record]) for record in records)
    return compare.keep(case.drawn, case.run, oracle.Answer(0, text, b""))


class Frames(compare.Judge):
    """A library that runs the steps of plans, if a command of it runs. `records_of_each` gives what some cases come to by it."""

    def __init__(self, name, package, is_there, records_of_each):
        super().__init__(name, (step.__name__ for step in by_data_table.STEPS))
        self.package, self.is_there, self.records_of_each = package, is_there, records_of_each

    def missing(self):
        return [] if self.is_there() else [self.package]

    def endings(self, settings, numbers):
        each = {number: framed(settings, number) for number in numbers}
        some = [case for case in each.values() if case]
        for case, records in zip(some, self.records_of_each(some)):
            if records is None:
                yield compare.Ended("left out")
            elif records == case.records:
                yield compare.Ended("the same frame", {type(step).__name__ for step in case.plan.steps})
            else:
                raise compare.Difference(case.number, keep(case, records))
        yield from [compare.Ended("no frame")] * (len(each) - len(some))


def has_data_table():
    return runs(["Rscript", "-e", "library(data.table)"])


PANDAS = Frames("pandas", "python3-pandas", python_with_pandas, records_by_pandas)
DATA_TABLE = Frames("data.table", "r-cran-data.table", has_data_table, by_data_table.records_of_each)
