"""Runs of the program: frames, files, and each fault as its exception."""
import os
import stat
import tempfile
import unittest

from repository import fq, program

from frameq import _faults

C, INT, TEXT, BOOL = fq.col, fq.Int64, fq.String, fq.Boolean
MOST = 2**63 - 1


class Runs(unittest.TestCase):
    """Each test has a folder of its own."""

    def setUp(self):
        self.program = program()
        room = tempfile.TemporaryDirectory()
        self.addCleanup(room.cleanup)
        self.room = room.name

    def file(self, name, text):
        path = os.path.join(self.room, name)
        with open(path, "wb") as file:
            file.write(text.encode())
        return path

    def scan(self, text, name="main.csv", **columns):
        return fq.scan_csv(self.file(name, text), schema=columns)

    def test_frame(self):
        """A frame has the values of the kinds of its columns."""
        frame = self.scan('n,t,p\n1,"a,b",true\n,,\n-5,"x ""y""\nz",FALSE\n', n=INT, t=TEXT, p=BOOL).collect(program=self.program)
        rows = [(1, "a,b", True), (None, None, None), (-5, 'x "y"\nz', False)]
        self.assertEqual((frame.columns, frame.schema), (["n", "t", "p"], {"n": INT, "t": TEXT, "p": BOOL}))
        self.assertEqual((frame.shape, len(frame)), ((3, 3), 3))
        self.assertEqual(frame.rows(), rows)
        self.assertEqual(list(frame.iter_rows()), rows)
        self.assertEqual(frame.to_dicts()[0], {"n": 1, "t": "a,b", "p": True})
        self.assertEqual(frame.rows(named=True), frame.to_dicts())
        self.assertEqual(frame["n"], [1, None, -5])
        self.assertEqual(list(frame), list(frame.to_dict().values()))
        self.assertEqual(
            repr(frame),
            "\n".join(
                [
                    "shape: (3, 3)",
                    "    n  t         p",
                    "Int64  String    Boolean",
                    "    1  a,b       true",
                    " null  null      null",
                    '   -5  x "y"\\nz  false',
                ]
            ),
        )

    def test_one_column(self):
        """A row that is one null is printed in quotes, and read again."""
        self.assertEqual(self.scan('n\n""\n1\n', n=INT).collect(program=self.program).rows(), [(None,), (1,)])

    def test_settings(self):
        """No setting changes an answer."""
        frame = self.scan("n\n" + "1\n" * 100, n=INT).with_columns(s=C("n").rolling_sum(3))
        answers = [frame.collect(batch=batch, workers=workers, program=self.program) for batch, workers in [(None, None), (1, 1), (7, 16)]]
        self.assertEqual(answers[0], answers[1])
        self.assertEqual(answers[0], answers[2])
        with self.assertRaises(fq.ArgumentsError):
            frame.collect(workers=17, program=self.program)
        for settings in ({"batch": 1}, {"workers": 3}, {"batch": 7, "workers": 16}):
            with self.subTest(settings):
                answer = fq.run_plan(frame.plan(), frame.files(), schema=frame.collect_schema(), **settings, program=self.program)
                self.assertEqual(answer, answers[0])
        for settings in ({"batch": 0}, {"workers": 17}):
            with self.subTest(settings), self.assertRaises(fq.ArgumentsError):
                fq.run_plan(frame.plan(), frame.files(), **settings, program=self.program)

    def test_sink(self):
        """A file is written whole, over one of the inputs too, and keeps its bytes and mode at a fault."""
        frame = self.scan("n\n1\n2\n", n=INT)
        path = os.path.join(self.room, "main.csv")
        os.chmod(path, 0o640)
        link = os.path.join(self.room, "link.csv")
        os.symlink("main.csv", link)
        frame.filter(C("n") > 1).sink_csv(link, program=self.program)
        with open(path, encoding="utf-8") as file:
            self.assertEqual(file.read(), "n\n2\n")
        self.assertEqual(stat.S_IMODE(os.stat(path).st_mode), 0o640)
        with self.assertRaises(fq.OverflowError):
            frame.select(C("n") * MOST).sink_csv(path, program=self.program)
        with open(path, encoding="utf-8") as file:
            self.assertEqual(file.read(), "n\n2\n")
        self.assertEqual(sorted(os.listdir(self.room)), ["link.csv", "main.csv"])
        with self.assertRaises(fq.WriteError):
            frame.sink_csv(os.path.join(self.room, "nowhere", "result.csv"), program=self.program)
        frame.sink_csv(os.devnull, program=self.program)

    def test_explain(self):
        """The program says what it makes of a plan."""
        lazy = self.scan("n\n", n=INT).filter(C("n") > 1)
        self.assertIn("step 0, filter", lazy.explain(program=self.program))

    def test_run_plan(self):
        """A plan that exists, as an object or a file."""
        lazy = self.scan("n,t\n1,x\n", n=INT, t=TEXT)
        self.assertEqual(fq.run_plan(lazy.plan(), lazy.files(), program=self.program).rows(), [("1", "x")])
        plan = self.file("plan.json", '{"version":1,"sources":[{"files":1,"columns":[["n","int"],["t","text"]]}],"steps":[]}')
        self.assertEqual(fq.run_plan(plan, lazy.files(), schema={"n": INT, "t": TEXT}, program=self.program).rows(), [(1, "x")])
        self.assertEqual(fq.run_plan(plan, lazy.files(), schema={"n": int, "t": str}, program=self.program).rows(), [(1, "x")])
        for schema, error in [
            ({"n": int}, fq.ArgumentsError),
            ({"t": str, "n": int}, fq.ArgumentsError),
            ({"n": int, "t": int}, fq.WrongKindError),
            ({"n": bool, "t": str}, fq.WrongKindError),
        ]:
            with self.subTest(schema), self.assertRaises(error):
                fq.run_plan(plan, lazy.files(), schema=schema, program=self.program)
        self.faulted(fq.PlanJsonError, lambda: fq.run_plan(self.file("none.json", "{"), lazy.files(), program=self.program))
        self.faulted(fq.ReadError, lambda: fq.run_plan(os.path.join(self.room, "missing"), lazy.files(), program=self.program))

    def test_program(self):
        """A program that is not there."""
        with self.assertRaises(fq.ProgramNotFoundError):
            self.scan("n\n", n=INT).collect(program=os.path.join(self.room, "frameq"))

    def test_program_that_is_not_built(self):
        """It says so before its fault."""
        script = self.file("frameq", "#!/bin/sh\necho 'frameq: not proved' >&2\necho 'frameq: file 0: header differs' >&2\nexit 4\n")
        os.chmod(script, 0o755)
        fault = self.faulted(fq.HeaderError, lambda: self.scan("m\n", n=INT).collect(program=script))
        self.assertEqual(fault.line, "frameq: file 0: header differs")

    def test_details_are_whole_lines(self):
        """A name of a file may have any character but a line feed at which Python ends a line."""
        detail = "a\u2028b\x0c\x85.csv:1: column 0 is missing, the plan has \"n\""
        script = self.file("frameq", f"#!/bin/sh\ncat >&2 << 'END'\nframeq: file 0: header differs\n  {detail}\nEND\nexit 4\n")
        os.chmod(script, 0o755)
        fault = self.faulted(fq.HeaderError, lambda: self.scan("", n=INT).collect(program=script))
        self.assertEqual(fault.details, (detail,))

    def test_what_a_program_says(self):
        """What it says beside an answer is a warning; where it says nothing of its end, the exception does."""
        lazy = self.scan("n\n", n=INT)
        script = self.file("frameq", "#!/bin/sh\necho 'frameq: not proved' >&2\necho n\n")
        os.chmod(script, 0o755)
        with self.assertWarnsRegex(UserWarning, "not proved"):
            self.assertEqual(lazy.collect(program=script).rows(), [])
        for end, said in [("kill -9 $$", "signal 9"), ("exit 9", "status 9")]:
            with self.subTest(end):
                self.file("frameq", f"#!/bin/sh\n{end}\n")
                self.assertIn(said, str(self.faulted(fq.FrameqError, lambda: lazy.collect(program=script))))

    def test_column(self):
        """A column that a frame does not have."""
        with self.assertRaises(fq.ColumnNotFoundError):
            _ = self.scan("n\n", n=INT).collect(program=self.program)["m"]

    def faulted(self, error, run):
        with self.assertRaises(error) as raised:
            run()
        self.assertIs(type(raised.exception), error)
        return raised.exception

    def test_faults_of_files(self):
        """Each names its file, its row and its column."""
        good = self.file("good.csv", "n,t\n1,x\n")
        for text, error, row, column, details in [
            ("n\n1\n", fq.HeaderError, None, None, '1: column 1 is missing, the plan has "t"'),
            ("n,t\n1,x\n2\n", fq.WidthError, 2, None, "3: 1 field, the header has 2"),
            ("n,t\n1,x\n2,y\nz,z\n", fq.BadCellError, 3, "n", '4: column "n": "z" is not an int'),
        ]:
            with self.subTest(error):
                bad = self.file("bad.csv", text)
                lazy = fq.scan_csv([good, bad], schema={"n": INT, "t": TEXT})
                fault = self.faulted(error, lambda lazy=lazy: lazy.collect(program=self.program))
                self.assertEqual((fault.file, fault.row, fault.column, fault.status), (bad, row, column, 4))
                self.assertEqual(fault.details, (f"{bad}:{details}",))
                self.assertIn(f"\n  {bad}:{details}", str(fault))
        missing = os.path.join(self.room, "missing.csv")
        fault = self.faulted(fq.ReadError, lambda: fq.scan_csv([good, missing], schema={"n": INT, "t": TEXT}).collect(program=self.program))
        self.assertEqual((fault.file, fault.status, fault.line), (missing, 5, "frameq: read failed: file 1"))

    def test_faults_of_steps(self):
        """Each names its step, and the call that made it."""
        lazy = self.scan(f"n\n{MOST}\n1\n", n=INT).filter(C("n") > 0)
        for frame, error, step, call in [
            (lazy.with_columns(m=C("n") + 1), fq.OverflowError, 1, "with_columns(m=add(col('n'), lit(1)))"),
            (lazy.group_by(fq.lit(True)).agg(C("n").sum()), fq.SumRangeError, 2, "group_by(lit(True)).agg(col('n').sum())"),
            (lazy.select(C("n").rolling_sum(2)), fq.RollingSumRangeError, 1, "select(col('n').rolling_sum(2, min_samples=2))"),
        ]:
            with self.subTest(error):
                fault = self.faulted(error, lambda frame=frame: frame.collect(program=self.program))
                self.assertEqual((fault.step, fault.call, fault.status), (step, call, 4))

    def test_faults_of_plans(self):
        """Those that the program refuses."""
        lazy = self.scan("n\n", n=INT)
        for frame, error in [
            (lazy.with_columns(s=C("n").rolling_sum(65537)), fq.WindowError),
            (lazy.with_columns(s=C("n").rolling_sum(2, min_samples=3)), fq.MinSamplesError),
            (lazy.with_columns(fq.lit(i).alias(f"c{i}") for i in range(64)), fq.TooManyColumnsError),
        ]:
            with self.subTest(error):
                fault = self.faulted(error, lambda frame=frame: frame.collect(program=self.program))
                self.assertEqual((fault.step, fault.status), (0, 3))
        plan = lazy.plan()
        self.faulted(fq.InputsError, lambda: fq.run_plan(plan, [*lazy.files(), *lazy.files()], program=self.program))
        self.faulted(fq.PlanShapeError, lambda: fq.run_plan({**plan, "version": 3}, lazy.files(), program=self.program))
        self.faulted(fq.NoColumnError, lambda: fq.scan_csv(lazy.files(), schema={}).collect(program=self.program))


class Lines(unittest.TestCase):
    """The lines of docs/FAULTS.md, and what each is raised as. No program runs."""

    def test_each(self):
        """A line has an exception of its own, which is one of Python's, too."""
        for status, line, error, kind in [
            (2, "an argument is not valid UTF-8", fq.ArgumentsError, ValueError),
            (2, "standard input (-) can be read only once", fq.ArgumentsError, ValueError),
            (2, "inputs: wanted 2, got 1", fq.InputsError, fq.ArgumentsError),
            (3, "plan: not JSON", fq.PlanJsonError, fq.PlanError),
            (3, "plan: wrong shape", fq.PlanShapeError, fq.PlanError),
            (3, "plan: step 1: no such column", fq.ColumnNotFoundError, KeyError),
            (3, "plan: step 1: wrong kind", fq.WrongKindError, TypeError),
            (3, "plan: step 1: double name", fq.DuplicateError, fq.PlanError),
            (3, "plan: step 1: not a truth value", fq.NotBooleanError, TypeError),
            (3, "plan: step 1: too many columns", fq.TooManyColumnsError, fq.PlanError),
            (3, "plan: step 1: no column", fq.NoColumnError, fq.PlanError),
            (3, "plan: step 1: no such source", fq.NoSuchSourceError, fq.PlanError),
            (3, "plan: step 1: window out of range", fq.WindowError, fq.PlanError),
            (3, "plan: step 1: min_samples out of range", fq.MinSamplesError, fq.PlanError),
            (4, "file 1: header differs", fq.HeaderError, fq.FileError),
            (4, "file 1, row 2: wrong number of fields", fq.WidthError, fq.FileError),
            (4, "file 1, row 2, column 1: bad cell", fq.BadCellError, fq.FileError),
            (4, "file 1: too many rows", fq.TooManyRowsError, fq.FileError),
            (4, "step 1, item 2: overflow", fq.OverflowError, OverflowError),
            (4, "step 1, item 2: sum out of range", fq.SumRangeError, OverflowError),
            (4, "step 1: rolling sum out of range", fq.RollingSumRangeError, OverflowError),
            (4, "step 1: too many joined rows", fq.JoinRowsError, ValueError),
            (5, "cannot read plan", fq.ReadError, OSError),
            (5, "read failed: file 1", fq.ReadError, OSError),
            (5, "write failed", fq.WriteError, OSError),
            (6, "out of memory", fq.MemoryError, MemoryError),
        ]:
            with self.subTest(line):
                plan = {"sources": [{"files": 1, "columns": []}, {"files": 1, "columns": [["a", "int"], ["b", "int"]]}]}
                raised = _faults.fault(f"frameq: {line}\n", status, plan, ["a.csv", "b.csv"], ["first()", "second()"])
                self.assertIs(type(raised), error)
                self.assertIsInstance(raised, kind)
                self.assertIsInstance(raised, fq.FrameqError)
                has = {
                    "file": "b.csv" if "file 1" in line else None, "row": 2 if "row 2" in line else None,
                    "column": "b" if "column 1" in line else None, "step": 1 if "step 1" in line else None,
                    "item": 2 if "item 2" in line else None, "call": "second()" if "step 1" in line else None,
                    "line": f"frameq: {line}", "status": status, "details": (),
                }
                self.assertEqual({name: getattr(raised, name) for name in has}, has)
                self.assertTrue(str(raised).startswith(line))


if __name__ == "__main__":
    unittest.main()
