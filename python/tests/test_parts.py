"""Reports that run in parts, on executors: their answers are those of one run, or of the second implementation over more files."""
import concurrent.futures
import contextlib
import functools
import json
import multiprocessing
import os
import signal
import subprocess
import tempfile
import threading
import unittest
from concurrent.futures import Executor, Future, ProcessPoolExecutor, ThreadPoolExecutor
from unittest import mock

from repository import ROOT, fq, program, python_with, require

from frameq._tasks import run_all

import cases
import oracle
from test_random import frame_of

C, INT, TEXT, BOOL = fq.col, fq.Int64, fq.String, fq.Boolean
MOST = 2**63 - 1
MOST_FILES = 16
# How many random plans there are for each executor. By hand, FRAMEQ_PARTS=2000 runs that many by each.
COUNT = int(os.environ.get("FRAMEQ_PARTS", "60"))
ATTRIBUTES = ("line", "details", "status", "file", "row", "column", "step", "item", "call")
FILES = [1, 2, 3, 5, 8, 12, 15, 16, 17, 20, 27, 40]


def told(call):
    """What a call gives, or the exception that it raises, with all that it has."""
    try:
        return call()
    except fq.FrameqError as error:
        return type(error), str(error), {name: getattr(error, name) for name in ATTRIBUTES}


# ---- random plans

def drawn(number):
    """A plan that is right, and files for it, 1 to 40 of its main source, some of them with mistakes."""
    draw = cases.Draw(f"parts {number}")
    is_grouped = draw.often(50)
    while True:
        plan = cases.plan(draw)
        main = plan["sources"][-1]
        if is_grouped and not any("group_by" in step for step in plan["steps"]):
            continue
        main["files"] = 1
        with contextlib.suppress(oracle.Ending, oracle.Refusal):
            oracle.check(oracle.read_plan(json.dumps(plan).encode()))
            break
    main["files"] = draw.choice(FILES)
    while True:
        files = cases.files_of(draw, plan, 12)
        if len(files) == sum(source["files"] for source in plan["sources"]):
            return plan, files


def meant(plan, files):
    """What a plan means over any number of files, by the second implementation."""
    *sides, main = plan["sources"]
    try:
        read = oracle.read_plan(json.dumps({**plan, "sources": [*sides, {**main, "files": 1}]}).encode())
        sources = [*read.sources[:-1], read.sources[-1]._replace(files=main["files"])]
        columns, after = oracle.check(read)
        return oracle.printed(after[-1], oracle.meaning(read._replace(sources=sources), columns, after, files)).decode()
    except oracle.Ending as ending:
        return ending.status, f"frameq: {ending.line}"


def difference(number, path, executor):
    """None if the answer of a random plan in parts is right; else what differs."""
    plan, data = drawn(number)
    with tempfile.TemporaryDirectory() as room:
        names = [os.path.join(room, f"{place}.csv") for place in range(len(data))]
        for name, text in zip(names, data):
            with open(name, "wb") as file:
                file.write(text)
        frame, result = frame_of(plan, names), os.path.join(room, "result")
        answer = told(lambda: frame.sink_csv(result, program=path, executor=executor))
        if answer is None:
            with open(result, "rb") as file:
                answer = file.read().decode()
        elif os.path.exists(result):
            return number, "a file at a fault"
        if len(frame.files()) <= MOST_FILES:
            expected = told(lambda: frame.collect(program=path).write_csv())
            return None if answer == expected else (number, answer, expected)
        if answer[0] is fq.UnsupportedError:
            return None if '""' in json.dumps(frame.plan()) else (number, answer)
        of_names = dict(zip(names, data))
        expected = meant(frame.plan(), [of_names[name] for name in frame.files()])
        if isinstance(answer, str):
            return None if answer == expected else (number, answer, expected)
        said = answer[2]
        of_line = [names_in(said["line"], frame), (said["status"], said["line"])]
        return None if of_line == [said["file"], expected] else (number, answer, expected)


def names_in(line, frame):
    """The path of the file that the line of a fault names by its number."""
    words = line.replace(",", " ").replace(":", " ").split()
    return frame.files()[int(words[words.index("file") + 1])] if "file" in words else None


def differences(numbers, path, executor):
    """What differs in these random plans, some of which run at a time."""
    with ThreadPoolExecutor(4) as callers:
        return [it for it in callers.map(lambda number: difference(number, path, executor), numbers) if it is not None]


# ---- executors

# (a process that is forked from one with other threads may wait for ever for what these held)
process_pool = functools.partial(ProcessPoolExecutor, mp_context=multiprocessing.get_context("spawn"))


class Cancelled(Executor):
    """All that it is given is cancelled."""

    def submit(self, call, /, *args, **others):
        future = Future()
        future.cancel()
        return future


class Remembering(ThreadPoolExecutor):
    """Equal calls are one call, as Dask has it."""

    def __init__(self):
        super().__init__(2)
        self.calls = {}

    def submit(self, call, /, *args, **others):
        key = repr((call, args, others))
        if key not in self.calls:
            self.calls[key] = super().submit(call, *args, **others)
        return self.calls[key]


class Late(ThreadPoolExecutor):
    """The later a task is given, the earlier it ends: those before the last wait until the one after them has ended."""

    def __init__(self, count):
        super().__init__(count)
        self.count, self.ends = count, [threading.Event() for _ in range(count)]
        self.given = 0

    def submit(self, call, /, *args, **others):
        number, self.given = self.given, self.given + 1
        return super().submit(self.run_late, number, call, *args)

    def run_late(self, number, call, *args):
        if number + 1 < self.count:
            self.ends[number + 1].wait(60)
        try:
            return call(*args)
        finally:
            self.ends[number].set()


class Parts(unittest.TestCase):
    """Each test has a folder of its own, and threads that run tasks."""

    program: str
    pool: Executor

    @classmethod
    def setUpClass(cls):
        cls.program = program()
        cls.pool = ThreadPoolExecutor(4)
        cls.addClassCleanup(cls.pool.shutdown)

    def setUp(self):
        room = tempfile.TemporaryDirectory()
        self.addCleanup(room.cleanup)
        self.room = room.name

    def file(self, name, text):
        path = os.path.join(self.room, name)
        with open(path, "wb") as file:
            file.write(text.encode())
        return path

    def scan(self, texts, name="main", **columns):
        return fq.scan_csv([self.file(f"{name}-{number}.csv", text) for number, text in enumerate(texts)], schema=columns)

    def script(self, text):
        """A program that does what the shell says, and is frameq where nothing else is said."""
        path = self.file("script", f'#!/bin/sh\n{text}\nexec "{self.program}" "$@"\n')
        os.chmod(path, 0o755)
        return path

    def in_parts(self, frame, executor=None, **settings):
        """The text of a report that is run in parts."""
        return frame.collect(**{"program": self.program, **settings}, executor=executor or self.pool).write_csv()

    def same(self, frame, executor=None):
        """What a report gives in one run, and in parts too, as a frame and as a file."""
        expected = told(lambda: frame.collect(program=self.program).write_csv())
        self.assertEqual(told(lambda: self.in_parts(frame, executor)), expected)
        result = os.path.join(self.room, "result.csv")
        written = told(lambda: frame.sink_csv(result, program=self.program, executor=executor or self.pool))
        if isinstance(expected, str):
            with open(result, "rb") as file:
                self.assertEqual((written, file.read().decode()), (None, expected))
            os.unlink(result)
        else:
            self.assertEqual((written, os.path.exists(result)), (expected, False))
        return expected

    # Answers.

    def test_each_aggregate(self):
        """Groups of parts are grouped, with nulls as values, as keys and alone, over a key that all parts have and keys that some have."""
        texts = ["k,n,t\nx,5,b\n,1,\ny,,\n", "k,n,t\ny,,\nx,-7,\nz,3,c\n", "k,n,t\n", "k,n,t\nz,,a\n,,q\nx,,a\n"]
        frame = self.scan(texts, k=TEXT, n=INT, t=TEXT)
        aggs = [getattr(C(column), function)().alias(f"{function} {column}")
                for function in ("min", "max", "count", "first", "last") for column in ("n", "t")]
        text = self.same(frame.group_by("k").agg(fq.len(), C("n").sum(), C("n").sum().alias("again"), *aggs))
        self.assertEqual(
            text,
            "k,len,n,again,min n,min t,max n,max t,count n,count t,first n,first t,last n,last t\n"
            "x,3,-2,-2,-7,a,5,b,2,2,5,b,,a\n"
            ",2,1,1,1,q,1,q,1,1,1,,,q\n"
            "y,2,0,0,,,,,0,0,,,,\n"
            "z,2,3,3,3,a,3,c,1,2,3,c,,a\n",
        )

    def test_groups_that_are_not_put_together(self):
        """How many values differ is not known of parts; nor is a key that is summed named as in one run."""
        frame = self.scan(["k,n\n1,1\n1,2\n2,1\n", "k,n\n1,2\n1,\n2,1\n"], k=INT, n=INT)
        self.assertEqual(self.same(frame.group_by("k").agg(C("n").n_unique(), fq.len())), "k,n,len\n1,3,4\n2,1,2\n")
        self.assertEqual(self.same(frame.group_by("k").agg(s=C("k").sum())), "k,s\n1,4\n2,4\n")

    def test_sums(self):
        """A sum is judged over all files, whatever those of each are."""
        texts = [f"n\n{MOST}\n1\n", "n\n-3\n", f"n\n-{MOST}\n"]
        group = self.scan(texts, n=INT).group_by(all=fq.lit(True)).agg(fq.len(), C("n").sum())
        self.assertEqual(self.same(group), "all,len,n\ntrue,4,-2\n")
        frame = self.scan([f"n\n{MOST}\n", "n\n1\n"], n=INT)
        group = frame.filter(C("n") > 0).group_by("n").agg(fq.len()).group_by("len").agg(C("n").sum())
        kind, _, said = self.same(group)
        self.assertEqual((kind, said["step"], said["item"]), (fq.SumRangeError, 2, 0))
        group = self.scan([f"k,n\n1,{MOST}\n", "k,n\n1,1\n"], k=INT, n=INT).filter(C("n") > 0).group_by("k").agg(fq.len(), C("n").sum())
        kind, _, said = self.same(group)
        self.assertEqual((kind, said["step"], said["item"]), (fq.SumRangeError, 1, 1))

    def test_later_steps(self):
        """What follows a grouping or a rolling sum runs over all rows: other groupings, joins, windows over the ends of files."""
        frame = self.scan([f"k,n\n{number % 3},{number}\n{number % 2},\n" for number in range(7)], k=INT, n=INT)
        names = fq.scan_csv(self.file("names.csv", "k,name\n0,zero\n2,two\n"), schema={"k": INT, "name": TEXT})
        grouped = frame.filter(C("n") > 0).group_by("k").agg(C("n").sum()).join(names, on="k", how="left")
        self.assertEqual(self.same(grouped), "k,n,name\n1,5,\n2,7,two\n0,9,zero\n")
        rolled = frame.join(names, on="k").with_columns(s=C("n").rolling_sum(3, min_samples=1)).group_by("name").agg(C("s").max())
        self.assertEqual(self.same(rolled), "name,s\nzero,11\ntwo,8\n")

    def test_joined_sources(self):
        """Tasks join some of the sources, and the last run others, some of which are joined twice."""
        frame = self.scan(["k,n\n1,2\n2,5\n", "k,n\n2,1\n3,2\n,4\n"], k=INT, n=INT)
        first, second, third = (
            fq.scan_csv(self.file(f"{name}.csv", f"{key},{name}\n1,{name}1\n2,{name}2\n"), schema={key: INT, name: TEXT})
            for name, key in [("a", "n"), ("b", "k"), ("c", "n")]
        )
        lazy = frame.join(first, on="n", how="anti").join(second, on="k").group_by("n").agg(fq.len())
        self.assertEqual(self.same(lazy.join(third, on="n", how="left")), "n,len,c\n5,1,\n")
        lazy = frame.join(second, on="k").join(second, on="k").with_columns(s=C("n").rolling_sum(2, min_samples=1))
        text = self.same(lazy.join(first, on="n", how="left").join(third, on="n").join(second, on="k", how="semi"))
        self.assertEqual(text, "k,n,b,b_right,s,a,c\n1,2,b1,b1,2,a2,c2\n2,1,b2,b2,6,a1,c1\n")

    def test_null_texts(self):
        """Texts that are null in the files of a source are texts in what comes back, and in no other source."""
        paths = [self.file(f"{number}.csv", "t,n\nNA,1\n7,7\nx,+7\n") for number in range(2)]
        frame = fq.scan_csv(paths, schema={"t": TEXT, "n": INT}, null_values=["NA", "7"])
        lazy = frame.with_columns(t=C("t").fill_null("NA")).group_by("t").agg(fq.len(), C("n").sum())
        self.assertEqual(self.same(lazy), "t,len,n\nNA,4,2\nx,2,14\n")
        lazy = frame.with_columns(t=C("t").fill_null("NA")).with_columns(s=C("n").rolling_sum(2, min_samples=2))
        self.assertEqual(self.same(lazy), "t,n,s\n" + "NA,1,\nNA,,\nx,7,\nNA,1,8\nNA,,\nx,7,\n")

    def test_order(self):
        """Rows and groups stand in the order of the files, and not in that in which the tasks end."""
        texts = [f"k\n{number}\n" for number in range(6)]
        frame = self.scan(texts, k=INT)
        for lazy in (frame.filter(C("k") >= 0), frame.group_by("k").agg()):
            with Late(len(texts)) as pool:
                self.assertEqual(self.in_parts(lazy, pool), "k\n" + "".join(f"{number}\n" for number in range(6)))

    def test_many_files(self):
        """More files than a run takes: rows, groups, windows, and texts that need quotes."""
        frame = self.scan([f'n,t\n{number},"a, ""{number}""\r\n"\n,\n' for number in range(100)], n=INT, t=TEXT)
        for call in (frame.collect, frame.explain, functools.partial(frame.sink_csv, os.path.join(self.room, "out.csv"))):
            with self.assertRaisesRegex(fq.PlanShapeError, "at most 16 files, and these are 100: .* executor="):
                call(program=self.program)
        rows = [pair for number in range(100) for pair in ((number, f'a, "{number}"\r\n'), (None, None))]
        self.assertEqual(frame.collect(program=self.program, executor=self.pool).rows(), rows)
        total = frame.group_by(all=fq.lit(True)).agg(C("n").sum(), C("t").last())
        self.assertEqual(total.collect(program=self.program, executor=self.pool).rows(), [(True, 4950, None)])
        rolled = frame.with_columns(s=C("n").rolling_sum(4)).select(C("s").is_null().alias("s")).group_by("s").agg(fq.len())
        self.assertEqual(rolled.collect(program=self.program, executor=self.pool).rows(), [(True, 200)])

    def test_names(self):
        """Columns whose names begin with a byte order mark, are empty, or need quotes."""
        for name in ("\ufeffn", "", 'a,"b"\n', "_0"):
            with self.subTest(name):
                header = '"' + name.replace('"', '""') + '",k'
                marked = "\ufeff" * name.startswith("\ufeff") + header
                frame = fq.scan_csv([self.file(f"{n}.csv", f"{marked}\n{n},1\n") for n in range(2)], schema={name: INT, "k": INT})
                self.same(frame.group_by("k").agg(C(name).sum(), C(name).first().alias("first")))
                self.same(frame.group_by(name).agg(C("k").max()))
                self.same(frame.select(C("k"), s=C(name).rolling_sum(2)))
                self.same(frame.filter(C("k") == 1))

    def test_empty_texts(self):
        """An empty text that is not null cannot stand in a part. So such a plan runs whole, or it is refused."""
        texts = ["t,n\n,1\nx,2\n", "t,n\n,3\n"]
        for count in (2, 20):
            frame = self.scan([texts[number % 2] for number in range(count)], t=TEXT, n=INT)
            filled = frame.with_columns(e=C("t").fill_null(""))
            for lazy in (
                filled.group_by("e").agg(C("n").sum()),
                filled.group_by("n").agg(C("e").min()),
                filled.select("n", f=C("e")).group_by("n").agg(C("f").first()),
                filled.with_columns(s=C("n").rolling_sum(2)).select(C("e").is_null().alias("p"), "s"),
            ):
                with self.subTest((count, repr(lazy)[-60:])):
                    if count == 2:
                        self.same(lazy)
                    else:
                        with self.assertRaisesRegex(fq.UnsupportedError, 'another text than ""'):
                            self.in_parts(lazy)
            for lazy, rows in [
                (filled.group_by("n").agg(C("e").count()), [(1, count // 2), (2, count // 2), (3, count // 2)]),
                (filled.select("n", p=C("e") == "").filter(C("p")).group_by("p").agg(C("n").sum()), [(True, 2 * count)]),
                (filled.with_columns(e=fq.lit("x")).group_by("e").agg(fq.len()), [("x", 3 * count // 2)]),
            ]:
                with self.subTest((count, repr(lazy)[-60:])):
                    self.assertEqual(lazy.collect(program=self.program, executor=self.pool).rows(), rows)

    def test_full_joins(self):
        """A join counts the rows of all files. Where these may be too many, it runs over all rows; so does what follows it."""
        frame = self.scan([f"k\n{number % 3}\n\n" for number in range(5)], k=INT)
        right = self.scan(["k,v\n0,5\n0,6\n1,7\n", "k,v\n,8\n,8\n,8\n"], "right", k=INT, v=INT)
        joined = frame.with_columns(k2=C("k") + 1).join(right, on="k", how="left").filter(C("k").is_not_null())
        expected = self.same(joined)
        self.assertEqual(expected.count("\n"), 1 + 4 + 2 + 1)
        for most, first in [(4_294_967_295, 3), (1000, 3), (60, 3), (20, 1), (1, 1)]:
            with self.subTest(most), mock.patch("frameq._parts._MOST_JOINED_ROWS", most), steps_of_tasks() as counts:
                self.assertEqual(self.same(joined), expected)
                self.assertEqual(set(counts), {first} if first == 3 or most else set())
                self.same(joined.group_by("v").agg(fq.len()))
                self.same(frame.join(right, on="k", how="semi"))

    def test_full_files(self):
        """Rows are put into as many files as their number needs, and refused if these are too many."""
        frame = self.scan([f"n\n{number}\n" for number in range(20)], n=INT).with_columns(s=C("n").rolling_sum(2))
        expected = self.in_parts(frame)
        self.assertIn("\n19,37\n", expected)
        with mock.patch("frameq._parts._MOST_ROWS", 6):
            self.assertEqual(self.in_parts(frame), expected)
        with mock.patch("frameq._parts._MOST_ROWS", 2), self.assertRaisesRegex(fq.UnsupportedError, "more rows"):
            self.in_parts(frame)

    # Faults.

    def test_faults_of_files(self):
        """Each has the path, the row and the lines that one run has; the first file that faults is told, and a joined one before it."""
        right = fq.scan_csv(self.file("right.csv", "k,v\n1,x\n"), schema={"k": INT, "v": BOOL})
        good = "k\n1\n"
        for bad, error in [("k,l\n1\n", fq.HeaderError), ("k\n1,2\n", fq.WidthError), ("k\n1\nx\n", fq.BadCellError), ("", fq.HeaderError)]:
            frame = self.scan([good, good, bad, "k\n?\n"], k=INT)
            for lazy in (
                frame,
                frame.filter(C("k") > 5),
                frame.group_by("k").agg(fq.len()),
                frame.with_columns(s=C("k").rolling_sum(2)),
            ):
                kind, _, said = self.same(lazy)
                self.assertEqual((kind, os.path.basename(said["file"])), (error, "main-2.csv"))
                kind, _, said = self.same(lazy.join(right, on="k"))
                self.assertEqual((kind, os.path.basename(said["file"]), said["row"]), (fq.BadCellError, "right.csv", 1))

    def test_relative_paths(self):
        """A fault has the path as it was given, wherever tasks run."""
        self.file("good.csv", "k\n1\n")
        self.file("-bad.csv", "k\n1\nx\n")
        before = os.getcwd()
        self.addCleanup(os.chdir, before)
        with process_pool(1) as pool:
            pool.submit(os.getcwd).result()
            os.chdir(self.room)
            kind, _, said = self.same(fq.scan_csv(["good.csv", "-bad.csv"], schema={"k": INT}), pool)
        self.assertEqual((kind, said["file"]), (fq.BadCellError, "-bad.csv"))
        self.assertTrue(said["details"][0].startswith(("./-bad.csv:3:", "-bad.csv:3:")))

    def test_missing_files(self):
        """A file that cannot be opened is told before the fault of any other; and a plan that is refused before that."""
        missing = os.path.join(self.room, "missing.csv")
        paths = [self.file("bad.csv", "k\nx\n"), missing, os.path.join(self.room, "missing too.csv")]
        frame = fq.scan_csv(paths, schema={"k": INT})
        kind, _, said = self.same(frame)
        self.assertEqual((kind, said["file"]), (fq.ReadError, missing))
        kind, _, said = self.same(self.scan(["k\n1\n"], k=INT).join(frame, on="k", how="semi"))
        self.assertEqual((kind, said["file"]), (fq.ReadError, missing))
        self.assertIs(self.same(frame.with_columns(s=C("k").rolling_sum(0)))[0], fq.WindowError)
        folder = fq.scan_csv([self.file("good.csv", "k\n1\n"), self.room], schema={"k": INT})
        self.assertEqual(self.same(folder)[0], fq.ReadError)
        self.assertEqual(self.same(folder.group_by("k").agg())[2]["file"], self.room)

    def test_earlier_rows(self):
        """A later step faults at an earlier row than a part, over few files and over many, or at a row of the same file."""
        for count in (6, 40):
            texts = [f"k,n\n{number},1\n{number},2\n" for number in range(count)]
            texts[-2] = "k,n\n7,1\n-1,3\n8,x\n"
            frame = self.scan(texts, k=INT, n=INT).filter(C("k") != 99).with_columns(s=C("n").rolling_sum(3))
            for number, (lazy, error) in enumerate([
                (frame.with_columns(p=C("s") * MOST), fq.OverflowError),
                (frame.with_columns(p=(C("k") + 1) // (C("k") + 1) + C("k") * (MOST // 5)), fq.OverflowError),
                (frame.filter(C("k") == -1).with_columns(p=C("n") * MOST), fq.OverflowError),
                (frame.filter(C("k") == -8).with_columns(p=C("n") * MOST), fq.BadCellError),
                (frame.group_by("k").agg(C("n").sum()).with_columns(p=C("n") * MOST), fq.BadCellError),
            ]):
                with self.subTest((count, number)):
                    if count == 6:
                        self.assertIs(self.same(lazy)[0], error)
                    kind, _, said = told(lambda lazy=lazy: self.in_parts(lazy))
                    expected = meant(lazy.plan(), [text.encode() for text in texts])
                    self.assertEqual((kind, (said["status"], said["line"])), (error, expected))

    def test_copied_files(self):
        """The files before a fault, where they are too many for a run, keep their fields: null texts, signs, zeros and what is quoted."""
        texts = ['n,t\n+7,"7"\n007,"a,""\n"\n7,\n'] * 20
        texts[-1] = "n,t\n7,7\n+7,x\n1,x,y\n"
        paths = [self.file(f"{number}.csv", text) for number, text in enumerate(texts)]
        frame = fq.scan_csv(paths, schema={"n": INT, "t": TEXT}, null_values="7").filter(C("n").is_not_null())
        rolled = frame.with_columns(s=C("n").rolling_sum(39))
        for lazy, error in [
            (rolled.with_columns(p=C("s") * (MOST // 7 // 39) * 2), fq.OverflowError),
            (rolled.with_columns(p=C("s") * (MOST // 7 // 39)), fq.WidthError),
            (rolled.filter(C("t").is_null()).with_columns(p=C("s") * MOST), fq.WidthError),
            (rolled.filter(C("t") == "x").with_columns(p=C("s") * MOST), fq.OverflowError),
        ]:
            with self.subTest(repr(lazy)[-60:]):
                kind, _, said = told(lambda lazy=lazy: self.in_parts(lazy))
                expected = meant(lazy.plan(), [text.encode() for text in texts])
                self.assertEqual((kind, (said["status"], said["line"])), (error, expected))

    def test_the_rest_is_cancelled(self):
        """Tasks that wait when a report fails are not run."""
        frame = self.scan(["k\nx\n"] * 40, k=INT)
        counted = self.script(f'mktemp "{self.room}/run-XXXXXX" > /dev/null')
        with ThreadPoolExecutor(1) as pool, self.assertRaises(fq.BadCellError):
            self.in_parts(frame, pool, program=counted)
        # (the plan's check, the fault that is told, and the tasks that ran before that was known)
        self.assertLess(sum(name.startswith("run-") for name in os.listdir(self.room)), 20)

    def test_files_that_change(self):
        """What was read before is not taken for what is there now, though an executor remembers calls."""
        pool = Remembering()
        self.addCleanup(pool.shutdown)
        frame = self.scan(["k\n1\n", "k\n1\n"], k=INT)
        self.assertEqual(self.in_parts(frame, pool), "k\n1\n1\n")
        self.file("main-1.csv", "k\n2\n")
        self.assertEqual(self.in_parts(frame, pool), "k\n1\n2\n")
        self.assertEqual(self.in_parts(fq.scan_csv(frame.files()[:1] * 3, schema={"k": INT}), pool), "k\n1\n1\n1\n")

    def test_another_file_elsewhere(self):
        """A fault that is not found here is told as the task told it."""
        frame = self.scan(["k\n1\n", "k\n2\n"], k=INT)
        bad = self.file("bad.csv", "k\nx\n")
        changed = self.script(
            f"""cd "{self.room}"
            case "$*" in *-1.csv) [ -e told ] || {{
                : > told; cp "{bad}" main-1.csv; "{self.program}" "$@"; status=$?; printf 'k\\n2\\n' > main-1.csv; exit $status
            }};; esac"""
        )
        with self.assertRaises(fq.BadCellError) as raised:
            self.in_parts(frame, program=changed)
        self.assertEqual((raised.exception.file, raised.exception.row), (frame.files()[1], 1))

    def test_places(self):
        """A result may take the place of a file that is read. One that cannot be written is told before the tasks run."""
        frame = self.scan(["k\n1\n", "k\n2\n"], k=INT)
        frame.filter(C("k") > 1).sink_csv(frame.files()[0], program=self.program, executor=self.pool)
        with open(frame.files()[0], encoding="utf-8") as file:
            self.assertEqual(file.read(), "k\n2\n")
        for place in (os.path.join(self.room, "nowhere", "result.csv"), self.room):
            with self.subTest(place), steps_of_tasks() as counts, self.assertRaises(fq.WriteError):
                frame.sink_csv(place, program=self.program, executor=self.pool)
            self.assertEqual(counts, [])
        frame.sink_csv(os.devnull, program=self.program, executor=self.pool)

    def test_refused(self):
        """What tasks cannot read, or cannot show, and settings that the program refuses."""
        pipe = os.path.join(self.room, "pipe")
        os.mkfifo(pipe)
        for path in ("-", pipe):
            with self.assertRaisesRegex(fq.UnsupportedError, "read only once"):
                self.in_parts(fq.scan_csv([path], schema={"k": INT}))
        frame = self.scan(["k\n1\n"], k=INT)
        with self.assertRaisesRegex(fq.UnsupportedError, "progress"):
            self.in_parts(frame, progress=True)
        with self.assertRaisesRegex(TypeError, "an executor is one of concurrent.futures, .* not a int"):
            frame.collect(program=self.program, executor=4)
        with self.assertRaises(fq.ArgumentsError):
            self.in_parts(frame, workers=17)
        with self.assertRaises(fq.PlanShapeError):
            self.in_parts(fq.scan_csv([], schema={"k": INT}))
        self.assertEqual(self.in_parts(frame, workers=1, batch=1), "k\n1\n")

    def test_what_a_program_says(self):
        """What it says beside an answer is one warning, of this call."""
        with self.assertWarnsRegex(UserWarning, "^not proved$") as warned:
            frame = fq.scan_csv([self.file("a.csv", "k\n1\n")] * 2, schema={"k": INT})
            frame.collect(program=self.script("echo not proved >&2"), executor=self.pool)
        self.assertEqual((warned.filename, len(warned.warnings)), (__file__, 1))

    # Tasks that do not end well.

    def ends(self, error, executor, **settings):
        """A report raises this, and leaves no file and nothing beside it."""
        frame = self.scan(["k\n1\n"] * 3, k=INT).group_by("k").agg(fq.len())
        before = sorted(os.listdir(self.room))
        with self.assertRaises(error) as raised:
            frame.sink_csv(os.path.join(self.room, "result.csv"), **{"program": self.program, **settings}, executor=executor)
        self.assertEqual(sorted(os.listdir(self.room)), before)
        return raised.exception

    def test_cancelled(self):
        """A task that is cancelled."""
        self.ends(concurrent.futures.CancelledError, Cancelled())

    def test_shut_down(self):
        """An executor that is shut down before, or while its tasks wait."""
        pool = ThreadPoolExecutor(1)
        pool.shutdown()
        self.ends(RuntimeError, pool)
        began, go = os.path.join(self.room, "began"), os.path.join(self.room, "go")
        os.mkfifo(began)
        os.mkfifo(go)
        slow = self.script(f'case "$*" in *main-0.csv) echo > "{began}"; cat "{go}";; esac')
        submitted = threading.Semaphore(0)

        class Counting(ThreadPoolExecutor):
            def submit(self, call, /, *args, **named):
                future = super().submit(call, *args, **named)
                submitted.release()
                return future

        pool = Counting(1)

        def end():
            for _ in range(3):  # (a task for each file: one that came later would be refused)
                submitted.acquire()
            with open(began, encoding="utf-8") as said:
                said.read()  # (a script that nobody reads is ended)
            pool.shutdown(wait=False, cancel_futures=True)
            with open(go, "w", encoding="utf-8"):
                pass

        ending = threading.Thread(target=end)
        ending.start()
        self.ends(concurrent.futures.CancelledError, pool, program=slow)
        ending.join()

    def test_dead_process(self):
        """A process that is killed while it runs a task."""
        with process_pool(2) as pool:
            deadly = self.script('case "$*" in *main-1.csv) kill -9 $PPID;; esac')
            self.ends(concurrent.futures.process.BrokenProcessPool, pool, program=deadly)

    def test_dead_program(self):
        """A program that is killed, or that is not where a task looks for it."""
        killed = self.script('case "$*" in *main-1.csv) kill -9 $$;; esac')
        self.assertIn(f"signal {signal.SIGKILL.value}", str(self.ends(fq.FrameqError, self.pool, program=killed)))
        with process_pool(1, initializer=functools.partial(os.chdir, "/")) as pool:
            self.assertEqual(self.in_parts(self.scan(["k\n1\n"], k=INT), pool, program=os.path.relpath(self.program)), "k\n1\n")
        with self.assertRaises(fq.ProgramNotFoundError):
            self.in_parts(self.scan(["k\n1\n"], k=INT), program=os.path.join(self.room, "nothing"))


@contextlib.contextmanager
def steps_of_tasks():
    """A list that has the number of steps of each task that is run meanwhile."""
    counts = []

    def noting(executor, runs, *others):
        counts.extend(len(plan["steps"]) for plan, _, _ in runs)
        return run_all(executor, runs, *others)

    with mock.patch("frameq._parts.run_all", noting):
        yield counts


class Random(unittest.TestCase):
    """Random plans over 1 to 40 files, faults among them."""

    def test_threads(self):
        path = program()
        with ThreadPoolExecutor(4) as pool:
            self.assertEqual(differences(range(COUNT), path, pool), [])

    def test_processes(self):
        path = program()
        with process_pool(4) as pool:
            self.assertEqual(differences(range(COUNT, 2 * COUNT), path, pool), [])

    def test_dask(self):
        """On Dask's scheduler with four processes, by a Python that has it. A process that is killed is another test there."""
        path = program()
        python = python_with("distributed")
        require("Dask", python is not None)
        script = os.path.join(ROOT, "python", "tests", "on_dask.py")
        ran = subprocess.run([python, script, path, str(2 * COUNT), str(3 * COUNT)], capture_output=True, text=True, check=False)
        self.assertEqual((ran.returncode, ran.stdout), (0, f"{COUNT} plans on Dask, none different\n"), ran.stderr)


if __name__ == "__main__":
    unittest.main()
