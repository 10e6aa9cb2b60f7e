"""The frames of results: what Polars' reference says of each call, on paper, and beside pandas where that is installed."""
import contextlib
import csv
import functools
import html.parser
import io
import os
import pathlib
import re
import stat
import subprocess
import sys
import tempfile
import unittest
from concurrent.futures import ThreadPoolExecutor
from unittest import mock

from repository import ROOT, fq, pandas, program

from frameq import _printed
from frameq._results import read_frame

import cases
import oracle

INT, TEXT, BOOL = fq.Int64, fq.String, fq.Boolean
LEAST, MOST = -(2**63), 2**63 - 1
CELLS = {
    INT: [None, 0, 1, -1, 7, 7, 10, 2**53 + 1, LEAST, MOST],
    TEXT: [None, "a", "b", "B", "aa", " a ", "NA", "null", "nan", "true", "1", "a,b", 'say "hi"', '"', '""', "x\ny", "x\r\ny", "\r", "é",
           "\uff01", "\U0001f600", "\u2028", "\ufeffa"],
    BOOL: [None, True, False],
}


def frame(columns, *rows):
    return fq.DataFrame(columns, list(rows))


def drawn(draw, most_rows=12):
    """A frame's columns and rows."""
    names = draw.some(["a", "b c", 'q"', "x,y", "", "é", "\ufeff"], 1, 4)
    columns = {name: draw.choice([INT, TEXT, BOOL]) for name in names}
    return columns, [tuple(draw.choice(CELLS[kind]) for kind in columns.values()) for _ in range(draw.randrange(most_rows))]


def text(columns, rows):
    """A frame's text, by the second implementation."""
    cells = [[it.encode() if isinstance(it, str) else it for it in row] for row in rows]
    return oracle.printed(dict.fromkeys(columns), [dict(zip(columns, row)) for row in cells])


# The frames of Polars' reference, with whole numbers in the place of floats.
SORTED = frame({"a": INT, "b": INT, "c": TEXT}, (1, 6, "a"), (2, 5, "c"), (None, 4, "b"))
FOO = frame({"foo": INT, "bar": INT, "ham": TEXT}, (1, 6, "a"), (2, 7, "b"), (3, 8, "c"), (4, 9, "d"), (5, 10, "e"))


class Texts(unittest.TestCase):
    """The CSV text of a frame."""

    def test_read(self):
        """Each text is read as the rows that it was printed of, however many bytes are read at a time."""
        for number in range(300):
            draw = cases.Draw(f"read {number}")
            columns, rows = drawn(draw)
            with self.subTest(number), mock.patch.object(_printed, "_PIECE", draw.choice([1, 7, 30, 1 << 14])):
                read = read_frame(text(columns, rows), columns)
                self.assertEqual((read.schema, read.shape, read.rows()), (columns, (len(rows), len(columns)), rows))
                self.assertEqual(read.to_dict(), {name: [row[place] for row in rows] for place, name in enumerate(columns)})

    def test_read_as_texts(self):
        """Without kinds each cell is a text, as Python's csv reads it, and an empty one is null."""
        for number in range(100):
            columns, rows = drawn(cases.Draw(f"texts {number}"))
            with self.subTest(number):
                printed = text(columns, rows)
                names, *records = csv.reader(io.StringIO(printed.decode(), newline=""), strict=True)
                read = read_frame(printed, None)
                self.assertEqual((read.columns, read.rows()), (names, [tuple(cell or None for cell in record) for record in records]))

    def test_long_and_rare(self):
        """A text that is longer than csv reads by itself, and a character 0."""
        cell = 'x,"\n\0' * 50_000
        read = read_frame(text({"t": TEXT}, [(cell,), ("y",)]), {"t": TEXT})
        self.assertEqual(read["t"], [cell, "y"])
        self.assertEqual(read_frame(b"a,b\n\0,1\n", {"a": TEXT, "b": INT}).rows(), [("\0", 1)])

    def test_nothing(self):
        """A header without rows, and no header."""
        for columns in [{"a": INT}, {"": TEXT}, {"a": INT, "b": BOOL}]:
            with self.subTest(columns):
                read = read_frame(text(columns, []), columns)
                self.assertEqual((read.shape, read.rows(), list(read)), ((0, len(columns)), [], [[] for _ in columns]))
        self.assertEqual(read_frame(b"", None).shape, (0, 0))

    def test_printed(self):
        """A frame is printed byte for byte as the second implementation prints it, whether it was read or made."""
        for number in range(300):
            columns, rows = drawn(cases.Draw(f"printed {number}"))
            with self.subTest(number):
                printed = text(columns, rows)
                self.assertEqual(frame(columns, *rows).write_csv(), printed.decode())
                read = read_frame(printed, columns)
                self.assertEqual(read.write_csv(), printed.decode())
                self.assertEqual(read.head(5).write_csv(), text(columns, rows[:5]).decode())

    def test_program(self):
        """The program prints a frame that was read in the same way as it is printed here."""
        path = program()
        with tempfile.TemporaryDirectory() as room:
            file = os.path.join(room, "main.csv")
            for number in range(20):
                columns, rows = drawn(cases.Draw(f"program {number}"))
                with self.subTest(number):
                    with open(file, "wb") as out:
                        out.write(b"\xef\xbb\xbf" + text(columns, rows))
                    collected = fq.scan_csv(file, schema=columns).collect(program=path)
                    self.assertEqual(collected.rows(), rows)
                    self.assertEqual(collected.head(len(rows)).write_csv(), collected.write_csv())


class Made(unittest.TestCase):
    """Frames that no run gave."""

    def test_rows(self):
        """Kinds by Python's types too, and rows of any kind; a frame has both to itself."""
        columns, rows = {"n": int, "t": TEXT}, [[1, "x"], (2, None)]
        made = fq.DataFrame(columns, rows)
        columns["p"] = BOOL
        rows.pop()
        self.assertEqual((made.schema, made.rows(), made["t"]), ({"n": INT, "t": TEXT}, [(1, "x"), (2, None)], ["x", None]))
        self.assertEqual((made.width, made.height, made.shape), (2, 2, (2, 2)))
        self.assertEqual(fq.DataFrame({"n": INT}, ((number,) for number in range(3)))["n"], [0, 1, 2])
        self.assertEqual((fq.DataFrame({"n": INT, "t": TEXT}, []).width, fq.DataFrame({}, []).width), (2, 0))

    def test_named_rows(self):
        """Rows by their names, one after another."""
        named = FOO.iter_rows(named=True)
        self.assertEqual(next(named), {"foo": 1, "bar": 6, "ham": "a"})
        self.assertEqual(list(named), FOO.to_dicts()[1:])
        self.assertEqual(list(FOO.iter_rows()), FOO.rows())

    def test_refused(self):
        """Rows of another width, no mapping, and no kind."""
        for wrong, error, words in [
            (lambda: frame({"a": INT, "b": INT}, (1, 2), (3,)), ValueError, "row 2 has 1 values, and there are 2 columns"),
            (lambda: frame({"a": INT}, (1, 2)), ValueError, "row 1 has 2 values"),
            (lambda: frame({"a": INT}, (1,), (2,), ()), ValueError, "row 3 has 0 values"),
            (lambda: frame({}, (1,)), ValueError, "row 1"),
            (lambda: fq.DataFrame(["a"], [(1,)]), TypeError, "a mapping of names to kinds"),
            (lambda: fq.DataFrame({"a": float}, [(1,)]), fq.UnsupportedError, "there is no kind"),
        ]:
            with self.subTest(words), self.assertRaises(error) as raised:
                wrong()
            self.assertIn(words, str(raised.exception))


class Files(unittest.TestCase):
    """Where write_csv writes."""

    def setUp(self):
        room = tempfile.TemporaryDirectory()
        self.addCleanup(room.cleanup)
        self.room = room.name
        self.path = os.path.join(self.room, "result.csv")

    def held(self):
        with open(self.path, "rb") as file:
            return file.read()

    def test_files(self):
        """A path, and files that are open."""
        wanted = "foo,bar,ham\n1,6,a\n2,7,b\n"
        result = FOO.head(2)
        self.assertIsNone(result.write_csv(self.path))
        self.assertEqual(self.held(), wanted.encode())
        result.head(0).write_csv(pathlib.Path(self.path))
        self.assertEqual(self.held(), b"foo,bar,ham\n")
        written: list = [(io.StringIO(), wanted), (io.BytesIO(), wanted.encode())]
        for file, value in written:
            with self.subTest(value):
                self.assertIsNone(result.write_csv(file))
                self.assertEqual(file.getvalue(), value)
        with self.assertRaisesRegex(fq.UnsupportedError, "separator"):
            result.write_csv(self.path, separator=";")
        self.assertEqual(os.listdir(self.room), ["result.csv"])

    def test_whole(self):
        """A file is written whole or not at all, with its mode, and through a link."""
        FOO.write_csv(self.path)
        os.chmod(self.path, 0o640)
        os.symlink("result.csv", os.path.join(self.room, "link.csv"))
        FOO.head(1).write_csv(os.path.join(self.room, "link.csv"))
        self.assertEqual(self.held(), b"foo,bar,ham\n1,6,a\n")
        self.assertEqual(stat.S_IMODE(os.stat(self.path).st_mode), 0o640)
        for what in ("fsync", "replace"):
            with self.subTest(what), mock.patch(f"os.{what}", side_effect=OSError("no")), self.assertRaises(fq.WriteError):
                FOO.write_csv(self.path)
        self.assertEqual(self.held(), b"foo,bar,ham\n1,6,a\n")
        self.assertEqual(sorted(os.listdir(self.room)), ["link.csv", "result.csv"])
        self.assertTrue(os.path.islink(os.path.join(self.room, "link.csv")))

    def test_other_places(self):
        """A folder, a folder that is not there, a link to nothing, and a device."""
        os.symlink("nothing.csv", os.path.join(self.room, "dangling.csv"))
        for place in (self.room, os.path.join(self.room, "none", "result.csv"), os.path.join(self.room, "dangling.csv"), "/dev/full"):
            with self.subTest(place), self.assertRaises(fq.WriteError):
                FOO.write_csv(place)
        FOO.write_csv(os.devnull)
        self.assertEqual(os.listdir(self.room), ["dangling.csv"])

    def test_folder(self):
        """A folder is refused as the place of a result in parts before a part runs. A script stands in for the program."""
        script, runs = os.path.join(self.room, "frameq"), os.path.join(self.room, "runs")
        with open(script, "w", encoding="utf-8") as file:
            file.write(f'#!/bin/sh\necho "$@" >> {runs}\necho n\n')
        os.chmod(script, 0o755)
        with open(self.path, "w", encoding="utf-8") as file:
            file.write("n\n")
        lazy = fq.scan_csv(self.path, schema={"n": INT})
        with ThreadPoolExecutor(1) as executor, self.assertRaisesRegex(fq.WriteError, "^write failed: .*directory"):
            lazy.sink_csv(self.room, program=script, executor=executor)
        with open(runs, encoding="utf-8") as file:
            self.assertNotIn("result.csv", file.read())
        self.assertEqual(sorted(os.listdir(self.room)), ["frameq", "result.csv", "runs"])


class Order(unittest.TestCase):
    """sort."""

    def test_reference(self):
        """The examples of Polars' reference."""
        for sorted_frame, rows in [
            (SORTED.sort("a"), [(None, 4, "b"), (1, 6, "a"), (2, 5, "c")]),
            (SORTED.sort(["c", "a"], descending=True), [(2, 5, "c"), (None, 4, "b"), (1, 6, "a")]),
            (SORTED.sort("c", "a", descending=[False, True]), [(1, 6, "a"), (None, 4, "b"), (2, 5, "c")]),
            (SORTED.sort("a", nulls_last=True), [(1, 6, "a"), (2, 5, "c"), (None, 4, "b")]),
            (SORTED.sort("a", descending=True), [(None, 4, "b"), (2, 5, "c"), (1, 6, "a")]),
            (SORTED.sort("a", descending=True, nulls_last=True), [(2, 5, "c"), (1, 6, "a"), (None, 4, "b")]),
            (SORTED.sort(fq.col("b")), [(None, 4, "b"), (2, 5, "c"), (1, 6, "a")]),
            (SORTED.sort([]), SORTED.rows()),
        ]:
            with self.subTest(rows):
                self.assertEqual((sorted_frame.schema, sorted_frame.rows()), (SORTED.schema, rows))
        self.assertEqual(SORTED.rows(), [(1, 6, "a"), (2, 5, "c"), (None, 4, "b")])

    def test_values(self):
        """False before true, and texts by their bytes."""
        self.assertEqual(frame({"p": BOOL}, (True,), (None,), (False,)).sort("p")["p"], [None, False, True])
        texts = ["\U0001f600", "\uff01", "é", "z", "Z", "", "a", "aa", "10", "9"]
        self.assertEqual(frame({"t": TEXT}, *((it,) for it in texts)).sort("t")["t"], sorted(texts, key=str.encode))

    def test_random(self):
        """Each order is the one in which Python puts the rows: stable, by each column in its own way."""
        for number in range(300):
            draw = cases.Draw(f"sort {number}")
            columns, rows = drawn(draw, 30)
            keys = draw.some(list(columns), 1, 3)
            ways = [(list(columns).index(key), draw.often(50), draw.often(50)) for key in keys]
            wanted = sorted(rows, key=functools.cmp_to_key(lambda left, right, ways=ways: compared(left, right, ways)))
            with self.subTest(number):
                result = frame(columns, *rows).sort(keys, descending=[way[1] for way in ways], nulls_last=[way[2] for way in ways])
                self.assertEqual(result.rows(), wanted)

    def test_refused(self):
        """What a sort does not take."""
        for wrong, error, words in [
            (lambda: FOO.sort("nowhere"), fq.ColumnNotFoundError, "there is no column 'nowhere'; there are 'foo', 'bar', 'ham'"),
            (lambda: FOO.sort(fq.col("foo") + 1), fq.UnsupportedError, "sort takes columns as they are"),
            (lambda: FOO.sort("foo", "bar", descending=[True]), ValueError, "`descending` (1)"),
            (lambda: FOO.sort("foo", nulls_last=[True, False]), ValueError, "`nulls_last` (2)"),
        ]:
            with self.subTest(words), self.assertRaises(error) as raised:
                wrong()
            self.assertIn(words, str(raised.exception))


def compared(left, right, ways):
    """Whether a row goes before another (-1) or after it (1), or neither (0), in these ways."""
    for place, descending, nulls_last in ways:
        one, other = left[place], right[place]
        if one == other:
            continue
        if one is None or other is None:
            return 1 if (one is None) == nulls_last else -1
        less = one.encode() < other.encode() if isinstance(one, str) else one < other
        return -1 if less != descending else 1
    return 0


class Parts(unittest.TestCase):
    """head, limit, tail and columns."""

    def test_reference(self):
        """The examples of Polars' reference: a negative number is of the rows that are left out."""
        for part, foo in [
            (FOO.head(3), [1, 2, 3]),
            (FOO.head(-3), [1, 2]),
            (FOO.limit(3), [1, 2, 3]),
            (FOO.tail(3), [3, 4, 5]),
            (FOO.tail(-3), [4, 5]),
            (FOO.head(), [1, 2, 3, 4, 5]),
            (FOO.tail(), [1, 2, 3, 4, 5]),
            (FOO.head(0), []),
            (FOO.tail(0), []),
            (FOO.head(9), [1, 2, 3, 4, 5]),
            (FOO.tail(9), [1, 2, 3, 4, 5]),
            (FOO.head(-9), []),
            (FOO.tail(-9), []),
        ]:
            with self.subTest(foo):
                self.assertEqual((part["foo"], part.schema), (foo, FOO.schema))
                self.assertEqual(part.rows(), [row for row in FOO.rows() if row[0] in foo])

    def test_columns(self):
        """A frame goes over its columns, and what it gives is one's own."""
        columns = [[1, 2, 3, 4, 5], [6, 7, 8, 9, 10], ["a", "b", "c", "d", "e"]]
        self.assertEqual(list(FOO), columns)
        self.assertEqual(list(FOO.iter_columns()), columns)
        self.assertEqual(FOO.get_columns(), columns)
        self.assertEqual(FOO.get_column("ham"), columns[2])
        for own in (FOO.get_columns()[0], FOO["foo"], FOO.to_dict()["foo"], next(iter(FOO)), FOO.rows()):
            own.clear()
        self.assertEqual((FOO.get_columns(), FOO.height), (columns, 5))
        with self.assertRaises(fq.ColumnNotFoundError):
            FOO.get_column("nowhere")


class Same(unittest.TestCase):
    """== and equals."""

    def test_equal(self):
        """Frames are equal in names, kinds and values, however they came about."""
        columns, rows = {"n": INT, "t": TEXT}, [(1, "x"), (None, None)]
        read = read_frame(text(columns, rows), columns)
        for other in (frame(columns, *rows), read_frame(text(columns, rows), columns), read.head(2), read.sort("n", nulls_last=True)):
            self.assertTrue(read == other and other == read and not read != other and read.equals(other))
        for other in [
            frame({"m": INT, "t": TEXT}, *rows),
            frame({"t": TEXT, "n": INT}, ("x", 1), (None, None)),
            frame({"n": BOOL, "t": TEXT}, (True, "x"), (None, None)),
            frame(columns, (1, "x")),
            frame(columns, (1, "x"), (None, "null")),
            frame(columns, (None, None), (1, "x")),
        ]:
            with self.subTest(other):
                self.assertTrue(read != other and other != read and not read == other and not read.equals(other))
        self.assertFalse(read == rows)
        with self.assertRaises(TypeError):
            hash(read)
        with self.assertRaises(TypeError):
            read.equals(rows)

    def test_nulls(self):
        """Unless null is the same as null, a frame with one is the same as none."""
        with_null, without = frame({"n": INT}, (1,), (None,)), frame({"n": INT}, (1,))
        self.assertEqual((with_null.equals(with_null), with_null.equals(with_null, null_equal=False)), (True, False))
        self.assertTrue(without.equals(without, null_equal=False))


class Cells(html.parser.HTMLParser):
    """The cells of the tables of a page, row by row, and what else stands there."""

    def __init__(self, page):
        super().__init__()
        self.rows, self.rest, self.open = [], [], []
        self.feed(page)
        self.close()

    def handle_starttag(self, tag, attrs):
        self.open.append(tag)
        if tag == "tr":
            self.rows.append([])
        elif tag in ("td", "th"):
            self.rows[-1].append("")

    def handle_endtag(self, tag):
        assert self.open.pop() == tag

    def handle_data(self, data):
        if "tr" in self.open:
            self.rows[-1][-1] += f"({data})" if self.open[-1] == "em" else data
        else:
            self.rest.append(data)


class Shown(unittest.TestCase):
    """How frames are shown."""

    def test_html(self):
        """A table that has the names, the kinds and the first ten rows, as texts and not as HTML."""
        columns = {"n": INT, "<b>": TEXT, "p": BOOL}
        page = Cells(frame(columns, (1, "<i>&amp;", True), (None, None, None), (-5, "null", False))._repr_html_())
        self.assertEqual(
            page.rows,
            [
                ["n", "<b>", "p"],
                ["Int64", "String", "Boolean"],
                ["1", "<i>&amp;", "true"],
                ["(null)", "(null)", "(null)"],
                ["-5", "null", "false"],
            ],
        )
        self.assertEqual((page.rest, page.open), (["shape: (3, 3)"], []))
        many = Cells(frame({"n": INT}, *((number,) for number in range(12)))._repr_html_())
        self.assertEqual(many.rows[2:], [[str(number)] for number in range(10)])
        self.assertEqual(many.rest, ["shape: (12, 1)", ".. 2 rows more"])

    def test_glimpse(self):
        """A line for each column, with its first values, as in Polars."""
        columns = {"number": INT, "p": BOOL, "t": TEXT}
        rows = [(4, True, None), (5, False, "b"), (None, True, "it's")]
        lines = ["$ number  <i64> 4, 5, null", "$ p      <bool> True, False, True", "$ t       <str> null, 'b', \"it's\""]
        wanted = "\n".join(["Rows: 3", "Columns: 3", *lines, ""])
        result = frame(columns, *rows)
        self.assertEqual(result.glimpse(return_as_string=True), wanted)
        self.assertEqual(result.glimpse(return_type="string"), wanted)
        for return_type, given in [(None, None), ("self", result)]:
            with self.subTest(return_type), contextlib.redirect_stdout(io.StringIO()) as out:
                self.assertIs(result.glimpse(return_type=return_type), given)
            self.assertEqual(out.getvalue(), wanted)
        short = result.glimpse(max_items_per_column=1, max_colname_length=4, return_type="string")
        self.assertEqual(short.splitlines()[2:], ["$ num…  <i64> 4", "$ p    <bool> True", "$ t     <str> null"])
        many = frame({"n": INT}, *((number,) for number in range(12)))
        self.assertEqual(many.glimpse(return_type="string").splitlines()[2:], ["$ n <i64> 0, 1, 2, 3, 4, 5, 6, 7, 8, 9"])
        with self.assertRaises(fq.UnsupportedError):
            result.glimpse(return_type="frame")

    def test_names(self):
        """A name with a line feed stands in one line, as a cell does."""
        result = frame({"a\nb": TEXT, "é": INT}, ("x\ty", 1))
        self.assertEqual(repr(result).splitlines(), ["shape: (1, 2)", "a\\nb        é", "String  Int64", "x\\ty        1"])
        self.assertEqual(result.glimpse(return_type="string").splitlines()[2:], ["$ a\\nb <str> 'x\\ty'", "$ é    <i64> 1"])


class Screen(io.StringIO):
    """A stream that is a terminal."""

    def isatty(self):
        return True


class NotebookStream(io.StringIO):
    """A stream as notebooks have it."""

    __module__ = "ipykernel.iostream"


class Progress(unittest.TestCase):
    """progress=True."""

    CLEAR = "\r\x1b[K"
    STATES = [f"{CLEAR}frameq: file 0: 1 of 2 MB", f"{CLEAR}frameq: file 1: 12 MB", CLEAR, f"{CLEAR}frameq: file 0: 2 of 2 MB"]

    def setUp(self):
        room = tempfile.TemporaryDirectory()
        self.addCleanup(room.cleanup)
        self.room = room.name
        self.file("main.csv", "n\n")

    def file(self, name, data):
        path = os.path.join(self.room, name)
        with open(path, "w", encoding="utf-8") as file:
            file.write(data)
        return path

    def program(self, *lines):
        path = self.file("frameq", "\n".join(["#!/bin/sh", *lines, ""]))
        os.chmod(path, 0o755)
        return path

    def scan(self):
        return fq.scan_csv(os.path.join(self.room, "main.csv"), schema={"n": INT})

    def drawing(self):
        """A line of a program that draws all states, where its standard error is a terminal."""
        states = "".join(self.STATES).replace("\r", "\\r").replace("\x1b", "\\033")
        return f'case "$*" in *--progress*) [ -t 2 ] && printf "{states}" >&2;; esac'

    def collected(self, stream, *lines):
        """What a run by a program of these lines gives or raises, and what was drawn."""
        with contextlib.redirect_stderr(stream):
            try:
                answer = self.scan().collect(program=self.program(*lines), progress=True).rows()
            except fq.FrameqError as error:
                answer = error
        return answer, stream.getvalue()

    def test_drawn(self):
        """On a terminal and in a notebook all is drawn as the program draws it, and taken away; in a file nothing is."""
        drawn_states = "".join([*self.STATES, self.CLEAR])
        for stream, shown in [(Screen(), drawn_states), (NotebookStream(), drawn_states), (io.StringIO(), "")]:
            with self.subTest(type(stream)):
                lines = [self.drawing(), f'printf "{self.CLEAR}" >&2' if shown else "", "echo n", "echo 5"]
                self.assertEqual(self.collected(stream, *lines), ([(5,)], shown))

    def test_without(self):
        """Where no terminal can be opened, or there is no standard error, a run is as without progress."""
        lines = [self.drawing(), "echo n", "echo 5"]
        with mock.patch("os.openpty", side_effect=OSError("no more")):
            self.assertEqual(self.collected(Screen(), *lines), ([(5,)], ""))
        with mock.patch("sys.stderr", None):
            self.assertEqual(self.scan().collect(program=self.program(*lines), progress=True).rows(), [(5,)])

    def test_said(self):
        """What a program says beside its progress is a fault or a warning, as without progress."""
        clear = f'printf "{self.CLEAR}" >&2'
        said = ["echo 'frameq: file 0: header differs' >&2", "echo '  main.csv:1: column 1 is \"é\"' >&2", "exit 4"]
        error, shown = self.collected(Screen(), self.drawing(), clear, *said)
        self.assertIs(type(error), fq.HeaderError)
        self.assertEqual((error.line, error.status), ("frameq: file 0: header differs", 4))
        self.assertEqual(error.details, ('main.csv:1: column 1 is "é"',))
        self.assertEqual(shown, "".join([*self.STATES, self.CLEAR]))
        error, shown = self.collected(Screen(), self.drawing(), "kill -9 $$")
        self.assertIn("signal 9", str(error))
        self.assertNotIn("MB", str(error))
        with self.assertWarnsRegex(UserWarning, "^frameq: not proved$"):
            answer = self.collected(Screen(), "echo 'frameq: not proved' >&2", self.drawing(), clear, "echo n")
        self.assertEqual(answer, ([], "".join([*self.STATES, self.CLEAR])))

    def test_pieces(self):
        """What arrives in pieces is drawn as if it came at once."""
        from frameq import _progress

        arriving = "".join(["before\n", *self.STATES, self.CLEAR, "frameq: file 0: header differs\n"]).encode()
        for size in (1, 2, 3, 5, 8, len(arriving)):
            pieces = [arriving[at : at + size] for at in range(0, len(arriving), size)]
            arrivals = mock.Mock(**{"read.side_effect": [*pieces, OSError("closed")]})
            stream = io.StringIO()
            with self.subTest(size):
                self.assertEqual(_progress._pass_on(_progress.Screen(-1, arrivals, stream)), b"before\nframeq: file 0: header differs\n")
                self.assertEqual(stream.getvalue(), "".join([*self.STATES, self.CLEAR]))

    def test_program(self):
        """The program's own progress, in all three calls, and beside a fault."""
        path = program()
        self.file("main.csv", "n\n" + "1234567\n" * 300_000)
        shown = self.CLEAR.join(["", "frameq: file 0: 1 of 2 MB", "frameq: file 0: 2 of 2 MB", "", ""])
        lazy, result = self.scan(), os.path.join(self.room, "result.csv")
        for call in [
            lambda: self.assertEqual(lazy.collect(program=path, progress=True).height, 300_000),
            lambda: lazy.sink_csv(result, program=path, progress=True),
            lambda: self.assertEqual(fq.run_plan(lazy.plan(), lazy.files(), program=path, progress=True).height, 300_000),
        ]:
            with contextlib.redirect_stderr(Screen()) as stream:
                call()
            self.assertEqual(stream.getvalue(), shown)
        self.assertEqual(os.path.getsize(result), os.path.getsize(lazy.files()[0]))
        self.file("main.csv", "n\n" + "1234567\n" * 300_000 + "x\n")
        errors = []
        for progress in (False, True):
            with contextlib.redirect_stderr(Screen()) as stream, self.assertRaises(fq.BadCellError) as raised:
                lazy.collect(program=path, progress=progress)
            errors.append({**vars(raised.exception), "args": raised.exception.args})
            self.assertEqual("1 of 2 MB" in stream.getvalue(), progress)
        self.assertEqual(errors[0], errors[1])
        for progress in (False, True):
            with contextlib.redirect_stderr(Screen()), self.assertRaises(fq.ArgumentsError) as refused:
                lazy.collect(workers=17, program=path, progress=progress)
            errors.append(str(refused.exception))
        self.assertEqual(errors[2], errors[3])


class Pandas(unittest.TestCase):
    """Beside pandas."""

    def setUp(self):
        self.pandas = pandas()

    def of_values(self, columns, rows):
        """A frame of pandas with nullable columns, made of values."""
        kinds = {INT: "Int64", TEXT: "string", BOOL: "boolean"}
        arrays = {
            name: self.pandas.array([row[place] for row in rows], dtype=kinds[kind]) for place, (name, kind) in enumerate(columns.items())
        }
        return self.pandas.DataFrame(arrays)

    def same(self, actual, expected):
        self.pandas.testing.assert_frame_equal(actual, expected, check_exact=True)

    def test_random(self):
        """What is read by the reader of pandas is what is made of values."""
        for number in range(200):
            columns, rows = drawn(cases.Draw(f"pandas {number}"))
            with self.subTest(number):
                self.same(read_frame(text(columns, rows), columns).to_pandas(), self.of_values(columns, rows))
                self.same(frame(columns, *rows).to_pandas(), self.of_values(columns, rows))

    def test_exact(self):
        """Whole numbers that are no floats beside nulls, columns of nulls alone, and a character 0."""
        for columns, rows in [
            ({"n": INT}, [(2**53 + 1,), (None,), (MOST,), (LEAST,)]),
            ({"n": INT, "m": INT}, [(2**53 - 1, 1), (None, None), (-(2**53) - 1, 2)]),
            ({"n": INT}, [(MOST,), (2**53 + 1,)]),
            ({"n": INT}, [(LEAST,), (None,)]),
            ({"n": INT}, [(LEAST,), (1,)]),
            ({"n": INT, "t": TEXT, "p": BOOL}, [(None, None, None)] * 3),
            ({"n": INT, "t": TEXT, "p": BOOL}, []),
            ({"t": TEXT, "n": INT}, [("a\0b", 1), ("\0", None)]),
        ]:
            with self.subTest(rows):
                self.same(read_frame(text(columns, rows), columns).to_pandas(), self.of_values(columns, rows))

    def test_reader(self):
        """It is pandas' own reader that reads."""
        with mock.patch("pandas.read_csv", side_effect=self.pandas.read_csv) as reader:
            read_frame(b"a\n1\n", {"a": INT}).to_pandas()
        self.assertEqual(reader.call_count, 1)

    def test_calls(self):
        """Rows are sorted and cut as pandas does, where it has the same order of nulls: last or first in all columns."""
        for number in range(100):
            draw = cases.Draw(f"pandas calls {number}")
            columns, rows = drawn(draw, 30)
            keys, n, nulls_last = draw.some(list(columns), 1, 3), draw.randint(-9, 9), draw.often(50)
            descending = [draw.often(50) for _ in keys]
            result, beside = frame(columns, *rows), self.of_values(columns, rows)
            ways = {"ascending": [not it for it in descending], "na_position": "last" if nulls_last else "first", "kind": "stable"}
            ordered = beside.sort_values(keys, ignore_index=True, **ways)
            with self.subTest(number):
                self.same(result.sort(keys, descending=descending, nulls_last=nulls_last).to_pandas(), ordered)
                self.same(result.head(n).to_pandas(), beside.head(n).reset_index(drop=True))
                self.same(result.tail(n).to_pandas(), beside.tail(n).reset_index(drop=True))


class Page(unittest.TestCase):
    """The page of the package."""

    def test_examples(self):
        """Each piece of code that text follows prints this text, over the files of its example."""
        path = program()
        with open(os.path.join(ROOT, "docs", "PYTHON.md"), encoding="utf-8") as file:
            pieces = re.findall(r"```python\n((?:(?!```).)*)```\n\n```text\n(.*?)```", file.read(), re.DOTALL)
        self.assertGreater(len(pieces), 1)
        code = "print('----')\n".join(piece for piece, _ in pieces)
        environment = {**os.environ, "PYTHONPATH": os.path.join(ROOT, "python"), "FRAMEQ": path}
        folder = os.path.join(ROOT, "examples", "monthly_sales")
        ran = subprocess.run([sys.executable, "-c", code], cwd=folder, env=environment, capture_output=True, check=False)
        self.assertEqual((ran.returncode, ran.stderr.decode()), (0, ""))
        self.assertEqual(ran.stdout.decode().split("----\n"), [shown for _, shown in pieces])


if __name__ == "__main__":
    unittest.main()
