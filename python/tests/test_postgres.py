"""Tests of plans as SQL, on PostgreSQL: plans written by hand, random plans, compared with frameq, and scripts that load files.

They start a server of their own, and fail where there is none, unless it is left out. The variable SEED gives other random plans, FRAMES
their number.
"""
import csv
import datetime
import decimal
import io
import itertools
import json
import os
import re
import shutil
import subprocess
import sys
import tempfile
import unittest
from collections import Counter
from unittest import mock

from repository import ROOT, fq, program

from frameq._kinds import int_of_day, value_of_int
from frameq._sql import sql
from frameq._sql_setup import sql_setup

import cases
import oracle
from postgres import start_server
from sql_by_hand import ByHand
from sql_cases import A_B, GREATEST, LEAST, SEED, as_text, column, plan_of, quoted, random_cases, row_name
import test_random_notations as chains


def read(page):
    """The text of a page."""
    with open(os.path.join(ROOT, "docs", f"{page}.md"), encoding="utf-8") as file:
        return file.read()


# Random cases are drawn until frameq has given so many frames.
FRAMES = int(os.environ.get("FRAMES", "2000"))

# How many random chains on decimals and dates there are.
CHAINS = 300

# For so many random cases the files are loaded.
SETUPS = 100

TYPES = {"int": "BIGINT", "text": "TEXT", "bool": "BOOLEAN"}
COLLATIONS = [" COLLATE no_case", " COLLATE german", "", ' COLLATE "C"']

# Stands for a column without a name, which PostgreSQL has not.
INSTEAD_OF_EMPTY = 'A "%s"\\'

# Stand for a null among the rows of a query, and after them, before the state in which the query ended.
NULL = "<no value>"
END = "-- ended:"

OUT_OF_RANGE = "22003"

server = None


def setUpModule():
    global server  # pylint: disable=global-statement
    server = start_server(unittest.addModuleCleanup)


# ---- running queries

ESCAPES: dict = {"\\": "\\\\", "\n": "\\n", "\r": "\\r", "\t": "\\t"}


def to_field(kind, cell):
    """A cell as COPY reads it."""
    if cell is None:
        return "\\N"
    if kind == "bool":
        return "t" if cell else "f"
    return str(cell) if kind == "int" else re.sub(r"[\\\n\r\t]", lambda found: ESCAPES[found[0]], cell)


def to_cell(kind, field):
    """The cell that psql prints as this field."""
    readers: dict = {"int": int, "text": str, "bool": "t".__eq__}
    return None if field == NULL else readers[kind](field)


def table_script(table, columns, rows, row):
    """Makes the table of a source for one transaction. Its rows stand in another order than they are numbered, and the collations of its
    texts take turns."""
    collations = itertools.cycle(COLLATIONS)
    kinds = [f"{quoted(name)} {TYPES[kind]}" + (next(collations) if kind == "text" else "") for name, kind in columns]
    lines = [
        "\t".join([str(number), *(to_field(kind, cell) for (_, kind), cell in zip(columns, cells))])
        for number, cells in enumerate(rows, 1)
    ]
    listed = ", ".join([f"{quoted(row)} BIGINT", *kinds])
    return "\n".join([
        f"CREATE TEMPORARY TABLE {quoted(table)} ({listed});", f"COPY {quoted(table)} FROM STDIN;", *lines[::-1], "\\.", "",
    ])


def answers(queries):
    """What each of some queries gives over tables: its names and rows, whose cells are texts as psql prints them, or the state of the
    error in which it ended. A query is its text, the columns and rows of each table, and the name of the column that numbers rows."""
    scripts = []
    for query, tables, row in queries:
        made = "".join(table_script(f"source{number}", columns, rows, row) for number, (columns, rows) in enumerate(tables))
        scripts.append(f"BEGIN;\n{made}{query};\n\\echo '{END}' :SQLSTATE\nROLLBACK;\n")
    ran = server.psql("".join(scripts).encode(), "--csv", f"--pset=null={NULL}")
    parts = re.findall(f"(.*?)^{END} (.....)\n", ran.stdout.decode(), re.M | re.S)
    if len(parts) != len(queries):
        raise RuntimeError(f"{len(parts)} answers to {len(queries)} queries: {ran.stderr.decode()}")
    return [names_and_rows(printed) if state == "00000" else state for printed, state in parts]


def names_and_rows(printed):
    names, *rows = csv.reader(io.StringIO(printed, newline=""))
    # (a line is empty where the only cell is an empty text)
    return names, [row or [""] for row in rows]


def cells(kinds, rows):
    """Rows with cells of these kinds."""
    return [tuple(to_cell(kind, field) for kind, field in zip(kinds, row)) for row in rows]


class OnPostgres(unittest.TestCase):
    """The server, on which each test has tables of its own."""

    def ending(self, plan, tables, row="row"):
        """The names and rows that the query of a plan gives, on tables with these rows, or the state of the error in which it ends."""
        columns = [source["columns"] for source in plan["sources"]]
        answer, = answers([(sql(plan, "postgres"), list(zip(columns, tables)), row)])
        if isinstance(answer, str):
            return answer
        _, along = oracle.check(oracle.plan_of(plan))
        return answer[0], cells(along[-1].values(), answer[1])

    def answer(self, plan, tables, row="row"):
        ending = self.ending(plan, tables, row)
        self.assertIsInstance(ending, tuple, "an error")
        return ending

    def check_overflow(self, plan, *tables):
        self.assertEqual(self.ending(plan, tables), OUT_OF_RANGE)


class ByHandOnPostgres(ByHand, OnPostgres):
    """The plans that each engine runs, and what PostgreSQL alone has."""

    def test_each_value_that_leaves_64_bits_is_an_error(self):
        for expression, row in [
            (["add", column("a"), 1], (GREATEST, 0)), (["sub", column("a"), column("b")], (LEAST, 1)), (["neg", column("a")], (LEAST, 0)),
            (["mul", column("a"), column("b")], (2**32, 2**31)), (["floordiv", column("a"), column("b")], (LEAST, -1)),
            (["floordiv", column("a"), -1], (LEAST, 0)), (["add", GREATEST, 1], (0, 0)),
        ]:
            with self.subTest(expression=expression):
                self.check_overflow(plan_of([A_B], {"select": [["x", expression]]}), [row])
        self.check_overflow(plan_of([A_B], {"rolling_sum": {"column": "a", "window": 2, "name": "a"}}), [(GREATEST, 0), (1, 0)])
        self.check_overflow(plan_of([A_B], {"group_by": {"keys": ["b"], "aggs": [["s", "sum", "a"]]}}), [(LEAST, 0), (-1, 0)])

    def test_what_no_row_needs_is_no_error(self):
        filled = ["fill_null", {"null": "int"}, 2**62]
        for expression in (["add", GREATEST, 1], ["neg", ["neg", LEAST]], ["floordiv", LEAST, -1], ["mul", filled, 2]):
            plan = plan_of([A_B], {"filter": ["lt", column("a"), 0]}, {"filter": ["eq", expression, 0]}, {"select": [["x", expression]]})
            with self.subTest(expression=expression):
                self.check(plan, [[(1, 2), (3, 4)]], ["x"], [])
                self.check_overflow(plan, [(1, 2), (-3, 4)])

    def test_a_filter_spares_the_rows_that_it_drops(self):
        steps = [{"filter": ["lt", column("a"), 10]}, {"filter": ["lt", ["mul", column("a"), column("b")], 10]}]
        self.check(plan_of([A_B], *steps), [[(2, 3), (GREATEST, 3)]], ["a", "b"], [(2, 3)])

    def test_no_join_compares_each_row_with_each(self):
        columns, rows = [["i", "int"], ["s", "text"]], [(number, str(number)) for number in range(2000)]
        for how in ("inner", "left", "semi", "anti"):
            for nulls_equal in (False, True):
                with self.subTest(how=how, nulls_equal=nulls_equal):
                    plan = plan_of([columns, columns], {"join": {"source": 0, "on": ["i", "s"], "how": how, "nulls_equal": nulls_equal}})
                    (_, lines), = answers([(f"EXPLAIN {sql(plan, 'postgres')}", [(columns, rows)] * 2, "row")])
                    self.assertRegex(str(lines), "Hash|Merge")
                    self.assertNotIn("Nested Loop", str(lines))

    def test_long_names(self):
        first, second = "é" * 40 + "1", "é" * 40 + "2"
        plan = plan_of(
            [A_B],
            {"with_columns": [[first, column("a")], [second, ["floordiv", ["add", column("b"), 1], 2]]]},
            {"select": [["x", ["sub", column(first), column(second)]], ["row", column(second)], ["A", column("a")], ["a", column("b")]]},
        )
        self.check(plan, [[(1, 9), (4, 5)]], ["x", "row", "A", "a"], [(-4, 5, 1, 9), (1, 3, 4, 5)])
        for refused in (plan_of([A_B], {"select": [[first, 1]]}), plan_of([[[first, "int"]]])):
            with self.assertRaisesRegex(ValueError, "give it another name"):
                sql(refused, "postgres")

    def test_texts_whatever_a_backslash_means(self):
        text = "it's \"so\" -- \\ ; ? %s $1 E'\\n :SQLSTATE"
        plan = plan_of([[["t", "text"]]], {"filter": ["eq", column("t"), text]}, {"with_columns": [["u", text]]})
        for setting in ("on", "off"):
            with mock.patch.dict(server.environment, PGOPTIONS=f"-c standard_conforming_strings={setting} -c escape_string_warning=off"):
                self.check(plan, [[(text,), ("it's",)]], ["t", "u"], [(text, text)])


class Notations(OnPostgres):
    """Decimals and dates, which are DECIMAL and DATE in tables and in rows."""

    TYPES = {fq.Int64: "BIGINT", fq.Date: "DATE"}

    def rows_of(self, lazy, *tables):
        """The rows that the query of a report gives as texts, over tables of these kinds and rows, or the state of the error."""
        made = []
        for number, (kinds, rows) in enumerate(tables):
            types = [f"{quoted(name)} {self.TYPES.get(kind) or f'DECIMAL(19, {kind.scale})'}" for name, kind in kinds.items()]
            lines = ["\t".join([str(place), *map(self.field, row)]) for place, row in enumerate(rows, 1)]
            made += [f"CREATE TEMPORARY TABLE source{number} (row BIGINT, {', '.join(types)});", f"COPY source{number} FROM STDIN;"]
            made += [*lines[::-1], "\\.", ""]
        query = "\n".join(["BEGIN;", *made, f"{lazy.sql('postgres')};", f"\\echo '{END}' :SQLSTATE", "ROLLBACK;", ""])
        ran = server.psql(query.encode(), "--csv", f"--pset=null={NULL}")
        (printed, state), = re.findall(f"(.*?)^{END} (.....)\n", ran.stdout.decode(), re.M | re.S)
        return names_and_rows(printed)[1] if state == "00000" else (state, ran.stderr.decode())

    @staticmethod
    def field(value):
        return "\\N" if value is None else f"{value:f}" if isinstance(value, decimal.Decimal) else str(value)

    @staticmethod
    def printed(value):
        if isinstance(value, bool):
            return "t" if value else "f"
        return NULL if value is None else Notations.field(value)

    def test_each_int_is_a_decimal(self):
        numbers = [0, 1, -1, 99, -100, 10**18, LEAST, GREATEST]
        for scale in (1, 2, 17, 18):
            kind = fq.Decimal(scale=scale)
            values = [(value_of_int(number, kind),) for number in numbers]
            lazy = fq.scan_csv("main.csv", schema={"a": kind}).select(a="a", n=fq.col("a") // value_of_int(1, kind))
            wanted = [[f"{value:f}", str(number)] for (value,), number in zip(values, numbers)]
            with self.subTest(scale):
                self.assertEqual(self.rows_of(lazy, ({"a": kind}, values)), wanted)

    def test_days(self):
        days = [datetime.date.min, datetime.date(2024, 2, 29), datetime.date.max]
        lazy = fq.scan_csv("main.csv", schema={"d": fq.Date}).select(d="d", n=fq.col("d") // 1)
        rows = [[str(day), str(int_of_day(day))] for day in days]
        self.assertEqual(self.rows_of(lazy, ({"d": fq.Date}, [(day,) for day in days])), rows)

    def test_random_chains(self):
        """The queries of random chains of calls give what Python's own decimals and dates give."""
        count = Counter()
        for number in range(CHAINS):
            chain, _ = chains.start(cases.Draw(f"{SEED} notations {number}"), "")
            try:
                chain.go_on()
            except chains.TooLarge:
                continue
            if chains.is_refused(chain.frame):
                continue
            sources = [(chains.MAIN, [tuple(row.values()) for row in chain.main_rows])]
            if len(chain.frame.plan()["sources"]) > 1:
                sources.insert(0, (chains.RIGHT, [tuple(row.values()) for row in chain.right_rows]))
            wanted = [[self.printed(row[name]) for name in chain.kinds] for row in chain.rows]
            with self.subTest(number):
                self.assertEqual(self.rows_of(chain.frame, *sources), wanted, chain.frame)
            count["alike"] += 1
        self.assertGreater(count["alike"], CHAINS * 3 // 4)


class RandomPlans(OnPostgres):
    """Random plans, by frameq and by their queries."""

    def test_random_plans(self):
        names = [name or INSTEAD_OF_EMPTY for name in cases.NAMES]
        count = Counter()
        with mock.patch.object(cases, "NAMES", names):
            for batch in random_cases():
                batch = list(filter(is_comparable, batch))
                count["a name that it has not"] += sum(map(has_odd_name, batch))
                batch = list(itertools.filterfalse(has_odd_name, batch))
                queries = [self.query(given) for given in batch]
                for given, query, answer in zip(batch, queries, answers(queries)):
                    with self.subTest(case=given.number, plan=given.case.plan, query=query[0]):
                        count[self.judged(given, answer)] += 1
                if count["the same frame"] >= FRAMES:
                    break
        print("PostgreSQL:", ", ".join(f"{words} {times}" for words, times in sorted(count.items())), file=sys.stderr)
        self.assertGreater(count["an error for a fault"], count["a frame for a fault that no row needs"])

    def query(self, given):
        """The query of a case, with its tables. What the files hold is read by the second implementation."""
        tables = list(zip((columns.items() for columns in given.sources), given.tables()))
        return sql(json.loads(given.case.plan), "postgres"), tables, row_name(given.sources)

    def judged(self, given, answer):
        """What PostgreSQL's answer is beside that of frameq."""
        is_frame = given.answer.status == 0
        if isinstance(answer, str):
            self.assertEqual((answer, is_frame), (OUT_OF_RANGE, False))
            return "an error for a fault"
        columns = given.along[-1]
        names, rows = answer[0], given.rows(cells(columns.values(), answer[1]))
        self.assertEqual(names, list(columns))
        self.assertEqual(rows, unbounded(given))
        if not is_frame:
            return "a frame for a fault that no row needs"
        # in print, an empty text and a null are the same
        self.assertEqual(oracle.printed(names, rows), given.answer.output)
        return "the same frame"


def is_comparable(given):
    """Whether a case has a frame, or ended at a value that leaves 64 bits, over files without a fault."""
    if given.answer.status == 4 and re.search(b"overflow|out of range", given.answer.error):
        return all(stream.fault is None for stream in oracle.streams_of_sources(given.plan, given.sources, given.case.files))
    return given.answer.status == 0


def has_odd_name(given):
    """Whether a column of a case, seldom one that a plan got by chance, has no name."""
    return any("" in columns for columns in (*given.sources, given.along[-1]))


def unbounded(given):
    """The rows of a case if numbers had no bounds: where no value leaves 64 bits, those that it has."""
    with mock.patch.object(oracle, "fits", lambda number: True):
        return oracle.meaning(given.plan, given.sources, given.along, given.case.files)


# ---- scripts that load files

class Setup(OnPostgres):
    """The script that makes the tables of a plan, in a schema of its own."""

    def setUp(self):
        self.program = program()
        self.psql(b"DROP SCHEMA IF EXISTS loaded CASCADE; CREATE SCHEMA loaded;")
        search = mock.patch.dict(server.environment, PGOPTIONS=f"{server.environment['PGOPTIONS']} -c search_path=loaded")
        search.start()
        self.addCleanup(search.stop)
        folder = tempfile.TemporaryDirectory(prefix="it's a ~")
        self.addCleanup(folder.cleanup)
        self.folder = folder.name

    def psql(self, script, *words):
        """What a script prints that succeeds."""
        ran = server.psql(script, *words)
        self.assertEqual((ran.returncode, ran.stderr), (0, b""))
        return ran.stdout.decode()

    def load(self, plan, files, **how):
        """Runs the script of a plan over files with odd names."""
        names = [f"-f'{number} \\x ~.csv" for number in range(len(files))]
        for name, data in zip(names, files):
            with open(os.path.join(self.folder, name), "wb") as file:
                file.write(data)
        script = sql_setup(plan, names, program=self.program, **how)
        return server.psql(script.encode(), folder=self.folder)

    def check_refused(self, message, plan, files):
        """A script that ends in an error, and makes no table."""
        ran = self.load(plan, files)
        self.assertEqual((ran.returncode, ran.stdout), (3, b""))
        self.assertIn(message, ran.stderr.decode())
        self.assertEqual(self.psql(b"SELECT COUNT(*) FROM pg_tables WHERE schemaname = 'loaded'", "-At"), "0\n")

    def table(self, table, columns, row="row"):
        """The rows of a table with these columns, in order, after their numbers. Then the table is gone."""
        listed = ", ".join(map(quoted, [row, *columns]))
        query = f"SELECT {listed} FROM {table} ORDER BY {quoted(row)}; DROP TABLE {table};"
        names, rows = names_and_rows(self.psql(query.encode(), "--csv", f"--pset=null={NULL}"))
        self.assertEqual(names, [row, *columns])
        return cells(["int", *columns.values()], rows)

    def test_the_commands_of_the_page(self):
        """The commands of docs/SQL.md, with the report of docs/PYTHON.md, print what a run prints."""
        example = os.path.join(ROOT, "examples", "monthly_sales")
        here = shutil.copytree(example, os.path.join(self.folder, "example"))
        python, commands = (
            re.search(pattern, read(page), re.S)[1]
            for page, pattern in [
                ("PYTHON", r"## A report\n.*?```python\n(.*?)print\("), ("SQL", r"## Load PostgreSQL\n.*?```sh\n(.*?)```"),
            ]
        )
        with open(os.path.join(here, "report.py"), "w", encoding="utf-8") as file:
            file.write(python)
        os.symlink(self.program, os.path.join(self.folder, "frameq"))
        path = os.pathsep.join([self.folder, os.path.dirname(server.psql_words()[0]), os.environ["PATH"]])
        environment = {**server.environment, "PATH": path, "PYTHONPATH": os.path.join(ROOT, "python")}
        ran = subprocess.run(["sh", "-c", commands], cwd=here, env=environment, capture_output=True, text=True, check=False)
        with open(os.path.join(example, "expected"), encoding="utf-8") as file:
            self.assertEqual((ran.returncode, ran.stderr), (0, ""))
            self.assertTrue(ran.stdout.endswith(file.read()), ran.stdout)

    def test_the_script_of_the_cookbook(self):
        """docs/COOKBOOK.md loads a report into a table; at a fault there is no table."""
        example = os.path.join(ROOT, "examples", "monthly_revenue")
        os.symlink(self.program, os.path.join(self.folder, "frameq"))
        with mock.patch.dict(server.environment, PATH=f"{self.folder}:{os.environ['PATH']}"):
            ran = server.psql(b"", "-1", "-f", "load.sql", folder=example)
            self.assertEqual((ran.returncode, ran.stderr), (0, b""))
            with open(os.path.join(example, "expected"), encoding="utf-8") as file:
                self.assertEqual(self.psql(b"TABLE revenue; DROP TABLE revenue;", "--csv"), file.read())
            shutil.copytree(example, os.path.join(self.folder, "example"))
            with open(os.path.join(self.folder, "example", "2024.csv"), "ab") as file:
                file.write(b"a row of one field\n")
            ran = server.psql(b"", "-1", "-f", "load.sql", folder=os.path.join(self.folder, "example"))
            self.assertEqual(ran.returncode, 3)
            self.assertEqual(self.psql(b"SELECT COUNT(*) FROM pg_tables WHERE schemaname = 'loaded'", "-At"), "0\n")

    def test_a_table_has_the_rows_that_a_run_reads(self):
        columns = [["it's; --", "text"], ['say "so" \\', "int"], ["p:q", "bool"], ["row", "text"]]
        plan = {"version": 2, "sources": [{"files": 2, "columns": columns, "null_values": ["NA", "it's"]}], "steps": []}
        header = b'\xef\xbb\xbfit\'s; --,"say ""so"" \\",p:q,row\r\n'
        first = header + b'"a,""b""\nc",+007,TRUE,"12""x"\r\n\r\nNA,NA,NA,NA\r\n"",,,""\r\n'
        self.assertEqual(self.load(plan, [first, header + "é,-9223372036854775808,false,it's".encode()]).stderr, b"")
        self.assertEqual(self.table("source0", dict(columns), "row_"), [
            (1, 'a,"b"\nc', 7, True, '12"x'), (2, None, None, None, None), (3, None, None, None, None), (4, "é", LEAST, False, None),
        ])

    def test_a_line_that_psql_would_take_for_the_end(self):
        texts = ["\\.", "a\n\\.\nb", 'a"\n\\.\n"b', "a\r\n\\.\r\nb", "\\.\n\\.", "\n\\.\n\\.\n", "\\.x", "\\.,\n", "\\", ".", "x\\."]
        columns = {"t": "text"}
        file = oracle.printed(columns, [{"t": text.encode()} for text in [*texts, "end"]])
        self.assertEqual(self.load(plan_of([[["t", "text"]]]), [file]).stderr, b"")
        self.assertEqual(self.table("source0", columns), list(enumerate([*texts, "end"], 1)))
        columns = {"t": "text", "u": "text"}
        rows = [{"t": first.encode(), "u": second and second.encode()} for first in texts for second in [*texts, None]]
        self.assertEqual(self.load(plan_of([list(columns.items())]), [oracle.printed(columns, rows)], tables=["two"]).stderr, b"")
        self.assertEqual(self.table("two", columns), [(number, *map(as_text, row.values())) for number, row in enumerate(rows, 1)])

    def test_what_ends_in_an_error(self):
        plan = plan_of([[["t", "text"]], [["a", "int"], ["t", "text"]]])
        good = b"a,t\n1,x\n"
        self.check_refused("row 2, column 0: bad cell", plan, [b"t\nx\n", good + b"1.5,y\n"])
        self.check_refused("file 0: header differs", plan, [b"u\nx\n", good])
        self.check_refused("wrong number of fields", plan, [b"t\nx\n", good + b"1,2,3\n"])
        self.check_refused("header differs", plan, [b"", good])
        for text in (b"x\0", b"x\0y", b"\0"):
            self.check_refused("invalid byte sequence", plan, [b"t\n" + text, good])
            self.check_refused("invalid byte sequence", plan, [b"t\nx\n", good + b"2," + text + b"\n3,z"])
        self.program = "no such program"
        self.check_refused("not found", plan, [b"t\nx\n", good])

    def test_a_program_that_is_killed_while_it_prints(self):
        for printed in ("t\nx\n", "t\nx", 't\n"x', 't\n"x"', 't\n"x""', 't\n"x\n'):
            self.program = os.path.join(self.folder, "killed")
            with open(self.program, "w", encoding="utf-8") as file:
                file.write(f"#!/bin/sh\ncat > /dev/null; printf %s '{printed}'; kill -9 $$\n")
            os.chmod(self.program, 0o755)
            with self.subTest(printed=printed):
                self.check_refused("", plan_of([[["t", "text"]]]), [b"t\nx\n"])

    def test_tables_with_names(self):
        plan = plan_of([[["a", "int"]], [["a", "int"]]], {"join": {"source": 0, "on": ["a"], "how": "anti"}})
        tables = [("loaded", "the: 'first' \\ %s"), ["loaded", "se.cond"]]
        self.assertEqual(self.load(plan, [b"a\n1\n2\n", b"a\n3\n1\n4\n"], tables=tables).stderr, b"")
        self.assertEqual(self.psql(sql(plan, "postgres", tables).encode() + b";", "--csv"), "a\n3\n4\n")
        self.assertIn(b"already exists", self.load(plan, [b"a\n1\n", b"a\n"], tables=tables).stderr)

    def test_decimals_and_dates(self):
        """Tables have what a run reads, and the query gives what a run prints."""
        texts = {"main.csv": "a,d\n12.5,2024-02-29\n,\n-.05,0001-01-01\n", "right.csv": "d,price\n2024-02-29,+1.500\n0001-01-01,7\n"}
        for name, text in texts.items():
            with open(os.path.join(self.folder, name), "w", encoding="utf-8") as file:
                file.write(text)
        right = fq.scan_csv("right.csv", schema={"d": fq.Date, "price": fq.Decimal(scale=1)})
        lazy = fq.scan_csv("main.csv", schema={"a": fq.Decimal(scale=2), "d": fq.Date}).join(right, on="d", how="left")
        lazy = lazy.with_columns(total=fq.col("a") * fq.col("price"), year=fq.col("d").dt.year())
        self.assertEqual(server.psql(lazy.sql_setup(program=self.program).encode(), folder=self.folder).stderr, b"")
        rows = "a,d,price,total,year\n12.50,2024-02-29,1.5,18.750,2024\n,,,,\n-0.05,0001-01-01,7.0,-0.350,1\n"
        self.assertEqual(self.psql(lazy.sql("postgres").encode(), "--csv"), rows)

    def test_the_first_report(self):
        folder = os.path.join(ROOT, "examples", "monthly_sales")
        with open(os.path.join(folder, "plan.json"), encoding="utf-8") as file:
            plan = json.load(file)
        script = sql_setup(plan, ["january.csv", "february.csv", "march.csv"], program=self.program)
        self.assertEqual(server.psql(script.encode(), folder=folder).stderr, b"")
        with open(os.path.join(folder, "expected"), encoding="utf-8") as file:
            self.assertEqual(self.psql(sql(plan, "postgres").encode(), "--csv"), file.read())

    def test_random_files(self):
        count = Counter()
        with mock.patch.object(cases, "NAMES", [name or INSTEAD_OF_EMPTY for name in cases.NAMES]):
            for number in range(SETUPS):
                count[self.loaded(cases.case(SEED, number))] += 1
        self.assertGreater(count["loaded"], SETUPS // 3)
        self.assertGreater(count["refused"], SETUPS // 20)

    def loaded(self, case):
        """Whether the files of a case were loaded, and are what they are read as; or refused, as a run refuses them; or have no plan."""
        try:
            plan = oracle.read_plan(case.plan)
            sources, _ = oracle.check(plan)
        except oracle.Ending:
            return "no plan"
        if oracle.files_wanted(plan) != len(case.files):
            return "no plan"
        streams = oracle.streams_of_sources(plan, sources, case.files)
        ran = self.load(json.loads(case.plan), case.files)
        if any(stream.fault for stream in streams):
            self.assertEqual(ran.returncode, 3, case.plan)
            return "refused"
        self.assertEqual((ran.returncode, ran.stderr), (0, b""), case.plan)
        for place, (columns, stream) in enumerate(zip(sources, streams)):
            rows = [(number, *map(as_text, row.values())) for number, row in enumerate(stream.rows, 1)]
            self.assertEqual(self.table(f"source{place}", columns, row_name(sources)), rows)
        return "loaded"


if __name__ == "__main__":
    unittest.main()
