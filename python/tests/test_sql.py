"""Tests of plans as SQL, on SQLite: plans and rows written by hand from the guide, and random plans, compared with frameq.

The variable SEED gives other random plans.
"""
import itertools
import json
import sqlite3
import unittest

import repository  # pylint: disable=unused-import

from frameq._sql import sql
from frameq._sql_setup import sql_setup

import oracle
from sql_by_hand import ByHand
from sql_cases import A_B, LEAST, column, plan_of, quoted, random_cases, row_name

# Random cases are drawn until frameq has given so many frames.
FRAMES = 1000

TYPES = {"int": "INTEGER", "text": "TEXT", "bool": "BOOLEAN"}


# ---- running a query

def fill(connection, table, columns, rows, row="row", collation="NOCASE"):
    """Makes the table of a source. Its texts have a collation that compares in another way than frameq."""
    kinds = [f"{quoted(name)} {TYPES[kind]}" + (f" COLLATE {collation}" if kind == "text" else "") for name, kind in columns]
    connection.execute(f"CREATE TABLE {quoted(table)} ({', '.join([f'{quoted(row)} INTEGER', *kinds])})")
    marks = ", ".join("?" * (len(columns) + 1))
    numbered = [(number, *cells) for number, cells in enumerate(rows, 1)]
    # the rows stand in the table in another order than they are numbered
    connection.executemany(f"INSERT INTO {quoted(table)} VALUES ({marks})", numbered[::-1])


class OnSqlite(unittest.TestCase):
    """SQLite, with a database in memory for each test."""

    def setUp(self):
        self.connection = sqlite3.connect(":memory:")
        self.addCleanup(self.connection.close)

    def answer(self, plan, tables, row="row"):
        """The names and the rows that the query of a plan gives, on tables with these rows."""
        for number, (source, rows) in enumerate(zip(plan["sources"], tables)):
            self.connection.execute(f"DROP TABLE IF EXISTS source{number}")
            fill(self.connection, f"source{number}", source["columns"], rows, row)
        return self.rows_of(sql(plan))

    def rows_of(self, query):
        """The names and the rows that a query gives."""
        cursor = self.connection.execute(query)
        return [column[0] for column in cursor.description], cursor.fetchall()


class ByHandOnSqlite(ByHand, OnSqlite):
    """The plans that each engine runs, and what SQLite alone has."""

    def test_a_column_without_a_name(self):
        columns = [["", "int"], ["a", "int"]]
        for how, rows in [("semi", [(1, 2, 1)]), ("anti", [(3, 4, 2)])]:
            plan = plan_of(
                [columns, columns],
                {"with_columns": [["b", ["floordiv", ["add", column(""), column("a")], 3]]]},
                {"join": {"source": 0, "on": [""], "how": how}},
            )
            self.check(plan, [[(1, 0), (None, 1)], [(1, 2), (3, 4)]], ["", "a", "b"], rows)
        group = {"group_by": {"keys": ["a"], "aggs": [["", "last", ""]]}}
        self.check(plan_of([columns], group), [[(1, 2), (3, 2)]], ["a", ""], [(2, 3)])

    def test_names_of_tables(self):
        fill(self.connection, "step0", [["k", "int"]], [(1,)])
        fill(self.connection, "the main.one", [["k", "int"], ["c", "int"]], [(2, 0), (1, 0)])
        steps = [{"join": {"source": 0, "on": ["k"], "how": "anti"}}, {"with_columns": [["c", ["add", column("k"), 1]]]}]
        plan = plan_of([[["k", "int"]], [["k", "int"]]], *steps)
        for tables in (["step0", "the main.one"], [("main", "step0"), ["main", "the main.one"]]):
            # (the second table has a column that the plan has not)
            self.assertEqual(self.rows_of(sql(plan, tables=tables)), (["k", "c"], [(2, 3)]))

    def test_no_join_goes_over_a_table_for_each_row(self):
        """Some 20 million instructions of SQLite's machine are enough for 20,000 rows with 20,000, and not for each with each."""
        columns = [["k", "int"], ["t", "text"]]
        odd, all_of = ([(number, str(number)) for number in numbers] for numbers in (range(1, 40_000, 2), range(20_000)))
        self.connection.set_progress_handler(lambda: True, 20_000_000)
        for how, count in [("inner", 10_000), ("left", 20_000), ("semi", 10_000), ("anti", 10_000)]:
            for key, nulls_equal in itertools.product("kt", (False, True)):
                with self.subTest(how=how, key=key, nulls_equal=nulls_equal):
                    join = {"source": 0, "on": [key], "how": how, "nulls_equal": nulls_equal}
                    _, rows = self.answer(plan_of([columns, columns], {"join": join}), [odd, all_of])
                    self.assertEqual(len(rows), count)


class Refused(unittest.TestCase):
    """What has no query, and no script."""

    def refused(self, message, plan, *arguments):
        with self.assertRaisesRegex(ValueError, message):
            sql(plan, *arguments)

    def test_dialects_and_tables(self):
        plan = plan_of([A_B])
        self.refused("no such dialect", plan, "oracle")
        self.refused("1 sources, and there are names for 2 tables", plan, "sqlite", ["one", "two"])

    def test_names(self):
        renamed = plan_of([A_B], {"select": [["", column("a")]]})
        self.assertIn('AS ""', sql(renamed))
        for dialect in ("duckdb", "postgres", "spark"):
            self.refused("give it another name", renamed, dialect)
        self.refused("give it another name", plan_of([A_B], {"select": [["x" * 64, 1]]}), "postgres")
        self.refused("give it another name", plan_of([A_B], {"select": [["${x}", 1]]}), "spark")
        for dialect in ("sqlite", "duckdb", "spark"):
            self.refused("letter case alone", plan_of([[["a", "int"], ["A", "int"]]]), dialect)
        self.assertIn('frame."A" AS "A"', sql(plan_of([[["a", "int"], ["A", "int"]]]), "postgres"))

    def test_texts(self):
        plan = plan_of([A_B], {"select": [["t", "a\0b"]]})
        self.refused("put the text into a table", plan, "duckdb")
        self.refused("no text with the character 0", plan, "postgres")
        self.assertIn("('a' || char(0) || 'b')", sql(plan))
        self.assertIn("CAST(X'610062' AS STRING)", sql(plan, "spark"))
        self.refused("not a Unicode text", plan_of([A_B], {"select": [["t", "\ud800"]]}))

    def test_plans_that_are_refused(self):
        for step in [
            {"sort": "a"}, {"filter": column("a")}, {"filter": ["eq", column("a"), "1"]}, {"filter": ["is_null", column("c")]},
            {"select": [["a", 1.5]]}, {"select": [["a", None]]}, {"select": [["a", 2**63]]},
            {"select": [["a", ["add", "x", "y"]]]},
            {"group_by": {"keys": ["a"], "aggs": [["m", "mean", "b"]]}}, {"join": {"source": 0, "on": ["a"], "how": "inner"}},
            {"rolling_sum": {"column": "a", "window": 1, "min_samples": 2, "name": "a"}}, {"select": []},
            {"with_columns": [["c", 1], ["c", 2]]}, {"group_by": {"keys": [], "aggs": []}}, {"filter": ["xor", True, True]},
        ]:
            with self.subTest(step=step):
                self.refused("", plan_of([A_B], step))


    def test_scripts_that_load_files(self):
        plan = plan_of([A_B])
        for message, arguments in [
            ("from Python", (plan, ["a.csv"], "sqlite")), ("was ever run", (plan, ["a.csv"], "duckdb")),
            ("no order", (plan, ["a.csv"], "spark")), ("no such dialect", (plan, ["a.csv"], "oracle")),
            ("there are names for 2", (plan, ["a.csv", "b.csv"])), ("a table has a name", (plan, ["a.csv"], "postgres", [()])),
            ("standard input", (plan, ["-"])), ("one line", (plan, ["a\nb.csv"])),
            ("of its own", (plan_of([A_B, A_B]), ["a.csv", "b.csv"], "postgres", ["s", "s"])),
            ("by itself", (plan_of([[["ctid", "int"]]]), ["a.csv"])),
        ]:
            with self.subTest(message=message), self.assertRaisesRegex(ValueError, message):
                sql_setup(*arguments)


class OtherDialects(unittest.TestCase):
    """How the other dialects spell what SQLite spells otherwise. Their engines do not run here."""

    def query(self, dialect):
        return sql(plan_of(
            [[["k", "text"]], [["a", "int"], ["k", "text"]]],
            {"with_columns": [
                ["q", ["floordiv", column("a"), -2]], ["it's", ["eq_missing", column("k"), "it's"]], ["no", False],
            ]},
            {"join": {"source": 0, "on": ["k"], "how": "left", "nulls_equal": True}},
            {"group_by": {"keys": ["k"], "aggs": [["s", "sum", "a"], ["f", "first", "no"]]}},
            {"rolling_sum": {"column": "s", "window": 2, "name": "s"}},
            {"filter": ["lt", column("s"), LEAST]},
        ), dialect)

    def test_duckdb(self):
        query = self.query("duckdb")
        for part in [
            ' // CAST(-2 AS BIGINT)) - ', """(frame."k" IS NOT DISTINCT FROM 'it''s') AS "it's\"""", 'FALSE AS "no"',
            'ON frame."k" IS NOT DISTINCT FROM other."k"', 'CAST(SUM(frame."a") AS BIGINT)',
            'CAST(SUM(frame."s") OVER recent AS BIGINT)', 'ROWS BETWEEN 1 PRECEDING AND CURRENT ROW)',
            "(CAST(-9223372036854775807 AS BIGINT) - CAST(1 AS BIGINT))", " AS MATERIALIZED (",
        ]:
            self.assertIn(part, query)
        self.assertNotIn("COLLATE", query)

    def test_spark(self):
        query = self.query("spark")
        for part in [
            " DIV CAST(-2 AS BIGINT)) - ", "(frame.`k` <=> CAST(X'69742773' AS STRING)) AS `it's`", "FALSE AS `no`",
            "ON frame.`k` <=> other.`k`", "CAST(SUM(CAST(frame.`a` AS DECIMAL(28, 0))) AS BIGINT)",
        ]:
            self.assertIn(part, query)
        self.assertNotIn("MATERIALIZED", query)
        self.assertNotIn("COLLATE", query)
        self.assertNotIn('"', query)


# ---- random plans

# What SQLite spells otherwise than the other dialects.
SPELLINGS = {
    "duckdb": [(" // ", " / ")],
    "spark": [(" DIV ", " / "), (" <=> ", " IS "), (" AS STRING)", " AS TEXT)")],
}


class RandomPlans(OnSqlite):
    """Random plans, by frameq and by their queries."""

    def frame_of_sql(self, given):
        """The printed frame of a case by SQLite. What the files hold is read by the second implementation."""
        plan = json.loads(given.case.plan)
        for number, (columns, rows) in enumerate(zip(given.sources, given.tables())):
            self.connection.execute(f"DROP TABLE IF EXISTS source{number}")
            fill(self.connection, f"source{number}", columns.items(), rows, row_name(given.sources))
        names, table = self.rows_of(sql(plan))
        for dialect, spellings in SPELLINGS.items():
            self.compare_dialect(plan, dialect, spellings, table)
        rows = given.rows(table)
        # in print, an empty text and a null are the same
        self.assertEqual(rows, oracle.meaning(given.plan, given.sources, given.along, given.case.files))
        return oracle.printed(names, rows)

    def compare_dialect(self, plan, dialect, spellings, expected):
        """Compares the rows of another dialect's query, spelt as SQLite does. It shows the form of the query to be right, and not
        that the engine means by it what SQLite does."""
        try:
            query = sql(plan, dialect)
        except ValueError:
            return  # it has no such name, or no such text
        for theirs, ours in spellings:
            query = query.replace(theirs, ours)
        try:
            _, rows = self.rows_of(query)
        except sqlite3.OperationalError as error:
            self.assertEqual(str(error), "integer overflow", query)  # in a part of a sum, where the engine has more room
            return
        self.assertEqual(rows, expected, query)

    def test_random_plans(self):
        frames = 0
        for batch in random_cases():
            for given in batch:
                if given.answer.status == 0:
                    frames += 1
                    with self.subTest(case=given.number, plan=given.case.plan):
                        self.assertEqual(self.frame_of_sql(given), given.answer.output)
            if frames >= FRAMES:
                break


if __name__ == "__main__":
    unittest.main()
