"""Decimals and dates: what calls on them write, what is refused, what a run is told of them, and its results."""
import contextlib
import copy
import datetime
import decimal
import itertools
import os
import pickle
import tempfile
import unittest
from concurrent.futures import ThreadPoolExecutor
from decimal import Decimal
from unittest import mock

from repository import fq, pandas, program

from frameq._cuts import cuts
from frameq._faults import fault
from frameq._kinds import int_at, value_of_int
from frameq._results import read_frame

C, INT, TEXT, BOOL, DATE, D2, D4 = fq.col, fq.Int64, fq.String, fq.Boolean, fq.Date, fq.Decimal(scale=2), fq.Decimal(scale=4)
LEAST, MOST = -(2**63), 2**63 - 1
DAY = datetime.date(2024, 3, 5)
A, R, D, N = ({"col": name} for name in ("a", "r", "d", "n"))
COLUMNS = {"a": D2, "b": D2, "r": D4, "d": DATE, "e": DATE, "n": INT, "t": TEXT, "p": BOOL}


def frame(**columns):
    return fq.scan_csv("main.csv", schema=columns or COLUMNS)


def steps(lazy):
    return lazy.plan()["steps"]


class Kinds(unittest.TestCase):
    """Kinds of columns."""

    def test_kinds(self):
        """A decimal is its scale, and both are ints of the plan."""
        self.assertEqual((D2, hash(D2), repr(D2), repr(DATE)), (fq.Decimal(scale=2), hash(fq.Decimal(scale=2)), "Decimal(scale=2)", "Date"))
        self.assertEqual(len({D2, D4, DATE, INT}), 4)
        for kind in (D2, DATE):
            self.assertEqual(pickle.loads(pickle.dumps(kind)), kind)
            self.assertEqual(copy.deepcopy(kind), kind)
        lazy = frame(a=D2, d=datetime.date)
        self.assertEqual(lazy.plan()["sources"], [{"files": 1, "columns": [["a", "int"], ["d", "int"]]}])
        self.assertEqual((lazy.collect_schema(), lazy.notations()), ({"a": D2, "d": DATE}, {"a": D2, "d": DATE}))
        self.assertEqual(frame(n=INT, t=TEXT).notations(), {})

    def test_refused(self):
        for wrong, words in [
            (lambda: fq.Decimal(), "the scale of a Decimal is 1 to 18"),
            (lambda: fq.Decimal(scale=19), "not 19"),
            (lambda: fq.Decimal(18, 2), "no precision"),
            (lambda: frame(a=fq.Decimal), "Decimal(scale=2)"),
            (lambda: frame(a=Decimal), "Decimal(scale=2)"),
            (lambda: frame(a=datetime.datetime), "there is no kind"),
            (lambda: frame(a=float), "a Decimal(scale=2) or a Date"),
        ]:
            with self.subTest(words), self.assertRaises(fq.UnsupportedError) as raised:
                wrong()
            self.assertIn(words, str(raised.exception))


class Expressions(unittest.TestCase):
    """Expressions as the plan language writes them, and their kinds."""

    def judged(self, expr):
        *before, last = steps(frame().select(x=expr))
        written = last["select"][0][1]
        return (written, *(step["with_columns"] for step in before)), frame().select(x=expr).collect_schema()["x"]

    def test_arithmetic(self):
        a, b, r, d, n = map(C, "abrdn")
        cents, of_n, of_a = ["mul", A, 100], ["mul", N, 100], ["mul", A, 10]
        for expr, plan, kind in [
            (a + b, ["add", A, {"col": "b"}], D2),
            (a + r, ["add", cents, R], D4),
            (r - a, ["sub", R, cents], D4),
            (a + n, ["add", A, of_n], D2),
            (a + Decimal("1.5"), ["add", A, 150], D2),
            (a + Decimal("1.005"), ["add", of_a, 1005], fq.Decimal(scale=3)),
            (n - Decimal("1.5"), ["sub", ["mul", N, 10], 15], fq.Decimal(scale=1)),
            (n + Decimal("3.0"), ["add", N, 3], INT),
            (1 - a, ["sub", 100, A], D2),
            (Decimal("0.1000") + a, ["add", 10, A], D2),
            (a + fq.lit(1, dtype=D4), ["add", cents, 10000], D4),
            (-a, ["neg", A], D2),
            (a * r, ["mul", A, R], fq.Decimal(scale=6)),
            (a * 3, ["mul", A, 3], D2),
            (n * a, ["mul", N, A], D2),
            (a * Decimal("10.00"), ["mul", A, 1000], D4),
            (a * Decimal("7"), ["mul", A, 7], D2),
            (n * Decimal("1.00"), of_n, D2),
            (n + Decimal("3"), ["add", N, 3], INT),
            (r + a * Decimal("1.00"), ["add", R, cents], D4),
            (a // 100, ["floordiv", A, 10000], INT),
            (a // Decimal("2.0"), ["floordiv", A, 200], INT),
            (a // n, ["floordiv", A, of_n], INT),
            (a // b, ["floordiv", A, {"col": "b"}], INT),
            (r // a, ["floordiv", R, cents], INT),
            (a // r, ["floordiv", cents, R], INT),
            (n // a, ["floordiv", of_n, A], INT),
            (n // 7, ["floordiv", N, 7], INT),
            (a % n, ["mod", A, of_n], D2),
            (a % r, ["mod", cents, R], D4),
            (a % 1, ["mod", A, 100], D2),
            (7 % a, ["mod", 700, A], D2),
            (a % Decimal("0.125"), ["mod", of_a, 125], fq.Decimal(scale=3)),
            (a.quotient(n, 2), ["floordiv", A, N], D2),
            (a.quotient(b, 4), ["floordiv", ["mul", A, 10000], {"col": "b"}], D4),
            ((a * 19).quotient(100, 2), ["floordiv", ["mul", A, 19], 100], D2),
            (n.quotient(7, 2), ["floordiv", of_n, 7], D2),
            (r.quotient(1, 2), ["floordiv", R, 100], D2),
            (a.quotient(n, 0), ["floordiv", A, of_n], INT),
            (d // 100, ["floordiv", D, 100], INT),
            (d % 100, ["mod", D, 100], INT),
            (d // n, ["floordiv", D, N], INT),
            (d.dt.year(), ["floordiv", D, 10000], INT),
            (d.dt.month(), ["mod", ["floordiv", D, 100], 100], INT),
            (d.dt.day() + 1, ["add", ["mod", D, 100], 1], INT),
            (a.fill_null(0), ["fill_null", A, 0], D2),
            (a.fill_null(Decimal("-0.5")), ["fill_null", A, -50], D2),
            (a.fill_null(Decimal("0.001")), ["fill_null", of_a, 1], fq.Decimal(scale=3)),
            (a.fill_null(b), ["fill_null", A, {"col": "b"}], D2),
            (n.fill_null(a), ["fill_null", of_n, A], D2),
            (d.fill_null(DAY), ["fill_null", D, 20240305], DATE),
            (fq.lit(Decimal("1.50")), 150, D2),
            (fq.lit(Decimal("1.5"), dtype=D2), 150, D2),
            (fq.lit(3, dtype=D2), 300, D2),
            (fq.lit(Decimal("1E+2")), 100, INT),
            (fq.lit(DAY), 20240305, DATE),
            (fq.lit(None, dtype=D2), {"null": "int"}, D2),
            (fq.lit(None, dtype=DATE), {"null": "int"}, DATE),
            (fq.lit(None, dtype=INT) + a, ["add", {"null": "int"}, A], D2),
            (fq.lit(1) + Decimal("1.5"), ["add", 10, 15], fq.Decimal(scale=1)),
            (fq.lit(7) // Decimal("1.5"), ["floordiv", 70, 15], INT),
        ]:
            with self.subTest(expr):
                self.assertEqual(self.judged(expr), ((plan,), kind))

    def test_constants(self):
        """A number that the program would read as another one in a product or a quotient, and a day without eight digits, is a column."""
        a, d, n = map(C, "adn")
        own, cents, early = {"col": "_0"}, lambda number: [["_0", number]], datetime.date(1, 1, 1)
        for expr, plan, constant, kind in [
            (a * Decimal("1.19"), ["mul", A, own], 119, D4),
            (Decimal("1.50") * a, ["mul", own, A], 150, D4),
            (n * Decimal("0.01"), ["mul", N, own], 1, D2),
            (a * (fq.lit(1) + Decimal("0.5")), ["mul", A, own], ["add", 10, 5], fq.Decimal(scale=3)),
            (a * fq.lit(None, dtype=D2), ["mul", A, own], {"null": "int"}, D4),
            (a // Decimal("0.5"), ["floordiv", A, own], 50, INT),
            (a // 0, ["floordiv", A, own], 0, INT),
            (7 // a, ["floordiv", own, A], 700, INT),
            (fq.lit(1).quotient(a, 2), ["floordiv", 10000, A], None, D2),
            (fq.lit(2).quotient(a, 2), ["floordiv", own, A], 20000, D2),
            (d >= early, ["ge", D, own], 10101, BOOL),
            (d == 0, ["eq", D, own], 0, BOOL),
            (d.fill_null(early), ["fill_null", D, own], 10101, DATE),
            (d // (fq.lit(2) * 50), ["floordiv", D, own], ["mul", 2, 50], INT),
        ]:
            with self.subTest(expr):
                self.assertEqual(self.judged(expr), ((plan, *([] if constant is None else [cents(constant)])), kind))

    def test_columns_of_constants(self):
        """They stand before the step that reads them, have names that nothing else in the plan has, and do not stay."""
        rate, right = Decimal("1.19"), fq.scan_csv("right.csv", schema={"n": INT, "_0": INT})
        names = [[name, {"col": name}] for name in ("a", "n")]
        plain = frame(a=D2, n=INT)
        self.assertEqual(
            steps(plain.filter(C("a") * rate > 5)),
            [{"with_columns": [["_0", 119]]}, {"filter": ["gt", ["mul", A, {"col": "_0"}], 50000]}, {"select": names}],
        )
        twice = plain.join(right, on="n", how="semi").with_columns(x=C("a") * rate, y=C("n") * rate, _1=C("a")).drop("x", "y", "_1")
        twice = twice.with_columns(a=C("a") * rate)
        self.assertEqual(steps(twice)[1], {"with_columns": [["_2", 119]]})
        self.assertEqual(steps(twice)[6]["with_columns"], [["a", ["mul", A, {"col": "_3"}]]])
        self.assertEqual(
            steps(plain.group_by(k=C("a") * rate).agg(x=(C("a") * rate).sum() * Decimal("0.5"))),
            [
                {"with_columns": [["_0", 119]]},
                {"with_columns": [["k", ["mul", A, {"col": "_0"}]]]},
                {"with_columns": [["_1", 119]]},
                {"with_columns": [["_2", ["mul", A, {"col": "_1"}]]]},
                {"group_by": {"keys": ["k"], "aggs": [["_3", "sum", "_2"]]}},
                {"with_columns": [["_4", 5]]},
                {"select": [["k", {"col": "k"}], ["x", ["mul", {"col": "_3"}, {"col": "_4"}]]]},
            ],
        )
        rolled = plain.with_columns(s=(C("a") * rate).rolling_sum(2))
        self.assertEqual([*steps(rolled)[0]], ["with_columns"])
        self.assertEqual(list(rolled.collect_schema().items()), [("a", D2), ("n", INT), ("s", D4)])

    def test_comparisons(self):
        """A bound that is no value of the column is the next one below it, and one past all values is never, or always, passed."""
        a, d, n, r = map(C, "adnr")
        for expr, plan in [
            (a > 1, ["gt", A, 100]),
            (a == Decimal("1.50"), ["eq", A, 150]),
            (a > Decimal("1.005"), ["gt", A, 100]),
            (a >= Decimal("1.005"), ["gt", A, 100]),
            (a < Decimal("1.005"), ["le", A, 100]),
            (a <= Decimal("-1.005"), ["le", A, -101]),
            (a == Decimal("1.005"), ["gt", A, MOST]),
            (a != Decimal("1.005"), ["le", A, MOST]),
            (a.eq_missing(Decimal("1.005")), ["and", ["is_null", A], False]),
            (a.ne_missing(1), ["not", ["eq_missing", A, 100]]),
            (a > Decimal("1e30"), ["gt", A, MOST]),
            (a <= MOST, ["le", A, MOST]),
            (a > LEAST, ["ge", A, LEAST]),
            (a < Decimal("-1e30"), ["lt", A, LEAST]),
            (a == Decimal("92233720368547758.07"), ["eq", A, MOST]),
            (fq.lit(Decimal("1.005")) < a, ["gt", A, 100]),
            (fq.lit(Decimal("1.005")) >= a, ["le", A, 100]),
            (fq.lit(2) < a, ["lt", 200, A]),
            (a.is_between(1, Decimal("2.005")), ["and", ["ge", A, 100], ["le", A, 200]]),
            (n >= Decimal("2.5"), ["gt", N, 2]),
            (n == Decimal("2.0"), ["eq", N, 2]),
            (d >= DAY, ["ge", D, 20240305]),
            (d.is_between(DAY, "e", closed="left"), ["and", ["ge", D, 20240305], ["lt", D, {"col": "e"}]]),
            (d == 20240305, ["eq", D, 20240305]),
            (fq.lit(Decimal("1.0")) == 1, True),
            (a > r, ["gt", ["mul", A, 100], R]),
            (n == a, ["eq", ["mul", N, 100], A]),
            (a.eq_missing(r), ["eq_missing", ["mul", A, 100], R]),
        ]:
            with self.subTest(expr):
                self.assertEqual(self.judged(expr), ((plan,), BOOL))
        self.assertEqual(steps(frame().filter(C("a") > Decimal("1.005"), d=DAY))[0]["filter"], ["and", ["gt", A, 100], ["eq", D, 20240305]])

    def test_refused(self):
        """What has no meaning, and what would not be exact, with what to do instead."""
        a, b, r, d, e, n, t = map(C, "abrdent")
        for expr, words in [
            (lambda: a + MOST, "is no Decimal(scale=2) here: the int that it is does not fit 64 bits"),
            (lambda: a + Decimal("1e-19"), "the scale of a Decimal is 1 to 18"),
            (lambda: a // MOST, "does not fit 64 bits"),
            (lambda: r + fq.lit(MOST // 100, dtype=D2), "does not fit 64 bits"),
            (lambda: a.quotient(r, 15), "the dividend has the places of the divisor and of the quotient, and 19 are too many"),
            (lambda: a.quotient(b, 19), "the scale of a quotient is 0 to 18, and not 19"),
            (lambda: a.quotient(b, True), "the scale of a quotient"),
            (lambda: d.quotient(100, 0), "a quotient is of two numbers"),
            (lambda: a.quotient(t, 2), "a quotient is of two numbers"),
            (lambda: a / b, "quotient(other, 2) keeps two places"),
            (lambda: a // t, "String"),
            (lambda: a % t, "String"),
            (lambda: 1 // d, "// and % by an Int64"),
            (lambda: d // a, "// and % by an Int64"),
            (lambda: d % Decimal("0.5"), "// and % by an Int64"),
            (lambda: (r * r * r * r) * (r * a), "22 are more than 18"),
            (lambda: a * t, "String"),
            (lambda: a == "1.50", "String"),
            (lambda: d + 1, "no arithmetic of dates"),
            (lambda: d - e, "no arithmetic of dates"),
            (lambda: d * 2, "no arithmetic of dates"),
            (lambda: -d, "no arithmetic of dates"),
            (lambda: d + a, "no arithmetic of dates"),
            (lambda: d.rolling_sum(2), "no arithmetic of dates"),
            (lambda: d == "2024-03-05", "a day is a datetime.date(2024, 3, 5)"),
            (lambda: d > n, "a Date // 1 is an Int64"),
            (lambda: d.fill_null(0), "a Date // 1 is an Int64"),
            (lambda: d > Decimal("1.5"), "Decimal(scale=1)"),
            (lambda: t.dt.year(), "dt.year is a part of a Date, and this is a String"),
            (lambda: a & a, "Boolean"),
            (lambda: (d < 10**17) & n, "lt(col('d'), lit(100000000000000000))"),
            (lambda: fq.lit(DAY, dtype=INT), "no casts"),
            (lambda: fq.lit(20240305, dtype=DATE), "no casts"),
            (lambda: fq.lit(Decimal("1.005"), dtype=D2), "more than 2 places"),
            (lambda: fq.lit(Decimal("1.5"), dtype=TEXT), "no casts"),
            (lambda: fq.lit(Decimal("1e-19")), "the scale of a Decimal is 1 to 18"),
            (lambda: fq.lit(Decimal("1e30")), "64 bits"),
            (lambda: fq.lit(Decimal("NaN")), "no literal"),
            (lambda: fq.lit(Decimal("1e999999")), "no literal"),
            (lambda: fq.lit(datetime.datetime(2024, 3, 5)), "no literal"),
            (lambda: a + 1.5, "no literal"),
            (lambda: d.dt.weekday(), "no dt.weekday()"),
        ]:
            with self.subTest(words), self.assertRaises((fq.WrongKindError, fq.UnsupportedError)) as raised:
                frame().select(x=expr())
            self.assertIn(words, str(raised.exception))

    def test_types_of_refusals(self):
        """A kind that does not fit is a TypeError, as with other kinds."""
        with self.assertRaises(TypeError):
            frame().select(x=C("a") + C("t"))
        with self.assertRaises(TypeError):
            frame().group_by("t").agg(C("d").sum())

    def test_names(self):
        """What is shown of literals, and the name of one."""
        self.assertEqual(repr(C("a") > Decimal("1.005")), "gt(col('a'), lit(Decimal('1.005')))")
        self.assertEqual(repr(C("d").dt.year() == 2024), "eq(col('d').dt.year(), lit(2024))")
        self.assertEqual(repr(C("a").quotient(fq.len(), 2)), "col('a').quotient(len(), 2)")
        self.assertEqual(repr(fq.lit(DAY)), "lit(datetime.date(2024, 3, 5))")
        self.assertEqual(repr(fq.lit(3, dtype=D2)), "lit(Decimal('3.00'))")
        self.assertEqual(list(frame().select(Decimal("1.5")).collect_schema().items()), [("literal", fq.Decimal(scale=1))])


class Steps(unittest.TestCase):
    """Kinds along steps."""

    def test_groups(self):
        """Sums, ends, and the least and greatest keep a scale and a date; numbers of rows are ints."""
        functions = ("min", "max", "first", "last", "count", "n_unique")
        aggs = {f"{name} {column}": getattr(C(column), name)() for column in "ad" for name in functions}
        after = frame().group_by(month=C("d") // 100).agg(C("a").sum(), fq.len(), mean=C("a").sum().quotient(fq.len(), 2), **aggs)
        kinds = after.collect_schema()
        self.assertEqual([kinds[name] for name in ("month", "a", "len", "mean")], [INT, D2, INT, D2])
        for name in aggs:
            self.assertEqual(kinds[name], INT if name.split()[0] in ("count", "n_unique") else COLUMNS[name.split()[1]])

    def test_rolling_sums(self):
        lazy = frame().with_columns(s=C("a").rolling_sum(3), u=C("a").rolling_sum(2) + Decimal("0.5"), n=(C("a") * C("r")).rolling_sum(2))
        self.assertEqual([lazy.collect_schema()[name] for name in "sun"], [D2, D2, fq.Decimal(scale=6)])

    def test_joins(self):
        """Keys have one kind, and its scale."""
        right = fq.scan_csv("right.csv", schema={"a": D2, "d": DATE, "b": D4})
        lazy = frame().join(right, on=["a", "d"], how="left")
        self.assertEqual(lazy.collect_schema()["b_right"], D4)
        for kind in (INT, D4, DATE):
            with self.subTest(kind), self.assertRaises(fq.WrongKindError):
                frame(a=kind).join(right, on="a")
        self.assertEqual(frame(a=D2).unique().collect_schema(), {"a": D2})
        self.assertEqual(frame().rename({"a": "money"}).collect_schema()["money"], D2)


class Arguments(unittest.TestCase):
    """What a run is told. A script stands in for the program: it keeps its arguments, and prints what is in a file."""

    def setUp(self):
        room = tempfile.TemporaryDirectory()
        self.addCleanup(room.cleanup)
        self.room = room.name
        self.program, self.said = self.path("frameq"), self.path("said")
        with open(self.program, "w", encoding="utf-8") as file:
            file.write(f'#!/bin/sh\nfor word in "$@"; do printf "%s\\n" "$word"; done > {self.said}\ncat {self.path("printed")}\n')
        os.chmod(self.program, 0o755)

    def path(self, name):
        return os.path.join(self.room, name)

    def words(self, call, printed=""):
        """The arguments of a run, but for the plan's file and what stands before."""
        with open(self.path("printed"), "w", encoding="utf-8") as file:
            file.write(printed)
        with contextlib.suppress(fq.FrameqError):
            call()
        with open(self.said, encoding="utf-8") as file:
            return file.read().splitlines()[2:]

    def test_words(self):
        """Each call that runs the program says which columns are decimals and dates: those of sources, and those that steps make."""
        right = fq.scan_csv("right.csv", schema={"k": INT, "until": DATE})
        lazy = fq.scan_csv("main.csv", schema={"k": INT, "a": D2, "d": DATE, "t": TEXT}).join(right, on="k").select(
            total=C("a") * Decimal("1.5"), first="until", n="k", whole=C("a") // 100
        )
        noted = ["--decimal=a=2,_0=1,total=3,whole=0", "--date=until,d,first"]
        files = ["right.csv", "main.csv"]
        for call, words in [
            (lambda: lazy.collect(program=self.program), ["--details", *noted, *files]),
            (lambda: lazy.collect(program=self.program, batch=7), ["--details", "--batch", "7", *noted, *files]),
            (lambda: fq.run_plan(lazy.plan(), lazy.files(), notations=lazy.notations(), program=self.program, batch=7, workers=2),
             ["--details", "--batch", "7", "--workers", "2", *noted, *files]),
            (lambda: lazy.explain(program=self.program), ["--details", "--explain", *noted]),
            (lambda: lazy.sink_csv("x", program=self.program), ["--details", "--output", os.path.abspath("x"), *noted, *files]),
        ]:
            with self.subTest(words):
                self.assertEqual(self.words(call, "total,first,n,whole\n"), words)

    def test_words_of_plans(self):
        """A plan that exists has the notations that are given, and those of the schema of its result."""
        lazy = frame(a=D2, d=DATE).select(total="a", n=C("d") // 100)
        for given, words in [
            ({"notations": lazy.notations()}, ["--decimal=a=2,total=2", "--date=d"]),
            ({"notations": {"a": D2, "d": DATE}, "schema": lazy.collect_schema()}, ["--decimal=a=2,total=2", "--date=d"]),
            ({"schema": {"total": D2, "n": INT}}, ["--decimal=total=2"]),
            ({}, []),
        ]:
            with self.subTest(given):
                run = lambda given=given: fq.run_plan(lazy.plan(), lazy.files(), program=self.program, **given)
                said = self.words(run, "total,n\n1.50,202403\n")
                self.assertEqual(said, ["--details", *words, "main.csv"])
        given = {"notations": {"a": D2, "n": INT}, "schema": {"a": D4}}
        self.assertEqual(self.words(lambda: fq.run_plan(lazy.plan(), lazy.files(), program=self.program, **given))[1], "--decimal=a=2,n=0")
        for given in [{"notations": {"a": TEXT}}, {"notations": {"total": D4}, "schema": {"total": D2, "n": INT}}]:
            with self.subTest(given), self.assertRaises(fq.UnsupportedError):
                fq.run_plan(lazy.plan(), lazy.files(), program=self.program, **given)

    def test_words_without_notations(self):
        """Where there are no decimals and no dates, nothing is said of any."""
        lazy = frame(n=INT, t=TEXT).filter(C("n") > 1)
        self.assertEqual(self.words(lambda: lazy.collect(program=self.program), "n,t\n"), ["--details", "main.csv"])
        self.assertEqual(self.words(lambda: lazy.explain(program=self.program)), ["--details", "--explain"])

    def test_names(self):
        """A name has what an argument can have, and is no option."""
        lazy = frame(**{"-x": DATE, "a=b": DATE, "": DATE, "-y": D2, "é\n": D4})
        self.assertEqual(self.words(lambda: lazy.explain(program=self.program))[2:], ["--decimal=-y=2,é", "=4", "--date=-x,a=b,"])
        self.assertEqual(self.words(lambda: frame(**{"": D2}).explain(program=self.program))[2:], ["--decimal==2"])
        for name, kind, what in [
            ("a,b", D2, "a comma"), ("a,b", DATE, "a comma"), ("a\0b", D2, "a character 0"), ("a\0b", DATE, "a character 0"),
            ("a=b", D2, "an equals sign"), ("=", D4, "an equals sign"),
        ]:
            lazy = frame(**{name: kind, "n": INT})
            self.assertEqual(steps(lazy.select("n")), [{"select": [["n", N]]}])
            said = f"its name has {what}: give it another name in its files"
            for call in (
                lambda lazy: lazy.collect(program=self.program),
                lambda lazy: lazy.explain(program=self.program),
                lambda lazy: lazy.sink_csv("x", program=self.program),
                lambda lazy: lazy.collect(program=self.program, executor=ThreadPoolExecutor(1)),
                lambda lazy: fq.run_plan(lazy.plan(), lazy.files(), notations=lazy.notations(), program=self.program),
            ):
                with self.subTest((name, kind)), self.assertRaisesRegex(fq.UnsupportedError, said):
                    call(lazy)

    def test_told(self):
        """What a run is told of what steps make: a scale or a date, digits where it could be read otherwise, and not that of counts."""
        a, b, d, n = map(C, "abdn")
        for lazy, told in [
            (frame().select(x=a * b, y=d, z=a), {"x": D4, "y": DATE, "z": D2}),
            (frame().select(x=a // 100, y=a // b, z=a // 7), {"x": INT, "z": INT}),
            (frame().select(x=n * 100, y=d // 100, z=n // 100 % 10), {}),
            (frame().select(x=n * Decimal("1.00"), y=fq.lit(Decimal("1.5"))), {"x": D2, "y": fq.Decimal(scale=1)}),
            (frame().group_by("t").agg(fq.len(), x=a.sum(), y=a.count(), z=d.max()), {"x": D2, "z": DATE}),
            (frame().group_by("t").agg(x=a.sum() // fq.len()), {"_0": D2, "x": INT}),
            (frame().with_columns(s=a.rolling_sum(2)), {"s": D2}),
            (frame().with_columns(x=a).with_columns(x=C("x") * a).with_columns(x=C("x") // 100), {"x": INT}),
            (frame().with_columns(x=a).with_columns(x=n), {}),
            (frame().with_columns(x=n).with_columns(x=a), {"x": D2}),
            (frame().with_columns(x=fq.lit(0)).with_columns(x=a), {}),
            (frame().with_columns(x=d % 100).select(**{"x,y": a * b, "z,": d}), {}),
            (frame().join(fq.scan_csv("right.csv", schema={"n": INT, "a": D2, "d": DATE}), on="n"), {"a_right": D2, "d_right": DATE}),
        ]:
            with self.subTest(steps(lazy)):
                notations = lazy.notations()
                self.assertEqual({name: kind for name, kind in notations.items() if name not in COLUMNS}, told)
                self.assertEqual({name: kind for name, kind in notations.items() if name in COLUMNS}, frame().notations())

    def test_names_of_sources(self):
        """What a step makes under a source's name is what follows for it, and is not told."""
        a, r, d, n = map(C, "ardn")
        for lazy in [
            frame().with_columns(a=a * r),
            frame().with_columns(a=(a * 119).quotient(100, 2)),
            frame().with_columns(a=d, r=a, n=a, d=r),
            frame().with_columns(n=n * 100, d=d % 100),
            frame().with_columns(a=fq.lit(Decimal("0.00")), r=fq.lit(None, dtype=D4), d=fq.lit(DAY), n=fq.lit(5)),
            frame().group_by("t").agg(a=fq.len(), r=a.sum(), d=n.max(), n=d.max()),
            frame().group_by("t").agg(a=fq.len()).filter(a.rolling_sum(2) > 1),
            frame().rename({"a": "r", "r": "a"}),
            frame().with_columns(a=fq.lit("x"), d=fq.lit(True)),
        ]:
            with self.subTest(steps(lazy)):
                self.assertEqual(lazy.notations(), frame().notations())

    def test_refused_under_names(self):
        """What a run would have for another kind under its name is refused where the run is asked for, and not before."""
        a, b, d, n = map(C, "abdn")
        plain = fq.scan_csv("right.csv", schema={"n": INT, "a": INT})
        for lazy, words in [
            (frame().select(a=a // 100), "'a' is a Decimal(scale=2) in a source, and a step makes it a Int64"),
            (frame().select(a=n), "another name, by alias or rename"),
            (frame().select(a=a.quotient(b, 4)), "a step makes it a Decimal(scale=4)"),
            (frame().select(d=d // 100), "'d' is a Date in a source, and a step makes it a Int64"),
            (frame().select(a=fq.lit(5)), "a step makes it a Int64"),
            (frame().select(n=n * Decimal("1.00")), "a step makes it a Decimal(scale=2)"),
            (frame().select(x=a * Decimal("1.00")).select(x=C("x") * C("x")), "'x' a Decimal(scale=4) and then a Decimal(scale=8)"),
            (frame().with_columns(x=a * Decimal("1.19")).with_columns(_0=n), "'_0' a Decimal(scale=2) and then a Int64"),
            (frame().select("n", x=fq.lit(Decimal("1.5"))).select(x="n"), "'x' a Decimal(scale=1) and then a Int64"),
            (frame().select(**{"x,y": a // 100}), "'x,y' is a Int64, and no argument can say so, since its name has a comma"),
            (frame().join(plain, on="n", how="semi"), "give both the same kind"),
        ]:
            with self.subTest(words):
                lazy.plan()
                lazy.collect_schema()
                for name, given in [("collect", ()), ("explain", ()), ("notations", ()), ("sink_csv", ("x",)), ("sql", ("postgres",))]:
                    with self.assertRaises(fq.UnsupportedError) as raised:
                        getattr(lazy, name)(*given)
                    self.assertIn(words, str(raised.exception))


class Results(unittest.TestCase):
    """Frames with decimals and dates."""

    COLUMNS = {"a": D2, "d": DATE, "x": fq.Decimal(scale=18)}
    TEXT = (
        "a,d,x\n"
        "1234.50,2024-03-05,0.000000000000000000\n"
        "-0.05,0001-01-01,-9.223372036854775808\n"
        ",,\n"
        "0.00,9999-12-31,9.223372036854775807\n"
    )

    def test_read_and_printed(self):
        result = read_frame(self.TEXT.encode(), self.COLUMNS)
        self.assertEqual(result["a"], [Decimal("1234.50"), Decimal("-0.05"), None, Decimal("0.00")])
        self.assertEqual(result["d"], [DAY, datetime.date.min, None, datetime.date.max])
        self.assertEqual([str(it) for it in result["a"]], ["1234.50", "-0.05", "None", "0.00"])
        self.assertEqual(result.write_csv(), self.TEXT)
        self.assertEqual(result.head(4).write_csv(), self.TEXT)
        made = fq.DataFrame({"a": D2, "d": DATE}, [(Decimal("1.5"), DAY), (3, None)])
        self.assertEqual(made.write_csv(), "a,d\n1.50,2024-03-05\n3.00,\n")

    def test_ints(self):
        """Each int of 64 bits is a decimal of each scale, and back."""
        for scale, number in itertools.product((1, 2, 17, 18), (0, 1, -1, 99, -100, LEAST, MOST, 10**18)):
            with self.subTest((scale, number)):
                value = value_of_int(number, fq.Decimal(scale=scale))
                self.assertEqual((int_at(value, scale), value.as_tuple().exponent), (number, -scale))

    def test_refused(self):
        """A cell that the program does not print of its column's kind. An int that is no day is printed in digits."""
        d18 = fq.Decimal(scale=18)
        for kind, cells in [
            (INT, ["1.50", "1_000", " 12", "12 ", "\t1", "+5", "007", "00", "-0", "-01", "\u0661\u0662", "\uff11", "1e3", "-", "--1", "1-",
                   "null", "NaN", "Infinity", "[1]", "1 2", '"1,2"', '","', '"\n1"', "x", str(MOST + 1), str(LEAST - 1), "1" * 5000]),
            (D2, ["12", "1.5", "x.yz", "1.500", "1_0.50", "1e3", "1.5e1", "+1.50", " 1.50", "01.50", ".50", "-.50", "-0.00",
                  "\u0661.50", "1.\u0665\u0660", "NaN", "-Infinity", "1.5.00", '"1.50,2.50"', "92233720368547758.08",
                  "-92233720368547758.09", "100000000000000000.00"]),
            (d18, ["9.223372036854775808", "-9.223372036854775809", "10.000000000000000000", "0", "-0.000000000000000000"]),
            (DATE, ["20240231", "0", "-1", "2024-02-31", "20240305", "2024-W10-2", "2024W102", "2024-W10", "2024-3-05", "2024-03-5",
                    "0000-01-01", "2024-03-05T00", " 2024-03-05", "\u0662024-03-05", "+024-03-05", '"2024-03-05,2024-03-06"',
                    "2024-03-052024-03-06"]),
            (BOOL, ["True", "FALSE", "1", " true"]),
        ]:
            for cell in cells:
                for text in (f"a,t\n{cell},x\n", f"a,t\n,x\n{cell},y\n"):
                    with self.subTest(text), self.assertRaises(fq.WrongKindError):
                        read_frame(text.encode(), {"a": kind, "t": TEXT}).rows()
        with self.assertRaises(fq.WrongKindError) as raised:
            read_frame(b"t,a\nx,1\ny,1_000\n", {"t": TEXT, "a": INT}).rows()
        self.assertIn("'1_000' in the column 'a' is no Int64", str(raised.exception))

    def test_ends(self):
        """The least and the greatest of each kind, beside a null and 0."""
        for kind in (INT, *(fq.Decimal(scale=scale) for scale in (1, 2, 17, 18))):
            numbers = [LEAST, MOST, None, 0, -1, 10**18]
            values = numbers if kind == INT else [None if it is None else value_of_int(it, kind) for it in numbers]
            with self.subTest(kind):
                text = fq.DataFrame({"a": kind}, [(value,) for value in values]).write_csv()
                self.assertEqual(read_frame(text.encode(), {"a": kind})["a"], values)
                self.assertEqual(read_frame(b'a\n""\n', {"a": kind})["a"], [None])

    def test_shown(self):
        result = read_frame(self.TEXT.encode(), self.COLUMNS).head(2)
        lines = repr(result).splitlines()
        self.assertEqual(lines[2].split(), ["Decimal(scale=2)", "Date", "Decimal(scale=18)"])
        self.assertEqual(lines[3], "         1234.50  2024-03-05   0.000000000000000000")
        glimpse = result.glimpse(return_type="string")
        self.assertIn("$ a  <decimal[*,2]> 1234.50, -0.05\n$ d          <date> 2024-03-05, 0001-01-01\n", glimpse)
        self.assertIn('<td style="text-align: right">1234.50</td><td style="text-align: left">2024-03-05</td>', result._repr_html_())

    def test_order(self):
        result = read_frame(self.TEXT.encode(), self.COLUMNS)
        self.assertEqual(result.sort("a")["a"], [None, Decimal("-0.05"), Decimal("0.00"), Decimal("1234.50")])
        self.assertEqual(result.sort("d", descending=True, nulls_last=True)["d"], [datetime.date.max, DAY, datetime.date.min, None])
        self.assertEqual(pickle.loads(pickle.dumps(result)), result)

    def test_pandas(self):
        """Decimals are objects, and dates are datetimes."""
        is_null = pandas().isna
        text = self.TEXT.replace("0001-01-01", "2001-01-01").replace("9999-12-31", "1999-12-31")
        for result in [read_frame(text.encode(), self.COLUMNS), read_frame(text.encode(), self.COLUMNS).head(4)]:
            made = result.to_pandas()
            self.assertEqual([None if is_null(it) else it for it in made["a"]], result["a"])
            self.assertEqual([None if is_null(it) else it.date() for it in made["d"]], result["d"])
            self.assertEqual((made["a"].dtype.kind, made["d"].dtype.kind), ("O", "M"))

    def test_polars(self):
        try:
            import polars
        except ImportError:
            self.skipTest("no polars")
        result = read_frame(self.TEXT.encode(), self.COLUMNS)
        made = result.to_polars()
        self.assertEqual((made["a"].to_list(), made["d"].to_list()), (result["a"], result["d"]))
        self.assertEqual((made["a"].dtype, made["d"].dtype), (polars.Decimal(38, 2), polars.Date))


class Runs(unittest.TestCase):
    """Runs of the program, in one and in parts."""

    def setUp(self):
        self.program = program()
        room = tempfile.TemporaryDirectory()
        self.addCleanup(room.cleanup)
        self.room = room.name

    def scan(self, *texts, name="main", **columns):
        files = []
        for number, text in enumerate(texts):
            files.append(os.path.join(self.room, f"{name}-{number}.csv"))
            with open(files[-1], "w", encoding="utf-8") as file:
                file.write(text)
        return fq.scan_csv(files, schema=columns)

    def same(self, lazy):
        """The text of a report, which is the same in one run and in parts."""
        expected = lazy.collect(program=self.program).write_csv()
        with ThreadPoolExecutor(2) as executor:
            self.assertEqual(lazy.collect(program=self.program, executor=executor).write_csv(), expected)
        return expected

    def test_report(self):
        """Amounts by month, from files that write them in several ways."""
        lazy = self.scan("day,amount\n2024-01-31,12.5\n2024-02-01,.5\n", "day,amount\n2024-01-01,-3\n,+1.000\n", day=DATE, amount=D2)
        months = lazy.group_by(month=C("day") // 100).agg(C("amount").sum().alias("revenue"), last=C("day").max())
        self.assertEqual(self.same(months), "month,revenue,last\n202401,9.50,2024-01-31\n202402,0.50,2024-02-01\n,1.00,\n")
        result = months.collect(program=self.program)
        self.assertEqual(result.rows()[0], (202401, Decimal("9.50"), datetime.date(2024, 1, 31)))
        path = os.path.join(self.room, "result.csv")
        months.sink_csv(path, program=self.program)
        again = fq.scan_csv(path, schema=months.collect_schema())
        self.assertEqual(again.collect(program=self.program), result)
        given = {"schema": result.schema, "notations": months.notations()}
        self.assertEqual(fq.run_plan(months.plan(), months.files(), **given, program=self.program), result)

    def test_faults(self):
        """A field that is no decimal of the scale, or no day."""
        for field, column in [("12.345,2024-01-01", "amount"), ("1,2024-02-30", "day"), ("1,20240101", "day"), ("1e2,", "amount")]:
            with self.subTest(field), self.assertRaises(fq.BadCellError) as raised:
                self.scan(f"amount,day\n{field}\n", amount=D2, day=DATE).collect(program=self.program)
            self.assertEqual((raised.exception.row, raised.exception.column), (1, column))
        with self.assertRaises(fq.OverflowError):
            self.scan("a\n92233720368547758.07\n", a=D2).select(b=C("a") + Decimal("0.01")).collect(program=self.program)

    def test_refused_names(self):
        """A notation of a name that is not an int column."""
        lazy = self.scan("a,t\n1,x\n", a=INT, t=TEXT)
        for name in ("b", "t"):
            with self.subTest(name), self.assertRaises(fq.ArgumentsError) as raised:
                fq.run_plan(lazy.plan(), lazy.files(), notations={name: D2}, program=self.program)
            error, details = raised.exception, (f'"{name}" is not an int column', 'source 0: "a"', 'the frame: "a"')
            self.assertEqual((error.status, error.line), (2, "frameq: --decimal, --date: no such int column"))
            self.assertEqual(error.details, details)
            self.assertEqual(str(error), "\n  ".join(["--decimal, --date: no such int column", *details]))

    def test_names(self):
        """The program reads each name as it is meant."""
        names = {"-x": DATE, "a=b": DATE, "": DATE, " s ": D2, "é\n": D4, '"q"': D2, "-": D2}
        text = '-x,a=b,, s ,"é\n","""q""",-\n2024-03-05,2024-03-06,2024-03-07,1.50,2.0000,3.00,4.00\n'
        lazy = self.scan(text, **names)
        self.assertEqual(lazy.collect(program=self.program).rows()[0][2:4], (datetime.date(2024, 3, 7), Decimal("1.50")))
        self.assertEqual(self.same(lazy), text)
        lazy = self.scan(",n\n1.5,2\n", **{"": D2, "n": INT}).select("", m=C("n") + 1)
        self.assertEqual(self.same(lazy), ",m\n1.50,3\n")

    def test_no_day(self):
        """A column of a plan that is named a date, and has an int that is no day."""
        lazy = self.scan("n\n20240231\n20240229\n", n=INT).select(day="n")
        result = fq.run_plan(lazy.plan(), lazy.files(), notations={"day": DATE}, program=self.program)
        self.assertEqual(result["day"], ["20240231", "2024-02-29"])
        with self.assertRaises(fq.WrongKindError):
            fq.run_plan(lazy.plan(), lazy.files(), schema={"day": DATE}, program=self.program)

    def test_parts(self):
        """What comes back of parts is written by the names that it has, whatever kinds the columns have there."""
        texts = ["d,a,_0,k\n2024-03-05,1.50,2024-01-01,1\n2024-03-06,2,,2\n", "d,a,_0,k\n2023-01-01,0.01,2024-01-02,1\n"]
        lazy = self.scan(*texts, d=DATE, a=D2, _0=DATE, k=INT)
        rights = self.scan("k,price,most\n1,0.5,0.01\n2,1.5,0.02\n2,2.5,3\n", name="right", k=INT, price=D2, most=D2)
        for after, text in [
            (lazy.group_by("k").agg(C("a").sum(), fq.len(), first=C("d").min()),
             "k,a,len,first\n1,1.51,2,2023-01-01\n2,2.00,1,2024-03-06\n"),
            (lazy.group_by(C("_0").dt.day().alias("y")).agg(C("a").max(), d=C("d").last()),
             "y,a,d\n1,1.50,2024-03-05\n,2.00,2024-03-06\n2,0.01,2023-01-01\n"),
            (lazy.with_columns(a=C("a") * C("a")).group_by("k").agg(s=C("a").sum()), "k,s\n1,2.2501\n2,4.0000\n"),
            (lazy.group_by(month=C("d") // 100).agg(s=C("a").sum()), "month,s\n202403,3.50\n202301,0.01\n"),
            (lazy.with_columns(d=C("d") % 100).group_by("d").agg(a=fq.len()), "d,a\n5,1\n6,1\n1,1\n"),
            (lazy.group_by("k").agg(n=C("a").count(), m=C("a").sum().quotient(fq.len(), 3)), "k,n,m\n1,2,0.755\n2,1,2.000\n"),
            (lazy.with_columns(x=C("a") * Decimal("0.5")).with_columns(C("x") // 1).with_columns(s=C("x").rolling_sum(2)).select("x", "s"),
             "x,s\n0,\n1,1\n0,1\n"),
            (lazy.with_columns(price=C("a") * C("a"), s=C("a").rolling_sum(2)).join(rights, on="k")
             .select("k", "price", "s", "price_right"),
             "k,price,s,price_right\n1,2.2500,,0.50\n2,4.0000,3.50,1.50\n2,4.0000,3.50,2.50\n1,0.0001,2.01,0.50\n"),
            (lazy.with_columns(s=C("a").rolling_sum(2)).select("s", "d"), "s,d\n,2024-03-05\n3.50,2024-03-06\n2.01,2023-01-01\n"),
            (lazy.join(rights, on="k").group_by("most").agg(total=(C("a") * C("price")).sum()),
             "most,total\n0.01,0.7550\n0.02,3.0000\n3.00,5.0000\n"),
            (lazy.filter(C("a") > Decimal("0.015")).select("a", day="d"), "a,day\n1.50,2024-03-05\n2.00,2024-03-06\n"),
        ]:
            for most in (1, 4_294_967_295):
                with self.subTest(text), mock.patch("frameq._parts._MOST_JOINED_ROWS", most):
                    self.assertEqual(self.same(after), text)

    def test_names_of_parts(self):
        """The groups of parts have names that nothing else has."""
        lazy = self.scan("_0,k\n", _0=DATE, k=INT).group_by("k").agg(fq.len(), first=C("_0").min())
        cut = next(cuts(steps(lazy), [{"_0": DATE, "k": INT}, lazy.collect_schema()], 0, {"_0", "k"}))
        self.assertEqual(cut.then_schemas[0], {"k": INT, "_1": INT, "_2": DATE})

    def test_many_files(self):
        """More files than one run takes: a column that the last run would read in two ways is refused where it would come back."""
        lazy = self.scan(*["d,a\n2024-03-05,1.50\n"] * 20, d=DATE, a=D2)
        right = self.scan("d,x\n2024-03-05,7.5\n", name="right", d=DATE, x=fq.Decimal(scale=1))
        with ThreadPoolExecutor(2) as executor:
            result = lazy.group_by("d").agg(C("a").sum()).collect(program=self.program, executor=executor)
            self.assertEqual(result.rows(), [(DAY, Decimal("30.00"))])
            other = lazy.with_columns(x=C("a") * C("a")).group_by("x").agg(fq.len(), C("d").max()).join(right, on="d")
            with self.assertRaisesRegex(fq.UnsupportedError, "more than 16 files .* 'x' is .* in source 0 and .* in source 1.* by alias"):
                other.collect(program=self.program, executor=executor)
            again = lazy.select("d", y=C("a") * C("a")).group_by("y").agg(fq.len(), C("d").max()).join(right, on="d")
            self.assertEqual(again.collect(program=self.program, executor=executor).write_csv(), "y,len,d,x\n2.2500,20,2024-03-05,7.5\n")


def floor(left, right, scale=0):
    """The quotient of two numbers by Python's decimals, rounded down to so many places."""
    exact = decimal.Context(prec=80).divide(Decimal(left), Decimal(right))
    return exact.quantize(Decimal(1).scaleb(-scale), decimal.ROUND_FLOOR)


def rest(left, right):
    return left - right * floor(left, right)


def by_python(call, row):
    """What a function of Python's numbers gives of a row: null where it meets one, and of a quotient by 0."""
    try:
        return call(*row)
    except (TypeError, ZeroDivisionError, decimal.InvalidOperation):
        return None


class Values(unittest.TestCase):
    """What expressions give, row by row, beside Python's own decimals."""

    ROWS = [
        ("12.50", "4.00", "0.0190", 3), ("-12.50", "4.00", "-3.0001", -7), ("0.00", "0.00", "0.0000", 0), (None, "1.00", None, 2),
        ("99999.99", "-0.03", "1.9999", None), ("-0.01", None, "100.0000", 100), ("1250.00", "12.50", "0.5000", 1),
        ("-100.00", "0.50", "7.0000", -1),
    ]
    # Each expression, how many places it has, and what Python makes of it.
    TABLE = [
        (C("a") // 100, 0, lambda a, b, r, n: floor(a, 100)),
        (C("a") % 100, 2, lambda a, b, r, n: rest(a, 100)),
        (C("a") // 1, 0, lambda a, b, r, n: floor(a, 1)),
        (C("a") % 1, 2, lambda a, b, r, n: rest(a, 1)),
        (C("a") // -7, 0, lambda a, b, r, n: floor(a, -7)),
        (C("a") % -7, 2, lambda a, b, r, n: rest(a, -7)),
        (C("a") // 0, 0, lambda a, b, r, n: None),
        (C("a") % 0, 2, lambda a, b, r, n: None),
        (C("a") // C("n"), 0, lambda a, b, r, n: floor(a, n)),
        (C("a") % C("n"), 2, lambda a, b, r, n: rest(a, n)),
        (C("n") // C("a"), 0, lambda a, b, r, n: floor(n, a)),
        (C("n") % C("b"), 2, lambda a, b, r, n: rest(n, b)),
        (C("a") // C("b"), 0, lambda a, b, r, n: floor(a, b)),
        (C("r") // C("a"), 0, lambda a, b, r, n: floor(r, a)),
        (C("a") % C("r"), 4, lambda a, b, r, n: rest(a, r)),
        (C("a") // Decimal("0.003"), 0, lambda a, b, r, n: floor(a, Decimal("0.003"))),
        (C("a") % Decimal("0.003"), 3, lambda a, b, r, n: rest(a, Decimal("0.003"))),
        (100 // C("r"), 0, lambda a, b, r, n: floor(100, r)),
        (7 % C("b"), 2, lambda a, b, r, n: rest(7, b)),
        (C("a") + C("r"), 4, lambda a, b, r, n: a + r),
        (C("n") - C("a"), 2, lambda a, b, r, n: n - a),
        (C("a") + Decimal("0.005"), 3, lambda a, b, r, n: a + Decimal("0.005")),
        (C("n") - Decimal("1.5"), 1, lambda a, b, r, n: n - Decimal("1.5")),
        (C("a").fill_null(C("n")), 2, lambda a, b, r, n: n if a is None else a),
        (C("n").fill_null(C("r")), 4, lambda a, b, r, n: r if n is None else n),
        (C("a").fill_null(Decimal("0.125")), 3, lambda a, b, r, n: Decimal("0.125") if a is None else a),
        (C("a") * C("r"), 6, lambda a, b, r, n: a * r),
        (C("a") * Decimal("1.19"), 4, lambda a, b, r, n: a * Decimal("1.19")),
        (C("n") * Decimal("0.01"), 2, lambda a, b, r, n: n * Decimal("0.01")),
        ((C("a") * 19).quotient(100, 2), 2, lambda a, b, r, n: floor(a * 19, 100, 2)),
        (C("a").quotient(C("b"), 4), 4, lambda a, b, r, n: floor(a, b, 4)),
        (C("n").quotient(7, 3), 3, lambda a, b, r, n: floor(n, 7, 3)),
        (C("r").quotient(1, 2), 2, lambda a, b, r, n: floor(r, 1, 2)),
        (C("a").quotient(Decimal("0.3"), 1), 1, lambda a, b, r, n: floor(a, Decimal("0.3"), 1)),
        (fq.lit(1).quotient(C("b"), 5), 5, lambda a, b, r, n: floor(1, b, 5)),
        ((C("a") + C("n")).quotient(C("b") - C("r"), 2) - C("n"), 2, lambda a, b, r, n: floor(a + n, b - r, 2) - n),
        (C("a") // 100 * 100 + C("a") % 100 - C("a"), 2, lambda a, b, r, n: floor(a, 100) * 100 + rest(a, 100) - a),
    ]
    TRUTHS = [
        (C("a") > C("r"), lambda a, b, r, n: a > r),
        (C("n") <= C("a"), lambda a, b, r, n: n <= a),
        (C("b") == C("n"), lambda a, b, r, n: b - n == 0),
        (C("a") // 100 < Decimal("0.5"), lambda a, b, r, n: floor(a, 100) < Decimal("0.5")),
        (C("a") % 1 == Decimal("0.5"), lambda a, b, r, n: rest(a, 1) == Decimal("0.5")),
    ]

    def setUp(self):
        self.program = program()
        room = tempfile.TemporaryDirectory()
        self.addCleanup(room.cleanup)
        path = os.path.join(room.name, "main.csv")
        with open(path, "w", encoding="utf-8") as file:
            file.write("a,b,r,n\n" + "".join(",".join("" if it is None else str(it) for it in row) + "\n" for row in self.ROWS))
        self.lazy = fq.scan_csv(path, schema={"a": D2, "b": D2, "r": D4, "n": INT})
        self.rows: list = [[Decimal(it) if isinstance(it, str) else it for it in row] for row in self.ROWS]

    def test_numbers(self):
        result = self.lazy.select(**{f"x{number}": expr for number, (expr, _, _) in enumerate(self.TABLE)}).collect(program=self.program)
        for number, (expr, scale, call) in enumerate(self.TABLE):
            wanted = [by_python(call, row) for row in self.rows]
            with self.subTest(expr):
                self.assertEqual(result.schema[f"x{number}"], fq.Decimal(scale=scale) if scale else INT)
                self.assertEqual(result[f"x{number}"], wanted)

    def test_truths(self):
        result = self.lazy.select(**{f"x{number}": expr for number, (expr, _) in enumerate(self.TRUTHS)}).collect(program=self.program)
        for number, (expr, call) in enumerate(self.TRUTHS):
            with self.subTest(expr):
                self.assertEqual(result[f"x{number}"], [by_python(call, row) for row in self.rows])

    def test_groups(self):
        """Means and shares of groups, and what is computed of a sum and a number of rows."""
        groups = self.lazy.group_by(negative=C("a") < 0).agg(
            whole=C("a").sum() // fq.len(), mean=C("a").sum().quotient(fq.len(), 2), of_values=C("a").sum().quotient(C("a").count(), 4),
            share=C("a").sum().quotient(C("r").sum(), 3), net=(C("a") * Decimal("1.19")).sum() - fq.len(),
        )
        expected = []
        for key in (False, True, None):
            rows = [row for row in self.rows if by_python(lambda a, *_: a < 0, row) is key]
            a, r = ([row[place] for row in rows if row[place] is not None] for place in (0, 2))
            total = sum(a, Decimal("0.00"))
            by_count = by_python(lambda total, count: floor(total, count, 4), (total, len(a)))
            share = by_python(lambda total, r: floor(total, r, 3), (total, sum(r, Decimal(0))))
            net = total * Decimal("1.19") - len(rows)
            expected.append((key, int(floor(total, len(rows))), floor(total, len(rows), 2), by_count, share, net))
        self.assertEqual(groups.collect(program=self.program).rows(), expected)

    def test_refused_plans(self):
        """A plan by hand whose notations differ, or need a name, and the call of the package that a refusal would name."""
        plan = self.lazy.plan()
        for expression, words in [(["add", A, R], "notations differ"), (["floordiv", A, 100], "a scale has to be named")]:
            plan["steps"] = [{"select": [["n", N], ["x", expression]]}]
            with self.subTest(words), self.assertRaisesRegex(fq.ArgumentsError, words) as raised:
                fq.run_plan(plan, self.lazy.files(), notations=self.lazy.notations(), program=self.program)
            self.assertEqual((raised.exception.status, raised.exception.step, raised.exception.item), (2, 0, 1))
        error = fault("frameq: --decimal, --date: step 1: notations differ\n  why\n", 2, plan, [], ["select(..)", "filter(..)"])
        self.assertEqual((type(error), error.call, error.item, error.details), (fq.ArgumentsError, "filter(..)", None, ("why",)))


class Queries(unittest.TestCase):
    """Queries and scripts."""

    def test_sql(self):
        """Tables and rows have decimals and dates where an engine has them, each of its own scale, and the query has ints."""
        query = frame(a=D2).with_columns(a=C("a") * C("a") % 1).sql("postgres")
        for part in ['frame."a" * CAST(100 AS DECIMAL(3, 0))', 'CAST(0.0001 AS DECIMAL(4, 4)) AS DECIMAL(19, 4)) AS "a"', "BIGINT '10000'"]:
            self.assertIn(part, query)
        lazy = frame(a=D2, d=DATE, t=TEXT).filter(C("a") > Decimal("1.005"))
        for dialect, parts in [
            ("postgres", ['frame."a" * CAST(100 AS DECIMAL(3, 0))', 'MAKE_DATE(CAST(frame."d" / 10000 AS INTEGER)', '(frame."a" > BIGINT']),
            ("duckdb", ['EXTRACT(YEAR FROM frame."d") * 10000', 'CAST(0.01 AS DECIMAL(2, 2)) AS DECIMAL(19, 2)) AS "a"']),
            ("spark", ["EXTRACT(DAY FROM frame.`d`)", "MAKE_DATE(CAST(frame.`d` DIV 10000 AS INT)"]),
        ]:
            query = lazy.sql(dialect)
            for part in parts:
                with self.subTest(dialect):
                    self.assertIn(part, query)
        with self.assertRaisesRegex(ValueError, "sqlite has no decimals and no dates"):
            lazy.sql("sqlite")
        script = lazy.sql_setup()
        self.assertIn('"a" DECIMAL(19, 2),\n  "d" DATE,\n', script)
        self.assertIn("frameq --details --decimal=a=2 --date=d --plan - main.csv", script)
        self.assertIn("frameq --details --date=a=b --plan - main.csv", frame(**{"a=b": DATE}).sql_setup())
        with self.assertRaisesRegex(fq.UnsupportedError, "its name has an equals sign"):
            frame(**{"a=b": D2}).sql_setup()


if __name__ == "__main__":
    unittest.main()
