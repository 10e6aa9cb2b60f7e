"""What each call writes, beside the plan by hand; and what is refused."""
import io
import os
import sys
import unittest

from repository import fq

from frameq import _expressions, _frames, _results

C, INT, TEXT, BOOL = fq.col, fq.Int64, fq.String, fq.Boolean
A, B = {"col": "a"}, {"col": "b"}


class BytesPath(os.PathLike):
    """A path whose name is bytes, as os.scandir gives them of a folder named so."""

    def __fspath__(self):
        return b"a.csv"


def frame(**columns):
    return fq.scan_csv("main.csv", schema=columns or {"a": INT, "b": INT, "t": TEXT, "p": BOOL})


def steps(lazy):
    return lazy.plan()["steps"]


class Expressions(unittest.TestCase):
    """Expressions as the plan language writes them."""

    def written(self, expr):
        return steps(frame().select(x=expr))[0]["select"][0][1]

    def test_operators(self):
        """Each operator, method and reversed operator."""
        a, b = C("a"), C("b")
        for expr, plan in [
            (a + b, ["add", A, B]),
            (1 + a, ["add", 1, A]),
            (a - 1, ["sub", A, 1]),
            (1 - a, ["sub", 1, A]),
            (a * b, ["mul", A, B]),
            (2 * a, ["mul", 2, A]),
            (a // b, ["floordiv", A, B]),
            (7 // a, ["floordiv", 7, A]),
            (a % b, ["mod", A, B]),
            (7 % a, ["mod", 7, A]),
            (-a, ["neg", A]),
            (+a, A),
            (a == b, ["eq", A, B]),
            (a != 5, ["ne", A, 5]),
            (a < b, ["lt", A, B]),
            (5 < a, ["gt", A, 5]),
            (a <= b, ["le", A, B]),
            (a > b, ["gt", A, B]),
            (a >= b, ["ge", A, B]),
            (C("p") & True, ["and", {"col": "p"}, True]),
            (False | C("p"), ["or", False, {"col": "p"}]),
            (~C("p"), ["not", {"col": "p"}]),
            (C("t") == "x", ["eq", {"col": "t"}, "x"]),
            (a.eq_missing(b), ["eq_missing", A, B]),
            (a.ne_missing(None or 1), ["not", ["eq_missing", A, 1]]),
            (a.is_null(), ["is_null", A]),
            (a.is_not_null(), ["is_not_null", A]),
            (a.fill_null(0), ["fill_null", A, 0]),
            (C("t").fill_null("a"), ["fill_null", {"col": "t"}, "a"]),
            (a.is_between(1, "b"), ["and", ["ge", A, 1], ["le", A, B]]),
            (a.is_between(1, 2, closed="none"), ["and", ["gt", A, 1], ["lt", A, 2]]),
            (a.add(1).mul(2).sub(b), ["sub", ["mul", ["add", A, 1], 2], B]),
            (C("p").and_(a.eq(1), b.ne(2)), ["and", ["and", {"col": "p"}, ["eq", A, 1]], ["ne", B, 2]]),
            (C("p").or_(True).not_(), ["not", ["or", {"col": "p"}, True]]),
            (fq.lit(None, dtype=TEXT), {"null": "text"}),
            (fq.lit(-(2**63)), -(2**63)),
        ]:
            with self.subTest(expr):
                self.assertEqual(self.written(expr), plan)

    def test_names(self):
        """An output without an alias has the name that Polars gives it."""
        outputs = steps(frame().select("t", C("a") + C("b"), 1 + C("b").alias("z"), fq.lit(True).alias("p")))[0]["select"]
        self.assertEqual([name for name, _ in outputs], ["t", "a", "literal", "p"])
        self.assertEqual(steps(frame().select(C("a", "b") * 2)), [{"select": [["a", ["mul", A, 2]], ["b", ["mul", B, 2]]]}])
        self.assertEqual(list(frame().select(fq.all().is_null()).collect_schema().items()), [(name, BOOL) for name in "abtp"])

    def test_refused(self):
        """What has no form in a plan is refused at once."""
        for wrong, error, words in [
            (lambda: C("a") / 2, fq.UnsupportedError, "//"),
            (lambda: C("a") ** 2, fq.UnsupportedError, "powers"),
            (lambda: C("a").mean(), fq.UnsupportedError, "sum() // count()"),
            (lambda: C("a").cast(TEXT), fq.UnsupportedError, "schema"),
            (lambda: C("a").over("b"), fq.UnsupportedError, "windows"),
            (lambda: C("a").fill_null(strategy="forward"), fq.UnsupportedError, "strategies"),
            (lambda: C("a").rolling_sum("3i"), fq.UnsupportedError, "number of rows"),
            (lambda: fq.lit(1.5), fq.UnsupportedError, "64 bits"),
            (lambda: fq.lit(2**63), fq.UnsupportedError, "64 bits"),
            (lambda: fq.lit(None), fq.UnsupportedError, "dtype"),
            (lambda: fq.lit(1, dtype=TEXT), fq.WrongKindError, "no casts"),
            (lambda: C("a").nothing(), AttributeError, "nothing"),
            (lambda: C("a") == 1 and C("b") == 2, TypeError, "&"),
            (lambda: frame().select(x=C("c")), fq.ColumnNotFoundError, "'c'"),
            (lambda: frame().select(x=C("a") + C("t")), fq.WrongKindError, "String"),
            (lambda: frame().select(x=C("a") == "1"), fq.WrongKindError, "String"),
            (lambda: frame().select(C("a").sum()), fq.UnsupportedError, "all=lit(True)"),
            (lambda: frame().select("a", C("b").alias("a")), fq.DuplicateError, "'a'"),
            (lambda: frame().select(), fq.NoColumnError, "one column"),
            (lambda: frame().filter("a"), fq.WrongKindError, "Boolean"),
            (lambda: frame().filter(C("nowhere").rolling_sum(2) > 3), fq.ColumnNotFoundError, "'nowhere'"),
            (lambda: frame().filter(C("t").rolling_sum(2) > 3), fq.WrongKindError, "String"),
            (lambda: frame().drop(C("a") + 1), fq.UnsupportedError, "drop"),
            (lambda: frame().unique(subset=C("a").alias("b")), fq.UnsupportedError, "unique"),
            (lambda: fq.concat, fq.UnsupportedError, "scan_csv"),
            (lambda: fq.when, fq.UnsupportedError, "filter"),
            (lambda: fq.scan_csv(io.StringIO("a\n"), schema={"a": int}), fq.UnsupportedError, "names"),
            (lambda: fq.scan_csv(b"a.csv", schema={"a": int}), fq.UnsupportedError, "names"),
            (lambda: fq.scan_csv(["a.csv", b"b.csv"], schema={"a": int}), fq.UnsupportedError, "names"),
            (lambda: fq.scan_csv([io.StringIO("a\n")], schema={"a": int}), fq.UnsupportedError, "names"),
            (lambda: fq.scan_csv("a.csv", schema=["a"]), TypeError, "a schema is a mapping of names to kinds, as {'id': Int64, "),
            (lambda: fq.scan_csv("a.csv", schema=[("a", int)]), TypeError, "not a list"),
            (lambda: fq.scan_csv("a.csv", schema="a"), TypeError, "not a str"),
            (lambda: fq.run_plan({}, "a.csv", schema=[("a", int)]), TypeError, "not a list"),
            (lambda: fq.run_plan({}, "a.csv", notations=[("a", fq.Date)]), TypeError, "not a list"),
            (lambda: fq.scan_csv(BytesPath(), schema={"a": int}), fq.UnsupportedError, "names"),
            (lambda: fq.run_plan({}, b"a.csv"), fq.UnsupportedError, "run_plan takes names"),
            (lambda: fq.run_plan({}, ["a.csv", b"b.csv"]), fq.UnsupportedError, "run_plan takes names"),
            (lambda: fq.run_plan({}, io.StringIO("a\n")), fq.UnsupportedError, "run_plan takes names"),
            (lambda: fq.scan_csv("a.csv", schema={"a": int}, null_values=[1]), fq.UnsupportedError, "as they stand in a file, and 1"),
            (lambda: fq.scan_csv("a.csv", schema={"a": int}, null_values=["-", None]), fq.UnsupportedError, "None is none"),
            (lambda: fq.scan_csv("a.csv", schema={"a": int}, null_values={"a": "-"}), fq.UnsupportedError, "give a list"),
            (lambda: frame().group_by("a").sum(), fq.UnsupportedError, ".agg(all().sum())"),
            (lambda: frame().group_by("a").mean(), fq.UnsupportedError, "//"),
        ]:
            with self.subTest(words), self.assertRaises(error) as raised:
                wrong()
            self.assertIn(words, str(raised.exception))


class Instead(unittest.TestCase):
    """What Polars has and frameq has not is refused by its name, and what is said names the way instead."""

    def refused(self, call, words):
        with self.subTest(words), self.assertRaises(fq.UnsupportedError) as raised:
            call()
        self.assertIn(words, str(raised.exception))

    def test_page(self):
        """What the page says of some calls."""
        lazy = frame()
        for call, words in [
            (lambda: C("a").is_in([1, 2]), '(col("a") == x) | (col("a") == y), or join many values from a file by how="semi"'),
            (lambda: lazy.sort("a"), "collect().sort(..)"),
            (lambda: lazy.head(5), "collect().head(..)"),
            (lambda: lazy.limit(5), "collect().limit(..)"),
            (lambda: lazy.tail(5), "collect().tail(..)"),
            (lambda: C("a").mean(), "sum() // count()"),
            (lambda: lazy.group_by("t").mean(), "sum() // count()"),
            (lambda: C("a").str.len_chars(), "no text functions"),  # type: ignore[attr-defined]
            (lambda: fq.concat([lazy, lazy]), "name all the files in one scan_csv"),
            (lambda: fq.when(C("p")), "filter each case"),
            (lambda: fq.sum("a"), 'write col("a").sum()'),
            (
                lambda: fq.scan_csv("a.csv", schema={"a": fq.Float64}),
                "no kind Float64: there are no floats: an amount is a Decimal(scale=2)",
            ),
            (lambda: fq.DataFrame({"a": INT}, [(1,)]).filter(C("a") > 1), "a result has no filter(): write it before collect()"),
            (lambda: fq.scan_csv("a.csv"), "frameq --draft FILE"),
            (lambda: lazy.unique(keep="last"), 'keep="first"'),
            (lambda: lazy.unique("a", keep="none"), 'keep="first"'),
            (lambda: fq.scan_csv("a.csv", schema={"a": INT}, has_header=False), "has_header=False: a file has a header"),
        ]:
            self.refused(call, words)

    def test_each(self):
        """Each name that there are words for."""
        for owner, table in [
            (fq, fq._INSTEAD),
            (C("a"), _expressions._INSTEAD),
            (frame(), _frames._INSTEAD),
            (frame().group_by("t"), _frames._INSTEAD_OF_GROUPS),
        ]:
            for name, words in table.items():
                self.refused(lambda owner=owner, name=name: getattr(owner, name), f"no {name}(): {words}")
        for name, words in fq._INSTEAD_OF_KINDS.items():
            self.refused(lambda name=name: getattr(fq, name), f"no kind {name}: {words}")
        for name in _results._OF_PLANS:
            self.assertTrue(hasattr(fq.LazyFrame, name))
            self.refused(lambda name=name: getattr(fq.DataFrame({}, []), name), f"no {name}(): write it before collect()")
        for name in _expressions.FUNCTIONS:
            self.refused(lambda name=name: getattr(frame().group_by("t"), name), f".agg(all().{name}())")


class Steps(unittest.TestCase):
    """Steps as the plan language writes them."""

    def test_scan(self):
        """Files, kinds and null texts; the version is the least that says so."""
        one = fq.scan_csv("a.csv", schema={"n": int, "t": fq.Utf8})
        self.assertEqual(one.plan(), {"version": 1, "sources": [{"files": 1, "columns": [["n", "int"], ["t", "text"]]}], "steps": []})
        two = fq.scan_csv(["a.csv", "b.csv"], schema={"p": bool}, null_values="-")
        source = {"files": 2, "columns": [["p", "bool"]], "null_values": ["-"]}
        self.assertEqual(two.plan(), {"version": 2, "sources": [source], "steps": []})
        self.assertEqual(two.files(), ["a.csv", "b.csv"])
        for wrong in [{}, {"schema": {"a": float}}, {"schema": {"a": int}, "separator": ";"}, {"schema": {"a": int}, "skip_rows": 1}]:
            with self.subTest(wrong), self.assertRaises(fq.UnsupportedError):
                fq.scan_csv("a.csv", **wrong)

    def test_halves_of_pairs(self):
        """Half of a surrogate pair is no text, wherever it stands; in a plan that exists it is what the program says of it."""
        half, lazy = "a\ud800", frame(a=INT)
        for wrong in [
            lambda: fq.lit(half),
            lambda: C("t") == half,
            lambda: lazy.with_columns(**{half: C("a")}),
            lambda: lazy.select(C("a").alias(half)),
            lambda: lazy.rename({"a": half}),
            lambda: lazy.group_by("a").len(half),
            lambda: lazy.group_by(C("a").alias(half)),
            lambda: frame(**{half: INT}),
            lambda: fq.scan_csv("a.csv", schema={"a": INT}, null_values=half),
            lambda: fq.scan_csv(["a.csv", half], schema={"a": INT}),
            lambda: fq.run_plan(lazy.plan(), half, program=sys.executable),
            lambda: fq.run_plan(lazy.plan(), "a.csv", schema={half: INT}, program=sys.executable),
        ]:
            with self.assertRaises(fq.UnsupportedError) as raised:
                wrong()
            self.assertIn(repr(half)[1:-1], str(raised.exception))
        with self.assertRaisesRegex(fq.UnsupportedError, "the name of a column is a Unicode text, .* and not 5"):
            lazy.select(C("a").alias(5))
        plan = lazy.plan()
        plan["steps"] = [{"select": [["a", half]]}]
        for wrong, error in [
            (lambda: fq.run_plan(plan, "a.csv", program=sys.executable), fq.PlanJsonError),
            (lambda: fq.run_plan(half, "a.csv", program=sys.executable), fq.ArgumentsError),
            (lambda: fq.run_plan(lazy.plan(), "a.csv", notations={half: fq.Date}, program=sys.executable), fq.ArgumentsError),
            (lambda: lazy.sink_csv(half, program=sys.executable), fq.ArgumentsError),
            (lambda: lazy.collect(program=half), fq.ProgramNotFoundError),
            (lambda: fq.DataFrame({"a": INT}, []).write_csv(half), fq.WriteError),
            (lambda: fq.scan_csv("a\0.csv", schema={"a": INT}), fq.UnsupportedError),
        ]:
            with self.subTest(error), self.assertRaises(error):
                wrong()

    def test_own_plan(self):
        """A change of the object that a frame gives changes no frame."""
        lazy = frame().filter(C("a") > 1)
        lazy.plan()["steps"][0]["filter"][0] = "lt"
        self.assertEqual(steps(lazy), [{"filter": ["gt", A, 1]}])

    def test_deep(self):
        """Operators one in another, as deep as the program reads a plan, and no deeper."""
        condition = C("p")
        for _ in range(123):
            condition = ~condition
        self.assertEqual(len(steps(frame().filter(condition))), 1)
        with self.assertRaisesRegex(fq.UnsupportedError, "by halves"):
            frame().filter(~condition)
        with self.assertRaisesRegex(fq.UnsupportedError, "by halves"):
            frame().filter(*[C("p")] * 500)

    def test_filter(self):
        """Several conditions are one."""
        lazy = frame().filter("p", C("a") > 1, t="x")
        self.assertEqual(steps(lazy), [{"filter": ["and", ["and", {"col": "p"}, ["gt", A, 1]], ["eq", {"col": "t"}, "x"]]}])
        self.assertEqual(steps(frame().filter([C("p"), C("p")])), [{"filter": ["and", {"col": "p"}, {"col": "p"}]}])
        self.assertEqual(steps(frame().filter()), [])

    def test_with_columns(self):
        """Outputs by place and by name, replaced or new, and what is left after drop and rename."""
        lazy = frame().with_columns(C("a") + 1, c=C("a"))
        self.assertEqual(steps(lazy), [{"with_columns": [["a", ["add", A, 1]], ["c", A]]}])
        self.assertEqual(list(lazy.collect_schema()), ["a", "b", "t", "p", "c"])
        self.assertEqual(steps(frame().with_columns([C("a"), C("b")], "t")), [{"with_columns": [["a", A], ["b", B], ["t", {"col": "t"}]]}])
        self.assertEqual(steps(frame().with_columns()), [])
        self.assertEqual(steps(frame().drop("t", "p")), [{"select": [["a", A], ["b", B]]}])
        self.assertEqual(steps(frame(a=INT, b=INT).rename({"a": "c"})), [{"select": [["c", A], ["b", B]]}])

    def test_rolling_sums(self):
        """A rolling sum is a step; what it needs before and after stands in columns that do not stay."""
        two = frame(a=INT, b=INT)
        roll = {"column": "a", "window": 3, "name": "s"}
        self.assertEqual(steps(two.with_columns(s=C("a").rolling_sum(3))), [{"rolling_sum": roll}])
        least = {**roll, "min_samples": 1}
        between = two.with_columns(C("b") * 2, C("a").rolling_sum(3, min_samples=1).alias("s"), c=C("a"))
        self.assertEqual(steps(between), [{"with_columns": [["b", ["mul", B, 2]]]}, {"rolling_sum": least}, {"with_columns": [["c", A]]}])
        computed = two.with_columns(s=(C("a") * C("b")).rolling_sum(3) + 1)
        self.assertEqual(
            steps(computed),
            [
                {"with_columns": [["_0", ["mul", A, B]]]},
                {"rolling_sum": {"column": "_0", "window": 3, "name": "_1"}},
                {"with_columns": [["s", ["add", {"col": "_1"}, 1]]]},
                {"select": [["a", A], ["b", B], ["s", {"col": "s"}]]},
            ],
        )
        swapped = two.with_columns(C("a").rolling_sum(3), s=C("a"))
        self.assertEqual(
            steps(swapped),
            [
                {"rolling_sum": {"column": "a", "window": 3, "name": "_0"}},
                {"with_columns": [["a", {"col": "_0"}], ["s", A]]},
                {"select": [["a", A], ["b", B], ["s", {"col": "s"}]]},
            ],
        )
        filtered = two.filter(C("a").rolling_sum(3) > 5)
        self.assertEqual(
            steps(filtered),
            [
                {"rolling_sum": {"column": "a", "window": 3, "name": "_0"}},
                {"filter": ["gt", {"col": "_0"}, 5]},
                {"select": [["a", A], ["b", B]]},
            ],
        )

    def test_joins(self):
        """Sources stand in the order of the joins, and one that is joined twice stands once."""
        right = fq.scan_csv("right.csv", schema={"a": INT, "b": INT, "w": TEXT})
        lazy = frame(a=INT, b=INT).join(right, on="a", how="left").join(right, on=[C("a"), "b"], how="semi", nulls_equal=True)
        self.assertEqual(lazy.files(), ["right.csv", "main.csv"])
        self.assertEqual(lazy.plan()["version"], 2)
        self.assertEqual(
            steps(lazy),
            [
                {"join": {"source": 0, "on": ["a"], "how": "left"}},
                {"join": {"source": 0, "on": ["a", "b"], "how": "semi", "nulls_equal": True}},
            ],
        )
        self.assertEqual(list(lazy.collect_schema()), ["a", "b", "b_right", "w"])
        self.assertEqual(frame(a=INT).join(right, left_on="a", right_on="a").plan()["version"], 1)
        one = steps(frame(a=INT).join(right, on="a"))
        for same in [{"on": C("a")}, {"on": ["a"]}, {"left_on": C("a"), "right_on": ["a"]}, {"on": "a", "maintain_order": "left"}]:
            with self.subTest(same):
                self.assertEqual(steps(frame(a=INT).join(right, **same)), one)

    def test_joins_refused(self):
        """What a join cannot be."""
        right = fq.scan_csv("right.csv", schema={"a": INT, "w": TEXT})
        for wrong, error in [
            (lambda: frame().join(right, on="a", how="full"), fq.UnsupportedError),
            (lambda: frame().join(right, on="a", suffix="_2"), fq.UnsupportedError),
            (lambda: frame().join(right, left_on="a", right_on="w"), fq.UnsupportedError),
            (lambda: frame().join(right.filter(C("a") > 1), on="a"), fq.UnsupportedError),
            (lambda: frame().join(right, on="a", maintain_order="right"), fq.UnsupportedError),
            (lambda: frame().join(right, on="a", maintain_order="up"), fq.UnsupportedError),
            (lambda: frame().join(right), fq.UnsupportedError),
            (lambda: frame().join("right.csv", on="a"), TypeError),
            (lambda: frame().join(fq.DataFrame({"a": INT, "w": TEXT}, []), on="a"), TypeError),
            (lambda: frame().join(right, on=()), fq.UnsupportedError),
            (lambda: frame().join(right, left_on="a"), fq.UnsupportedError),
            (lambda: frame().join(right, on="a", right_on="a"), fq.UnsupportedError),
            (lambda: frame().join(right, on=C("a") + 1), fq.UnsupportedError),
            (lambda: frame().join(right, on=["a", "a"]), fq.DuplicateError),
            (lambda: frame().join(right, on="b"), fq.ColumnNotFoundError),
            (lambda: frame(a=TEXT).join(right, on="a"), fq.WrongKindError),
            (lambda: frame(a=INT, w=INT, w_right=INT).join(right, on="a"), fq.DuplicateError),
        ]:
            with self.subTest(error), self.assertRaises(error):
                wrong()

    def test_groups(self):
        """Aggregates of columns stand in one step, and others have steps before and after."""
        plain = frame().group_by("t", C("p")).agg(C("a").sum(), fq.len(), n=C("b").len())
        self.assertEqual(steps(plain), [{"group_by": {"keys": ["t", "p"], "aggs": [["a", "sum", "a"], ["len", "len"], ["n", "len"]]}}])
        product = frame().group_by("t").agg((C("a") * C("b")).sum().alias("ab"))
        self.assertEqual(
            steps(product),
            [{"with_columns": [["_0", ["mul", A, B]]]}, {"group_by": {"keys": ["t"], "aggs": [["ab", "sum", "_0"]]}}],
        )
        mean = frame().group_by("t").agg(mean=C("a").sum() // C("a").count())
        self.assertEqual(
            steps(mean),
            [
                {"group_by": {"keys": ["t"], "aggs": [["_0", "sum", "a"], ["_1", "count", "a"]]}},
                {"select": [["t", {"col": "t"}], ["mean", ["floordiv", {"col": "_0"}, {"col": "_1"}]]]},
            ],
        )
        key = frame(a=INT, b=INT).group_by(C("a") % 10, high=C("b") > 5).len("n")
        self.assertEqual(
            steps(key),
            [
                {"with_columns": [["_0", ["mod", A, 10]], ["high", ["gt", B, 5]]]},
                {"group_by": {"keys": ["_0", "high"], "aggs": [["_1", "len"]]}},
                {"select": [["a", {"col": "_0"}], ["high", {"col": "high"}], ["n", {"col": "_1"}]]},
            ],
        )
        self.assertEqual(list(key.collect_schema().items()), [("a", INT), ("high", BOOL), ("n", INT)])
        named = frame(a=INT, b=INT).group_by(C("a") + 1, _0=C("b") * 2).len("n")
        self.assertEqual(
            steps(named)[:2],
            [
                {"with_columns": [["_1", ["add", A, 1]], ["_0", ["mul", B, 2]]]},
                {"group_by": {"keys": ["_1", "_0"], "aggs": [["_2", "len"]]}},
            ],
        )
        rest = frame(a=INT, b=INT, t=TEXT).group_by("t").agg(fq.all().max())
        self.assertEqual(steps(rest), [{"group_by": {"keys": ["t"], "aggs": [["a", "max", "a"], ["b", "max", "b"]]}}])

    def test_sql(self):
        """A plan is a query, over the tables that are named."""
        query = frame(a=INT).filter(C("a") > 1).sql("spark", ["numbers"])
        self.assertIn("FROM `numbers` AS frame", query)
        self.assertIn("ORDER BY frame.`row`", query)
        with self.assertRaises(ValueError):
            frame().sql("cobol")
        script = frame(a=INT).filter(C("a") > 1).sql_setup(tables=[("reports", "numbers")], program="bin/frameq")
        self.assertIn('CREATE TABLE "reports"."numbers" (', script)
        self.assertIn("| bin/frameq --details --plan - ", script)
        self.assertIn("--plan - ./-a.csv || echo", fq.scan_csv("-a.csv", schema={"a": INT}).sql_setup())

    def test_unique(self):
        """Rows that are equal, in all columns or in some."""
        two = frame(a=INT, b=INT)
        self.assertEqual(steps(two.unique()), [{"group_by": {"keys": ["a", "b"], "aggs": []}}])
        self.assertEqual(
            steps(two.unique("b", keep="first")),
            [{"group_by": {"keys": ["b"], "aggs": [["a", "first", "a"]]}}, {"select": [["a", A], ["b", B]]}],
        )
        self.assertEqual(steps(two.unique(C("a", "b"))), steps(two.unique()))

    def test_groups_refused(self):
        """What an aggregate cannot be."""
        groups = frame().group_by("t")
        for wrong, error in [
            (lambda: groups.agg("a"), fq.UnsupportedError),
            (lambda: groups.agg(C("a") + C("b").sum()), fq.UnsupportedError),
            (lambda: groups.agg(C("a").sum().max()), fq.UnsupportedError),
            (lambda: groups.agg(C("a").rolling_sum(2).sum()), fq.UnsupportedError),
            (lambda: groups.agg(C("p").sum()), fq.WrongKindError),
            (lambda: groups.agg(C("a").sum(), a=fq.len()), fq.DuplicateError),
            (lambda: groups.agg(t=fq.len()), fq.DuplicateError),
            (lambda: frame().group_by(), fq.NoColumnError),
            (lambda: frame().sort("a"), fq.UnsupportedError),
            (lambda: frame().head(5), fq.UnsupportedError),
        ]:
            with self.subTest(error), self.assertRaises(error):
                wrong()


if __name__ == "__main__":
    unittest.main()
