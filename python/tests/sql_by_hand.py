"""Plans with the rows that they have to give, written from the guide, for each engine that runs queries."""
from typing import Any

from sql_cases import A_B, GREATEST, LEAST, column, plan_of

# Numbers at which division has something of its own.
NUMBERS = [LEAST, LEAST + 1, -(2**32), -7, -3, -2, -1, 0, 1, 2, 3, 7, 2**32, GREATEST - 1, GREATEST]


class ByHand:
    """Tests of a class that has `answer`: the names and rows that a plan's query gives over tables with these rows. In a table,
    rows stand in another order than they are numbered, and texts have a collation that compares in another way than frameq."""

    answer: Any
    assertEqual: Any
    subTest: Any

    def check(self, plan, tables, names, rows, row="row"):
        self.assertEqual(self.answer(plan, tables, row), (names, rows))

    def test_division_rounds_down_and_by_zero_is_null(self):
        plan = plan_of([A_B], {"select": [
            ["quotient", ["floordiv", column("a"), column("b")]],
            ["rest", ["mod", column("a"), column("b")]],
        ]})
        rows = [(7, 2), (-7, 2), (7, -2), (-7, -2), (6, -2), (7, 0), (None, 2), (7, None), (LEAST, 3), (GREATEST, -2)]
        self.check(plan, [rows], ["quotient", "rest"], [
            (3, 1), (-4, 1), (-4, -1), (3, -1), (-3, 0), (None, None), (None, None), (None, None),
            (-3074457345618258603, 1), (-4611686018427387904, -1),
        ])

    def test_division_of_many_numbers(self):
        pairs = [(a, b) for a in NUMBERS for b in NUMBERS]
        rest, quotient = ["mod", column("a"), column("b")], ["floordiv", column("a"), column("b")]
        self.check(plan_of([A_B], {"select": [["r", rest]]}), [pairs], ["r"], [(a % b if b else None,) for a, b in pairs])
        pairs.remove((LEAST, -1))
        self.check(plan_of([A_B], {"select": [["q", quotient]]}), [pairs], ["q"], [(a // b if b else None,) for a, b in pairs])

    def test_division_by_literals(self):
        columns = [["a", "int"]]
        for divisor in NUMBERS:
            numbers = [number for number in NUMBERS if (number, divisor) != (LEAST, -1)]
            outputs = [[operator, [operator, column("a"), divisor]] for operator in ("floordiv", "mod")]
            rows = [(number // divisor, number % divisor) if divisor else (None, None) for number in numbers]
            with self.subTest(divisor=divisor):
                plan = plan_of([columns], {"select": outputs})
                self.check(plan, [[*[(number,) for number in numbers], (None,)]], ["floordiv", "mod"], [*rows, (None, None)])

    def test_division_of_divisions_and_numbers_at_the_limits(self):
        plan = plan_of([A_B], {"select": [
            ["nested", ["mod", ["floordiv", ["add", column("a"), 1], ["mod", column("b"), 4]], ["neg", 3]]],
            ["least", LEAST],
            ["rest", ["mod", LEAST, column("b")]],
        ]})
        self.check(plan, [[(20, 6), (-20, 7), (1, 4), (0, -1)]], ["nested", "least", "rest"], [
            (-2, LEAST, 4), (-1, LEAST, 6), (None, LEAST, 0), (0, LEAST, 0),
        ])

    def test_texts_compare_by_their_bytes(self):
        plan = plan_of([[["s", "text"], ["t", "text"]]], {"select": [
            ["equal", ["eq", column("s"), column("t")]],
            ["less", ["lt", column("s"), column("t")]],
            ["same", ["eq_missing", column("s"), column("t")]],
        ]})
        rows = [("a", "A"), ("a", "B"), ("é", "z"), ("\uff01", "\U0001f600"), ("", "a"), ("a", "a "), ("9", "10")]
        self.check(plan, [rows], ["equal", "less", "same"], [
            (0, 0, 0), (0, 0, 0), (0, 0, 0), (0, 1, 0), (0, 1, 0), (0, 1, 0), (0, 0, 0),
        ])

    def test_logic_is_kleenes(self):
        plan = plan_of([[["p", "bool"], ["q", "bool"]]], {"select": [
            ["both", ["and", column("p"), column("q")]],
            ["either", ["or", column("p"), column("q")]],
            ["not_p", ["not", column("p")]],
            ["less", ["lt", column("p"), column("q")]],
        ]})
        rows = [(1, 1), (1, 0), (1, None), (0, 1), (0, 0), (0, None), (None, 1), (None, 0), (None, None)]
        self.check(plan, [rows], ["both", "either", "not_p", "less"], [
            (1, 1, 0, 0), (0, 1, 0, 0), (None, 1, 0, None), (0, 1, 1, 1), (0, 0, 1, 0), (0, None, 1, None),
            (None, 1, None, None), (0, None, None, None), (None, None, None, None),
        ])

    def test_null_and_comparisons(self):
        plan = plan_of([A_B], {"select": [
            ["equal", ["eq", column("a"), column("b")]],
            ["differs", ["ne", column("a"), column("b")]],
            ["same", ["eq_missing", column("a"), column("b")]],
            ["is_null", ["is_null", column("a")]],
            ["is_not_null", ["is_not_null", column("a")]],
            ["filled", ["fill_null", column("a"), column("b")]],
            ["as_null", ["eq_missing", ["is_null", {"null": "text"}], ["not", ["is_null", column("b")]]]],
        ]})
        names = ["equal", "differs", "same", "is_null", "is_not_null", "filled", "as_null"]
        self.check(plan, [[(1, 1), (1, 2), (None, 2), (1, None), (None, None)]], names, [
            (1, 0, 1, 0, 1, 1, 1), (0, 1, 0, 0, 1, 1, 1), (None, None, 0, 1, 0, 2, 1), (None, None, 0, 0, 1, 1, 0),
            (None, None, 1, 1, 0, None, 0),
        ])

    def test_filter_keeps_what_is_true(self):
        plan = plan_of([A_B], {"filter": ["gt", column("a"), 1]}, {"filter": ["ne", column("b"), 5]})
        self.check(plan, [[(2, 1), (1, 1), (None, 1), (3, 5), (4, None), (5, 6)]], ["a", "b"], [(2, 1), (5, 6)])

    def test_with_columns_sees_the_frame_before(self):
        plan = plan_of(
            [A_B],
            {"with_columns": [["c", ["add", column("a"), column("b")]], ["a", column("b")], ["b", column("a")]]},
            {"with_columns": [["d", ["sub", column("b"), column("a")]]]},
        )
        self.check(plan, [[(1, 10), (None, 5)]], ["a", "b", "c", "d"], [(10, 1, 11, -9), (5, None, None, None)])

    def test_left_join(self):
        right = [["k", "text"], ["v", "int"], ["w", "int"]]
        left = [["k", "text"], ["v", "int"]]
        plan = plan_of([right, left], {"join": {"source": 0, "on": ["k"], "how": "left"}})
        right_rows = [("x", 1, 1), (None, 2, 2), ("y", 3, 3), ("x", 4, 4), ("X", 5, 5)]
        left_rows = [("y", 10), ("x", 11), (None, 12), ("z", 13), ("x", 14)]
        self.check(plan, [right_rows, left_rows], ["k", "v", "v_right", "w"], [
            ("y", 10, 3, 3), ("x", 11, 1, 1), ("x", 11, 4, 4), (None, 12, None, None), ("z", 13, None, None),
            ("x", 14, 1, 1), ("x", 14, 4, 4),
        ])

    def test_each_join_with_nulls_that_match_and_do_not(self):
        right, left = [["j", "int"], ["k", "int"], ["w", "int"]], [["k", "int"], ["j", "int"], ["v", "int"]]
        right_rows = [(1, None, 1), (1, 2, 2), (1, None, 3)]
        left_rows = [(None, 1, 10), (2, 1, 11), (2, None, 12), (3, 1, 13)]
        expected = {
            ("inner", False): [(2, 1, 11, 2)],
            ("left", False): [(None, 1, 10, None), (2, 1, 11, 2), (2, None, 12, None), (3, 1, 13, None)],
            ("semi", False): [(2, 1, 11)],
            ("anti", False): [(None, 1, 10), (2, None, 12), (3, 1, 13)],
            ("inner", True): [(None, 1, 10, 1), (None, 1, 10, 3), (2, 1, 11, 2)],
            ("left", True): [(None, 1, 10, 1), (None, 1, 10, 3), (2, 1, 11, 2), (2, None, 12, None), (3, 1, 13, None)],
            ("semi", True): [(None, 1, 10), (2, 1, 11)],
            ("anti", True): [(2, None, 12), (3, 1, 13)],
        }
        for (how, nulls_equal), rows in expected.items():
            with self.subTest(how=how, nulls_equal=nulls_equal):
                join = {"source": 0, "on": ["j", "k"], "how": how, "nulls_equal": nulls_equal}
                names = ["k", "j", "v"] + ([] if how in ("semi", "anti") else ["w"])
                self.check(plan_of([right, left], {"join": join}), [right_rows, left_rows], names, rows)

    def test_group_by(self):
        functions = ["count", "sum", "min", "max", "first", "last", "n_unique"]
        group = {"keys": ["team"], "aggs": [["len", "len"], *[[function, function, "points"] for function in functions]]}
        plan = plan_of([[["team", "text"], ["points", "int"]]], {"group_by": group})
        rows = [
            ("b", None), (None, 3), ("a", None), ("b", 5), ("B", 1), ("b", 5), (None, 4), ("a", None), ("b", 7), (None, None),
        ]
        self.check(plan, [rows], ["team", "len", *functions], [
            ("b", 4, 3, 17, 5, 7, None, 7, 3), (None, 3, 2, 7, 3, 4, 3, None, 3), ("a", 2, 0, 0, None, None, None, None, 1),
            ("B", 1, 1, 1, 1, 1, 1, 1, 1),
        ])

    def test_group_by_of_texts_and_truth_values(self):
        group = {"keys": ["p"], "aggs": [
            ["least", "min", "s"], ["most", "max", "s"], ["different", "n_unique", "s"], ["least_p", "min", "p"],
            ["last", "last", "s"],
        ]}
        plan = plan_of([[["p", "bool"], ["s", "text"]]], {"group_by": group})
        rows = [(1, "b"), (0, None), (1, "B"), (1, "é"), (None, "z")]
        self.check(plan, [rows], ["p", "least", "most", "different", "least_p", "last"], [
            (1, "B", "é", 3, 1, "é"), (0, None, None, 1, 0, None), (None, "z", "z", 1, None, "z"),
        ])

    def test_distinct_rows_and_groups_of_no_rows(self):
        plan = plan_of([A_B], {"group_by": {"keys": ["b", "a"], "aggs": []}})
        self.check(plan, [[(1, 2), (None, 2), (1, 2), (None, 2)]], ["b", "a"], [(2, 1), (2, None)])
        self.check(plan, [[]], ["b", "a"], [])

    def test_a_sum_is_judged_as_a_whole(self):
        plan = plan_of([A_B], {"group_by": {"keys": ["a"], "aggs": [["sum", "sum", "b"]]}})
        rows = [
            (1, GREATEST), (2, LEAST), (1, GREATEST), (2, -1), (1, -GREATEST), (2, 1), (3, GREATEST), (3, 1), (3, -1), (4, -3),
        ]
        self.check(plan, [rows], ["a", "sum"], [(1, GREATEST), (2, LEAST), (3, GREATEST), (4, -3)])

    def test_rolling_sum(self):
        recent = {"column": "a", "window": 3, "min_samples": 2, "name": "recent"}
        plan = plan_of([A_B], {"rolling_sum": recent}, {"rolling_sum": {"column": "b", "window": 2, "name": "b"}})
        rows = [(1, GREATEST), (None, -1), (3, None), (None, 5), (None, -6), (7, LEAST + 6), (8, GREATEST)]
        self.check(plan, [rows], ["a", "b", "recent"], [
            (1, None, None), (None, GREATEST - 1, None), (3, None, 4), (None, None, None), (None, -1, None), (7, LEAST, None),
            (8, 5, 15),
        ])

    def test_a_rolling_sum_is_judged_as_a_whole(self):
        plan = plan_of([A_B], {"rolling_sum": {"column": "b", "window": 4, "min_samples": 1, "name": "c"}})
        rows = [(1, GREATEST), (2, -1), (3, LEAST), (4, None), (5, -3), (6, GREATEST)]
        self.check(plan, [rows[:3]], ["a", "b", "c"], [(1, GREATEST, GREATEST), (2, -1, GREATEST - 1), (3, LEAST, -2)])
        step = {"rolling_sum": {"column": "b", "window": 3, "name": "c"}}
        sums = [(GREATEST, None), (GREATEST, None), (LEAST, GREATEST - 1), (1, 0), (GREATEST, 0)]
        self.check(plan_of([[["b", "int"]]], step), [[(b,) for b, _ in sums]], ["b", "c"], sums)

    def test_a_select_of_literals(self):
        text = "it's \"so\" -- \\ ; ?"
        plan = plan_of([A_B], {"select": [["one", 1], ["text", text], ["no", False], ["null", {"null": "int"}]]})
        self.check(plan, [[(1, 2), (3, 4)]], ["one", "text", "no", "null"], [(1, text, 0, None)] * 2)

    def test_many_steps_and_deep_expressions(self):
        deep = column("a")
        for _ in range(120):
            deep = ["neg", deep]
        doubled = {"with_columns": [["b", ["add", column("b"), column("b")]]]}
        plan = plan_of([A_B], {"with_columns": [["a", deep]]}, *[doubled] * 60)
        self.check(plan, [[(5, 1)]], ["a", "b"], [(5, 2**60)])
        plan["steps"] = [{"with_columns": [["b", ["mod", ["floordiv", column("b"), 2], column("b")]]]}] * 64
        self.check(plan, [[(5, 2**62)]], ["a", "b"], [(5, None)])

    def test_divisions_nested_deep(self):
        quotient, rest = column("a"), column("a")
        for _ in range(30):
            quotient, rest = ["floordiv", quotient, 2], ["mod", ["sub", rest, 1], 7]
        plan = plan_of([A_B], {"select": [["quotient", quotient], ["rest", rest]]})
        self.check(plan, [[(3 * 2**30 + 1, 0), (-1, 0), (32, 0)]], ["quotient", "rest"], [(3, 2), (-1, 4), (0, 2)])

    def test_a_join_keeps_the_order_of_both_sides(self):
        plan = plan_of([[["k", "int"], ["w", "int"]], [["k", "int"]]], {"join": {"source": 0, "on": ["k"], "how": "inner"}},
                       {"group_by": {"keys": ["k"], "aggs": [["first", "first", "w"], ["last", "last", "w"]]}})
        right = [(number % 5, number) for number in range(50)]
        rows = [(3, 3, 48), (0, 0, 45), (4, 4, 49)]
        self.check(plan, [right, [(3,), (0,), (3,), (4,), (None,), (9,)]], ["k", "first", "last"], rows)

    def test_groups_of_joined_rows_come_in_the_order_of_their_first_rows(self):
        right, left = [["k", "int"], ["v", "text"]], [["k", "int"], ["w", "int"]]
        join = {"join": {"source": 0, "on": ["k"], "how": "left"}}
        right_rows = [(2, "x"), (1, "y"), (1, "x"), (3, "z"), (2, "z")]
        left_rows = [(1, 5), (2, 6), (4, 7), (3, 8), (2, 9), (None, 1)]
        group = {"group_by": {"keys": ["v"], "aggs": [["rows", "len"], ["w", "sum", "w"], ["last", "last", "k"]]}}
        groups = [("y", 1, 5, 1), ("x", 3, 20, 2), ("z", 3, 23, 2), (None, 2, 8, None)]
        self.check(plan_of([right, left], join, group), [right_rows, left_rows], ["v", "rows", "w", "last"], groups)
        group["group_by"]["aggs"] = [["w", "max", "w"]]
        rolling = {"rolling_sum": {"column": "w", "window": 2, "name": "w"}}
        plan = plan_of([right, left], join, group, {"filter": ["is_not_null", column("v")]}, rolling)
        self.check(plan, [right_rows, left_rows], ["v", "w"], [("y", None), ("x", 14), ("z", 18)])

    def test_rolling_sums_of_joined_rows(self):
        right, left = [["k", "int"], ["v", "int"]], [["k", "int"]]
        join, rolling = {"join": {"source": 0, "on": ["k"], "how": "left"}}, {"rolling_sum": {"column": "v", "window": 2, "name": "s"}}
        tables = [[(2, 10), (1, 20), (2, 30)], [(2,), (1,), (3,), (2,)]]
        rows = [(2, 10, None), (2, 30, 40), (1, 20, 50), (3, None, None), (2, 10, None), (2, 30, 40)]
        self.check(plan_of([right, left], join, rolling), tables, ["k", "v", "s"], rows)
        joined_again = [(k, v, s, w) for k, v, s in rows for w in {1: [20], 2: [10, 30]}.get(k, [None])]
        again = {"rolling_sum": {"column": "v_right", "window": 1, "name": "s"}}
        plan = plan_of([right, left], join, rolling, join, again)
        self.check(plan, tables, ["k", "v", "s", "v_right"], [(k, v, w, w) for k, v, _, w in joined_again])

    def test_joins_in_which_null_equals_null_and_nothing_else(self):
        columns = [["i", "int"], ["s", "text"], ["p", "bool"]]
        rows = [(0, "", 0), (None, "", 0), (0, None, 0), (0, "", None), (None, None, None), (1, "a", 1)]
        for how, expected in [("inner", rows), ("left", rows), ("semi", rows), ("anti", [])]:
            with self.subTest(how=how):
                plan = plan_of([columns, columns], {"join": {"source": 0, "on": ["i", "s", "p"], "how": how, "nulls_equal": True}})
                self.check(plan, [rows[::-1], rows], ["i", "s", "p"], expected)

    def test_semi_and_anti_joins_of_texts_that_are_there_twice(self):
        columns = [["found", "text"], ["row_2", "int"]]
        right, left = [("a", 1), (None, 2), ("a", 3), ("é", 4)], [("A", 1), ("a", 2), (None, 3), ("é", 4), ("a", 5)]
        kept = [("semi", False, [1, 3, 4]), ("semi", True, [1, 2, 3, 4]), ("anti", False, [0, 2]), ("anti", True, [0])]
        for how, nulls_equal, places in kept:
            with self.subTest(how=how, nulls_equal=nulls_equal):
                join = {"join": {"source": 0, "on": ["found"], "how": how, "nulls_equal": nulls_equal}}
                plan = plan_of([columns, columns], join, {"filter": ["gt", column("row_2"), 0]})
                self.check(plan, [right, left], ["found", "row_2"], [left[place] for place in places])

    def test_rows_that_a_filter_drops_are_not_in_a_sum(self):
        plan = plan_of(
            [A_B],
            {"filter": ["lt", column("a"), 10]},
            {"with_columns": [["c", ["mul", column("a"), column("b")]]]},
            {"filter": ["gt", column("c"), 0]},
            {"group_by": {"keys": ["b"], "aggs": [["sum", "sum", "c"]]}},
        )
        self.check(plan, [[(2, 3), (GREATEST, 3), (4, 3), (-1, 3), (LEAST + 1, 1)]], ["b", "sum"], [(3, 18)])

    def test_a_plan_of_version_1(self):
        plan = {"version": 1, "sources": [{"files": 2, "columns": A_B}], "steps": []}
        self.check(plan, [[(2, None), (1, 1)]], ["a", "b"], [(2, None), (1, 1)])

    def test_names_that_sql_has_uses_for(self):
        names = ["row", 'say "so"', "select", "part", "row_2", "it's; --"]
        plan = plan_of(
            [[[name, "int"] for name in names]],
            {"with_columns": [["ROW", ["floordiv", ["add", column("row"), 2], 2]], ["Select", column("select")]]},
            {"filter": ["gt", ["mod", ["neg", column("part")], 100], column('say "so"')]},
        )
        self.check(plan, [[(1, 3, 4, 5, 6, 7)]], [*names, "ROW", "Select"], [(1, 3, 4, 5, 6, 7, 1, 4)], row="row_")
