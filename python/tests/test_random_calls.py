"""Random calls that no single step says: rolling sums within expressions, keys and aggregates that are computed.

What each gives is computed here by going over rows, and the values of expressions by the second implementation.
"""
import concurrent.futures
import os
import tempfile
import unittest

from repository import fq, program
from test_random import KINDS, expression

import cases
import oracle

COUNT = int(os.environ.get("FRAMEQ_CASES", "2000")) // 4
COLUMNS = {"a": "int", "b": "int", "t": "text", "p": "bool"}
NUMERIC = ("len", "count", "n_unique")


def literal(cell):
    """A cell as a plan writes it."""
    return {"null": "int"} if cell is None else cell.decode() if isinstance(cell, bytes) else cell


def evaluated(value, rows, place):
    """The value of an expression on the row at a place: its rolling sums and aggregates are over all of `rows`."""
    return oracle.value_of(oracle.expression_of(plain(value, rows, place)), rows[place])


def plain(value, rows, place):
    """An expression with literals in the place of its rolling sums and aggregates."""
    if not isinstance(value, list):
        return value
    if value[0] == "roll":
        window = [evaluated(value[1], rows, it) for it in range(max(0, place - value[2] + 1), place + 1)]
        samples = [it for it in window if it is not None]
        return literal(oracle.fitted(sum(samples)) if len(samples) >= value[3] else None)
    if value[0] == "agg":
        return literal(aggregated(value[1], [None if value[1] == "len" else evaluated(value[2], rows, it) for it in range(len(rows))]))
    return [value[0], *(plain(part, rows, place) for part in value[1:])]


def aggregated(function, values):
    """What an aggregate gives of a group's values."""
    present = [it for it in values if it is not None]
    if function in ("first", "last"):
        return values[0 if function == "first" else -1]
    if function in ("min", "max"):
        return {"min": min, "max": max}[function](present) if present else None
    if function == "sum":
        return oracle.fitted(sum(present))
    return {"len": len(values), "count": len(present), "n_unique": len(set(values))}[function]


def with_parts(value, parts):
    """An expression in which the columns of these names are parts."""
    if isinstance(value, dict):
        return parts.get(value.get("col"), value)
    return [value[0], *(with_parts(part, parts) for part in value[1:])] if isinstance(value, list) else value


def rolled(draw):
    """A rolling sum of a column or of an expression."""
    inner = {"col": draw.choice("ab")} if draw.often(50) else cases.expression(draw, COLUMNS, "int", 1)
    window = draw.randint(1, 4)
    return ["roll", inner, window, draw.randint(1, window)]


def aggregate(draw):
    """An aggregate, and its kind."""
    function = draw.choice(["sum", "min", "max", "count", "first", "last", "n_unique", "len"])
    kind = "int" if function == "sum" else draw.choice(list(KINDS))
    inner = cases.expression(draw, COLUMNS, kind, draw.randrange(2))
    return ["agg", function, inner], "int" if function in NUMERIC else kind


def row_outputs(draw):
    """Outputs of select or with_columns, with rolling sums in some of them."""
    outputs = []
    for name in draw.some(["a", "b", "t", "c", "d", "_0"], 1, 3):
        parts = {"r": rolled(draw), "s": rolled(draw)}
        value = cases.expression(draw, {**COLUMNS, "r": "int", "s": "int"}, draw.choice(list(KINDS)), draw.randrange(3))
        outputs.append((name, parts["r"] if draw.often(30) else with_parts(value, parts)))
    return outputs


def group_outputs(draw):
    """Keys and outputs of a grouping."""
    names = draw.some(["a", "t", "k"], 1, 2)
    keys = [(name, cases.expression(draw, COLUMNS, draw.choice(list(KINDS)), draw.randrange(2))) for name in names]
    outputs = []
    for name in draw.some(["b", "p", "x", "_0"], 1, 3):
        made = [aggregate(draw) for _ in range(2)]
        parts = {f"agg {number}": part for number, (part, _) in enumerate(made)}
        kinds = {f"agg {number}": kind for number, (_, kind) in enumerate(made)}
        value = cases.expression(draw, kinds, draw.choice(list(kinds.values())), draw.randrange(2))
        outputs.append((name, made[0][0] if draw.often(40) else with_parts(value, parts)))
    return keys, outputs


def rows_of(draw):
    """A few rows, in which values repeat."""
    cells = {"int": [None, 0, 1, 2, 2, -3], "text": [None, b"x", b"y", b"x"], "bool": [None, True, False]}
    return [{name: draw.choice(cells[kind]) for name, kind in COLUMNS.items()} for _ in range(draw.randrange(9))]


def grouped(rows, keys, outputs):
    """The rows of a grouping, by going over groups."""
    groups = {}
    for place, row in enumerate(rows):
        groups.setdefault(tuple(evaluated(value, rows, place) for _, value in keys), []).append(row)
    return [(*key, *(evaluated(value, group, 0) for _, value in outputs)) for key, group in groups.items()]


def drawn(number):
    """The rows of a case, a call on a frame of them, and a function that gives the rows after it."""
    draw = cases.Draw(f"calls {number}")
    rows, form = rows_of(draw), draw.choice(["select", "with_columns", "filter", "group_by"])
    if form == "group_by":
        keys, outputs = group_outputs(draw)
        return rows, lambda frame: frame.group_by(named(keys)).agg(named(outputs)), lambda: grouped(rows, keys, outputs)
    outputs = row_outputs(draw)
    if form == "filter":
        condition = ["gt", rolled(draw), 0]
        after = lambda: [tuple(row.values()) for place, row in enumerate(rows) if evaluated(condition, rows, place) is True]
        return rows, lambda frame: frame.filter(expression(condition)), after
    start = {} if form == "select" else COLUMNS
    names = list(dict.fromkeys([*start, *(name for name, _ in outputs)]))
    values = {**{name: {"col": name} for name in start}, **dict(outputs)}
    after = lambda: [tuple(evaluated(values[name], rows, place) for name in names) for place in range(len(rows))]
    return rows, lambda frame: getattr(frame, form)(named(outputs)), after


def named(outputs):
    return [expression(value).alias(name) for name, value in outputs]


def as_read(cell):
    """A cell as it is read from a printed frame, where an empty text is null."""
    return (cell.decode() or None) if isinstance(cell, bytes) else cell


class RandomCalls(unittest.TestCase):
    """Random calls on random rows."""

    def test_calls(self):
        """Each gives the rows that going over rows gives, or the fault of a value past 64 bits."""
        path = program()
        with concurrent.futures.ThreadPoolExecutor(len(os.sched_getaffinity(0))) as pool:
            answers = list(pool.map(lambda number: self.difference(number, path), range(COUNT)))
        self.assertEqual([it for it in answers if it not in ("alike", "refused")], [])
        self.assertGreater(answers.count("alike"), COUNT * 3 // 4)

    def difference(self, number, path):
        """What came of a case."""
        rows, call, after = drawn(number)
        with tempfile.TemporaryDirectory() as room:
            file = os.path.join(room, "rows.csv")
            with open(file, "wb") as out:
                out.write(oracle.printed(COLUMNS, rows))
            frame = fq.scan_csv(file, schema={name: KINDS[kind] for name, kind in COLUMNS.items()})
            try:
                frame = call(frame)
            except (fq.PlanError, fq.UnsupportedError):
                return "refused"
            try:
                expected: object = [tuple(map(as_read, row)) for row in after()]
            except oracle.Overflow:
                expected = fq.OverflowError
            try:
                actual: object = frame.collect(batch=number % 3 + 1, program=path).rows()
            except fq.OverflowError:
                actual = fq.OverflowError
            return "alike" if actual == expected else (number, frame, rows, expected, actual)


if __name__ == "__main__":
    unittest.main()
