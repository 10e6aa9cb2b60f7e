"""Random chains of calls on decimals and dates: what each gives is computed here with Python's own decimals, dates and whole numbers.

All arithmetic is by value. What the package infers of each column, in between too, is compared with what follows by the second
implementation from what it tells the program.
"""
import concurrent.futures
import datetime
import decimal
import json
import operator
import os
import tempfile
import unittest
from typing import Any, Callable, NamedTuple

from repository import fq, program

import cases
import following
import oracle

COUNT = int(os.environ.get("FRAMEQ_CASES", "2000"))
C, INT, BOOL, DATE, D1, D2, D4, D6 = fq.col, fq.Int64, fq.Boolean, fq.Date, *(fq.Decimal(scale=scale) for scale in (1, 2, 4, 6))
MAIN = {"a": D2, "b": D2, "r": D4, "d": DATE, "e": DATE, "n": INT, "k": INT}
RIGHT = {"k": INT, "d": DATE, "price": D1, "until": DATE, "a": D2}
COMPARISONS = {name: getattr(operator, name) for name in ("eq", "ne", "lt", "le", "gt", "ge")}
NUMERIC = ("count", "n_unique", "len")
EXACT = decimal.Context(prec=200)


class TooLarge(Exception):
    """An int of the plan does not fit 64 bits."""


class Term(NamedTuple):
    """An expression: by the calls of the package, its kind, and its value on the row at a place among rows."""

    expr: Any
    kind: Any
    value: Callable


def scale_of(kind):
    return kind.scale if isinstance(kind, fq.Decimal) else 0


def fitted(value, scale=0):
    """A number, if the int that it is in the plan fits 64 bits."""
    if value is not None and not -(2**63) <= int(EXACT.scaleb(decimal.Decimal(value), scale)) < 2**63:
        raise TooLarge
    return value


def int_of(value):
    """The int that a value is in a plan."""
    if isinstance(value, datetime.date):
        return int(value.strftime("%Y%m%d"))
    return value if isinstance(value, int) else int("".join(map(str, value.as_tuple().digits))) * (-1 if value < 0 else 1)


def at_scale(value, kind):
    """A number with as many digits behind the point as its kind has, and no sign at 0."""
    if not isinstance(kind, fq.Decimal):
        return int(value)
    value = EXACT.quantize(decimal.Decimal(value), decimal.Decimal(1).scaleb(-kind.scale))
    return value if value else EXACT.abs(value)


def column(name, kind):
    return Term(C(name), kind, lambda rows, place: rows[place][name])


def computed(expr, kind, call, *terms):
    """An expression that is null where one of its operands is."""
    def value(rows, place):
        values = [term.value(rows, place) for term in terms]
        return None if None in values else call(*values)
    return Term(expr, kind, value)


def arithmetic(expr, kind, call, *terms, scales=()):
    """An expression whose value is a number of a kind. The ints of its operands are brought to these scales before."""
    def value(rows, place):
        values = [term.value(rows, place) for term in terms]
        for it, scale in zip(values, scales):
            fitted(it, scale)
        result = None if None in values else call(*values)
        return None if result is None else at_scale(fitted(result, scale_of(kind)), kind)
    return Term(expr, kind, value)


def rounded_down(left, right, scale):
    """The quotient of two numbers with so many places, rounded down, or None by 0."""
    if not right:
        return None
    left = EXACT.scaleb(decimal.Decimal(left), scale)
    cut = EXACT.divide_int(left, right)
    rest = EXACT.subtract(left, EXACT.multiply(cut, right))
    return EXACT.scaleb(EXACT.subtract(cut, int(rest != 0 and (rest < 0) != (right < 0))), -scale)


def remainder(left, right):
    return EXACT.subtract(left, EXACT.multiply(right, rounded_down(left, right, 0))) if right else None


SUMS = {"add": EXACT.add, "sub": EXACT.subtract, "mod": remainder}


# ---- random expressions

def random_number(draw, most_places):
    """A number with some digits behind the point."""
    return decimal.Decimal(draw.choice([draw.randint(-300, 300), draw.randint(-10**6, 10**6)])).scaleb(-draw.randint(0, most_places))


def number_with_places(draw, places):
    """A number that needs so many digits behind the point."""
    return EXACT.add(draw.randint(-30, 30), decimal.Decimal(draw.choice([1, 3, 5, -7])).scaleb(-places))


def day(draw):
    return draw.choice([datetime.date(2024, 2, 29), datetime.date(2024, 3, 1), datetime.date(2023, 12, 31), datetime.date(1, 1, 1)])


def term(draw, kinds, kind, depth):
    """An expression of a kind over columns of these kinds."""
    names = [name for name, it in kinds.items() if it == kind]
    if kind == BOOL and draw.often(80):
        return condition(draw, kinds, max(depth, 1))
    if depth == 0 or draw.often(20):
        if names and draw.often(80):
            return column(draw.choice(names), kind)
        return constant(draw, kind)
    if kind == DATE:
        inner, given = term(draw, kinds, DATE, depth - 1), day(draw)
        return Term(inner.expr.fill_null(given), DATE, lambda rows, place: filled(inner.value(rows, place), given))
    if kind == BOOL:
        return constant(draw, BOOL)
    return whole(draw, kinds, depth) if kind == INT else decimal_term(draw, kinds, kind, depth)


def any_number(draw, kinds, depth, most=6):
    """A number with at most so many places."""
    return term(draw, kinds, draw.choice([it for it in (D1, D2, D2, D4, D6, INT, INT) if scale_of(it) <= most]), depth)


def filled(value, other):
    return other if value is None else value


def constant(draw, kind):
    """A literal, which is a null at times."""
    if draw.often(10):
        return Term(fq.lit(None, dtype=kind), kind, lambda rows, place: None)
    if kind == DATE:
        value = day(draw)
    elif kind == BOOL:
        value = draw.often(50)
    elif kind == INT:
        value = draw.choice([draw.randint(-5, 5), 10, 100, 20])
    else:
        value = at_scale(draw.choice([random_number(draw, kind.scale), draw.randint(0, 20)]), kind)
    return Term(fq.lit(value, dtype=kind if isinstance(kind, fq.Decimal) or draw.often(50) else None), kind, lambda rows, place: value)


def decimal_term(draw, kinds, kind, depth):
    """A sum, a product, or what else is a decimal of this scale."""
    forms = ["sum", "sum", "neg", "literal", "places", "fill", "product", "factor", "decimals", "quotient", "quotient", "rolling"]
    form = draw.choice(forms)
    if form in ("literal", "places", "fill"):
        return beside_literal(draw, kinds, kind, depth, form)
    if form == "quotient":
        return quotient(draw, kinds, kind, depth)
    scale, inner = kind.scale, term(draw, kinds, kind, depth - 1)
    if form == "neg":
        return arithmetic(-inner.expr, kind, EXACT.minus, inner)
    if form == "rolling":
        return rolling(draw, inner)
    if form == "sum":
        other, name = any_number(draw, kinds, depth - 1, scale), draw.choice(list(SUMS))
        one, two = (inner, other) if draw.often(50) else (other, inner)
        return arithmetic(getattr(operator, name)(one.expr, two.expr), kind, SUMS[name], one, two, scales=(scale, scale))
    if form == "product" and scale > 1:
        left = draw.randint(1, scale - 1)
        one, two = (term(draw, kinds, fq.Decimal(scale=it), depth - 1) for it in (left, scale - left))
        return arithmetic(one.expr * two.expr, kind, EXACT.multiply, one, two)
    if form == "factor":
        other = term(draw, kinds, INT, depth - 1)
        return arithmetic(inner.expr * other.expr if draw.often(50) else other.expr * inner.expr, kind, EXACT.multiply, inner, other)
    places = draw.randint(1, scale)
    other = term(draw, kinds, fq.Decimal(scale=scale - places) if places < scale else INT, depth - 1)
    value = at_scale(draw.choice([random_number(draw, places), 1, 10, 100]), fq.Decimal(scale=places))
    return arithmetic(other.expr * value, kind, lambda it: EXACT.multiply(it, value), other)


def beside_literal(draw, kinds, kind, depth, form):
    """A sum with a number, which has no more places than its other operand, or else raises that; or the number in the place of nulls."""
    scale = kind.scale
    if form == "places":
        inner, value = any_number(draw, kinds, depth - 1, scale), number_with_places(draw, scale)
    else:
        inner, value = term(draw, kinds, kind, depth - 1), random_number(draw, scale) if draw.often(50) else draw.randint(-9, 9)
    if form == "fill" or draw.often(20):
        expr = inner.expr.fill_null(value)
        return Term(expr, kind, lambda rows, place: at_scale(fitted(filled(inner.value(rows, place), value), scale), kind))
    name = draw.choice(list(SUMS))
    if draw.often(50):
        return arithmetic(getattr(operator, name)(inner.expr, value), kind, lambda it: SUMS[name](it, value), inner, scales=(scale,))
    return arithmetic(getattr(operator, name)(value, inner.expr), kind, lambda it: SUMS[name](value, it), inner, scales=(scale,))


def quotient(draw, kinds, kind, depth):
    """A quotient of two numbers, one of which may be a literal. The places of the dividend are those of the divisor and of the quotient."""
    scale, one = scale_of(kind), any_number(draw, kinds, depth - 1)
    other = literal(draw) if draw.often(40) else any_number(draw, kinds, depth - 1)
    if draw.often(30):
        one, other = other, one
    expr = one.expr.quotient(other.expr, scale) if scale or draw.often(20) else one.expr // other.expr
    scales = scales_of_quotient(one.kind, other.kind, scale)
    return arithmetic(expr, kind, lambda left, right: rounded_down(left, right, scale), one, other, scales=scales)


def scales_of_quotient(one, other, scale):
    """The scales at which the ints of two numbers are divided."""
    wanted = scale_of(other) + scale
    return max(scale_of(one), wanted), scale_of(other) + max(0, scale_of(one) - wanted)


def literal(draw):
    """A number that has the places that it needs."""
    value = draw.choice([-7, -1, 0, 1, 3, 7, 100, 10000, *map(decimal.Decimal, ("0.5", "-0.05", "1.50", "2.00", "1E+2", "0.001"))])
    places = max(0, -decimal.Decimal(value).normalize().as_tuple().exponent)
    return Term(fq.lit(value), fq.Decimal(scale=places) if places else INT, lambda rows, place: value)


def rolling(draw, inner):
    """A rolling sum, of what has none in it."""
    if "rolling_sum" in repr(inner.expr):
        return inner
    window = draw.randint(1, 3)
    least = draw.randint(1, window)

    def value(rows, place):
        values = [inner.value(rows, it) for it in range(max(0, place - window + 1), place + 1)]
        present = [it for it in values if it is not None]
        return at_scale(fitted(total(present), scale_of(inner.kind)), inner.kind) if len(present) >= least else None

    return Term(inner.expr.rolling_sum(window, min_samples=least), inner.kind, value)


def total(values):
    """A sum, with as many digits as it needs."""
    result = decimal.Decimal(0)
    for value in values:
        result = EXACT.add(result, value)
    return int(result) if all(isinstance(value, int) for value in values) else result


def whole(draw, kinds, depth):
    """A part of a date, a quotient, or what is computed of whole numbers."""
    form = draw.choice(["part", "of a date", "quotient", "quotient", "sum", "product"])
    if form == "quotient":
        return quotient(draw, kinds, INT, depth)
    inner = term(draw, kinds, DATE if form in ("part", "of a date") else INT, depth - 1)
    if form == "part":
        part = draw.choice(["year", "month", "day"])
        return computed(getattr(inner.expr.dt, part)(), INT, lambda it: getattr(it, part), inner)
    other = term(draw, kinds, INT, depth - 1)
    if form == "product":
        return arithmetic(inner.expr * other.expr, INT, EXACT.multiply, inner, other)
    if form == "sum":
        name = draw.choice(list(SUMS))
        return arithmetic(getattr(operator, name)(inner.expr, other.expr), INT, SUMS[name], inner, other)
    name = draw.choice(["floordiv", "mod"])
    if draw.often(50):
        divisor = draw.choice([-7, 0, 1, 100, 10000])
        other = Term(divisor, INT, lambda rows, place: divisor)
    call = lambda it, by: getattr(operator, name)(int_of(it), by) if by else None
    return computed(getattr(inner.expr, name)(other.expr), INT, call, inner, other)


def condition(draw, kinds, depth):
    """A comparison, or what is made of two."""
    if draw.often(30):
        one, two = term(draw, kinds, BOOL, depth - 1), term(draw, kinds, BOOL, depth - 1)
        if draw.often(50):
            return Term(one.expr & two.expr, BOOL, lambda rows, place: kleene(one.value(rows, place), two.value(rows, place), False))
        return Term(one.expr | two.expr, BOOL, lambda rows, place: kleene(one.value(rows, place), two.value(rows, place), True))
    inner = term(draw, kinds, draw.choice([D2, D4, DATE, INT]), depth - 1)
    if draw.often(15):
        return Term(inner.expr.is_null(), BOOL, lambda rows, place: inner.value(rows, place) is None)
    if draw.often(50):
        other = term(draw, kinds, DATE, depth - 1) if inner.kind == DATE else any_number(draw, kinds, depth - 1)
        return comparison(draw, inner, other)
    given = bound(draw, inner.kind)
    in_plan = int_of if inner.kind == DATE and isinstance(given, int) else lambda it: it
    if draw.often(20):
        return Term(inner.expr.eq_missing(given), BOOL, lambda rows, place: missing_equal(inner.value(rows, place), given, in_plan))
    name = draw.choice(list(COMPARISONS))
    if draw.often(50):
        return computed(getattr(inner.expr, name)(given), BOOL, lambda it: COMPARISONS[name](in_plan(it), given), inner)
    return computed(getattr(fq.lit(given), name)(inner.expr), BOOL, lambda it: COMPARISONS[name](given, in_plan(it)), inner)


def comparison(draw, one, other):
    """A comparison of two numbers, which are brought to one scale, or of two dates."""
    name, scale = draw.choice([*COMPARISONS, "eq_missing"]), max(scale_of(one.kind), scale_of(other.kind))

    def value(rows, place):
        values = [it.value(rows, place) if it.kind == DATE else fitted(it.value(rows, place), scale) for it in (one, other)]
        if name == "eq_missing":
            return values[0] == values[1]
        return None if None in values else COMPARISONS[name](*values)

    return Term(getattr(one.expr, name)(other.expr), BOOL, value)


def missing_equal(value, given, in_plan):
    return value is not None and in_plan(value) == given


def bound(draw, kind):
    """What values of a kind are compared with."""
    if kind == DATE:
        return day(draw) if draw.often(70) else draw.choice([20240229, 20240230, 0, -1])
    if draw.often(30):
        return draw.choice([draw.randint(-5, 5), 2**63 - 1, -(2**63)])
    huge = draw.choice(["1e30", "-1e30", "92233720368547758.07", "92233720368547758.08", "-92233720368547758.085", "1e-30"])
    near = decimal.Decimal(draw.choice(CELLS.get(kind, CELLS[INT])) or 0) + draw.choice([1, -1, 5, 0]) * decimal.Decimal("0.00001")
    return draw.choice([decimal.Decimal(huge), near, near, random_number(draw, scale_of(kind))])


def kleene(left, right, decides):
    """Kleene's `and`, which False decides, or his `or`, which True decides."""
    if decides in (left, right):
        return decides
    return None if None in (left, right) else not decides


# ---- random steps

class Chain:
    """A frame, the kinds of its columns, and its rows."""

    def __init__(self, draw, frame, right, kinds, rows, right_rows):
        self.draw, self.frame, self.right, self.kinds, self.rows, self.right_rows = draw, frame, right, kinds, rows, right_rows
        self.main_rows = rows
        self.names = iter(f"c{number}" for number in range(1000))
        self.had = set(MAIN) | set(RIGHT)
        self.has_name_twice = False

    def go_on(self):
        """Adds some steps."""
        for _ in range(self.draw.randint(1, 4)):
            getattr(self, self.draw.choice(["filter", "with_columns", "with_columns", "select", "group_by", "join", "rename"]))()

    def kind(self):
        return self.draw.choice([D2, D2, D4, DATE, INT, INT, BOOL, D1, D6])

    def make(self, names):
        """Notes which names are made."""
        self.has_name_twice = self.has_name_twice or not self.had.isdisjoint(names)
        self.had.update(names)

    def term(self, kind=None):
        return term(self.draw, self.kinds, self.kind() if kind is None else kind, self.draw.randint(0, 3))

    def values(self, it):
        return [it.value(self.rows, place) for place in range(len(self.rows))]

    def filter(self):
        predicate = self.term(BOOL)
        self.frame = self.frame.filter(predicate.expr)
        self.rows = [row for row, is_kept in zip(self.rows, self.values(predicate)) if is_kept]

    def outputs(self):
        """Names, that are new or stand for a column at times, with what is computed."""
        names = [self.draw.choice(list(self.kinds)) if self.draw.often(15) else next(self.names) for _ in range(self.draw.randint(1, 3))]
        return {name: self.term(self.kinds.get(name) if self.draw.often(80) else None) for name in dict.fromkeys(names)}

    def take(self, outputs, kept):
        self.make(outputs)
        columns = {name: self.values(it) for name, it in outputs.items()}
        kinds = {**{name: self.kinds[name] for name in kept}, **{name: it.kind for name, it in outputs.items()}}
        self.rows = [
            {name: columns[name][place] if name in columns else row[name] for name in kinds} for place, row in enumerate(self.rows)
        ]
        self.kinds = kinds

    def with_columns(self):
        outputs = self.outputs()
        self.frame = self.frame.with_columns(it.expr.alias(name) for name, it in outputs.items())
        self.take(outputs, self.kinds)

    def select(self):
        outputs = {**self.outputs(), **{name: column(name, kind) for name, kind in self.kinds.items() if self.draw.often(60)}}
        self.frame = self.frame.select(it.expr.alias(name) for name, it in outputs.items())
        self.take(outputs, ())

    def rename(self):
        old = self.draw.some(list(self.kinds), 1, 2)
        new = [self.draw.choice([*MAIN, *RIGHT]) if self.draw.often(20) else next(self.names) for _ in old]
        names = dict(zip(old, new))
        after = [names.get(name, name) for name in self.kinds]
        if len(set(after)) < len(after):
            return
        self.frame = self.frame.rename(names)
        self.make(after)
        self.rows = [dict(zip(after, row.values())) for row in self.rows]
        self.kinds = dict(zip(after, self.kinds.values()))

    def join(self):
        keys = [name for name in ("k", "d") if self.kinds.get(name) == RIGHT[name]]
        others = [name for name in RIGHT if name not in keys]
        if not keys or any(name in self.kinds and f"{name}_right" in self.kinds for name in others):
            return
        how = self.draw.choice(["inner", "left", "semi", "anti"])
        on = self.draw.some(keys, 1, len(keys))
        others = [name for name in RIGHT if name not in on]
        if any(name in self.kinds and f"{name}_right" in self.kinds for name in others):
            return
        self.frame = self.frame.join(self.right, on=on, how=how)
        after = {f"{name}_right" if name in self.kinds else name: name for name in others}
        rows = []
        for row in self.rows:
            matches = [it for it in self.right_rows if all(row[key] is not None and row[key] == it[key] for key in on)]
            if how in ("semi", "anti"):
                rows += [row] if bool(matches) == (how == "semi") else []
            else:
                rows += [{**row, **{new: it[old] for new, old in after.items()}} for it in matches]
                rows += [{**row, **dict.fromkeys(after)}] if how == "left" and not matches else []
        self.rows = rows
        if how in ("inner", "left"):
            self.make(name for name, old in after.items() if name != old)
            self.kinds = {**self.kinds, **{new: RIGHT[old] for new, old in after.items()}}

    def group_by(self):
        keys = {next(self.names): self.term() for _ in range(self.draw.randint(1, 2))}
        if self.draw.often(50):
            name = self.draw.choice(list(self.kinds))
            keys = {name: column(name, self.kinds[name])}
        aggregates = {next(self.names): self.aggregate() for _ in range(self.draw.randint(1, 3))}
        self.frame = self.frame.group_by(it.expr.alias(name) for name, it in keys.items()).agg(
            it.expr.alias(name) for name, it in aggregates.items()
        )
        groups = {}
        for key, row in zip(zip(*map(self.values, keys.values())), range(len(self.rows))):
            groups.setdefault(key, []).append(row)
        self.rows = [
            {**dict(zip(keys, key)), **{name: it.value(self.rows, places) for name, it in aggregates.items()}}
            for key, places in groups.items()
        ]
        self.kinds = {name: it.kind for name, it in {**keys, **aggregates}.items()}
        self.make([*keys, *aggregates])

    def aggregate(self):
        """An aggregate, whose value is over some places; or a quotient of a sum, which is a mean."""
        function = self.draw.choice(["sum", "min", "max", "first", "last", *NUMERIC, "mean"])
        inner = self.term(self.draw.choice([D2, D4, INT]) if function in ("sum", "mean") else None)
        if "rolling_sum" in repr(inner.expr):
            inner = column(*next(iter(self.kinds.items()))) if function not in ("sum", "mean") else constant(self.draw, D2)
        kind = INT if function in NUMERIC else inner.kind

        def values(rows, places):
            # (a number of rows has none of their values computed, so none is past 64 bits)
            return len(places) if function == "len" else aggregated(function, [inner.value(rows, place) for place in places], kind)

        if function == "mean":
            scale = self.draw.choice([0, scale_of(kind), 3])
            expr, wanted = inner.expr.sum(), fq.Decimal(scale=scale) if scale else INT
            expr = expr.quotient(fq.len(), scale) if scale else expr // fq.len()
            of_sum, of_len = scales_of_quotient(kind, INT, scale)

            def mean(rows, places):
                quotient_of_both = rounded_down(fitted(values(rows, places), of_sum), fitted(len(places), of_len), scale)
                return at_scale(fitted(quotient_of_both, scale), wanted)

            return Term(expr, wanted, mean)
        return Term(getattr(inner.expr, function)(), kind, values)


def aggregated(function, values, kind):
    """What an aggregate gives of a group's values."""
    present = [it for it in values if it is not None]
    if function in ("first", "last"):
        return values[0 if function == "first" else -1]
    if function in ("min", "max"):
        return {"min": min, "max": max}[function](present) if present else None
    if function in ("sum", "mean"):
        return at_scale(fitted(total(present), scale_of(kind)), kind)
    return {"count": len(present), "n_unique": len(set(values))}[function]


# ---- random files

CELLS = {
    INT: [None, 0, 1, 2, -3, 10**9], DATE: [None, datetime.date(2024, 2, 29), datetime.date(2023, 12, 31), datetime.date(9999, 12, 31)],
    D2: [None, "0", "1.000", "-0.05", "12.5", "98765432109.87", "7."], D4: [None, "0.0001", "-3", "+1.00500", ".25"],
    RIGHT["price"]: [None, "1.5", "-.5"],
}


def rows_of(draw, kinds, most):
    """Rows, and their texts in a file: decimals are written in several ways."""
    texts = [{name: draw.choice(CELLS[kind]) for name, kind in kinds.items()} for _ in range(draw.randrange(most))]
    rows = [{name: read(row[name], kind) for name, kind in kinds.items()} for row in texts]
    lines = [",".join(kinds), *(",".join("" if it is None else str(it) for it in row.values()) for row in texts)]
    return rows, "".join(f"{line}\n" for line in lines)


def start(draw, room):
    """A chain without steps, and the texts of its files."""
    parts = [rows_of(draw, MAIN, 8) for _ in range(draw.choice([1, 1, 3]))]
    right_rows, right_text = rows_of(draw, RIGHT, 6)
    right_file, *files = [os.path.join(room, f"{place}.csv") for place in range(1 + len(parts))]
    right, frame = fq.scan_csv(right_file, schema=RIGHT), fq.scan_csv(files, schema=MAIN)
    chain = Chain(draw, frame, right, MAIN, [row for rows, _ in parts for row in rows], right_rows)
    return chain, {right_file: right_text, **{file: text for file, (_, text) in zip(files, parts)}}


def read(cell, kind):
    return cell if cell is None or not isinstance(kind, fq.Decimal) else at_scale(decimal.Decimal(cell), kind)


def shown(kinds, rows):
    """Rows, with each value as it is written, so that a scale or a type that differs is seen."""
    return [tuple((type(row[name]), str(row[name])) for name in kinds) for row in rows]


def is_refused(frame):
    """Whether the package says that a run would have a column for another than the kind that it has."""
    try:
        frame.notations()
    except fq.UnsupportedError as error:
        if "by alias or rename" not in str(error):
            raise
        return True
    return False


def noted(kinds):
    """Columns of ints with their notations, as the second implementation has them."""
    return {name: oracle.DATE if kind == DATE else scale_of(kind) for name, kind in kinds.items() if kind.value == INT.value}


def followed(frame):
    """The notations of the columns before each step and after the last, as they follow from what the program is told."""
    plan = oracle.read_plan(json.dumps(frame.plan()).encode())
    sources, along = oracle.check(plan)
    given = oracle.notations_of(list(noted(frame.notations()).items()), [*sources, *along])
    return following.notations_along(plan, sources, along, given)


class RandomNotations(unittest.TestCase):
    """Random chains on random rows."""

    def test_chains(self):
        """Each gives the rows that Python's decimals and dates give, in one run or in parts, or the fault of a value past 64 bits."""
        path = program()
        with concurrent.futures.ThreadPoolExecutor(len(os.sched_getaffinity(0))) as pool:
            answers = list(pool.map(lambda number: self.difference(number, path), range(COUNT)))
        self.assertEqual([it for it in answers if it not in ("alike", "too large", "refused")], [])
        self.assertGreater(answers.count("alike"), COUNT * 4 // 5)

    def difference(self, number, path):
        """What came of a chain."""
        draw = cases.Draw(f"notations {number}")
        with tempfile.TemporaryDirectory() as room:
            chain, texts = start(draw, room)
            for path_of_text, text in texts.items():
                with open(path_of_text, "w", encoding="utf-8") as file:
                    file.write(text)
            try:
                chain.go_on()
                expected = shown(chain.kinds, chain.rows)
            except TooLarge:
                expected = fq.OverflowError
            return self.answer(number, chain, expected, path)

    def answer(self, number, chain, expected, path):
        if is_refused(chain.frame):
            return "refused" if chain.has_name_twice else (number, chain.frame, chain.frame.plan()["steps"], "refused")
        inferred = list(map(noted, chain.frame._schemas))
        if inferred != followed(chain.frame):
            return number, chain.frame, chain.frame.plan()["steps"], inferred, followed(chain.frame)
        try:
            with concurrent.futures.ThreadPoolExecutor(2) as executor:
                parts = {} if number % 3 else {"executor": executor}
                result = chain.frame.collect(batch=number % 3 + 1, program=path, **parts)
            actual = shown(result.schema, result.to_dicts())
        except fq.OverflowError:
            actual = fq.OverflowError
        if actual is not fq.OverflowError and expected is not fq.OverflowError and chain.kinds != result.schema:
            return number, chain.frame, chain.kinds, result.schema
        if actual != expected:
            return number, chain.frame, chain.frame.plan()["steps"], expected, actual
        return "too large" if actual is fq.OverflowError else "alike"


if __name__ == "__main__":
    unittest.main()
