"""The steps of a plan on frames of pandas, with its nullable kinds.

A program, since the Python that has pandas may be another one than that of the tests: it takes cases as `pickle` writes them, and gives for
each the records that it comes to, or None where it is left out.
"""
import operator
import pickle
import sys

import pandas

import oracle
from exact import MOST_EXACT, LeftOut

KINDS = {"int": "Int64", "text": "string", "bool": "boolean"}

OPERATORS = {
    "add": operator.add, "sub": operator.sub, "mul": operator.mul, "floordiv": operator.floordiv, "mod": operator.mod,
    "eq": operator.eq, "ne": operator.ne, "lt": operator.lt, "le": operator.le, "gt": operator.gt, "ge": operator.ge,
    "and": operator.and_, "or": operator.or_,
}

AGGREGATES = {
    "sum": lambda values: values.sum(), "min": lambda values: values.min(), "max": lambda values: values.max(),
    "count": lambda values: values.count(), "n_unique": lambda values: values.nunique(dropna=False),
}
COUNTS = ("count", "n_unique")

FOUND = "\0found"  # the name of a column for a while, which no plan has


def frame_of(columns, rows):
    """The frame of rows of the second implementation."""
    cells = {name: [text_or_cell(row[name]) for row in rows] for name in columns}
    return pandas.DataFrame({name: pandas.array(cells[name], dtype=KINDS[kind]) for name, kind in columns.items()})


def text_or_cell(cell):
    return cell.decode() if isinstance(cell, bytes) else cell


# ---- expressions

def value_of(expression, frame):
    """The values of an expression on the rows of a frame."""
    if isinstance(expression, oracle.Column):
        return frame[expression.name]
    if isinstance(expression, oracle.Literal):
        cells = [text_or_cell(expression.cell)] * len(frame)
        return pandas.Series(pandas.array(cells, dtype=KINDS[expression.kind]), index=frame.index)
    if isinstance(expression, oracle.Unary):
        return value_of_unary(expression.operator, value_of(expression.operand, frame))
    return value_of_binary(expression.operator, value_of(expression.left, frame), value_of(expression.right, frame))


def value_of_unary(name, values):
    if name == "is_null":
        return values.isna().astype("boolean")
    if name == "is_not_null":
        return values.notna().astype("boolean")
    return -values if name == "neg" else ~values


def value_of_binary(name, left, right):
    if name == "fill_null":
        return left.fillna(right)
    if name == "eq_missing":
        return (left == right).fillna(False) | (left.isna() & right.isna())
    if name in ("floordiv", "mod"):
        right = right.mask((right == 0).fillna(False))
    return OPERATORS[name](left, right)


# ---- steps

def with_values(frame, outputs):
    """A frame of outputs alone."""
    return pandas.DataFrame({name: value_of(expression, frame) for name, expression in outputs}, index=frame.index)


def after_filter(step, frame, sources):
    return frame[value_of(step.predicate, frame).fillna(False)].reset_index(drop=True)


def after_with_columns(step, frame, sources):
    return frame.assign(**with_values(frame, step.outputs))


def after_select(step, frame, sources):
    return with_values(frame, step.outputs)


def after_join(step, frame, sources):
    """A merge takes nulls for equal. (It is a left one, since the rows of an inner one have another order before pandas 2.2.)"""
    right = sources[step.source]
    if not step.nulls_equal:
        right = right.dropna(subset=step.on)
    if step.how in ("semi", "anti"):
        right = right[step.on].drop_duplicates()
    names = {name: oracle.right_name(frame.columns, name) for name in right.columns if name not in step.on}
    merged = frame.merge(right.rename(columns=names), how="left", on=step.on, indicator=FOUND)
    if step.how != "left":
        merged = merged[(merged[FOUND] == "both") == (step.how != "anti")]
    return merged[[*frame.columns, *names.values()]].reset_index(drop=True)


def after_group_by(step, frame, sources):
    """Groups are numbered in the order of their first rows. (`first` and `last` of pandas pass over nulls, so rows are taken instead.)"""
    number = frame.groupby(step.keys, sort=False, dropna=False).ngroup()
    groups = frame.groupby(number)
    first, last = (rows.set_axis(number[rows.index]).sort_index() for rows in (groups.head(1), groups.tail(1)))
    columns = {name: first[name] for name in step.keys}
    for name, function, column in step.aggregates:
        if function == "len":
            columns[name] = groups.size().astype("Int64")
        elif function in ("first", "last"):
            columns[name] = (first if function == "first" else last)[column]
        else:
            columns[name] = AGGREGATES[function](groups[column]).astype("Int64" if function in COUNTS else frame[column].dtype)
    return pandas.DataFrame(columns).reset_index(drop=True)


def after_rolling_sum(step, frame, sources):
    """pandas adds rolling sums up as floats, so those of large numbers are left out."""
    values = frame[step.column]
    if sum(abs(int(value)) for value in values.dropna()) > MOST_EXACT:
        raise LeftOut
    sums = values.astype("float64").rolling(step.window, min_periods=step.min_samples).sum()
    return frame.assign(**{step.name: sums.astype("Int64")})


STEPS = {
    oracle.Filter: after_filter,
    oracle.WithColumns: after_with_columns,
    oracle.Select: after_select,
    oracle.Join: after_join,
    oracle.GroupBy: after_group_by,
    oracle.RollingSum: after_rolling_sum,
}


# ---- plans

def text_of(value):
    if value is pandas.NA:
        return ""
    return str(value).lower() if isinstance(value, bool) else str(value)


def records_of(case):
    """The header and the rows that the plan of a case gives, as texts."""
    *sources, frame = map(frame_of, case.columns, case.tables)
    for step in case.plan.steps:
        frame = STEPS[type(step)](step, frame, sources)
    columns = [[text_of(value) for value in frame[name].astype(object)] for name in frame.columns]
    return [list(frame.columns), *map(list, zip(*columns))]


def records_or_none(case):
    """What a case gives, or None where it is left out."""
    try:
        return records_of(case)
    except LeftOut:
        return None


if __name__ == "__main__":
    pickle.dump([records_or_none(case) for case in pickle.load(sys.stdin.buffer)], sys.stdout.buffer)
