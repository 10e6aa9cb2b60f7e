"""A judge that runs the steps of plans with notations on what is written in the files: numbers of Python's `decimal`, and days.

Where frameq gives a frame, the judge computes it by value, without the ints of the plan. Sums, differences and products are exact; numbers
are compared by value, and days as days. following.py says which scale each column has, and which ones an expression may have. That alone
says how a quotient is rounded and which numbers the literals are: 5 beside a price of scale 2 is 0.05, and so is 100 in a product that has
two places more than its other side. A wrong scale makes another number.
"""
import datetime
import tempfile
from collections import namedtuple
from decimal import Decimal

import cases
import compare
import following
import oracle
from oracle import EXACT
from plans import DATE, Column, Filter, GroupBy, Join, Literal, RollingSum, Select, Unary, WithColumns

# A cell is None, bytes, a bool, a Decimal, or in a column of dates a day; a number there that is no day stays an int.

# The columns before a step and after it: their kinds, and the notations of those that are ints.
Around = namedtuple("Around", "kinds before after")

ALL = 100  # cases in a hundred have notations
# How a run ends where a number doesn't fit 64 bits, which the numbers of this judge do.
TOO_LARGE = (b"overflow\n", b"out of range\n")


# ---- days and numbers

def day_of(number):
    """The day of which a number has the digits, or else the number."""
    try:
        return datetime.date(number // 10_000, number // 100 % 100, number % 100)
    except (ValueError, OverflowError):
        return number


def number_of(day):
    """The number that has the digits of a day."""
    return day if isinstance(day, int) else day.year * 10_000 + day.month * 100 + day.day


def noted_as(notation, number):
    """What digits are under a name that says more of them."""
    if number is None:
        return None
    return day_of(int(number)) if notation == DATE else EXACT.scaleb(number, -notation)


def rounded_down(left, right, scale):
    """The quotient of two numbers, rounded down to so many places."""
    left = EXACT.scaleb(left, scale)
    cut = EXACT.divide_int(left, right)
    rest = EXACT.subtract(left, EXACT.multiply(cut, right))
    down = EXACT.subtract(cut, 1) if rest and (rest < 0) != (right < 0) else cut
    return EXACT.scaleb(down, -scale)


def arithmetic(operator, left, right, scale):
    """A sum, a difference, a product or a rest, or a quotient at a scale, of two numbers."""
    if operator == "add":
        return EXACT.add(left, right)
    if operator == "sub":
        return EXACT.subtract(left, right)
    if operator == "mul":
        return EXACT.multiply(left, right)
    if not right:
        return None
    if operator == "floordiv":
        return rounded_down(left, right, scale)
    return EXACT.subtract(left, EXACT.multiply(right, rounded_down(left, right, 0)))


def comparison(operator, left, right):
    """Two cells that are compared; a number that is no day is compared with the digits of a day."""
    if isinstance(left, datetime.date) != isinstance(right, datetime.date) and None not in (left, right):
        left, right = number_of(left), number_of(right)
    if operator == "eq_missing":
        return left == right
    return None if left is None or right is None else oracle.comparison(operator, left, right)


# ---- expressions, each a function from a row to its value

def notations_of_sides(expression, columns, wanted):
    """The notations of both sides of an operation that has a notation itself, or is a truth value."""
    left, right = following.of_sides(expression, columns)
    if left is None:
        return None, None
    if left == DATE and expression.operator in ("floordiv", "mod"):
        return DATE, 0
    if expression.operator in ("mul", "floordiv"):
        sign = 1 if expression.operator == "mul" else -1
        return max((one, other) for one in left.possible for other in right.possible if one + sign * other == wanted)
    if expression.operator in following.SUMS:
        return wanted, wanted
    both = following.of_both(expression, left, right)
    return (both, both) if both == DATE else (min(both.possible), min(both.possible))


def value_of(expression, columns, wanted):
    """A function from a row to the value of an expression. A notation is wanted, which it may have, or None if it is no int."""
    if isinstance(expression, Column):
        if columns.get(expression.name) != wanted:
            raise AssertionError(f"{expression} is {columns.get(expression.name)}, not {wanted}")
        return lambda row: row[expression.name]
    if isinstance(expression, Literal) and wanted is None:
        return lambda row: expression.cell
    if wanted is not None and not following.names_in(expression):
        return lambda row: noted_as(wanted, value_of_digits(expression))
    if isinstance(expression, Unary):
        return value_of_unary(expression, columns, wanted)
    return value_of_binary(expression, columns, wanted)


def value_of_digits(expression):
    """What digits come to, without columns; a literal among them is as many."""
    if isinstance(expression, Literal):
        return None if expression.cell is None else Decimal(expression.cell)
    if isinstance(expression, Unary):
        number = value_of_digits(expression.operand)
        return None if number is None else EXACT.minus(number)
    left, right = value_of_digits(expression.left), value_of_digits(expression.right)
    if expression.operator == "fill_null":
        return right if left is None else left
    return None if left is None or right is None else arithmetic(expression.operator, left, right, 0)


def any_notation(expression, columns):
    """A notation that an expression may have, where it makes no difference which one."""
    may_be = following.of_expression(expression, columns)
    return may_be if may_be in (None, DATE) else min(may_be.possible)


def value_of_unary(expression, columns, wanted):
    if expression.operator in ("is_null", "is_not_null"):
        of_operand = value_of(expression.operand, columns, any_notation(expression.operand, columns))
        return lambda row: (of_operand(row) is None) == (expression.operator == "is_null")
    of_operand = value_of(expression.operand, columns, wanted)

    def value(row):
        cell = of_operand(row)
        if cell is None:
            return None
        return EXACT.minus(cell) if expression.operator == "neg" else not cell

    return value


def value_of_binary(expression, columns, wanted):
    operator = expression.operator
    of_left, of_right = notations_of_sides(expression, columns, wanted)
    left_of, right_of = value_of(expression.left, columns, of_left), value_of(expression.right, columns, of_right)

    def value(row):
        left, right = left_of(row), right_of(row)
        if operator == "fill_null":
            return right if left is None else left
        if operator in oracle.LOGIC:
            return oracle.logic(operator, left, right)
        if operator in oracle.COMPARISONS:
            return comparison(operator, left, right)
        if left is None or right is None:
            return None
        return arithmetic(operator, Decimal(number_of(left)) if of_left == DATE else left, right, wanted)

    return value


# ---- steps on rows, dicts from names to cells

def value_of_output(name, expression, around):
    """A function from a row to an output, whose name may say of digits that they are decimals or a day."""
    may_be, notation = following.of_expression(expression, around.before), around.after.get(name)
    if may_be in (None, DATE) or notation in may_be.possible:
        return value_of(expression, around.before, notation)
    of_digits = value_of(expression, around.before, 0)
    return lambda row: noted_as(notation, of_digits(row))


def after_outputs(step, around, rows, joins):
    values = {name: value_of_output(name, expression, around) for name, expression in step.outputs}
    kept = isinstance(step, WithColumns)
    return [{**(row if kept else {}), **{name: value(row) for name, value in values.items()}} for row in rows]


def after_filter(step, around, rows, joins):
    is_kept = value_of(step.predicate, around.before, None)
    return [row for row in rows if is_kept(row) is True]


def after_join(step, around, rows, joins):
    kinds, right_rows = joins[step.source]
    names = {name: oracle.right_name(around.kinds, name) for name in kinds if name not in step.on}
    matches = {}
    for right in right_rows:
        key = tuple(right[name] for name in step.on)
        if step.nulls_equal or None not in key:
            matches.setdefault(key, []).append({new: right[name] for name, new in names.items()})
    joined = []
    for row in rows:
        found = matches.get(tuple(row[name] for name in step.on), [])
        if step.how in ("semi", "anti"):
            joined += [row] if bool(found) == (step.how == "semi") else []
        else:
            joined += [{**row, **right} for right in found or [dict.fromkeys(names.values())] * (step.how == "left")]
    return joined


def aggregated(aggregate, around, rows):
    """The aggregate of a group's rows. Digits may be decimals under its name."""
    cells = [row[aggregate.column] for row in rows] if aggregate.function != "len" else []
    values = [cell for cell in cells if cell is not None]
    counts = {"len": len(rows), "count": len(values), "n_unique": len(set(cells))}
    if aggregate.function in counts:
        return Decimal(counts[aggregate.function])
    cell = {
        "sum": lambda: sum_of(values), "first": lambda: cells[0], "last": lambda: cells[-1],
        "min": lambda: min(values, key=in_order, default=None), "max": lambda: max(values, key=in_order, default=None),
    }[aggregate.function]()
    return of_column(cell, around.before.get(aggregate.column), around.after.get(aggregate.name))


def in_order(cell):
    return number_of(cell) if isinstance(cell, datetime.date) else cell


def sum_of(numbers):
    total = Decimal(0)
    for number in numbers:
        total = EXACT.add(total, number)
    return total


def of_column(cell, before, after):
    """What is of a column's cells, where that has one notation and the result another one."""
    if before == after:
        return cell
    if before != 0:
        raise AssertionError(f"{cell} is {before}, not {after}")
    return noted_as(after, cell)


def after_group_by(step, around, rows, joins):
    groups = {}
    for row in rows:
        groups.setdefault(tuple(row[name] for name in step.keys), []).append(row)
    return [
        {**dict(zip(step.keys, key)), **{aggregate.name: aggregated(aggregate, around, of_key) for aggregate in step.aggregates}}
        for key, of_key in groups.items()
    ]


def after_rolling_sum(step, around, rows, joins):
    summed = []
    for place, row in enumerate(rows):
        cells = [one[step.column] for one in rows[max(0, place + 1 - step.window):place + 1]]
        values = [cell for cell in cells if cell is not None]
        total = sum_of(values) if len(values) >= step.min_samples else None
        summed.append({**row, step.name: of_column(total, around.before[step.column], around.after[step.name])})
    return summed


STEPS = {
    Filter: after_filter, WithColumns: after_outputs, Select: after_outputs, Join: after_join, GroupBy: after_group_by,
    RollingSum: after_rolling_sum,
}


# ---- files and frames

def cell_of(kind, notation, field):
    if kind == "text":
        return field
    if kind == "bool":
        return field.lower() == b"true"
    return datetime.date.fromisoformat(field.decode()) if notation == DATE else Decimal(field.decode()).normalize(EXACT)


def rows_of_file(data, kinds, notations, nulls):
    """The rows of a file without a fault."""
    return [
        {name: None if field in nulls or not field else cell_of(kind, notations.get(name), field)
         for (name, kind), field in zip(kinds.items(), record)}
        for record in oracle.records_of(data)[1:]
    ]


def rows_of_sources(plan, sources, files, notations):
    """The rows of each source."""
    files = iter(files)
    return [
        [row for _ in range(source.files) for row in rows_of_file(next(files), kinds, notations, source.nulls)]
        for source, kinds in zip(plan.sources, sources)
    ]


def text_of_cell(cell, notation):
    if isinstance(cell, Decimal):
        # (a zero has no sign)
        return f"{EXACT.quantize(EXACT.add(cell, 0), Decimal(1).scaleb(-notation)):f}".encode()
    return cell.isoformat().encode() if isinstance(cell, datetime.date) else oracle.text_of_cell(cell)


def frame_of(drawn):
    """The text of the frame that the plan of a case gives."""
    plan = oracle.read_plan(drawn.plan)
    sources, along = oracle.check(plan)
    given = oracle.notations_of(oracle.entries_of(drawn.notations), [*sources, *along])
    noted = following.notations_along(plan, sources, along, given)
    *joined, rows = rows_of_sources(plan, sources, drawn.files, given)
    joins = list(zip(sources, joined))
    for step, kinds, before, after in zip(plan.steps, along, noted, noted[1:]):
        rows = STEPS[type(step)](step, Around(kinds, before, after), rows, joins)
    records = [[name.encode() for name in along[-1]]]
    records += [[text_of_cell(row[name], noted[-1].get(name)) for name in along[-1]] for row in rows]
    return b"".join(map(oracle.text_of_record, records))


# ---- the judge

def ending_of(number, drawn, run):
    """How a case ended of which a run is expected to give what it gave. Raises a `Difference` where the frame is another one by value."""
    answer = run.expected
    if answer.status != 0:
        return compare.Ended("left out, a number is too large" if answer.error.endswith(TOO_LARGE) else "no frame")
    text = frame_of(drawn)
    if text != answer.output:
        raise compare.Difference(number, compare.keep(drawn, run, oracle.Answer(0, text, b"")))
    return compare.Ended("the same frame", {type(step).__name__ for step in oracle.read_plan(drawn.plan).steps})


class ByDecimal(compare.Judge):
    """Frames of plans with notations, by value."""

    def __init__(self):
        super().__init__("decimal", (step.__name__ for step in STEPS))

    def endings(self, settings, numbers):
        with tempfile.TemporaryDirectory() as folder:
            for number in numbers:
                drawn = cases.case(settings.seed, number, settings.versions, settings.rows, ALL)
                run = compare.runs_of(drawn, once=True)[0]
                compare.write_case(folder, drawn)
                yield ending_of(number, drawn, run._replace(expected=compare.answer_of(settings.program, run, folder)))
