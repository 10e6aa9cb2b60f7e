"""What a plan means over CSV files: a second implementation, in plain Python, for comparing answers.

It is written from docs/GUIDE.md, docs/FAULTS.md and the definitions in `specs/` of the crates, and shares no code with the
program: there are no batches, no columns and no threads here. All of it works on whole lists of rows. A row is a dict from
the names of its columns to its cells, in the order of the columns. A cell is None (null), an int, bytes (a text, as UTF-8)
or a bool; in one column they are of one kind. Running out of memory and failures of devices are left out.
"""
import csv
import datetime
import decimal
import io
import json
import math
import re
from collections import namedtuple

import following
from plans import (
    DATE, MOST_PLACES, Aggregate, Binary, Column, Ending, Filter, GroupBy, Join, Literal, Plan, RollingSum, Select, Source, Unary,
    WithColumns,
)

LEAST, GREATEST = -2**63, 2**63 - 1
MOST_COLUMNS = 64
MOST_ROWS_OF_A_FILE = 2_147_483_647
MOST_JOINED_ROWS = 4_294_967_295

# What a run ends with: the exit status, the bytes on standard output, and those on standard error.
Answer = namedtuple("Answer", "status output error")


def fits(number):
    """Whether a whole number fits 64 bits."""
    return LEAST <= number <= GREATEST


# ---- the words of plans, which plans.py has as data

KINDS = ("int", "text", "bool")
ARITHMETIC = ("add", "sub", "mul", "floordiv", "mod")
COMPARISONS = ("eq", "ne", "lt", "le", "gt", "ge", "eq_missing")
LOGIC = ("and", "or")
UNARIES = ("neg", "not", "is_null", "is_not_null")
BINARIES = (*ARITHMETIC, *COMPARISONS, *LOGIC, "fill_null")
FUNCTIONS = ("sum", "min", "max", "count", "first", "last", "n_unique")


# ---- reading JSON (RFC 8259)

MOST_NESTED = 127


class NotJson(Exception):
    """The bytes are not JSON."""


def json_of(text):
    """The value that bytes are: None, a bool, an int that fits 64 bits, a float, a str, a list or a dict.

    A number that is no such int is a float, whose value no plan needs; so is -0. Of members of one name the last counts.
    """
    try:
        characters = text.decode("utf-8")
        value = json.loads(characters, parse_int=number_of, parse_float=finite, parse_constant=refuse_constant)
    except (ValueError, RecursionError) as error:
        raise NotJson from error
    if nesting(characters) > MOST_NESTED or has_lone_surrogate(value):
        raise NotJson
    return value


def number_of(digits):
    if digits != "-0" and len(digits) < 21 and fits(int(digits)):
        return int(digits)
    return finite(digits)


def finite(number):
    """A number as a float; one that is too large for a float is refused."""
    value = float(number)
    if math.isinf(value):
        raise ValueError(number)
    return value


def refuse_constant(name):
    """NaN and Infinity are not JSON."""
    raise ValueError(name)


def nesting(characters):
    """How deep the arrays and objects of a JSON text nest."""
    depth = deepest = 0
    for character in re.sub(r'"(?:\\.|[^"\\])*"', "", characters):
        if character in "[{":
            depth += 1
            deepest = max(deepest, depth)
        elif character in "]}":
            depth -= 1
    return deepest


def has_lone_surrogate(value):
    """Whether a string in the value is not Unicode text, since it has half of a pair of surrogates."""
    if isinstance(value, str):
        return any("\ud800" <= character <= "\udfff" for character in value)
    if isinstance(value, list):
        return any(map(has_lone_surrogate, value))
    if isinstance(value, dict):
        return any(has_lone_surrogate(name) or has_lone_surrogate(member) for name, member in value.items())
    return False


# ---- reading a plan (fq_language/specs/Spelling)

class WrongShape(Exception):
    """The JSON value is not a plan."""


def require(condition):
    if not condition:
        raise WrongShape


def name_of(value):
    require(isinstance(value, str))
    return value


def word_of(words, value):
    require(isinstance(value, str) and value in words)
    return value


def whole_of(value):
    require(isinstance(value, int) and not isinstance(value, bool))
    return value


def list_of(read, value):
    require(isinstance(value, list))
    return [read(item) for item in value]


def pair_of(read_first, read_second, value):
    require(isinstance(value, list) and len(value) == 2)
    return read_first(value[0]), read_second(value[1])


def members_of(names, value):
    """The members of an object that has these, and no others."""
    require(isinstance(value, dict) and set(value) == set(names))
    return [value[name] for name in names]


def only_member(value):
    """The name and the value of an object's only member."""
    require(isinstance(value, dict) and len(value) == 1)
    return next(iter(value.items()))


def names_of(value):
    return list_of(name_of, value)


def kind_word(value):
    return word_of(KINDS, value)


def expression_of(value):
    if isinstance(value, bool):
        return Literal("bool", value)
    if isinstance(value, int):
        return Literal("int", value)
    if isinstance(value, str):
        return Literal("text", value.encode())
    if isinstance(value, dict):
        return leaf_of(value)
    require(isinstance(value, list) and len(value) in (2, 3))
    if len(value) == 2:
        return Unary(word_of(UNARIES, value[0]), expression_of(value[1]))
    return Binary(word_of(BINARIES, value[0]), expression_of(value[1]), expression_of(value[2]))


def leaf_of(value):
    name, member = only_member(value)
    if name == "col":
        return Column(name_of(member))
    require(name == "null")
    return Literal(kind_word(member), None)


def outputs_of(value):
    return list_of(lambda item: pair_of(name_of, expression_of, item), value)


def join_of(version, value):
    nulls_equal, hows = False, ["inner", "left"]
    if version == 2:
        hows += ["semi", "anti"]
        if isinstance(value, dict) and "nulls_equal" in value:
            nulls_equal = value["nulls_equal"]
            require(isinstance(nulls_equal, bool))
            value = {name: part for name, part in value.items() if name != "nulls_equal"}
    source, on, how = members_of(("source", "on", "how"), value)
    return Join(whole_of(source), names_of(on), word_of(hows, how), nulls_equal)


def aggregate_of(value):
    require(isinstance(value, list) and len(value) in (2, 3))
    if len(value) == 2:
        return Aggregate(name_of(value[0]), word_of(("len",), value[1]), None)
    return Aggregate(name_of(value[0]), word_of(FUNCTIONS, value[1]), name_of(value[2]))


def group_of(value):
    keys, aggregates = members_of(("keys", "aggs"), value)
    return GroupBy(names_of(keys), list_of(aggregate_of, aggregates))


def rolling_sum_of(value):
    """A rolling sum; if `min_samples` is left out it is the window."""
    require(isinstance(value, dict))
    if "min_samples" not in value:
        column, window, name = members_of(("column", "window", "name"), value)
        return RollingSum(name_of(column), whole_of(window), whole_of(window), name_of(name))
    column, window, samples, name = members_of(("column", "window", "min_samples", "name"), value)
    return RollingSum(name_of(column), whole_of(window), whole_of(samples), name_of(name))


STEPS = {
    "filter": lambda version, value: Filter(expression_of(value)),
    "with_columns": lambda version, value: WithColumns(outputs_of(value)),
    "select": lambda version, value: Select(outputs_of(value)),
    "join": join_of,
    "group_by": lambda version, value: group_of(value),
    "rolling_sum": lambda version, value: rolling_sum_of(value),
}


def step_of(version, value):
    name, member = only_member(value)
    require(name in STEPS)
    return STEPS[name](version, member)


def source_of(version, value):
    texts = []
    if version == 2 and isinstance(value, dict) and "null_values" in value:
        texts = names_of(value["null_values"])
        require(len(texts) <= 16)
        value = {name: part for name, part in value.items() if name != "null_values"}
    files, columns = members_of(("files", "columns"), value)
    require(1 <= whole_of(files) <= 16)
    nulls = {text.encode() for text in texts}
    return Source(files, list_of(lambda column: pair_of(name_of, kind_word, column), columns), nulls)


def plan_of(value):
    version, sources, steps = members_of(("version", "sources", "steps"), value)
    require(whole_of(version) in (1, 2))
    plan = Plan(list_of(lambda source: source_of(version, source), sources), list_of(lambda step: step_of(version, step), steps))
    require(1 <= len(plan.sources) <= 8 and len(plan.steps) <= 64 and files_wanted(plan) <= 16)
    return plan


def files_wanted(plan):
    return sum(source.files for source in plan.sources)


def read_plan(text):
    """The plan that bytes spell."""
    try:
        return plan_of(json_of(text))
    except NotJson:
        raise Ending(3, "plan: not JSON") from None
    except WrongShape:
        raise Ending(3, "plan: wrong shape") from None


# ---- the check of a plan (fq_language/specs/Judged). Columns are a dict from names to kinds.

class Refusal(Exception):
    """Why a source or a step is refused."""


def refuse_if(condition, reason):
    if condition:
        raise Refusal(reason)


def has_double(names):
    return len(set(names)) < len(names)


def kind_named(columns, name):
    refuse_if(name not in columns, "no such column")
    return columns[name]


def kind_of(columns, expression):
    """The kind of an expression: its left part is judged first, then its right part, then its operator."""
    if isinstance(expression, Column):
        return kind_named(columns, expression.name)
    if isinstance(expression, Literal):
        return expression.kind
    if isinstance(expression, Unary):
        return kind_of_unary(expression.operator, kind_of(columns, expression.operand))
    left = kind_of(columns, expression.left)
    right = kind_of(columns, expression.right)
    return kind_of_binary(expression.operator, left, right)


def kind_of_unary(operator, operand):
    if operator in ("is_null", "is_not_null"):
        return "bool"
    kind = {"neg": "int", "not": "bool"}[operator]
    refuse_if(operand != kind, "wrong kind")
    return kind


def kind_of_binary(operator, left, right):
    refuse_if(left != right, "wrong kind")
    if operator == "fill_null":
        return left
    if operator in COMPARISONS:
        return "bool"
    kind = "int" if operator in ARITHMETIC else "bool"
    refuse_if(left != kind, "wrong kind")
    return kind


def columns_of_source(columns):
    names = [name for name, _ in columns]
    refuse_if(not names, "no column")
    refuse_if(len(names) > MOST_COLUMNS, "too many columns")
    refuse_if(has_double(names), "double name")
    return dict(columns)


def columns_after(columns, step, joins):
    """The columns that a step leaves; `joins` are those of the sources before the last."""
    if isinstance(step, Filter):
        refuse_if(kind_of(columns, step.predicate) != "bool", "not a truth value")
        return columns
    if isinstance(step, WithColumns):
        return columns_after_with_columns(columns, step.outputs)
    if isinstance(step, Select):
        return columns_after_select(columns, step.outputs)
    if isinstance(step, Join):
        refuse_if(not 0 <= step.source < len(joins), "no such source")
        return columns_after_join(columns, joins[step.source], step.on, step.how)
    if isinstance(step, GroupBy):
        return columns_after_group_by(columns, step.keys, step.aggregates)
    return columns_after_rolling_sum(columns, step)


def columns_after_with_columns(columns, outputs):
    kinds = [(name, kind_of(columns, expression)) for name, expression in outputs]
    new = [name for name, _ in outputs if name not in columns]
    refuse_if(len(columns) + len(new) > MOST_COLUMNS, "too many columns")
    refuse_if(has_double([name for name, _ in outputs]), "double name")
    return {**columns, **dict(kinds)}


def columns_after_select(columns, outputs):
    refuse_if(not outputs, "no column")
    kinds = [(name, kind_of(columns, expression)) for name, expression in outputs]
    refuse_if(len(outputs) > MOST_COLUMNS, "too many columns")
    refuse_if(has_double([name for name, _ in outputs]), "double name")
    return dict(kinds)


def columns_after_join(left, right, on, how):
    refuse_if(not on, "no column")
    for name in on:
        refuse_if(kind_named(left, name) != kind_named(right, name), "wrong kind")
    taken = {} if how in ("semi", "anti") else right
    columns = [*left.items(), *((right_name(left, name), kind) for name, kind in taken.items() if name not in on)]
    refuse_if(len(columns) > MOST_COLUMNS, "too many columns")
    refuse_if(has_double(on) or has_double([name for name, _ in columns]), "double name")
    return dict(columns)


def right_name(left, name):
    """The name of a right column in the join's result."""
    return f"{name}_right" if name in left else name


def columns_after_group_by(columns, keys, aggregates):
    refuse_if(not keys, "no column")
    kinds = [(name, kind_named(columns, name)) for name in keys]
    kinds += [(aggregate.name, kind_of_aggregate(columns, aggregate)) for aggregate in aggregates]
    refuse_if(len(kinds) > MOST_COLUMNS, "too many columns")
    refuse_if(has_double([name for name, _ in kinds]), "double name")
    return dict(kinds)


def kind_of_aggregate(columns, aggregate):
    if aggregate.function == "len":
        return "int"
    kind = kind_named(columns, aggregate.column)
    refuse_if(aggregate.function == "sum" and kind != "int", "wrong kind")
    return "int" if aggregate.function in ("sum", "count", "n_unique") else kind


def columns_after_rolling_sum(columns, step):
    refuse_if(kind_named(columns, step.column) != "int", "wrong kind")
    refuse_if(not 1 <= step.window <= 65536, "window out of range")
    refuse_if(not 1 <= step.min_samples <= step.window, "min_samples out of range")
    after = {**columns, step.name: "int"}
    refuse_if(len(after) > MOST_COLUMNS, "too many columns")
    return after


def at_place(place, judge, *arguments):
    """A judgement, whose refusal names the place."""
    try:
        return judge(*arguments)
    except Refusal as refusal:
        raise Ending(3, f"plan: {place}: {refusal}") from None


def check(plan):
    """The columns of each source, and those before each step and after the last."""
    sources = [at_place(f"source {n}", columns_of_source, source.columns) for n, source in enumerate(plan.sources)]
    *joins, columns = sources
    columns_along = [columns]
    for n, step in enumerate(plan.steps):
        columns = at_place(f"step {n}", columns_after, columns, step, joins)
        columns_along.append(columns)
    return sources, columns_along


# ---- notations: how the ints of a name are written in CSV (docs/GUIDE.md, Amounts and dates)

# Notations are a dict from names to them. following.py has those of the columns that steps make.

# No number is rounded in it.
EXACT = decimal.Context(
    prec=decimal.MAX_PREC, Emin=decimal.MIN_EMIN, Emax=decimal.MAX_EMAX, traps=[decimal.Inexact, decimal.InvalidOperation],
)


def decimal_entry(entry):
    """The name and the scale of an entry of --decimal; its first `=` stands between them."""
    name, _, digits = entry.partition("=")
    scale = re.fullmatch("[+-]?0*([0-9]{1,2})", digits) if "=" in entry else None
    if not scale or digits.startswith("-") or int(scale[1]) > MOST_PLACES:
        raise Ending(2, f"--decimal takes NAME=SCALE, with a scale from 0 to {MOST_PLACES}")
    return name, int(scale[1])


def entries_of(arguments):
    """The entries of lists, pairs of an option and its value: those of --decimal come first, and then those of --date."""
    decimals = [decimal_entry(entry) for option, value in arguments if option == "--decimal" for entry in value.split(",")]
    return decimals + [(name, DATE) for option, value in arguments if option == "--date" for name in value.split(",")]


def notations_of(entries, frames):
    """The notations that entries give to the int columns of these frames: those of each source, and that after each step."""
    notations = {}
    for name, notation in entries:
        if name in notations:
            raise Ending(2, "--decimal, --date: a name stands twice")
        if not any(columns.get(name) == "int" for columns in frames):
            raise Ending(2, "--decimal, --date: no such int column")
        notations[name] = notation
    return notations


def int_of_decimal(scale, field):
    """The number that a field is, times 10 to the scale; ValueError if it is none, or if that is no whole number."""
    if not set(field) <= set(b"+-.0123456789"):
        raise ValueError(field)
    try:
        number = EXACT.scaleb(decimal.Decimal(field.decode()), scale)
    except decimal.InvalidOperation:
        raise ValueError(field) from None
    if not LEAST <= number <= GREATEST or number != number.to_integral_value():
        raise ValueError(field)
    return int(number)


def int_of_date(field):
    """The int of a day, YYYYMMDD; ValueError if the field is no day."""
    if not re.fullmatch(rb"[0-9]{4}-[0-9]{2}-[0-9]{2}", field):
        raise ValueError(field)
    day = datetime.date.fromisoformat(field.decode())
    return day.year * 10_000 + day.month * 100 + day.day


def text_of_int(notation, number):
    if not notation:
        return str(number)
    if notation != DATE:
        return f"{decimal.Decimal(number).scaleb(-notation, EXACT):f}"
    try:
        return datetime.datetime.strptime(f"{number:08}", "%Y%m%d").date().isoformat()
    except ValueError:
        return str(number)


# ---- streams: rows, and the line of the fault after them, or None

Stream = namedtuple("Stream", "rows fault")


class Fault(Exception):
    """What ends a stream; its text is the line."""


def joined(streams):
    """Streams one after the other, up to the first that ends in a fault."""
    rows = []
    for stream in streams:
        rows += stream.rows
        if stream.fault is not None:
            return Stream(rows, stream.fault)
    return Stream(rows, None)


def one_by_one(stream, rows_of):
    """The rows that `rows_of` makes of each row in turn, up to the first row where it faults."""
    rows = []
    for row in stream.rows:
        try:
            rows += rows_of(row)
        except Fault as fault:
            return Stream(rows, str(fault))
    return Stream(rows, stream.fault)


# ---- files (fq_csv/specs/File, Field)

csv.field_size_limit(1 << 30)


def records_of(data):
    """The records of a CSV file (RFC 4180). A byte order mark is not part of it, and an empty line is not a record."""
    data = data.removeprefix(b"\xef\xbb\xbf")
    # In latin-1 every byte is a character, so that fields are bytes again afterwards.
    lines = io.StringIO(data.decode("latin-1"), newline="")
    return [[field.encode("latin-1") for field in record] for record in csv.reader(lines) if record]


def cell_of(kind, notation, field):
    """The cell that a field is; ValueError if it is none."""
    if not field:
        return None
    if kind == "text":
        field.decode("utf-8")
        return field
    if kind == "bool":
        if field.lower() in (b"true", b"false"):
            return field.lower() == b"true"
        raise ValueError(field)
    if notation == DATE:
        return int_of_date(field)
    if notation:
        return int_of_decimal(notation, field)
    # (without the zeros before its digits, of which Python's int takes some thousands at most)
    number = re.fullmatch(rb"([+-]?)0*([0-9]{1,19})", field)
    if not number or not fits(int(number[1] + number[2])):
        raise ValueError(field)
    return int(number[1] + number[2])


def row_of(file, number, columns, notations, nulls, record):
    """The row that a record is: its width is judged first, then its fields from the left. Those among `nulls` are null."""
    if number > MOST_ROWS_OF_A_FILE:
        raise Fault(f"file {file}: too many rows")
    if len(record) != len(columns):
        raise Fault(f"file {file}, row {number}: wrong number of fields")
    row = {}
    for place, ((name, kind), field) in enumerate(zip(columns.items(), record)):
        try:
            row[name] = None if field in nulls else cell_of(kind, notations.get(name), field)
        except ValueError:
            raise Fault(f"file {file}, row {number}, column {place}: bad cell") from None
    return row


def stream_of_file(file, columns, notations, nulls, data):
    """The stream of a file with this number: the first record is the header, each later one a row."""
    records = records_of(data)
    if not records or records[0] != [name.encode() for name in columns]:
        return Stream([], f"file {file}: header differs")
    numbered = Stream(list(enumerate(records[1:], 1)), None)
    return one_by_one(numbered, lambda pair: [row_of(file, pair[0], columns, notations, nulls, pair[1])])


def streams_of_sources(plan, sources, files, notations=None):
    """The stream of each source: those of its files, joined. Files are numbered over all sources."""
    streams, first = [], 0
    for source, columns in zip(plan.sources, sources):
        numbers = range(first, first + source.files)
        streams.append(joined([stream_of_file(number, columns, notations or {}, source.nulls, files[number]) for number in numbers]))
        first += source.files
    return streams


# ---- expressions (fq_expr/specs/Value)

class Overflow(Exception):
    """A value does not fit 64 bits."""


def fitted(number):
    if not fits(number):
        raise Overflow
    return number


def value_of(expression, row):
    """The value of an expression on a row. All parts are evaluated, even if one of them decides."""
    if isinstance(expression, Column):
        return row[expression.name]
    if isinstance(expression, Literal):
        return expression.cell
    if isinstance(expression, Unary):
        return value_of_unary(expression.operator, value_of(expression.operand, row))
    left = value_of(expression.left, row)
    right = value_of(expression.right, row)
    return value_of_binary(expression.operator, left, right)


def value_of_unary(operator, cell):
    if operator == "is_null":
        return cell is None
    if operator == "is_not_null":
        return cell is not None
    if cell is None:
        return None
    return fitted(-cell) if operator == "neg" else not cell


def value_of_binary(operator, left, right):
    if operator == "fill_null":
        return right if left is None else left
    if operator == "eq_missing":
        return left == right
    if operator in LOGIC:
        return logic(operator, left, right)
    if left is None or right is None:
        return None
    if operator in COMPARISONS:
        return comparison(operator, left, right)
    return arithmetic(operator, left, right)


def logic(operator, left, right):
    """Kleene's logic: one side decides if it is false under `and`, or true under `or`; else null gives null."""
    deciding = operator == "or"
    if left is deciding or right is deciding:
        return deciding
    if left is None or right is None:
        return None
    return not deciding


def comparison(operator, left, right):
    """Whole numbers compare by value, texts by their bytes, and false comes before true."""
    return {
        "eq": left == right,
        "ne": left != right,
        "lt": left < right,
        "le": left <= right,
        "gt": left > right,
        "ge": left >= right,
    }[operator]


def arithmetic(operator, left, right):
    """Division rounds down, the rest has the divisor's sign, and a divisor of 0 gives null."""
    if operator == "add":
        return fitted(left + right)
    if operator == "sub":
        return fitted(left - right)
    if operator == "mul":
        return fitted(left * right)
    if right == 0:
        return None
    return fitted(left // right) if operator == "floordiv" else left % right


# ---- steps on streams (fq_expr/specs/Steps, fq_ops/specs). Step `n` is the plan's, counted from 0.

def values_of(n, outputs, row):
    """The values of a step's outputs on a row, by name; the first that overflows is the fault."""
    values = {}
    for item, (name, expression) in enumerate(outputs):
        try:
            values[name] = value_of(expression, row)
        except Overflow:
            raise Fault(f"step {n}, item {item}: overflow") from None
    return values


def apply_filter(n, step, stream):
    def kept(row):
        values = values_of(n, [("", step.predicate)], row)
        return [row] if values[""] is True else []
    return one_by_one(stream, kept)


def apply_with_columns(n, step, stream):
    """A name that is there is replaced in its place, and a new one goes last."""
    return one_by_one(stream, lambda row: [{**row, **values_of(n, step.outputs, row)}])


def apply_select(n, step, stream):
    return one_by_one(stream, lambda row: [values_of(n, step.outputs, row)])


def keys_match(left, right, step):
    """Whether the keys of two rows are the same; a null matches nothing, or a null if nulls are equal."""
    return all((step.nulls_equal or left[name] is not None) and left[name] == right[name] for name in step.on)


def apply_join(n, step, columns, right_columns, right_rows, stream):
    """Each left row with its right rows in order; the row whose output would pass the room for rows is the fault."""
    added = [name for name in right_columns if name not in step.on]
    nulls = dict.fromkeys(added)
    room = MOST_JOINED_ROWS

    def pairs(left):
        nonlocal room
        matches = [right for right in right_rows if keys_match(left, right, step)]
        if step.how in ("semi", "anti"):
            rows = [left] if bool(matches) == (step.how == "semi") else []
        else:
            if not matches and step.how == "left":
                matches = [nulls]
            rows = [{**left, **{right_name(columns, name): right[name] for name in added}} for right in matches]
        if len(rows) > room:
            raise Fault(f"step {n}: too many joined rows")
        room -= len(rows)
        return rows

    return one_by_one(stream, pairs)


def aggregated(aggregate, rows):
    """The aggregate of a group's rows; a sum is judged as a whole."""
    if aggregate.function == "len":
        return len(rows)
    cells = [row[aggregate.column] for row in rows]
    values = [cell for cell in cells if cell is not None]
    if aggregate.function == "sum":
        return fitted(sum(values))
    return {
        "min": lambda: min(values, default=None),
        "max": lambda: max(values, default=None),
        "count": lambda: len(values),
        "first": lambda: cells[0],
        "last": lambda: cells[-1],
        "n_unique": lambda: len(set(cells)),
    }[aggregate.function]()


def group_row(n, step, key, rows):
    """The row of a group; the first of its sums that does not fit is the fault."""
    row = dict(zip(step.keys, key))
    for item, aggregate in enumerate(step.aggregates):
        try:
            row[aggregate.name] = aggregated(aggregate, rows)
        except Overflow:
            raise Fault(f"step {n}, item {item}: sum out of range") from None
    return row


def apply_group_by(n, step, stream):
    """Groups in the order of their first rows. A grouping needs all rows: before a fault it gives none."""
    if stream.fault is not None:
        return Stream([], stream.fault)
    groups = {}
    for row in stream.rows:
        groups.setdefault(tuple(row[name] for name in step.keys), []).append(row)
    try:
        return Stream([group_row(n, step, key, rows) for key, rows in groups.items()], None)
    except Fault as fault:
        return Stream([], str(fault))


def apply_rolling_sum(n, step, stream):
    """The sum over each row and those before it in the window, if it has values enough."""
    cells = [row[step.column] for row in stream.rows]

    def with_sum(pair):
        place, row = pair
        window = cells[max(0, place + 1 - step.window):place + 1]
        values = [cell for cell in window if cell is not None]
        if len(values) < step.min_samples:
            return [{**row, step.name: None}]
        if not fits(sum(values)):
            raise Fault(f"step {n}: rolling sum out of range")
        return [{**row, step.name: sum(values)}]

    return one_by_one(Stream(list(enumerate(stream.rows)), stream.fault), with_sum)


# ---- what a plan means (fq_plan/specs/Meaning)

def apply_step(n, step, columns, joins, stream):
    """A step on the whole stream; `joins` are the columns and the rows of the sources before the last."""
    if isinstance(step, Filter):
        return apply_filter(n, step, stream)
    if isinstance(step, WithColumns):
        return apply_with_columns(n, step, stream)
    if isinstance(step, Select):
        return apply_select(n, step, stream)
    if isinstance(step, Join):
        right_columns, right_rows = joins[step.source]
        return apply_join(n, step, columns, right_columns, right_rows, stream)
    if isinstance(step, GroupBy):
        return apply_group_by(n, step, stream)
    return apply_rolling_sum(n, step, stream)


def meaning(plan, sources, columns_along, files, notations=None):
    """The rows that a checked plan means over its files. The first fault of the sources before the last takes precedence,
    even if no step uses that source, over that in which the steps' stream ends."""
    *join_streams, stream = streams_of_sources(plan, sources, files, notations)
    fault = joined(join_streams).fault
    if fault is not None:
        raise Ending(4, fault)
    joins = [(columns, source.rows) for columns, source in zip(sources, join_streams)]
    for n, (step, columns) in enumerate(zip(plan.steps, columns_along)):
        stream = apply_step(n, step, columns, joins, stream)
    if stream.fault is not None:
        raise Ending(4, stream.fault)
    return stream.rows


# ---- printing (fq_csv/specs/Printed)

def text_of_cell(cell, notation=None):
    if cell is None:
        return b""
    if isinstance(cell, bool):
        return b"true" if cell else b"false"
    return cell if isinstance(cell, bytes) else text_of_int(notation, cell).encode()


def text_of_field(field):
    if any(mark in field for mark in (b",", b'"', b"\r", b"\n")):
        return b'"' + field.replace(b'"', b'""') + b'"'
    return field


def text_of_record(fields):
    """A record's line; one empty field alone is quoted, since an empty line is not a record."""
    return b",".join(map(text_of_field, fields)) + (b'""\n' if fields == [b""] else b"\n")


def printed(columns, rows, notations=None):
    header = text_of_record([name.encode() for name in columns])
    each = [(name, (notations or {}).get(name)) for name in columns]
    return header + b"".join(text_of_record([text_of_cell(row[name], notation) for name, notation in each]) for row in rows)


# ---- the program

def output_of(plan_text, files, entries):
    """The frame's text. The plan is judged first, then its check, the number of files, the names with notations, what follows from them
    step by step, and the run."""
    plan = read_plan(plan_text)
    sources, columns_along = check(plan)
    if len(files) != files_wanted(plan):
        raise Ending(2, f"inputs: wanted {files_wanted(plan)}, got {len(files)}")
    notations = notations_of(entries, [*sources, *columns_along])
    *_, of_frame = following.notations_along(plan, sources, columns_along, notations)
    return printed(columns_along[-1], meaning(plan, sources, columns_along, files, notations), of_frame)


def answer(plan_text, files, arguments=()):
    """What the program answers to the bytes of a plan file and of data files, in the order of its arguments; other arguments are lists of
    --decimal and --date, pairs of the option and its value."""
    try:
        return Answer(0, output_of(plan_text, files, entries_of(arguments)), b"")
    except Ending as ending:
        return Answer(ending.status, b"", f"frameq: {ending.line}\n".encode())


def answer_without_words(standard_input):
    """What it answers without arguments: the first line is the plan, and the bytes after it are the one file."""
    line, _, file = standard_input.partition(b"\n")
    return answer(line, [file])
