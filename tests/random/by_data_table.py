"""The steps of a plan on tables of R's data.table. Whole numbers are R's numbers, so a plan is left out where one may not be exact."""
import csv
import os
import subprocess
import tempfile

import oracle
from exact import MOST_EXACT, LeftOut

SCRIPT = os.path.join(os.path.dirname(os.path.abspath(__file__)), "plans.R")
NOT_EXACT = "not exact"  # as the script says it
DEEPEST = 15  # of expressions: R's parser holds 50 brackets open
LONGEST = 5_000_000  # of a plan's script with its rows: R's parser took one of 14 MB for an endless recursion

NULLS = {"int": "NA_real_", "text": "NA_character_", "bool": "NA"}
NONE = {"int": "numeric(0)", "text": "character(0)", "bool": "logical(0)"}

OPERATORS = {
    "add": "exact(%s + %s)", "sub": "exact(%s - %s)", "mul": "exact(%s * %s)",
    "floordiv": "(%s %%/%% nonzero(%s))", "mod": "(%s %%%% nonzero(%s))", "neg": "(-%s)",
    "eq": "(%s == %s)", "ne": "(%s != %s)", "lt": "(%s < %s)", "le": "(%s <= %s)", "gt": "(%s > %s)", "ge": "(%s >= %s)",
    "and": "(%s & %s)", "or": "(%s | %s)", "not": "(!%s)",
    "fill_null": "fcoalesce(%s, %s)", "eq_missing": "alike(%s, %s)", "is_null": "is.na(%s)", "is_not_null": "(!is.na(%s))",
}

# A count would be another kind of number in R.
AGGREGATES = {
    "len": "as.numeric(.N)", "count": "as.numeric(sum(!is.na(%s)))", "n_unique": "as.numeric(uniqueN(%s))",
    "sum": "exact(sum(%s, na.rm = TRUE))", "min": "among(%s, min)", "max": "among(%s, max)", "first": "%s[1L]", "last": "%s[.N]",
}


# ---- names and values in R

def named(name):
    """The name of a column in R, where not each text is one."""
    return f"c{name.encode().hex()}"


def name_of(name):
    return bytes.fromhex(name.removeprefix("c")).decode()


def quoted(text):
    """A text as R's parser reads it."""
    return '"' + "".join(f"\\{ord(c):03o}" if c < " " or c in '"\\' else c for c in text) + '"'


def names_of(names):
    return f"c({', '.join(quoted(named(name)) for name in names)})"


def cell_of(kind, cell):
    if cell is None:
        return NULLS[kind]
    if kind == "text":
        return quoted(cell.decode())
    if kind == "bool":
        return str(cell).upper()
    if abs(cell) > MOST_EXACT:
        raise LeftOut
    return f"({cell})"


def cells_of(kind, cells):
    return f"c({', '.join(cell_of(kind, cell) for cell in cells)})" if cells else NONE[kind]


def listed(values):
    """The names and values of a list or a table."""
    return ", ".join(f"{named(name)} = {value}" for name, value in values)


def table_of(columns, rows):
    """A table of rows of the second implementation."""
    return f"data.table({listed((name, cells_of(kind, [row[name] for row in rows])) for name, kind in columns.items())})"


def value_of(expression, depth=0):
    """An expression, with a value for each row."""
    if depth > DEEPEST:
        raise LeftOut
    if isinstance(expression, oracle.Column):
        return named(expression.name)
    if isinstance(expression, oracle.Literal):
        return f"rep_len({cell_of(expression.kind, expression.cell)}, .N)"
    return OPERATORS[expression.operator] % tuple(value_of(part, depth + 1) for part in expression[1:])


def values_of(outputs):
    return f"list({listed((name, value_of(expression)) for name, expression in outputs)})"


# ---- steps, on the table `d`; the sources before the last are `s0`, `s1` and so on

def after_filter(step, columns, sources):
    return [f"d <- d[({value_of(step.predicate)})]"]


def after_with_columns(step, columns, sources):
    if not step.outputs:
        return []
    return [f"d <- copy(d)[, {names_of(name for name, _ in step.outputs)} := {values_of(step.outputs)}]"]


def after_select(step, columns, sources):
    return [f"d <- d[, {values_of(step.outputs)}]"]


def after_join(step, columns, sources):
    """A join takes nulls for equal."""
    on, r = names_of(step.on), [f"r <- copy(s{step.source})"]
    if not step.nulls_equal:
        r.append(f"r <- r[{' & '.join(f'!is.na({named(name)})' for name in step.on)}]")
    if step.how in ("semi", "anti"):
        alone = f"alone <- is.na(r[d, on = {on}, which = TRUE, mult = 'first'])"
        return [*r, alone, "d <- d[!alone]" if step.how == "semi" else "d <- d[(alone)]"]
    others = [name for name in sources[step.source] if name not in step.on]
    renamed = [oracle.right_name(columns, name) for name in others]
    if others:
        r.append(f"setnames(r, {names_of(others)}, {names_of(renamed)})")
    joined = f"d <- r[d, on = {on}, nomatch = {'NA' if step.how == 'left' else 'NULL'}, allow.cartesian = TRUE]"
    return [*r, joined, f"setcolorder(d, {names_of([*columns, *renamed])})"]


def after_group_by(step, columns, sources):
    """A key is read under its name, so as a key it has another meanwhile: a group has one value of it, and a value for each row."""
    if not step.aggregates:
        return [f"d <- unique(d[, {names_of(step.keys)}, with = FALSE])"]
    values = [AGGREGATES[one.function] % (() if one.column is None else named(one.column)) for one in step.aggregates]
    names = [one.name for one in step.aggregates]
    keys = ", ".join(f"key{named(name)} = {named(name)}" for name in step.keys)
    return [f"d <- d[, list({listed(zip(names, values))}), by = list({keys})]", f"setnames(d, {names_of([*step.keys, *names])})"]


def after_rolling_sum(step, columns, sources):
    return [f"d <- copy(d)[, {quoted(named(step.name))} := rolled({named(step.column)}, {step.window}, {step.min_samples})]"]


STEPS = {
    oracle.Filter: after_filter,
    oracle.WithColumns: after_with_columns,
    oracle.Select: after_select,
    oracle.Join: after_join,
    oracle.GroupBy: after_group_by,
    oracle.RollingSum: after_rolling_sum,
}


# ---- plans

def script_of(case):
    """The lines of R whose value is what the plan of a case gives."""
    *sources, main = map(table_of, case.columns, case.tables)
    lines = [*(f"s{place} <- {table}" for place, table in enumerate(sources)), f"d <- {main}"]
    for step, columns in zip(case.plan.steps, case.along):
        lines += STEPS[type(step)](step, columns, case.columns)
    if sum(map(len, lines)) > LONGEST:
        raise LeftOut
    return "\n".join([*lines, "d", ""])


def write(path, text):
    with open(path, "w", encoding="utf-8") as file:
        file.write(text)


def records_in(path, case):
    """What R has written for a case, or None where it is left out."""
    if os.path.exists(f"{path}.csv"):
        with open(f"{path}.csv", newline="", encoding="utf-8") as file:
            header, *rows = csv.reader(file)
        return [list(map(name_of, header)), *(row or [""] for row in rows)]
    with open(f"{path}.error", encoding="utf-8") as file:
        message = file.read().strip()
    if message != NOT_EXACT:
        raise RuntimeError(f"R, case {case.number}: {message}")
    return None


def records_of_each(cases):
    """What each case gives, or None where it is left out."""
    with tempfile.TemporaryDirectory() as folder:
        for place, case in enumerate(cases):
            try:
                write(f"{folder}/{place}", script_of(case))
            except LeftOut:
                write(f"{folder}/{place}.error", NOT_EXACT)
        setting = {**os.environ, "LC_ALL": "C.UTF-8"}
        subprocess.run(["Rscript", "--vanilla", SCRIPT], cwd=folder, env=setting, stdout=subprocess.DEVNULL, check=True)
        for place, case in enumerate(cases):
            yield records_in(f"{folder}/{place}", case)
