"""Plans as SQL: one query that gives the rows that frameq gives, for SQLite, PostgreSQL, DuckDB or Spark."""
from typing import Any, Callable, Dict, List, NamedTuple, Optional, Sequence, Set, Tuple

from ._dialects import Dialect, Table, dialect_named, names_of_table
from ._kinds import Notations, fits

# How deep operators stand one in another in a piece of SQL. SQLite's parser has little room, so deeper ones become columns.
_MOST_NESTED = 8

_COMPARISONS = {"eq": "=", "ne": "<>", "lt": "<", "le": "<=", "gt": ">", "ge": ">="}
_ARITHMETIC = {"add": "+", "sub": "-", "mul": "*"}
_DIVISIONS = ("floordiv", "mod")
_LOGIC = {"and": "AND", "or": "OR"}
_NULL_TESTS = {"is_null": "IS NULL", "is_not_null": "IS NOT NULL"}
_KINDS = ("int", "text", "bool")

# The operators whose values may not fit 64 bits.
_MAY_OVERFLOW = ("neg", *_ARITHMETIC, *_DIVISIONS)

# For each kind a value of it.
_ANY_VALUES = {"int": 0, "text": "", "bool": False}


def sql(
    plan: Dict[str, Any],
    dialect: str = "sqlite",
    tables: Optional[Sequence[Table]] = None,
    notations: Optional[Notations] = None,
    of_result: Optional[Notations] = None,
) -> str:
    """The query whose rows, in order, are those that frameq gives for a plan.

    `plan` is a plan that frameq accepts, of version 1 or 2, as `json.load` reads it. `dialect` is "sqlite", "postgres", "duckdb" or
    "spark". `tables` has the name of one table, or view, for each source; by default these are source0, source1 and so on. A name is
    one identifier: the query quotes it, so a dot in it is part of it. A table in a schema is a tuple of both names.

    A table has the columns of its source under their names, and may have more: int as BIGINT (SQLite: INTEGER), text as TEXT (Spark:
    STRING), bool as BOOLEAN (in SQLite 0 and 1), with NULL wherever frameq reads null. One more column numbers the rows of a source 1, 2
    and so on, in the order of its files and of the rows in them. It is named `row`; while a column of any source has that name, in
    whatever letter case, an underscore is added at its end. The name is the same in all tables of a plan.

    `notations` has the kinds of int columns of sources that are decimals or dates, and `of_result` those of the result. They are
    DECIMAL(19, scale) and DATE in the tables and in the query's rows, and the ints of the plan within the query. SQLite has neither.

    The query says what frameq says only where no value leaves 64 bits. Where one does, frameq ends with a fault, and the query
    gives an error or wrong rows, as the engine has it. SQLite goes on with floats. PostgreSQL gives an error, unless no row of the answer
    needs the value. DuckDB and Spark may also compute a value on rows that an earlier step drops, and then give an error where frameq
    has none.

    Engines are taken as they are by default: SQLite 3.35 or later with a database in UTF-8; PostgreSQL 15 or later with one in UTF-8;
    DuckDB 0.9 or later, and Spark 3 or later, with the default collation. Columns of SQLite and PostgreSQL may have any collation.
    Queries are compared with frameq on SQLite and PostgreSQL; no test runs DuckDB or Spark.

    ValueError says that a dialect is not one of these, that a plan is not one that frameq accepts, or that the dialect has no way
    to say something in it. A plan is not checked in all ways: frameq does that.
    """
    writer = _Writer(dialect_named(dialect), *sources_of(plan, tables), notations or {}, of_result or {})
    frame = writer.start()
    for number, step in enumerate(plan["steps"]):
        frame = writer.step(frame, f"step{number}", step)
    return writer.query(frame)


def sources_of(plan: Dict[str, Any], tables: Optional[Sequence[Table]]) -> Tuple[List[Dict[str, Any]], List[Table]]:
    """The sources of a plan, and their tables: those named, or source0 and so on."""
    sources = plan["sources"]
    if not sources or plan.get("version") not in (1, 2):
        raise ValueError("a plan has a version, 1 or 2, and at least one source")
    names: List[Table] = [f"source{number}" for number in range(len(sources))] if tables is None else list(tables)
    if len(names) != len(sources):
        raise ValueError(f"the plan has {len(sources)} sources, and there are names for {len(names)} tables")
    return sources, names


def row_column(sources: Sequence[Dict[str, Any]]) -> str:
    """The name of the column that numbers the rows of each table."""
    taken = {name.casefold() for source in sources for name, _ in source["columns"]}
    row = "row"
    while row in taken:
        row += "_"
    return row


# ---- frames

class _Column(NamedTuple):
    """A column of a frame: its name in the plan, its kind, and its identifier in the query."""

    name: str
    kind: str
    identifier: str


class _Frame(NamedTuple):
    """What a subquery reads: the table of the main source, or a subquery before it.

    The columns of `order` are whole numbers that give the order of the rows: the first of them counts most, and is never null. Each join
    adds one, so that no engine has to bring all rows to one place to number them anew.
    """

    identifier: str
    columns: List[_Column]
    order: List[_Column]
    is_table: bool  # it may have more columns than these

    def column(self, name: str) -> _Column:
        for column in self.columns:
            if column.name == name:
                return column
        raise ValueError(f"no such column: {name!r}")


class _Part(NamedTuple):
    """A part of an expression that is a column of the subquery before: which of its columns."""

    place: int
    kind: str


class _Output(NamedTuple):
    """A column that a subquery is to give: its name in the plan, its kind, and its SQL."""

    name: str
    kind: str
    text: str


def _as_they_are(columns: Sequence[_Column]) -> List[_Output]:
    """Columns of the frame that a subquery reads, as they are."""
    return [_Output(column.name, column.kind, f"frame.{column.identifier}") for column in columns]


def _listed(columns: Sequence[_Column], end: str = "") -> str:
    """Columns of the frame that a subquery reads, each with this end."""
    return ", ".join(f"frame.{column.identifier}{end}" for column in columns)


def _begins(outputs: Sequence[_Output], columns: Sequence[_Column]) -> bool:
    """Whether outputs begin with columns as they are."""
    return list(outputs[: len(columns)]) == _as_they_are(columns)


def _selected(items: Sequence[str], indent: str) -> str:
    """The line that selects some items, or the lines, of which each has one."""
    line = f"\n{indent}  "
    return f"SELECT {items[0]}" if len(items) == 1 else f"SELECT{line}" + f",{line}".join(items)


def _in_row_1(number: str, value: str) -> str:
    """A value in the row that has the number 1."""
    return f"CASE WHEN {number} = 1 THEN {value} END"


def _member(step: Any) -> Tuple[str, Any]:
    """The only member of a step."""
    if not isinstance(step, dict) or len(step) != 1:
        raise ValueError(f"not a step: {step!r}")
    return next(iter(step.items()))


def _require_names(names: Sequence[str]) -> None:
    """Requires that there is a name, and none twice."""
    if not names or len(set(names)) < len(names):
        raise ValueError(f"there has to be a name, and none twice: {names!r}")


def _is_leaf(expression: Any) -> bool:
    """Whether an expression is a column, a literal or a part."""
    return not isinstance(expression, list)


def _is_constant(expression: Any) -> bool:
    """Whether an expression has no column in it."""
    if not _is_leaf(expression):
        return all(map(_is_constant, expression[1:]))
    return not isinstance(expression, _Part) and not (isinstance(expression, dict) and "col" in expression)


class _Writer:
    """Writes the subqueries of one plan. In each, `frame` is the frame before, and `other` the right side of a join."""

    def __init__(
        self, dialect: Dialect, sources: Sequence[Dict[str, Any]], tables: Sequence[Table], notations: Notations, of_result: Notations
    ) -> None:
        self.dialect = dialect
        self.sources = sources
        self.notations, self.notations_of_result = notations, of_result
        self.tables = [dialect.table(table) for table in tables]
        self.taken = {dialect.fold(names_of_table(table)[-1]) for table in tables}
        self.row_name = row_column(sources)
        self.row = dialect.identifier(self.row_name)
        self.of_tables: List[Tuple[str, str]] = []
        self.subqueries: List[Tuple[str, str]] = []
        for number, source in enumerate(sources):
            self.require_table(source)
            if any(kind == "int" and name in notations for name, kind in source["columns"]):
                self.tables[number] = self.in_ints(f"table{number}", self.tables[number], source)

    def require_table(self, source: Dict[str, Any]) -> None:
        """Requires that a table can have the columns of a source: that the engine tells their names apart."""
        _require_names([name for name, _ in source["columns"]])
        if any(kind not in _KINDS for _, kind in source["columns"]):
            raise ValueError(f"a kind is one of {', '.join(_KINDS)}: {source['columns']!r}")
        names: Dict[str, str] = {}
        for name, _ in source["columns"]:
            other = names.setdefault(self.dialect.fold(name), name)
            if other != name:
                raise ValueError(
                    f"{self.dialect.name} has no table with the columns {other!r} and {name!r}, which differ in letter case"
                    " alone: rename one of them in the source and in its files"
                )

    # -- decimals and dates

    def in_ints(self, name: str, table: str, source: Dict[str, Any]) -> str:
        """A subquery that has the columns of a table, its decimals and dates as the ints of the plan."""
        items = [f"frame.{self.row} AS {self.row}"]
        for column, kind in source["columns"]:
            identifier = self.dialect.identifier(column)
            value = f"frame.{identifier}"
            if kind == "int" and column in self.notations:
                value = self.dialect.with_notations().int_of(value, self.notations[column])
            items.append(f"{value} AS {identifier}")
        identifier = self.name_of_subquery(name)
        self.of_tables.append((identifier, f"{_selected(items, '  ')}\n  FROM {table} AS frame"))
        return identifier

    def of_result(self, column: _Column) -> str:
        """A column of the last frame, as the query gives it."""
        value = f"frame.{column.identifier}"
        if column.kind == "int" and column.name in self.notations_of_result:
            return self.dialect.with_notations().of_int(value, self.notations_of_result[column.name])
        return value

    # -- subqueries

    def name_of_subquery(self, name: str) -> str:
        """An identifier that no table and no subquery has yet."""
        while self.dialect.fold(name) in self.taken:
            name += "_"
        self.taken.add(self.dialect.fold(name))
        return self.dialect.identifier(name)

    def identifier(self, name: str, taken: Set[str]) -> str:
        """An identifier for a name: the name itself, or else one like it, that is not taken. Then it is."""
        base = self.dialect.cut(name)
        if not base or not self.dialect.may_have(base):
            base = "column"
        identifier, number = self.dialect.identifier(base), 2
        while self.dialect.fold(identifier) in taken:
            identifier, number = self.dialect.identifier(self.dialect.cut(base, f"_{number}")), number + 1
        taken.add(self.dialect.fold(identifier))
        return identifier

    def start(self) -> _Frame:
        """The frame of the main source, which is its table."""
        columns = [_Column(name, kind, self.dialect.identifier(name)) for name, kind in self.sources[-1]["columns"]]
        return _Frame(self.tables[-1], columns, [_Column(self.row_name, "int", self.row)], is_table=True)

    def subquery(
        self, name: str, frame: _Frame, outputs: Sequence[_Output], rest: str = "", order: Optional[Sequence[_Output]] = None,
    ) -> _Frame:
        """Adds a subquery that gives these outputs of a frame, in its order or another. `rest` stands after the name of the frame."""
        order = _as_they_are(frame.order) if order is None else order
        items: List[str] = []
        taken: Set[str] = set()
        said: Tuple[Sequence[_Column], Sequence[_Column]] = ([], [])  # by `*`
        if not frame.is_table and _begins(order, frame.order) and _begins(outputs, frame.columns):
            items, said = ["frame.*"], (frame.order, frame.columns)
            taken = {self.dialect.fold(column.identifier) for columns in said for column in columns}
        order_after = self.named(order, said[0], taken, items)
        columns = self.named(outputs, said[1], taken, items)
        identifier = self.name_of_subquery(name)
        self.subqueries.append((identifier, f"{_selected(items, '  ')}\n  FROM {frame.identifier} AS frame{rest}"))
        return _Frame(identifier, columns, order_after, is_table=False)

    def named(self, outputs: Sequence[_Output], said: Sequence[_Column], taken: Set[str], items: List[str]) -> List[_Column]:
        """The columns that outputs become. Those after the ones that are said already are added to `items`, and get an identifier."""
        columns = list(said)
        for output in outputs[len(said):]:
            identifier = self.identifier(output.name, taken)
            items.append(output.text if output.text == f"frame.{identifier}" else f"{output.text} AS {identifier}")
            columns.append(_Column(output.name, output.kind, identifier))
        return columns

    def query(self, frame: _Frame) -> str:
        """The whole query, which ends in this frame. It computes the columns of the last subquery once, so that one is not kept."""
        parts = [f"{identifier} AS (\n  {body}\n)" for identifier, body in self.of_tables]
        parts += [f"{identifier} AS {self.dialect.kept}(\n  {body}\n)" for identifier, body in self.subqueries[:-1]]
        parts += [f"{identifier} AS (\n  {body}\n)" for identifier, body in self.subqueries[-1:]]
        chain = "WITH " + ",\n".join(parts) + "\n" if parts else ""
        items = [f"{self.of_result(column)} AS {self.dialect.identifier(column.name)}" for column in frame.columns]
        return f"{chain}{_selected(items, '')}\nFROM {frame.identifier} AS frame\nORDER BY {_listed(frame.order)}\n"

    # -- steps

    def step(self, frame: _Frame, name: str, step: Any) -> _Frame:
        """The frame that a step leaves."""
        word, value = _member(step)
        writers: Dict[str, Callable[[_Frame, str, Any], _Frame]] = {
            "filter": self.filter, "with_columns": self.with_columns, "select": self.select, "join": self.join,
            "group_by": self.group_by, "rolling_sum": self.rolling_sum,
        }
        if word not in writers:
            raise ValueError(f"no such step: {word!r}")
        after = writers[word](frame, name, value)
        _require_names([column.name for column in after.columns])
        return after

    def filter(self, frame: _Frame, name: str, predicate: Any) -> _Frame:
        before, (condition,) = self.values(frame, name, [("", predicate)])
        if condition.kind != "bool":
            raise ValueError("the predicate of a filter is not a truth value")
        outputs = _as_they_are(before.columns[: len(frame.columns)])
        return self.subquery(name, before, outputs, f"\n  WHERE {condition.text}")

    def with_columns(self, frame: _Frame, name: str, outputs: Sequence[Any]) -> _Frame:
        before, values = self.values(frame, name, outputs)
        after = {output.name: output for output in _as_they_are(before.columns[: len(frame.columns)])}
        if values:
            _require_names([value.name for value in values])
        after.update({value.name: value for value in values})
        return self.subquery(name, before, list(after.values()))

    def select(self, frame: _Frame, name: str, outputs: Sequence[Any]) -> _Frame:
        before, values = self.values(frame, name, outputs)
        return self.subquery(name, before, values)

    def join(self, frame: _Frame, name: str, join: Dict[str, Any]) -> _Frame:
        source, on, how = join["source"], join["on"], join["how"]
        if not 0 <= source < len(self.sources) - 1:
            raise ValueError(f"no such source: {source}")
        _require_names(on)
        right, nulls_equal = dict(self.sources[source]["columns"]), join.get("nulls_equal", False)
        for key in on:
            if right.get(key) != frame.column(key).kind:
                raise ValueError(f"the right side has no column {key!r} of kind {frame.column(key).kind}")
        pairs = [(frame.column(key), self.dialect.identifier(key)) for key in on]
        if how in ("semi", "anti"):
            rest = self.filtering_join(self.tables[source], pairs, how, nulls_equal)
            return self.subquery(name, frame, _as_they_are(frame.columns), rest)
        if how not in ("inner", "left"):
            raise ValueError(f"no such join: {how!r}")
        left_names = {column.name for column in frame.columns}
        outputs = _as_they_are(frame.columns)
        for column, kind in right.items():
            if column not in on:
                after = f"{column}_right" if column in left_names else column
                outputs.append(_Output(after, kind, f"other.{self.dialect.identifier(column)}"))
        order = [*_as_they_are(frame.order), _Output(self.row_name, "int", f"other.{self.row}")]
        rest = f"\n  {how.upper()} JOIN {self.tables[source]} AS other ON {self.match(pairs, nulls_equal)}"
        return self.subquery(name, frame, outputs, rest, order)

    def filtering_join(self, table: str, pairs: Sequence[Tuple[_Column, str]], how: str, nulls_equal: bool) -> str:
        """What stands after a frame to keep its rows that have a match, or those that have none.

        The keys of the table are joined, each once, so that no row matches twice. By EXISTS, SQLite goes over the table for each row.
        """
        taken: Set[str] = set()
        inner = [(column, self.identifier(column.name, taken)) for column, _ in pairs]
        items = [f"{self.compared(f'other.{key}', left.kind)} AS {name}" for (left, key), (_, name) in zip(pairs, inner)]
        match = self.match(inner, nulls_equal)
        if how == "semi":
            return f"\n  INNER JOIN (SELECT DISTINCT {', '.join(items)} FROM {table} AS other) AS other ON {match}"
        found = self.identifier("found", taken)
        distinct = f"(SELECT DISTINCT {', '.join([*items, f'1 AS {found}'])} FROM {table} AS other)"
        return f"\n  LEFT JOIN {distinct} AS other ON {match}\n  WHERE other.{found} IS NULL"

    def match(self, pairs: Sequence[Tuple[_Column, str]], nulls_equal: bool) -> str:
        """Whether the keys of two rows match: columns of a frame, each with an identifier of the right side."""
        return " AND ".join(self.key_match(column.kind, f"frame.{column.identifier}", f"other.{key}", nulls_equal) for column, key in pairs)

    def key_match(self, kind: str, left: str, right: str, nulls_equal: bool) -> str:
        if not nulls_equal:
            return f"{self.compared(left, kind)} = {right}"
        if self.dialect.hashes_same:
            return f"{self.compared(left, kind)} {self.dialect.same} {right}"
        value, _ = self.literal(_ANY_VALUES[kind])
        filled = f"{self.compared(f'COALESCE({left}, {value})', kind)} = COALESCE({right}, {value})"
        return f"{filled} AND ({left} IS NULL) = ({right} IS NULL)"

    def group_by(self, frame: _Frame, name: str, group: Dict[str, Any]) -> _Frame:
        _require_names(group["keys"])
        functions = {aggregate[1] for aggregate in group["aggs"]}
        # (the least values of several columns of order may stand in different rows)
        needs = {"first": "first" in functions or len(frame.order) > 1, "last": "last" in functions}
        before = frame
        ends: Dict[str, str] = {}
        if any(needs.values()):
            read = {*group["keys"], *(name for aggregate in group["aggs"] for name in aggregate[2:])}
            needed = [end for end, is_needed in needs.items() if is_needed]
            before, ends = self.with_ends(frame, f"{name}_ends", group["keys"], read, needed)
        keys = self.keys(before, group["keys"])
        outputs = [_Output(key, before.column(key).kind, text) for key, text in zip(group["keys"], keys)]
        outputs += [self.aggregate(before, aggregate, ends) for aggregate in group["aggs"]]
        order = _as_they_are(before.order)
        if len(order) > 1:
            order = [place._replace(text=_in_row_1(ends["first"], place.text)) for place in order]
        order = [place._replace(text=f"MIN({place.text})") for place in order]
        return self.subquery(name, before, outputs, f"\n  GROUP BY {', '.join(keys)}", order)

    def keys(self, frame: _Frame, names: Sequence[str]) -> List[str]:
        """Columns by which rows are grouped."""
        return [self.compared(f"frame.{column.identifier}", column.kind) for column in map(frame.column, names)]

    def with_ends(
        self, frame: _Frame, name: str, keys: Sequence[str], read: Set[str], ends: Sequence[str],
    ) -> Tuple[_Frame, Dict[str, str]]:
        """The columns of a frame that a grouping reads, with the number of each row in its group, counted from these ends of it; and the
        columns with the numbers."""
        by = ", ".join(self.keys(frame, keys))
        outputs = _as_they_are([column for column in frame.columns if column.name in read])
        for end in ends:
            order = _listed(frame.order, "" if end == "first" else " DESC")
            outputs.append(_Output(f"from_{end}", "int", f"ROW_NUMBER() OVER (PARTITION BY {by} ORDER BY {order})"))
        after = self.subquery(name, frame, outputs)
        return after, {end: f"frame.{number.identifier}" for end, number in zip(ends, after.columns[-len(ends):])}

    def aggregate(self, frame: _Frame, aggregate: Sequence[str], ends: Dict[str, str]) -> _Output:
        """An aggregate of a group. `ends` has the columns that number a group's rows from its ends."""
        name, function = aggregate[0], aggregate[1]
        if function == "len":
            return _Output(name, "int", "COUNT(*)")
        column = frame.column(aggregate[2])
        if function in ends:
            return _Output(name, column.kind, self.end_of_group(column, ends[function]))
        value = f"frame.{column.identifier}"
        compared = self.compared(value, column.kind)
        if function == "sum" and column.kind != "int":
            raise ValueError(f"no sum of a column of kind {column.kind}")
        least, greatest = self.least_and_greatest(column.kind)
        texts = {
            "count": f"COUNT({value})",
            "sum": f"COALESCE({self.dialect.total(value, '')}, {self.dialect.whole(0)})",
            "min": f"{least}({compared})",
            "max": f"{greatest}({compared})",
            "n_unique": f"COUNT(DISTINCT {compared}) + MAX(CASE WHEN {value} IS NULL THEN 1 ELSE 0 END)",
        }
        if function not in texts:
            raise ValueError(f"no such aggregate: {function!r}")
        return _Output(name, "int" if function in ("count", "sum", "n_unique") else column.kind, texts[function])

    def end_of_group(self, column: _Column, number: str) -> str:
        """The value of a column in the row of a group that has the number 1."""
        _, greatest = self.least_and_greatest(column.kind)
        return f"{greatest}({_in_row_1(number, self.compared(f'frame.{column.identifier}', column.kind))})"

    def least_and_greatest(self, kind: str) -> Tuple[str, str]:
        """The aggregates that give the least and the greatest value of a kind."""
        return self.dialect.least_and_greatest_truth if kind == "bool" else ("MIN", "MAX")

    def rolling_sum(self, frame: _Frame, name: str, rolling: Dict[str, Any]) -> _Frame:
        """The step that needs all rows at one place, so it numbers them anew if more than one column gives their order."""
        column, window = frame.column(rolling["column"]), rolling["window"]
        samples = rolling.get("min_samples", window)
        if column.kind != "int" or not 1 <= samples <= window:
            raise ValueError(f"no such rolling sum: {rolling!r}")
        value, by = f"frame.{column.identifier}", f"ORDER BY {_listed(frame.order)}"
        text = f"CASE WHEN COUNT({value}) OVER recent >= {samples} THEN {self.dialect.total(value, ' OVER recent')} END"
        after = {output.name: output for output in _as_they_are(frame.columns)}
        after[rolling["name"]] = _Output(rolling["name"], "int", text)
        rest = f"\n  WINDOW recent AS ({by} ROWS BETWEEN {window - 1} PRECEDING AND CURRENT ROW)"
        order = [_Output(self.row_name, "int", f"ROW_NUMBER() OVER ({by})")] if len(frame.order) > 1 else None
        return self.subquery(name, frame, list(after.values()), rest, order)

    # -- expressions

    def values(self, frame: _Frame, name: str, outputs: Sequence[Any]) -> Tuple[_Frame, List[_Output]]:
        """The outputs of a step, and the frame that they read: the one given, and perhaps parts of them as more columns.

        What is divided becomes a column, since SQL has to name it more than once, and so does what nests too deep.
        """
        names, expressions, number = [output[0] for output in outputs], [output[1] for output in outputs], 0
        while True:
            parts: List[_Output] = []
            expressions = [self.cut(frame, expression, parts)[0] for expression in expressions]
            if not parts:
                break
            frame = self.subquery(f"{name}_parts{number}", frame, [*_as_they_are(frame.columns), *parts])
            number += 1
        values = []
        for output, expression in zip(names, expressions):
            text, kind = self.expression(frame, expression)
            values.append(_Output(output, kind, text))
        return frame, values

    def cut(self, frame: _Frame, expression: Any, parts: List[_Output]) -> Tuple[Any, bool, int]:
        """An expression with columns in the place of the innermost parts that are to be columns; whether there is no such part in
        it; and how deep its operators nest. The parts are added to `parts`, to be computed on `frame`."""
        if _is_leaf(expression):
            return expression, True, 0
        operator, *operands = expression
        after, is_whole, depth = [operator], True, 0
        for operand in operands:
            operand, is_ready, nested = self.cut(frame, operand, parts)
            if is_ready and nested and (operator in _DIVISIONS or nested >= _MOST_NESTED):
                operand, is_ready, nested = self.part(frame, operand, parts), False, 0
            after.append(operand)
            is_whole, depth = is_whole and is_ready, max(depth, nested)
        return after, is_whole, depth + 1

    def part(self, frame: _Frame, expression: Any, parts: List[_Output]) -> _Part:
        """A part of an expression as a column of its own, after those of the frame and the parts so far."""
        text, kind = self.expression(frame, expression)
        parts.append(_Output("part", kind, text))
        return _Part(len(frame.columns) + len(parts) - 1, kind)

    def expression(self, frame: _Frame, expression: Any) -> Tuple[str, str]:
        """The SQL of an expression on `frame`, and its kind."""
        if isinstance(expression, _Part):
            return f"frame.{frame.columns[expression.place].identifier}", expression.kind
        if isinstance(expression, dict):
            word, value = _member(expression)
            if word == "null" and value in _KINDS:
                return self.null(value), value
            if word != "col":
                raise ValueError(f"not an expression: {expression!r}")
            column = frame.column(value)
            return f"frame.{column.identifier}", column.kind
        if isinstance(expression, list) and len(expression) == 2:
            operand, kind = self.expression(frame, expression[1])
            return self.unary(expression[0], self.late(frame, operand, expression), kind)
        if isinstance(expression, list) and len(expression) == 3:
            (left, kind), (right, right_kind) = (self.expression(frame, operand) for operand in expression[1:])
            if kind != right_kind:
                raise ValueError(f"{expression[0]} of {kind} and {right_kind}")
            left = self.late(frame, left, expression)
            if expression[0] in _DIVISIONS and kind == "int" and isinstance(expression[2], int):
                return self.division_by_literal(expression[0], left, expression[2]), kind
            return self.binary(expression[0], left, right, kind)
        return self.literal(expression)

    def late(self, frame: _Frame, operand: str, expression: Any) -> str:
        """The first operand of an expression, such that an engine does not fault at it where there is no row to compute it for."""
        if self.dialect.computes_early and expression[0] in _MAY_OVERFLOW and _is_constant(expression):
            return f"({operand} + 0 * frame.{frame.order[0].identifier})"
        return operand

    def literal(self, value: Any) -> Tuple[str, str]:
        if isinstance(value, bool):
            return self.dialect.truths[value], "bool"
        if isinstance(value, str):
            return self.dialect.text(value), "text"
        if isinstance(value, int) and fits(value):
            return self.dialect.whole(value), "int"
        raise ValueError(f"not an expression: {value!r}")

    def null(self, kind: str) -> str:
        return f"CAST(NULL AS {self.dialect.types[kind]})"

    def unary(self, operator: str, operand: str, kind: str) -> Tuple[str, str]:
        if operator in _NULL_TESTS:
            return f"({operand} {_NULL_TESTS[operator]})", "bool"
        if (operator, kind) == ("neg", "int"):
            return f"(- {operand})", "int"
        if (operator, kind) == ("not", "bool"):
            return f"(NOT {operand})", "bool"
        raise ValueError(f"no such operation: {operator} of {kind}")

    def binary(self, operator: str, left: str, right: str, kind: str) -> Tuple[str, str]:
        if operator == "fill_null":
            return f"COALESCE({left}, {right})", kind
        if operator in _COMPARISONS:
            return f"({self.compared(left, kind)} {_COMPARISONS[operator]} {right})", "bool"
        if operator == "eq_missing":
            return f"({self.compared(left, kind)} {self.dialect.same} {right})", "bool"
        if operator in _LOGIC and kind == "bool":
            return f"({left} {_LOGIC[operator]} {right})", "bool"
        if operator in _ARITHMETIC and kind == "int":
            return f"({left} {_ARITHMETIC[operator]} {right})", "int"
        if operator in _DIVISIONS and kind == "int":
            return self.division(operator, left, right), "int"
        raise ValueError(f"no such operation: {operator} of {kind} and {kind}")

    def compared(self, value: str, kind: str) -> str:
        """A value that is to be compared: a text by its bytes."""
        return value + self.dialect.by_bytes if kind == "text" else value

    def division(self, operator: str, left: str, right: str) -> str:
        """A quotient that is rounded down, or the rest that goes with it. SQL rounds towards zero, and faults or not by 0.

        The rest by -1 is taken by 1, which gives 0 too, since engines fault at the rest of the least number by -1.
        """
        rest = f"({left} % CASE WHEN {right} = -1 THEN 1 ELSE NULLIF({right}, 0) END)"
        differs = f"{rest} <> 0 AND ({rest} < 0) <> ({right} < 0)"
        if operator == "mod":
            return f"(CASE WHEN {differs} THEN {rest} + {right} ELSE {rest} END)"
        quotient = f"(({left} - {rest}) {self.dialect.quotient} NULLIF({right}, 0))"
        return f"({quotient} - CASE WHEN {differs} THEN 1 ELSE 0 END)"

    def division_by_literal(self, operator: str, left: str, divisor: int) -> str:
        """A quotient by a number that the plan says, or its rest."""
        if divisor == 0:
            return self.null("int")
        if divisor == -1:
            return f"(- {left})" if operator == "floordiv" else f"({left} % 1)"
        right = self.dialect.whole(divisor)
        rest = f"{left} % {right}"
        differs = f"CAST({rest} {'<' if divisor > 0 else '>'} 0 AS INTEGER)"
        if operator == "mod":
            return f"({rest} + {right} * {differs})"
        return f"((({left} - {rest}) {self.dialect.quotient} {right}) - {differs})"
