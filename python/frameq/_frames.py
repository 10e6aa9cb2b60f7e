"""Lazy frames, by Polars' names: what is written is a plan."""
import copy
import itertools
import os
from typing import TYPE_CHECKING, Any, Dict, Iterable, Iterator, List, Mapping, NamedTuple, NoReturn, Optional, Sequence, Set, Tuple, Union

from . import _parts, _program
from ._dialects import Table
from ._expressions import FUNCTIONS, TOO_DEEP, Expr, Node
from ._expressions import columns_of, expanded, flat, has, kind_of, name_of, named, parts, plain_names, replaced, written
from ._faults import DuplicateError, NoColumnError, PlanShapeError, UnsupportedError, WrongKindError
from ._kinds import AnyKind, ColumnKind, Declared, Kind, Schema, check_unicode, schema_of
from ._literals import settled, with_constants_apart
from ._notations import declared, noted, words_of
from ._program import Path, names_of_files
from ._results import DataFrame
from ._sql import sql
from ._sql_setup import sql_setup

if TYPE_CHECKING:
    from concurrent.futures import Executor

Output = Tuple[str, Node]

# How deep the arrays and objects of a plan may stand one in another, and how deep its steps do.
_MOST_NESTED, _NESTING_AROUND_STEPS = 127, 2

# What Polars has and the plan language has not, and what to do instead.
_INSTEAD = {
    "sort": "the order is that of the files' rows: sort the result, as collect().sort(..)",
    "head": "take the first rows of the result, as collect().head(..)",
    "limit": "take the first rows of the result, as collect().limit(..)",
    "tail": "take the last rows of the result, as collect().tail(..)",
    "slice": "take the rows of the result, as collect().rows()",
    "cast": "there are no casts: give the columns their kinds in the schema",
    "with_row_index": "a row has no number",
    "explode": "there are no lists",
    "pivot": "there are no pivots: group, and turn the result",
    "unpivot": "there are no pivots",
    "group_by_dynamic": "there are no windows by time: group by col('day') // 100, the month of a Date",
    "rolling": "there are no windows by time: rolling_sum counts rows",
    "join_asof": "a join is on equal keys",
    "join_where": "a join is on equal keys: filter after it",
    "sink_parquet": "the result is CSV: sink_csv",
    "write_csv": "sink_csv runs the report and writes its result",
    "fetch": "take the first rows of the result, as collect().head(..)",
    "drop_nulls": "write filter(col('a').is_not_null())",
    "fill_null": "write with_columns(col('a').fill_null(0))",
    "describe": "group by a literal such as all=lit(True), and name the aggregates",
}

_INSTEAD_OF_GROUPS = {
    "mean": "there are no floats: sum() // count() is the mean, rounded down, and sum().quotient(count(), 2) keeps two places of it",
    "median": "there are no quantiles",
    "quantile": "there are no quantiles",
    "head": "agg() makes a row for each group; first() is a value of its first row",
    "tail": "agg() makes a row for each group; last() is a value of its last row",
    "all": "there are no lists",
    "having": "filter after agg()",
    "map_groups": "agg() makes a row for each group",
}


class Source(NamedTuple):
    """The files of a scan, with their columns and the texts that are null in them."""

    files: Tuple[str, ...]
    columns: Tuple[Tuple[str, ColumnKind], ...]
    null_values: Tuple[str, ...]

    def written(self, version: int) -> Dict[str, Any]:
        """As the plan language writes it."""
        source = {"files": len(self.files), "columns": [[name, kind.value] for name, kind in self.columns]}
        if version == 2 and self.null_values:
            source["null_values"] = list(self.null_values)
        return source


def scan_csv(
    source: Union[Path, Sequence[Path]],
    *,
    schema: Optional[Mapping[str, AnyKind]] = None,
    null_values: Union[str, Sequence[str], None] = None,
    has_header: bool = True,
    separator: str = ",",
    **others: Any,
) -> "LazyFrame":
    """The rows of a CSV file, or of several in this order, as Polars' `scan_csv`.

    Every file begins with a header, which has the names of `schema` in this order. A file may be `-`, which is standard input. An
    empty field is null, and so is one that is among `null_values`.

    UnsupportedError says that there is no schema, or a kind or an argument that frameq does not have, and TypeError that the schema is no
    mapping. Nothing is read yet.
    """
    if schema is None:
        raise UnsupportedError(
            "nothing is guessed: name each column and its kind, as schema={'id': Int64, 'name': String}; the command frameq --draft FILE "
            "says which kinds its fields allow"
        )
    if others or not has_header or separator != ",":
        what = ", ".join(others) or ("has_header=False" if not has_header else "separator")
        raise UnsupportedError(f"scan_csv has no {what}: a file has a header, commas, and quotes as in CSV")
    files = names_of_files(source, "scan_csv")
    if isinstance(null_values, Mapping):
        raise UnsupportedError("null_values are of all columns of a file: give a list")
    nulls = [null_values] if isinstance(null_values, str) else list(null_values or [])
    for null in nulls:
        if not isinstance(null, str):
            raise UnsupportedError(f"null_values are texts, as they stand in a file, and {null!r} is none")
    check_unicode(nulls, "a null value")
    columns = schema_of(schema)
    scan = Source(tuple(files), tuple(columns.items()), tuple(nulls))
    return LazyFrame(scan, (), (), (), (columns,))


class LazyFrame:
    """Steps on the rows of a scan, not yet run, as Polars' LazyFrame. It does not change: each method gives another.

    Each step is judged where it is called. ColumnNotFoundError says that a column is not there, WrongKindError that an operand or a key
    has another kind than it needs, DuplicateError that two columns have one name, NoColumnError that there is none, and UnsupportedError
    that the plan language does not have the form.
    """

    # The columns are those of the scan, and those after each step.
    __slots__ = ("_main", "_rights", "_steps", "_calls", "_schemas")

    def __init__(
        self,
        main: Source,
        rights: Tuple[Source, ...],
        steps: Tuple[Dict[str, Any], ...],
        calls: Tuple[str, ...],
        schemas: Tuple[Schema, ...],
    ) -> None:
        self._main, self._rights, self._steps, self._calls, self._schemas = main, rights, steps, calls, schemas

    def __repr__(self) -> str:
        return "\n".join([f"scan_csv({list(self._main.files)!r})", *(f"  .{call}" for call in self._calls)])

    def __getattr__(self, name: str) -> NoReturn:
        if name in _INSTEAD:
            raise UnsupportedError(f"frameq has no {name}(): {_INSTEAD[name]}")
        raise AttributeError(f"a lazy frame has no {name!r}")

    @property
    def _schema(self) -> Schema:
        return self._schemas[-1]

    def collect_schema(self) -> Schema:
        """The names and kinds of the columns."""
        return dict(self._schema)

    def _after(self, step: Dict[str, Any], call: str, schema: Schema) -> "LazyFrame":
        if _nesting(step) + _NESTING_AROUND_STEPS > _MOST_NESTED:
            raise UnsupportedError(TOO_DEEP)
        return LazyFrame(self._main, self._rights, (*self._steps, step), (*self._calls, call), (*self._schemas, schema))

    # Row-wise steps.

    def filter(self, *predicates: Any, **constraints: Any) -> "LazyFrame":
        """The rows for which all predicates are true; `name=value` is `col(name) == value`."""
        call = _call("filter", predicates, constraints)
        conditions = [expr for given in flat(predicates) for expr in expanded(named(given), self._schema)]
        conditions += [named(name) == value for name, value in constraints.items()]
        if not conditions:
            return self
        all_of = conditions[0].and_(*conditions[1:])
        _no_aggregates(all_of, "filter")
        condition = settled(all_of._node, self._schema)
        if kind_of(condition, self._schema) != Kind.BOOL:
            raise WrongKindError(f"a filter takes a Boolean: {all_of!r}")
        frame, (node,) = self._hoisted([condition], (), call)
        return frame._after({"filter": written(node)}, call, frame._schema)._only(self._schema, call)

    def select(self, *exprs: Any, **named_exprs: Any) -> "LazyFrame":
        """These columns alone, in this order."""
        call = _call("select", exprs, named_exprs)
        outputs = self._outputs(exprs, named_exprs, "select")
        if not outputs:
            raise NoColumnError("a select has at least one column")
        names = [name for name, _ in outputs]
        frame, nodes = self._hoisted([node for _, node in outputs], names, call)
        return frame._selected(list(zip(names, nodes)), call)

    def with_columns(self, *exprs: Any, **named_exprs: Any) -> "LazyFrame":
        """These columns too: one whose name exists stands in its place, and the others last. All see the columns before the call."""
        call = _call("with_columns", exprs, named_exprs)
        outputs = self._outputs(exprs, named_exprs, "with_columns")
        if not outputs:
            return self
        schema, names = _with_outputs(self._schema, outputs), [name for name, _ in outputs]
        frame, nodes = self._constants_apart([node for _, node in outputs], names, call)
        if _is_in_order(list(zip(names, nodes))):
            return frame._with_runs(list(zip(names, nodes)), call)._only(schema, call)
        frame, nodes = frame._rolls_apart(nodes, names, call)
        return frame._with(list(zip(names, nodes)), call)._only(schema, call)

    def drop(self, *columns: Any) -> "LazyFrame":
        """All columns but these."""
        dropped = plain_names(columns, self._schema, "drop")
        for name in dropped:
            kind_of(("col", name), self._schema)
        return self.select([name for name in self._schema if name not in dropped])

    def rename(self, mapping: Mapping[str, str]) -> "LazyFrame":
        """The columns under the names that the mapping gives."""
        for name in mapping:
            kind_of(("col", name), self._schema)
        return self.select([named(name).alias(mapping.get(name, name)) for name in self._schema])

    def _outputs(self, exprs: Iterable[Any], named_exprs: Mapping[str, Any], step: str) -> List[Output]:
        """The names and nodes of the outputs of a step."""
        each = [expr for given in flat(exprs) for expr in expanded(named(given), self._schema)]
        each += [it.alias(name) for name, given in named_exprs.items() for it in expanded(named(given), self._schema)]
        nodes = []
        for expr in each:
            _no_aggregates(expr, step)
            nodes.append(settled(expr._node, self._schema))
            kind_of(nodes[-1], self._schema)
        outputs = [(name_of(expr), node) for expr, node in zip(each, nodes)]
        _check_names([name for name, _ in outputs], step)
        return outputs

    def _with(self, outputs: Sequence[Output], call: str) -> "LazyFrame":
        step = {"with_columns": [[name, written(node)] for name, node in outputs]}
        return self._after(step, call, _with_outputs(self._schema, outputs))

    def _with_runs(self, outputs: Sequence[Output], call: str) -> "LazyFrame":
        """Outputs one after another: each rolling sum is a step, and so are those between."""
        frame, run = self, []
        for name, node in outputs:
            if node[0] != "roll":
                run.append((name, node))
                continue
            if run:
                frame, run = frame._with(run, call), []
            frame = frame._rolled(name, node, call)
        return frame._with(run, call) if run else frame

    def _rolled(self, name: str, node: Node, call: str) -> "LazyFrame":
        _, (_, column), window, least = node
        step = {"column": column, "window": window, "min_samples": least, "name": name}
        if least == window:
            del step["min_samples"]
        return self._after({"rolling_sum": step}, call, {**self._schema, name: self._schema[column]})

    def _selected(self, outputs: Sequence[Output], call: str) -> "LazyFrame":
        step = {"select": [[name, written(node)] for name, node in outputs]}
        return self._after(step, call, {name: kind_of(node, self._schema) for name, node in outputs})

    def _only(self, schema: Schema, call: str) -> "LazyFrame":
        """The columns of this schema, if there are others."""
        if list(self._schema) == list(schema):
            return self
        return self._selected([(name, ("col", name)) for name in schema], call)

    def _private(self, taken: Iterable[str]) -> Iterator[str]:
        """Names that no column has, wherever it is in the plan, and that are not taken."""
        columns = [*self._schemas, *(dict(right.columns) for right in self._rights), taken]
        names = {name for several in columns for name in several}
        return (name for name in map("_{}".format, itertools.count()) if name not in names)

    # (below, `taken` has the names that the call gives)

    def _hoisted(self, nodes: Sequence[Node], taken: Sequence[str], call: str) -> Tuple["LazyFrame", List[Node]]:
        """The frame with a column of its own for each part of these nodes that needs one, and the nodes over these columns."""
        frame, nodes = self._constants_apart(nodes, taken, call)
        return frame._rolls_apart(nodes, taken, call)

    def _constants_apart(self, nodes: Sequence[Node], taken: Sequence[str], call: str) -> Tuple["LazyFrame", List[Node]]:
        """The frame with each number and day that the program would read otherwise in a column, whose name says what it is."""
        names: Dict[Node, str] = {}
        private = self._private(taken)

        def column(constant: Node) -> Node:
            if constant not in names:
                names[constant] = next(private)
            return ("col", names[constant])

        after = [with_constants_apart(node, self._schema, column) for node in nodes]
        frame = self._with([(name, constant) for constant, name in names.items()], call) if names else self
        return frame, after

    def _rolls_apart(self, nodes: Sequence[Node], taken: Sequence[str], call: str) -> Tuple["LazyFrame", List[Node]]:
        """The frame with each rolling sum of these nodes in a column, and the nodes over these columns."""
        rolls = list(dict.fromkeys(part for node in nodes for part in parts(node) if part[0] == "roll"))
        if any(has(roll[1], "roll") for roll in rolls):
            raise UnsupportedError("a rolling sum of a rolling sum: write two with_columns")
        frame, columns = self._of_columns([roll[1] for roll in rolls], taken, call)
        swaps = {}
        for roll, column, name in zip(rolls, columns, frame._private(taken)):
            frame = frame._rolled(name, ("roll", ("col", column), *roll[2:]), call)
            swaps[roll] = ("col", name)
        return frame, [replaced(node, swaps) for node in nodes]

    def _of_columns(self, nodes: Sequence[Node], taken: Sequence[str], call: str) -> Tuple["LazyFrame", List[str]]:
        """The frame with a column of its own for each of these nodes that is none, and the column of each."""
        computed = list(dict.fromkeys(node for node in nodes if node[0] != "col"))
        names = dict(zip(computed, self._private(taken)))
        frame = self._with([(name, node) for node, name in names.items()], call) if names else self
        return frame, [node[1] if node[0] == "col" else names[node] for node in nodes]

    # Joins and groups.

    def join(
        self,
        other: "LazyFrame",
        on: Union[str, Expr, Sequence[Union[str, Expr]], None] = None,
        how: str = "inner",
        *,
        left_on: Any = None,
        right_on: Any = None,
        suffix: str = "_right",
        nulls_equal: bool = False,
        maintain_order: Optional[str] = None,
        **others: Any,
    ) -> "LazyFrame":
        """A join with a scan, in the order of the left rows, and for each of them in that of the right ones.

        `how` is "inner", "left", "semi" or "anti". Null keys match nothing unless `nulls_equal`. A column of the right side gets the end
        `_right` where the left has its name. TypeError says that `other` is no lazy frame.
        """
        if how not in ("inner", "left", "semi", "anti"):
            raise UnsupportedError(f'there is no join {how!r}: "inner", "left", "semi" and "anti" are there')
        if others or suffix != "_right":
            raise UnsupportedError(f"a join has no {', '.join(others) or 'suffix'}: rename before it")
        if maintain_order not in (None, "none", "left", "left_right"):
            raise UnsupportedError(f"a join keeps the order of the left rows, and not {maintain_order!r}")
        if not isinstance(other, LazyFrame):
            raise TypeError(f"a join takes a scan, and not a {type(other).__name__}")
        if other._steps:
            raise UnsupportedError(
                "the right side of a join is a scan: do its steps on the left, or write it to a file by sink_csv, and join "
                "scan_csv(path, schema=other.collect_schema())"
            )
        keys = _keys(on, left_on, right_on, self._schema)
        schema = self._joined_schema(other, keys, how)
        rights = self._rights if other._main in self._rights else (*self._rights, other._main)
        step = {"source": rights.index(other._main), "on": keys, "how": how}
        if nulls_equal:
            step["nulls_equal"] = True
        call = _call("join", (), {"on": keys, "how": how, **({"nulls_equal": True} if nulls_equal else {})})
        return LazyFrame(self._main, rights, (*self._steps, {"join": step}), (*self._calls, call), (*self._schemas, schema))

    def _joined_schema(self, other: "LazyFrame", keys: Sequence[str], how: str) -> Schema:
        if len(set(keys)) < len(keys):
            raise DuplicateError("a join has a key twice")
        for key in keys:
            if kind_of(("col", key), self._schema) != kind_of(("col", key), other._schema):
                raise WrongKindError(f"the key {key!r} has another kind on each side; there are no casts")
        if how in ("semi", "anti"):
            return self._schema
        right = [(f"{name}_right" if name in self._schema else name, kind) for name, kind in other._schema.items() if name not in keys]
        _check_names([*self._schema, *(name for name, _ in right)], "join")
        return {**self._schema, **dict(right)}

    def group_by(self, *by: Any, maintain_order: bool = True, **named_by: Any) -> "GroupBy":
        """The groups of rows with equal keys, in the order of their first rows, whether that is asked for or not."""
        keys = self._outputs(by, named_by, "group_by")
        if not keys:
            raise NoColumnError("a grouping has at least one key; for totals over all rows, group by a literal such as all=lit(True)")
        return GroupBy(self, keys, _call("group_by", by, named_by))

    def unique(self, subset: Any = None, *, keep: str = "any", maintain_order: bool = True) -> "LazyFrame":
        """The first row of those that are equal, in all columns or in these."""
        if keep not in ("any", "first"):
            raise UnsupportedError('of equal rows the first is kept: keep="first"')
        keys = list(self._schema) if subset is None else list(dict.fromkeys(plain_names((subset,), self._schema, "subset= of unique")))
        rest = [named(name).first() for name in self._schema if name not in keys]
        return self.group_by(keys).agg(rest)._only(self._schema, "unique()")

    # What is made of it.

    def plan(self) -> Dict[str, Any]:
        """The plan, as the JSON object that it is."""
        sources = (*self._rights, self._main)
        version = 2 if any(source.null_values for source in sources) or any(map(_is_of_version_two, self._steps)) else 1
        return {"version": version, "sources": [source.written(version) for source in sources], "steps": copy.deepcopy(list(self._steps))}

    def files(self) -> List[str]:
        """The files, in the order in which the plan takes them."""
        return [file for source in (*self._rights, self._main) for file in source.files]

    def notations(self) -> Declared:
        """What a run of the plan is told of the names of int columns: which are decimals or dates, and which that steps make are digits.

        The names are those of sources, and of what steps make, also in between. What a step makes under a source's name is not told: the
        program follows it. UnsupportedError says that it would follow something else, or that a name cannot be told. What runs the plan,
        or writes it as SQL, raises it, too.
        """
        return declared(self._kinds_of_sources(), self._steps, self._schemas)

    def _kinds_of_sources(self) -> List[Schema]:
        return [dict(source.columns) for source in (*self._rights, self._main)]

    def sql(self, dialect: str = "sqlite", tables: Optional[Sequence[Table]] = None) -> str:
        """The plan as one SQL query over a table for each source, in the dialect of "sqlite", "postgres", "duckdb" or "spark".

        The tables are source0, source1 and so on, or those named, in the order of the plan's sources; ("reports", "sales") is the table
        sales in the schema reports. Each has the columns of its source, and a column `row` that numbers its rows in the order of the
        files. The query gives the rows of the plan, in order, where no value leaves 64 bits.

        ValueError says that there is no such dialect, that there are more or fewer tables than sources, or that the dialect has no way to
        say something in the plan.
        """
        self.notations()
        return sql(self.plan(), dialect, tables, noted(self._kinds_of_sources()), noted([self._schema]))

    def sql_setup(self, dialect: str = "postgres", tables: Optional[Sequence[Table]] = None, *, program: Path = "frameq") -> str:
        """A script of psql, for PostgreSQL, that makes these tables from the plan's files: the program reads each of them, as in a run.

        ValueError says that another dialect has no such script, that there are more or fewer tables than sources, or that psql or
        PostgreSQL cannot have a name; UnsupportedError, that no argument can say which column is a decimal or a date.
        """
        self.notations()
        return sql_setup(self.plan(), self.files(), dialect, tables, program, noted(self._kinds_of_sources()))

    def explain(self, *, program: Optional[Path] = None) -> str:
        """What the program says of the plan: the columns after each step, and where it runs. Raises as `collect`; no file is opened."""
        self._check_files()
        return _program.explain(self.plan(), words_of(self.notations()), self._calls, program)

    def collect(
        self,
        *,
        batch: Optional[int] = None,
        workers: Optional[int] = None,
        program: Optional[Path] = None,
        progress: bool = False,
        executor: Optional["Executor"] = None,
    ) -> DataFrame:
        """Runs the plan. `batch` is a number of rows, 1 to 65,536, and `workers` one of threads, 1 to 16; no answer depends on them.

        `progress` shows how much of a file has been read, on standard error, if that is a terminal or a notebook's. With an executor, each
        file of the main source is a task of its own, and there may be any number of them; PlanShapeError says that one run does not take
        so many files.

        Each fault of the run is a FrameqError by its name. ProgramNotFoundError says that there is no program to run. A task that does not
        end well raises what its executor has for that, and what is no executor is a TypeError.
        """
        settings = _program.Settings(batch, workers, program, progress)
        if executor is not None:
            return _parts.collect(self._report(), executor, settings)
        self._check_files()
        return _program.collect(self.plan(), words_of(self.notations()), self.files(), self._schema, self._calls, settings)

    def sink_csv(
        self,
        path: Path,
        *,
        batch: Optional[int] = None,
        workers: Optional[int] = None,
        program: Optional[Path] = None,
        progress: bool = False,
        executor: Optional["Executor"] = None,
    ) -> None:
        """Runs the plan, and writes its result to a file, whole or not at all. The path may be one of the plan's files.

        The arguments and the exceptions are those of `collect`. WriteError says that the file cannot be written.
        """
        settings = _program.Settings(batch, workers, program, progress)
        if executor is not None:
            _parts.sink(self._report(), os.fspath(path), executor, settings)
        else:
            self._check_files()
            _program.sink(self.plan(), words_of(self.notations()), self.files(), os.fspath(path), self._calls, settings)

    def _check_files(self) -> None:
        """Raises what the program says of more files than one run takes, and what to do instead."""
        number = len(self.files())
        if number > _parts.MOST_FILES:
            raise PlanShapeError(
                f"one run takes at most {_parts.MOST_FILES} files, and these are {number}: collect and sink_csv run more in parts, by "
                "executor=ThreadPoolExecutor(4) of concurrent.futures"
            )

    def _report(self) -> _parts.Report:
        self.notations()
        return _parts.Report(self.plan(), self.files(), self._calls, self._schemas, self._kinds_of_sources())


class GroupBy:
    """Groups whose aggregates are still to be named."""

    __slots__ = ("_frame", "_keys", "_call")

    def __init__(self, frame: LazyFrame, keys: List[Output], call: str) -> None:
        self._frame, self._keys, self._call = frame, keys, call

    def __getattr__(self, name: str) -> NoReturn:
        if name in FUNCTIONS:
            raise UnsupportedError(f"groups have no {name}(): write .agg(all().{name}())")
        if name in _INSTEAD_OF_GROUPS:
            raise UnsupportedError(f"groups have no {name}(): {_INSTEAD_OF_GROUPS[name]}")
        raise AttributeError(f"groups have no {name!r}")

    def agg(self, *aggs: Any, **named_aggs: Any) -> LazyFrame:
        """A row for each group: its keys and these aggregates, or what is computed of aggregates. Raises as the steps of a LazyFrame."""
        call = f"{self._call}.{_call('agg', aggs, named_aggs)}"
        schema, keys = self._frame._schema, dict(self._keys)
        rest = {name: kind for name, kind in schema.items() if name not in keys}  # which all() means here
        each = [expr for given in flat(aggs) for expr in expanded(named(given), rest)]
        each += [it.alias(name) for name, given in named_aggs.items() for it in expanded(named(given), rest)]
        named_nodes = [(name_of(expr), expr._node) for expr in each]
        _check_names([name for name, _ in (*self._keys, *named_nodes)], "group_by")
        return self._grouped([(name, _settled_aggregate(name, node, schema)) for name, node in named_nodes], call)

    def len(self, name: str = "len") -> LazyFrame:
        """The number of rows of each group."""
        return self.agg(Expr(("agg", "len", None), name))

    def _grouped(self, outputs: List[Output], call: str) -> LazyFrame:
        aggregates = list(dict.fromkeys(part for _, node in outputs for part in parts(node) if part[0] == "agg"))
        inputs = [part[2] for part in aggregates if part[2] is not None and part[1] != "len"]
        key_names, names = [name for name, _ in self._keys], [name for name, _ in outputs]
        taken = [*key_names, *names]
        frame, keys = self._with_keys(taken, call)
        frame, nodes = frame._constants_apart(inputs, taken, call)
        frame, columns = frame._of_columns(nodes, taken, call)
        of_inputs = dict(zip(inputs, columns))
        is_plain = keys == key_names and all(node[0] == "agg" for _, node in outputs)
        named_aggs = outputs if is_plain else list(zip(frame._private(taken), aggregates))
        grouped = frame._after(*_group_step(frame._schema, keys, named_aggs, of_inputs, call))
        if is_plain:
            return grouped
        swaps = {node: ("col", name) for name, node in named_aggs}
        grouped, nodes = grouped._constants_apart([replaced(node, swaps) for _, node in outputs], taken, call)
        return grouped._selected([*((name, ("col", key)) for name, key in zip(key_names, keys)), *zip(names, nodes)], call)

    def _with_keys(self, taken: Sequence[str], call: str) -> Tuple[LazyFrame, List[str]]:
        """The frame with a column for each key, and these columns: a computed key under its own name, if no column has it."""
        computed = [(name, node) for name, node in self._keys if node != ("col", name)]
        frame, nodes = self._frame._hoisted([node for _, node in computed], taken, call)
        private = frame._private(taken)
        new = {name: next(private) if name in self._frame._schema else name for name, _ in computed}
        if computed:
            frame = frame._with([(new[name], node) for (name, _), node in zip(computed, nodes)], call)
        return frame, [new.get(name, name) for name, _ in self._keys]


def _is_of_version_two(step: Dict[str, Any]) -> bool:
    """Whether a step is a join that plans of version 1 do not have."""
    join = step.get("join")
    return join is not None and ("nulls_equal" in join or join["how"] in ("semi", "anti"))


def _group_step(
    schema: Schema, keys: List[str], outputs: Sequence[Output], of_inputs: Mapping[Node, str], call: str
) -> Tuple[Dict[str, Any], str, Schema]:
    """The step of a grouping, its call, and the columns after it."""
    aggs, after = [], {key: schema[key] for key in keys}
    for name, (_, function, column) in outputs:
        is_len = function == "len"
        aggs.append([name, "len"] if is_len else [name, function, of_inputs[column]])
        node = ("agg", function, None if is_len else ("col", of_inputs[column]))
        after[name] = kind_of(node, schema)
    return {"group_by": {"keys": keys, "aggs": aggs}}, call, after


def _settled_aggregate(name: str, node: Node, schema: Schema) -> Node:
    """An output of a grouping with its literals settled. Raises if it is not made of aggregates alone."""
    aggregates = [part for part in parts(node) if part[0] == "agg"]
    if not aggregates:
        raise UnsupportedError(f"the output {name!r} is no aggregate: there are no lists. Write .first(), or another")
    if any(part[2] is not None and has(part[2], "agg", "roll") for part in aggregates):
        raise UnsupportedError(f"the output {name!r} has an aggregate or a rolling sum in an aggregate: do that before, by with_columns")
    rest = replaced(node, {part: ("null", Kind.INT) for part in aggregates})
    if columns_of(rest) or has(rest, "roll"):
        raise UnsupportedError(f"the output {name!r} has a column outside of an aggregate: there are no lists. Write .first(), or another")
    node = settled(node, schema)
    kind_of(node, schema)
    return node


def _no_aggregates(expr: Expr, step: str) -> None:
    if has(expr._node, "agg"):
        raise UnsupportedError(f"{step} has no aggregates: group first; for totals over all rows, group by a literal such as all=lit(True)")


def _check_names(names: Sequence[str], step: str) -> None:
    """Raises if the columns of a step cannot have these names."""
    check_unicode(names, "the name of a column")
    for name in names:
        if list(names).count(name) > 1:
            raise DuplicateError(f"{step} has two columns {name!r}: write .alias(..)")


def _with_outputs(schema: Schema, outputs: Sequence[Output]) -> Schema:
    return {**schema, **{name: kind_of(node, schema) for name, node in outputs}}


def _is_in_order(outputs: Sequence[Output]) -> bool:
    """Whether outputs can be made one after another: rolling sums are of columns, and none reads what one before it wrote."""
    if not any(has(node, "roll") for _, node in outputs):
        return True
    done: Set[str] = set()
    for name, node in outputs:
        if (has(node, "roll") and not (node[0] == "roll" and node[1][0] == "col")) or columns_of(node) & done:
            return False
        done.add(name)
    return True


def _keys(on: Any, left_on: Any, right_on: Any, schema: Schema) -> List[str]:
    """The names of the keys of a join: those of `on`, or of `left_on` and `right_on` if these are the same."""
    sides = [it for it in (left_on, right_on) if it is not None]
    given = sides if on is None and len(sides) == 2 else [on] if on is not None and not sides else []
    keys = [plain_names((it,), schema, "a join") for it in given]
    if not keys or not keys[0] or keys[0] != keys[-1]:
        raise UnsupportedError("a join takes on=: the keys have the same names on both sides. Rename those of the left side by rename")
    return keys[0]


def _nesting(value: Any) -> int:
    """How deep the arrays and objects of a JSON value stand one in another."""
    if not isinstance(value, (dict, list)):
        return 0
    return 1 + max(map(_nesting, value.values() if isinstance(value, dict) else value), default=0)


def _call(name: str, given: Iterable[Any], named_given: Mapping[str, Any]) -> str:
    """A call as it was written, at most 80 characters of it."""
    words = [*(repr(it) for it in given), *(f"{key}={value!r}" for key, value in named_given.items())]
    text = f"{name}({', '.join(words)})"
    return text if len(text) <= 80 else text[:77] + "..."
