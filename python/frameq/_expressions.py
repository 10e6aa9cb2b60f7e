"""Expressions, by Polars' names, and their form in a plan."""
import datetime
import decimal
import functools
import operator
from typing import Any, Dict, FrozenSet, Iterable, Iterator, List, Mapping, NoReturn, Optional, Tuple, Union

from ._faults import ColumnNotFoundError, UnsupportedError, WrongKindError
from ._kinds import MOST_PLACES, AnyKind, ColumnKind, Date, Decimal, Kind, Schema
from ._kinds import check_unicode, fits, int_at, int_of_day, kind_of_type, number_of_scale, places_of, scale_of, value_of_int

_ARITHMETIC = frozenset({"add", "sub", "mul", "floordiv", "mod"})
FUNCTIONS = frozenset({"sum", "min", "max", "count", "first", "last", "n_unique"})
COMPARISONS = frozenset({"eq", "ne", "lt", "le", "gt", "ge", "eq_missing"})
PARTS_OF_DATES = frozenset({"dt.year", "dt.month", "dt.day"})

# What Polars has and the plan language has not, and what to do instead.
_INSTEAD = {
    "cast": "there are no casts: give the column its kind in the schema",
    "mean": "there are no floats: sum() // count() is the mean, rounded down, and sum().quotient(count(), 2) keeps two places of it",
    "median": "there are no quantiles",
    "std": "there are no floats",
    "var": "there are no floats",
    "sort": "the order is that of the files' rows: sort the result",
    "over": "there are no windows over groups: group, and join the groups from a file",
    "shift": "there are no neighbours of a row but by rolling_sum",
    "diff": "there are no neighbours of a row but by rolling_sum",
    "str": "there are no text functions",
    "list": "there are no lists",
    "is_in": 'write (col("a") == x) | (col("a") == y), or join many values from a file by how="semi"',
    "cum_sum": "a rolling_sum over at most 65,536 rows is what there is",
    "rolling_mean": "there are no floats: rolling_sum is what there is",
    "abs": "write it by a filter for each sign, or by a multiplication",
    "round": "there are no floats",
}

# How deep operators may stand one in another, whatever steps they become.
_MOST_NESTED = 250
TOO_DEEP = "operators stand too deep one in another: combine them by halves, as (a | b) | (c | d), or join the values from a file"

# The exponents that decimals have as literals.
_MOST_EXPONENT = 1000

# A part of an expression: ("col", name), ("cols", names), ("all",), ("lit", kind, value as the plan has it), ("null", kind),
# ("decimal", value), (operation, node, ..), ("quotient", node, node, scale), ("agg", function, node or None),
# ("roll", node, window, least).
Node = Tuple[Any, ...]


class Expr:
    """A column to be computed, as in Polars. It is made by `col`, `lit` and `len`, and by operators and methods on these.

    Arithmetic and comparisons are null where an operand is, and a run raises OverflowError where a value does not fit 64 bits.
    UnsupportedError says that the plan language does not have an operator, a literal or a well-known method of Polars, or that operators
    stand too deep one in another; TypeError, that a truth value is asked for. Whether columns are there and have the kinds that are
    needed, the step says that takes the expression.
    """

    __slots__ = ("_node", "_alias")
    __hash__ = None  # type: ignore[assignment]

    def __init__(self, node: Node, alias: Optional[str] = None) -> None:
        if _depth(node) > _MOST_NESTED:
            raise UnsupportedError(TOO_DEEP)
        self._node, self._alias = node, alias

    def __repr__(self) -> str:
        text = shown(self._node)
        return text if self._alias is None else f"{text}.alias({self._alias!r})"

    def __bool__(self) -> NoReturn:
        raise TypeError("the truth value of an expression is not known: write & for and, | for or, ~ for not")

    def __getattr__(self, name: str) -> NoReturn:
        if name in _INSTEAD:
            raise UnsupportedError(f"frameq has no {name}(): {_INSTEAD[name]}")
        raise AttributeError(f"an expression has no {name!r}")

    def alias(self, name: str) -> "Expr":
        """This expression under another name."""
        return Expr(self._node, name)

    def _one(self, operation: str) -> "Expr":
        return Expr((operation, self._node), self._alias)

    def _two(self, operation: str, other: Any, *, reverse: bool = False) -> "Expr":
        right = literal(other)
        if reverse:
            return Expr((operation, right._node, self._node), right._alias)
        return Expr((operation, self._node, right._node), self._alias)

    def __neg__(self) -> "Expr":
        """Its negative."""
        return self._one("neg")

    def __pos__(self) -> "Expr":
        return self

    def __invert__(self) -> "Expr":
        """Whether it is false."""
        return self._one("not")

    def __add__(self, other: Any) -> "Expr":
        """The sum of both."""
        return self._two("add", other)

    def __radd__(self, other: Any) -> "Expr":
        return self._two("add", other, reverse=True)

    def __sub__(self, other: Any) -> "Expr":
        """The difference of both."""
        return self._two("sub", other)

    def __rsub__(self, other: Any) -> "Expr":
        return self._two("sub", other, reverse=True)

    def __mul__(self, other: Any) -> "Expr":
        """The product of both."""
        return self._two("mul", other)

    def __rmul__(self, other: Any) -> "Expr":
        return self._two("mul", other, reverse=True)

    def __floordiv__(self, other: Any) -> "Expr":
        """The quotient of both as a whole number, rounded down; null where the other is 0."""
        return self._two("floordiv", other)

    def __rfloordiv__(self, other: Any) -> "Expr":
        return self._two("floordiv", other, reverse=True)

    def __mod__(self, other: Any) -> "Expr":
        """The rest of the quotient that is rounded down; null where the other is 0."""
        return self._two("mod", other)

    def __rmod__(self, other: Any) -> "Expr":
        return self._two("mod", other, reverse=True)

    def quotient(self, other: Any, scale: int) -> "Expr":
        """The quotient of both with so many digits behind the point, rounded down; null where the other is 0. Polars has none.

        It is a `Decimal(scale=scale)`, or an `Int64` if `scale` is 0. The mean of a decimal is `col("amount").sum().quotient(len(), 2)`.
        UnsupportedError says that the scale is not 0 to 18.
        """
        if not isinstance(scale, int) or isinstance(scale, bool) or not 0 <= scale <= MOST_PLACES:
            raise UnsupportedError(f"the scale of a quotient is 0 to {MOST_PLACES}, and not {scale!r}: write quotient(other, 2)")
        return Expr(("quotient", self._node, literal(other)._node, scale), self._alias)

    def __truediv__(self, other: Any) -> NoReturn:
        raise UnsupportedError("there are no floats: // divides and rounds down, and quotient(other, 2) keeps two places")

    __rtruediv__ = __truediv__

    def __pow__(self, other: Any) -> NoReturn:
        raise UnsupportedError("there are no powers: multiply")

    __rpow__ = __pow__

    def __eq__(self, other: Any) -> "Expr":  # type: ignore[override]
        """Whether both are equal."""
        return self._two("eq", other)

    def __ne__(self, other: Any) -> "Expr":  # type: ignore[override]
        """Whether both differ."""
        return self._two("ne", other)

    def __lt__(self, other: Any) -> "Expr":
        """Whether it is less than the other. Texts are compared by their bytes, and false is less than true."""
        return self._two("lt", other)

    def __le__(self, other: Any) -> "Expr":
        """Whether it is at most the other."""
        return self._two("le", other)

    def __gt__(self, other: Any) -> "Expr":
        """Whether it is greater than the other."""
        return self._two("gt", other)

    def __ge__(self, other: Any) -> "Expr":
        """Whether it is at least the other."""
        return self._two("ge", other)

    def __and__(self, other: Any) -> "Expr":
        return self._two("and", other)

    def __rand__(self, other: Any) -> "Expr":
        return self._two("and", other, reverse=True)

    def __or__(self, other: Any) -> "Expr":
        return self._two("or", other)

    def __ror__(self, other: Any) -> "Expr":
        return self._two("or", other, reverse=True)

    neg, not_ = __neg__, __invert__
    add, sub, mul, floordiv, mod = __add__, __sub__, __mul__, __floordiv__, __mod__
    eq, ne, lt, le, gt, ge = __eq__, __ne__, __lt__, __le__, __gt__, __ge__

    def and_(self, *others: Any) -> "Expr":
        """Whether this and all the others are true, by Kleene's logic."""
        return functools.reduce(operator.and_, others, self)

    def or_(self, *others: Any) -> "Expr":
        """Whether this or one of the others is true, by Kleene's logic."""
        return functools.reduce(operator.or_, others, self)

    def eq_missing(self, other: Any) -> "Expr":
        """Whether both are equal, with null as a value."""
        return self._two("eq_missing", other)

    def ne_missing(self, other: Any) -> "Expr":
        """Whether both differ, with null as a value."""
        return ~self.eq_missing(other)

    def is_null(self) -> "Expr":
        """Whether it is null."""
        return self._one("is_null")

    def is_not_null(self) -> "Expr":
        """Whether it is not null."""
        return self._one("is_not_null")

    def is_between(self, lower_bound: Any, upper_bound: Any, closed: str = "both") -> "Expr":
        """Whether it is between two bounds; a text is the name of a column, as in Polars.

        `closed` says which bounds belong to it: "both", "left", "right" or "none". ValueError says that it is another.
        """
        if closed not in ("both", "left", "right", "none"):
            raise ValueError(f'closed is "both", "left", "right" or "none", not {closed!r}')
        lower, upper = named(lower_bound), named(upper_bound)
        above = self >= lower if closed in ("both", "left") else self > lower
        return above & (self <= upper if closed in ("both", "right") else self < upper)

    def fill_null(self, value: Any = None, strategy: Optional[str] = None, limit: Optional[int] = None) -> "Expr":
        """This, or the value where it is null. UnsupportedError says that there is no value, or a strategy or a limit."""
        if strategy is not None or limit is not None or value is None:
            raise UnsupportedError("fill_null takes a value: there are no strategies")
        return self._two("fill_null", value)

    def rolling_sum(
        self, window_size: int, weights: Optional[List[float]] = None, *, min_samples: Optional[int] = None, center: bool = False
    ) -> "Expr":
        """The sum of the last `window_size` rows, or null where fewer than `min_samples` of them have a value.

        The window is 1 to 65,536 rows, and `min_samples` 1 to that, by default the same. A run raises WindowError or MinSamplesError of
        another number, and RollingSumRangeError where a sum does not fit 64 bits. UnsupportedError says that there are weights, a window
        that is centred, or one that is no number of rows.
        """
        if weights is not None or center or not isinstance(window_size, int):
            raise UnsupportedError("a rolling sum has no weights, its window is a number of rows, and the last of them is the row itself")
        return Expr(("roll", self._node, window_size, window_size if min_samples is None else min_samples), self._alias)

    @property
    def dt(self) -> "DateParts":
        """The parts of a date, as `.dt.year()`."""
        return DateParts(self)

    def _aggregate(self, function: str) -> "Expr":
        return Expr(("agg", function, self._node), self._alias)

    def sum(self) -> "Expr":
        """The sum of a group; 0 of no values. A run raises SumRangeError where it does not fit 64 bits."""
        return self._aggregate("sum")

    def min(self) -> "Expr":
        """The least value of a group, or null if it has none."""
        return self._aggregate("min")

    def max(self) -> "Expr":
        """The greatest value of a group, or null if it has none."""
        return self._aggregate("max")

    def count(self) -> "Expr":
        """How many values a group has that are not null."""
        return self._aggregate("count")

    def first(self) -> "Expr":
        """The value of a group's first row, null or not."""
        return self._aggregate("first")

    def last(self) -> "Expr":
        """The value of a group's last row, null or not."""
        return self._aggregate("last")

    def n_unique(self) -> "Expr":
        """How many different values a group has; null is one of them."""
        return self._aggregate("n_unique")

    def len(self) -> "Expr":
        """How many rows a group has."""
        return self._aggregate("len")


class DateParts:
    """The parts of a date, each an Int64."""

    __slots__ = ("_expr",)

    def __init__(self, expr: Expr) -> None:
        self._expr = expr

    def __getattr__(self, name: str) -> NoReturn:
        if name.startswith("_"):
            raise AttributeError(name)
        raise UnsupportedError(f"frameq has no dt.{name}(): a date has dt.year(), dt.month() and dt.day(), and dates compare")

    def year(self) -> Expr:
        """The year, 1 to 9999."""
        return self._expr._one("dt.year")

    def month(self) -> Expr:
        """The month, 1 to 12."""
        return self._expr._one("dt.month")

    def day(self) -> Expr:
        """The day of the month, 1 to 31."""
        return self._expr._one("dt.day")


def col(name: Union[str, Iterable[str]], *more: str) -> Expr:
    """The column of this name, or each of several, as in Polars: what is computed of them is computed of each."""
    names = [name, *more] if isinstance(name, str) else [*name, *more]
    return Expr(("col", names[0])) if len(names) == 1 else Expr(("cols", tuple(names)))


def all() -> Expr:  # pylint: disable=redefined-builtin
    """Each column."""
    return Expr(("all",))


def lit(value: Any, dtype: Optional[AnyKind] = None) -> Expr:
    """A value that stands in each row; a null needs its kind, as `lit(None, dtype=Int64)`.

    A whole number, or a `decimal.Decimal`, is a decimal of the scale that it meets, or of this `dtype`.

    UnsupportedError says that the value is no whole number of 64 bits, `decimal.Decimal`, `datetime.date`, text or truth value, or that a
    null has no kind; WrongKindError, that the value is not of `dtype`.
    """
    kind = None if dtype is None else kind_of_type(dtype)
    if value is None:
        if kind is None:
            raise UnsupportedError("a null has a kind here: write lit(None, dtype=Int64), String or Boolean")
        return Expr(("null", kind))
    node = _node_of_value(value)
    if isinstance(kind, Decimal) and (node[0] == "decimal" or node[1] == Kind.INT):
        node = literal_at(value, kind)
    elif kind is not None and (node[0] == "decimal" or node[1] != kind):
        raise WrongKindError(f"{value!r} is no {kind!r}, and there are no casts")
    return Expr(node)


def _node_of_value(value: Any) -> Node:
    """The literal that a value is. A decimal has the scale that it meets, so its int is not known yet."""
    if isinstance(value, bool):
        return ("lit", Kind.BOOL, value)
    if isinstance(value, str):
        check_unicode([value], "a literal")
        return ("lit", Kind.TEXT, value)
    if isinstance(value, int) and fits(value):
        return ("lit", Kind.INT, value)
    if isinstance(value, datetime.date) and not isinstance(value, datetime.datetime):
        return ("lit", Date, int_of_day(value))
    if isinstance(value, decimal.Decimal) and value.is_finite() and abs(int(value.as_tuple().exponent)) <= _MOST_EXPONENT:
        return ("decimal", value)
    raise UnsupportedError(
        f"{value!r} is no literal: there are whole numbers of 64 bits, decimal.Decimal, datetime.date, texts, and True and False"
    )


def literal_at(value: Union[int, decimal.Decimal], kind: Decimal) -> Node:
    """The literal that a number is as a decimal of this kind."""
    number = int_at(value, kind.scale)
    if number is None:
        raise WrongKindError(f"{value!r} is no {kind!r}: it has more than {kind.scale} places, or the int that it is does not fit 64 bits")
    return ("lit", kind, number)


def literal_by_itself(value: decimal.Decimal) -> Node:
    """The literal that a number is beside no other: a decimal of as many places as are written, or a whole number if there are none."""
    places = places_of(value)
    if places:
        return literal_at(value, Decimal(scale=places))
    number = int_at(value, 0)
    if number is None:
        raise UnsupportedError(f"{value!r} is no literal: there are whole numbers of 64 bits")
    return ("lit", Kind.INT, number)


def length() -> Expr:
    """How many rows a group has."""
    return Expr(("agg", "len", None))


def literal(value: Any) -> Expr:
    """An operand: an expression, or the value as a literal."""
    return value if isinstance(value, Expr) else lit(value)


def named(value: Any) -> Expr:
    """What Polars makes of an input of a step: a text is the name of a column."""
    return col(value) if isinstance(value, str) else literal(value)


def shown(node: Node) -> str:
    """A node as it is shown in a message."""
    head = node[0]
    if head == "col":
        return f"col({node[1]!r})"
    if head == "cols":
        return "col(" + ", ".join(map(repr, node[1])) + ")"
    if head == "lit":
        return f"lit({_value_of_literal(node)!r})"
    if head == "decimal":
        return f"lit({node[1]!r})"
    if head == "null":
        return f"lit(None, dtype={node[1]!r})"
    if head in PARTS_OF_DATES:
        return f"{shown(node[1])}.{head}()"
    if head == "agg":
        return "len()" if node[2] is None else f"{shown(node[2])}.{node[1]}()"
    if head == "roll":
        return f"{shown(node[1])}.rolling_sum({node[2]}, min_samples={node[3]})"
    if head == "quotient":
        return f"{shown(node[1])}.quotient({shown(node[2])}, {node[3]})"
    return f"{head}(" + ", ".join(map(shown, node[1:])) + ")"


def _value_of_literal(node: Node) -> Any:
    """The value of a literal; of a date that is none it is the int."""
    _, kind, value = node
    try:
        return value if isinstance(kind, Kind) else value_of_int(value, kind)
    except (ValueError, OverflowError):  # (the latter where the year is past 32 bits)
        return value


def _operands(node: Node) -> List[Node]:
    """The nodes that a node is made of, from left to right."""
    return [] if node[0] in ("cols", "col", "lit", "null") else [part for part in node[1:] if isinstance(part, tuple)]


def _depth(node: Node) -> int:
    """How deep operators stand one in another."""
    level, depth = _operands(node), 0
    while level:
        level, depth = [part for it in level for part in _operands(it)], depth + 1
    return depth


def parts(node: Node) -> Iterator[Node]:
    """A node and all that it is made of, from left to right."""
    yield node
    for part in _operands(node):
        yield from parts(part)


def has(node: Node, *heads: str) -> bool:
    """Whether a part of a node is one of these."""
    return any(part[0] in heads for part in parts(node))


def columns_of(node: Node) -> FrozenSet[str]:
    """The names of the columns that a node reads."""
    return frozenset(part[1] for part in parts(node) if part[0] == "col")


def name_of(expr: Expr) -> str:
    """The name of an expression: its alias, or as in Polars that of its first column, or `literal`, or `len`."""
    if expr._alias is not None:
        return expr._alias
    for part in parts(expr._node):
        if part[0] == "col":
            name: str = part[1]
            return name
        if part[0] in ("lit", "null", "decimal"):
            return "literal"
        if part == ("agg", "len", None):
            return "len"
    raise UnsupportedError(f"{expr!r} has no name: write .alias(..)")


def replaced(node: Node, swaps: Mapping[Node, Node]) -> Node:
    """A node in which each of these parts is another."""
    if node in swaps:
        return swaps[node]
    if node[0] in ("col", "cols", "lit", "null", "all"):
        return node
    return tuple(replaced(part, swaps) if isinstance(part, tuple) else part for part in node)


def expanded(expr: Expr, schema: Schema) -> List[Expr]:
    """An expression of several columns as one of each."""
    several = {part for part in parts(expr._node) if part[0] in ("cols", "all")}
    if not several:
        return [expr]
    if len(several) > 1:
        raise UnsupportedError(f"{expr!r} is of several columns more than once: write one expression for each")
    part = several.pop()
    names = list(schema) if part[0] == "all" else list(part[1])
    if expr._alias is not None and len(names) > 1:
        raise UnsupportedError(f"{expr!r} gives several columns of one name: write one expression for each")
    return [Expr(replaced(expr._node, {part: ("col", name)}), expr._alias) for name in names]


def flat(given: Iterable[Any]) -> List[Any]:
    """Inputs, and those of lists among them."""
    each: List[Any] = []
    for it in given:
        if isinstance(it, (str, Expr)) or not isinstance(it, Iterable):
            each.append(it)
        else:
            each.extend(it)
    return each


def plain_names(given: Iterable[Any], schema: Schema, what: str) -> List[str]:
    """The names of columns. What is computed, or has another name, is refused."""
    each = [expr for it in flat(given) for expr in expanded(named(it), schema)]
    if any(expr._node[0] != "col" or expr._alias is not None for expr in each):
        raise UnsupportedError(f"{what} takes columns as they are: compute or rename them before, by with_columns or rename")
    return [expr._node[1] for expr in each]


def kind_of(node: Node, schema: Schema) -> ColumnKind:
    """The kind of a node over these columns. Raises where a column is not there or a part has another kind than it needs."""
    head = node[0]
    if head == "col":
        if node[1] not in schema:
            raise ColumnNotFoundError(f"there is no column {node[1]!r}; there are {', '.join(map(repr, schema))}")
        return schema[node[1]]
    if head in ("lit", "null"):
        kind: ColumnKind = node[1]
        return kind
    if head == "agg":
        return _kind_of_aggregate(node, schema)
    kinds = [kind_of(part, schema) for part in node[1:] if isinstance(part, tuple)]
    if head in _ARITHMETIC or head in ("neg", "roll"):
        return _kind_of_arithmetic(node, kinds)
    if head in ("and", "or", "not"):
        return _wanted(node, kinds, Kind.BOOL, Kind.BOOL)
    if head in ("is_null", "is_not_null"):
        return Kind.BOOL
    return _wanted(node, kinds, kinds[0], Kind.BOOL if head in COMPARISONS else kinds[0])


def _kind_of_aggregate(node: Node, schema: Schema) -> ColumnKind:
    kind = Kind.INT if node[2] is None else kind_of(node[2], schema)
    if node[1] == "sum" and kind != Kind.INT and not isinstance(kind, Decimal):
        raise WrongKindError(f"{shown(node)}: there are sums of an Int64 or a Decimal alone, and this is a {kind!r}")
    return kind if node[1] in ("sum", "min", "max", "first", "last") else Kind.INT


def _kind_of_arithmetic(node: Node, kinds: List[ColumnKind]) -> ColumnKind:
    """The kind of a sum, a product and the like: of ints an int, and of decimals and dates what has a meaning."""
    if Date in kinds:
        if node[0] not in ("floordiv", "mod") or kinds[0] != Date or kinds[1] != Kind.INT:
            raise WrongKindError(f"{shown(node)}: there is no arithmetic of dates but // and % by an Int64, as of the int YYYYMMDD")
        return Kind.INT
    scales = [scale for scale in map(scale_of, kinds) if scale is not None]
    if len(scales) < len(kinds):
        return _wanted(node, [kind for kind in kinds if scale_of(kind) is None], Kind.INT, Kind.INT)
    if node[0] not in ("mul", "floordiv"):
        return _wanted(node, kinds, kinds[0], kinds[0])
    scale = sum(scales) if node[0] == "mul" else scales[0] - scales[1]
    if scale > MOST_PLACES:
        raise WrongKindError(f"{shown(node)}: a product has the places of both factors, and {scale} are more than {MOST_PLACES}")
    return number_of_scale(scale)


def _wanted(node: Node, kinds: List[ColumnKind], wanted: ColumnKind, result: ColumnKind) -> ColumnKind:
    for kind in kinds:
        if kind != wanted:
            conversion = _conversion(kind, wanted)
            raise WrongKindError(f"{shown(node)}: a {kind!r} where a {wanted!r} stands; there are no casts{conversion}")
    return result


def _conversion(one: ColumnKind, other: ColumnKind) -> str:
    """What makes two kinds the same, as the end of a sentence; nothing where nothing does."""
    if Date not in (one, other):
        return ""
    of_kinds: Dict[ColumnKind, str] = {Kind.INT: ": a Date // 1 is an Int64", Kind.TEXT: ": a day is a datetime.date(2024, 3, 5)"}
    return of_kinds.get(one if other == Date else other, "")


def written(node: Node) -> Any:
    """A node without aggregates and rolling sums as the plan language writes it."""
    head = node[0]
    if head == "col":
        return {"col": node[1]}
    if head == "lit":
        return node[2]
    if head == "null":
        return {"null": node[1].value}
    return [head, *(written(part) for part in node[1:])]
