"""The columns of ints that the steps of a plan make, and what the program has each for: what it reads, and what its name says.

Each has the kind that this package infers, and all that the program can read of it is that kind, or nothing where a literal may move the
point. So here is no more of the program's rule than where it reads nothing, and what the name says then.
"""
from typing import Any, Dict, List, NamedTuple, Optional, Sequence, Set

from ._kinds import ColumnKind, Date, Decimal, Kind, Schema

_COUNTS = ("count", "len", "n_unique")


class Made(NamedTuple):
    """A column of ints that a step makes, of the kind that is inferred."""

    kind: ColumnKind
    is_read: bool = True
    is_of_digits: bool = True  # all that it is made of is digits or dates
    multiplies: bool = False
    is_by_row: bool = False  # and no remainder: so it may be a date
    is_constant: bool = False
    is_count: bool = False
    is_joined: bool = False  # it is a column of a source under a new name

    def by_itself(self) -> Optional[ColumnKind]:
        """What the program has it for where its name says nothing; None where it refuses that."""
        return self.kind if self.is_read else Kind.INT if self.is_of_digits else None

    def is_right_in(self, of_source: ColumnKind) -> bool:
        """Whether the program has it for its kind under the name of a source's column of this kind."""
        if self.is_constant:
            return self.kind == of_source
        if self.is_count or self.is_joined:
            return True
        follows = self.by_itself()
        if follows == Kind.INT and (isinstance(of_source, Decimal) or (of_source == Date and self.is_by_row)):
            return False
        return self.kind == (follows or (of_source if self.multiplies else None))

    def is_right_as(self, said: Optional[ColumnKind], is_last: bool) -> bool:
        """Whether the program has it for its kind under a name that no source has, of which it is told this or nothing."""
        if self.is_constant:
            return self.kind == (said or Kind.INT)
        if said is None:
            return self.kind == self.by_itself()
        if is_last:
            return self.kind == said
        # (of digits that are not read it is not known here whether they may be what is said)
        return self.is_count or self.is_read or self.kind == said


def made_by(step: Dict[str, Any], before: Schema, after: Schema, sources: Sequence[Schema]) -> Dict[str, Made]:
    """The columns of ints that a step makes, from the columns before it and after it."""
    (word, value), = step.items()
    made: Dict[str, Made] = {}
    if word in ("with_columns", "select"):
        # (a column under its own name keeps what it has)
        computed = [(name, expression) for name, expression in value if expression != {"col": name}]
        made = {name: _of_expression(expression, before, after[name]) for name, expression in computed}
    elif word == "group_by":
        made = {name: Made(after[name], is_count=function in _COUNTS) for name, function, *_ in value["aggs"]}
    elif word == "rolling_sum":
        made = {value["name"]: Made(after[value["name"]])}
    elif word == "join" and value["how"] in ("inner", "left"):
        new = [f"{name}_right" for name in sources[value["source"]] if name in before and name not in value["on"]]
        made = {name: Made(after[name], is_joined=True) for name in new}
    return {name: it for name, it in made.items() if it.kind.value == Kind.INT.value}


# ---- expressions, as a plan has them

def most_places(number: int, is_divisor: bool) -> int:
    """How many places the program may read in a literal of a product or a quotient: the zeros of a power of ten, and those that a divisor
    ends in."""
    digits = str(abs(number))
    zeros = len(digits) - len(digits.rstrip("0"))
    return zeros if number and (is_divisor or digits.rstrip("0") == "1") else 0


def _of_expression(expression: Any, schema: Schema, kind: ColumnKind) -> Made:
    names = _columns_of(expression)
    return Made(
        kind,
        is_read=_is_read(expression, schema),
        is_of_digits=not any(isinstance(schema[name], Decimal) for name in names),
        multiplies=_multiplies(expression),
        is_by_row=not (isinstance(expression, list) and expression[0] == "mod"),
        is_constant=not names,
    )


def _operands(expression: Any) -> List[Any]:
    return expression[1:] if isinstance(expression, list) else []


def _columns_of(expression: Any) -> Set[str]:
    """The names of the columns that an expression reads."""
    if isinstance(expression, dict):
        return {expression["col"]} if "col" in expression else set()
    return {name for operand in _operands(expression) for name in _columns_of(operand)}


def _multiplies(expression: Any) -> bool:
    """Whether an expression has a product of something with columns."""
    is_product = isinstance(expression, list) and expression[0] == "mul" and bool(_columns_of(expression))
    return is_product or any(map(_multiplies, _operands(expression)))


def _is_date(expression: Any, schema: Schema) -> bool:
    if isinstance(expression, dict):
        return "col" in expression and schema[expression["col"]] == Date
    return isinstance(expression, list) and expression[0] == "fill_null" and any(_is_date(it, schema) for it in expression[1:])


def _is_read(expression: Any, schema: Schema, is_divisor: bool = False) -> bool:
    """Whether the program reads the notation of an expression: whether no literal in it may move the point, or a sum says where it is."""
    if not isinstance(expression, list):
        return not isinstance(expression, int) or most_places(expression, is_divisor) == 0
    head, left, *rest = expression
    if not rest:
        return _is_read(left, schema, is_divisor)
    right = rest[0]
    if _is_date(left, schema) or _is_date(right, schema):
        return True
    if head in ("mul", "floordiv"):
        return _is_read(left, schema) and _is_read(right, schema, head == "floordiv")
    sides = [side for side in (left, right) if _columns_of(side)] or [left, right]
    return any(_is_read(side, schema) for side in sides)
