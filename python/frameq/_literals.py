"""Operators by value: what a decimal, a day or a whole number is as an int of the plan, and how operands come to one scale.

A number has the scale of the column that it meets, or raises that to its own. A comparison is as exact without that: what has more places
is in no column of that scale, so it is one with the int below it.
"""
import decimal
import operator
from typing import Any, Callable, Dict, Tuple, Union

from ._expressions import COMPARISONS, PARTS_OF_DATES, Node, has, kind_of, literal_by_itself, parts, shown
from ._faults import WrongKindError
from ._kinds import LEAST, MOST, MOST_PLACES, ColumnKind, Date, Decimal, Kind, Schema
from ._kinds import fits, floor_at, int_at, least_places_of, number_of_scale, places_of, scale_of
from ._made import most_places

# The operators whose operands have one scale.
_OF_ONE_SCALE = frozenset({*COMPARISONS, "add", "sub", "mod", "fill_null"})
_QUOTIENTS = ("floordiv", "quotient")
_TURNED = {"lt": "gt", "le": "ge", "gt": "lt", "ge": "le"}
_COMPARED: Dict[str, Callable[[Any, Any], bool]] = {
    "eq": operator.eq, "eq_missing": operator.eq, "ne": operator.ne,
    "lt": operator.lt, "le": operator.le, "gt": operator.gt, "ge": operator.ge,
}


def settled(node: Node, schema: Schema) -> Node:
    """A node over these columns with an int of the plan, of its kind, for each literal, and with operators of the plan alone."""
    has_notations = any(not isinstance(kind, Kind) for kind in schema.values()) or any(map(_is_noted, parts(node)))
    return _settled(node, schema) if has_notations else node


def _is_noted(part: Node) -> bool:
    """Whether a part by itself is a decimal, a date or a part of a date."""
    return part[0] in ("decimal", "quotient", *PARTS_OF_DATES) or (part[0] in ("lit", "null") and not isinstance(part[1], Kind))


def _settled(node: Node, schema: Schema) -> Node:
    head = node[0]
    if head == "decimal":
        return literal_by_itself(node[1])
    if head in ("col", "lit", "null"):
        return node
    if head in _QUOTIENTS:
        return _quotient(node, schema)
    if head in _OF_ONE_SCALE:
        return _of_one_scale(node, schema)
    after = tuple(_settled(part, schema) if isinstance(part, tuple) else part for part in node)
    return _part_of_date(after, schema) if head in PARTS_OF_DATES else after


# ---- numbers whose scale is that of what they meet

def _is_loose(node: Node) -> bool:
    """Whether a node is a number whose kind is that of what it meets."""
    return bool(node[0] == "decimal" or (node[0] == "lit" and node[1] == Kind.INT))


def _number_of(node: Node) -> Union[int, decimal.Decimal]:
    """The number that such a node is."""
    number: Union[int, decimal.Decimal] = node[-1]
    return number


def _places_of(node: Node) -> int:
    """How many digits such a node is written with behind the point."""
    number = _number_of(node)
    return places_of(number) if isinstance(number, decimal.Decimal) else 0


def _at_scale(node: Node, scale: int) -> Node:
    """Such a node as a number of a scale."""
    number, kind = int_at(_number_of(node), scale), number_of_scale(scale)
    if number is None:
        raise WrongKindError(f"{shown(node)} is no {kind!r} here: the int that it is does not fit 64 bits")
    return ("lit", kind, number)


# ---- operands at one scale

def _of_one_scale(node: Node, schema: Schema) -> Node:
    """An operation of two operands that have one scale: the lower one is raised."""
    head, left, right = node
    if _is_loose(left) and _is_loose(right):
        return _of_numbers(head, left, right)
    if _is_loose(left) or _is_loose(right):
        return _beside_number(node, schema)
    left, right = _settled(left, schema), _settled(right, schema)
    scales = [scale_of(kind_of(it, schema)) for it in (left, right)]
    if scales[0] is None or scales[1] is None:
        return (head, left, right)
    wanted = max(scales[0], scales[1])
    return (head, _raised(left, scales[0], wanted), _raised(right, scales[1], wanted))


def _raised(node: Node, scale: int, wanted: int) -> Node:
    """A number of a scale as one of another that is not less: times a power of ten."""
    if scale == wanted:
        return node
    if node[0] == "null":
        return ("null", number_of_scale(wanted))
    if node[0] != "lit":
        return ("mul", node, ("lit", Decimal(scale=wanted - scale), 10 ** (wanted - scale)))
    number = node[2] * 10 ** (wanted - scale)
    if not fits(number):
        raise WrongKindError(f"{shown(node)} is no {number_of_scale(wanted)!r} here: the int that it is does not fit 64 bits")
    return ("lit", number_of_scale(wanted), number)


def _of_numbers(head: str, left: Node, right: Node) -> Node:
    """An operation on two numbers: both have as many places as are written of one."""
    if head in COMPARISONS and "decimal" in (left[0], right[0]):
        return ("lit", Kind.BOOL, _COMPARED[head](_number_of(left), _number_of(right)))
    wanted = max(_places_of(left), _places_of(right))
    return (head, _at_scale(left, wanted), _at_scale(right, wanted))


def _beside_number(node: Node, schema: Schema) -> Node:
    """An operation on a number and on another operand. A comparison is exact, and elsewhere more places raise the operand's scale."""
    head, left, right = node
    is_right = _is_loose(right)
    operand, literal = (left, right) if is_right else (right, left)
    operand = _settled(operand, schema)
    kind = kind_of(operand, schema)
    scale = scale_of(kind)
    if head in COMPARISONS and _compares_exactly(literal, kind):
        return _compared(head, operand, literal, kind, is_right)
    if scale is None:
        return _placed(head, operand, _settled(literal, schema), is_right)
    wanted = max(scale, least_places_of(_number_of(literal)))
    return _placed(head, _raised(operand, scale, wanted), _at_scale(literal, wanted), is_right)


def _placed(head: str, operand: Node, literal: Node, is_right: bool) -> Node:
    return (head, operand, literal) if is_right else (head, literal, operand)


# ---- quotients

def _quotient(node: Node, schema: Schema) -> Node:
    """A quotient of numbers, whose ints are divided: the dividend has as many places more than the divisor as the quotient has."""
    head, left, right, *of_quotient = node
    scale = of_quotient[0] if of_quotient else 0
    left, right = (_at_least_scale(it) if _is_loose(it) else _settled(it, schema) for it in (left, right))
    of_left, of_right = (scale_of(kind_of(it, schema)) for it in (left, right))
    if of_left is None or of_right is None:
        if head == "quotient":
            raise WrongKindError(f"{shown(node)}: a quotient is of two numbers, each an Int64 or a Decimal")
        return ("floordiv", left, right)
    wanted = of_right + scale
    if of_left > wanted:
        return ("floordiv", left, _raised(right, of_right, of_left - scale))
    if of_left < wanted and wanted > MOST_PLACES:
        raise WrongKindError(f"{shown(node)}: the dividend has the places of the divisor and of the quotient, and {wanted} are too many")
    return ("floordiv", _raised(left, of_left, wanted), right)


def _at_least_scale(node: Node) -> Node:
    """A number whose kind is open, with as many places as it needs."""
    return _at_scale(node, least_places_of(_number_of(node)))


# ---- comparisons

def _compares_exactly(literal: Node, kind: ColumnKind) -> bool:
    """Whether a literal is compared as a number, or as the int of a date."""
    return isinstance(kind, Decimal) or (kind == Kind.INT and literal[0] == "decimal") or (kind == Date and literal[0] == "lit")


def _compared(head: str, operand: Node, literal: Node, kind: ColumnKind, is_right: bool) -> Node:
    """A comparison with a number, which may be between two values of the kind, or past all of them."""
    floor, is_exact = floor_at(_number_of(literal), kind.scale if isinstance(kind, Decimal) else 0)
    if is_exact and fits(floor):
        return _placed(head, operand, ("lit", kind, floor), is_right)
    if head == "eq_missing":
        return ("and", ("is_null", operand), ("lit", Kind.BOOL, False))
    head, bound = _bound(head if is_right else _TURNED.get(head, head), floor)
    return (head, operand, ("lit", kind, bound))


def _bound(head: str, floor: int) -> Tuple[str, int]:
    """What says of an int that it compares so with a number above this one, and below the next or past 64 bits. A null stays null."""
    if head in ("eq", "ne"):
        return {"eq": "gt", "ne": "le"}[head], MOST
    is_above = head in ("gt", "ge")
    if floor < LEAST:
        return "ge" if is_above else "lt", LEAST
    return "gt" if is_above else "le", min(floor, MOST)


# ---- dates

def _part_of_date(node: Node, schema: Schema) -> Node:
    """A part of a date, of the int YYYYMMDD."""
    head, date = node
    kind = kind_of(date, schema)
    if kind != Date:
        raise WrongKindError(f"{head} is a part of a Date, and this is a {kind!r}: give the column the kind Date in the schema")
    divided: Dict[str, Node] = {
        "dt.year": ("floordiv", date, ("lit", Kind.INT, 10_000)),
        "dt.month": ("mod", ("floordiv", date, ("lit", Kind.INT, 100)), ("lit", Kind.INT, 100)),
        "dt.day": ("mod", date, ("lit", Kind.INT, 100)),
    }
    return divided[head]


# ---- what the program reads otherwise

def with_constants_apart(node: Node, schema: Schema, column: Callable[[Node], Node]) -> Node:
    """A settled node in which a column stands for each part without columns that the program would not read as it is meant.

    It reads such a part as its neighbour in a sum, as a whole number in a product or a quotient, and beside a date as the digits of a day.
    """
    after = [with_constants_apart(part, schema, column) if isinstance(part, tuple) else part for part in node]
    if len(node) == 3 and isinstance(node[1], tuple) and _is_constant(node[1]) != _is_constant(node[2]):
        place, other = (1, 2) if _is_constant(node[1]) else (2, 1)
        if not _is_read(node[0], node[place], place == 2, kind_of(node[other], schema)):
            after[place] = column(node[place])
    return tuple(after)


def _is_constant(node: Node) -> bool:
    return not has(node, "col", "agg", "roll")


def _is_read(head: str, constant: Node, is_right: bool, beside: ColumnKind) -> bool:
    """Whether the program reads a part without columns as it is meant, on one side of an operator, beside a part of this kind."""
    if beside == Date:
        return constant[0] == "null" or (constant[0] == "lit" and (head in ("floordiv", "mod") or 10**7 <= abs(constant[2]) < 10**8))
    kind = kind_of(constant, {})
    if head not in ("mul", "floordiv") or not isinstance(kind, Decimal):
        return True
    return bool(constant[0] == "lit" and kind.scale <= most_places(constant[2], is_right and head == "floordiv"))
