"""The kinds of columns."""
import datetime
import decimal
import enum
from typing import Any, Dict, Iterable, List, Mapping, Optional, Tuple, Union

from ._faults import UnsupportedError

LEAST, MOST = -(2**63), 2**63 - 1
MOST_PLACES = 18
_EXACT = decimal.Context(prec=decimal.MAX_PREC, Emin=decimal.MIN_EMIN, Emax=decimal.MAX_EMAX)


class Kind(enum.Enum):
    """The kind of a column of a plan; its value is the word of the plan language."""

    INT = "int"
    TEXT = "text"
    BOOL = "bool"

    def __repr__(self) -> str:
        return _NAMES[self]


class Decimal:
    """Numbers with `scale` digits behind the point, 1 to 18. The plan has each as an int of 64 bits, which is 10^scale times as large.

    UnsupportedError says that there is another scale, or a precision.
    """

    __slots__ = ("scale",)
    value = Kind.INT.value

    def __init__(self, precision: None = None, scale: int = 0) -> None:
        if precision is not None:
            raise UnsupportedError("a Decimal has no precision, since it is an int of 64 bits: write Decimal(scale=2)")
        if not isinstance(scale, int) or isinstance(scale, bool) or not 1 <= scale <= MOST_PLACES:
            raise UnsupportedError(f"the scale of a Decimal is 1 to {MOST_PLACES}, and not {scale!r}: write Decimal(scale=2)")
        self.scale = scale

    def __repr__(self) -> str:
        return f"Decimal(scale={self.scale})"

    def __eq__(self, other: object) -> bool:
        return isinstance(other, Decimal) and self.scale == other.scale

    def __hash__(self) -> int:
        return hash((Decimal, self.scale))


class DateKind:
    """Days of the Gregorian calendar, of the years 1 to 9999. The plan has each as the int YYYYMMDD."""

    __slots__ = ()
    value = Kind.INT.value

    def __repr__(self) -> str:
        return "Date"

    def __eq__(self, other: object) -> bool:
        return isinstance(other, DateKind)

    def __hash__(self) -> int:
        return hash(DateKind)


Int64 = Kind.INT
String = Utf8 = Kind.TEXT
Boolean = Kind.BOOL
Date = DateKind()

# How ints are written in CSV, where not in digits; and the kind of a column here.
Notation = Union[Decimal, DateKind]
ColumnKind = Union[Kind, Notation]
Notations = Dict[str, Notation]
# What a run is told of names, where an Int64 is digits.
Declared = Dict[str, ColumnKind]

_NAMES = {Kind.INT: "Int64", Kind.TEXT: "String", Kind.BOOL: "Boolean"}
_OF_TYPES: Dict[Any, ColumnKind] = {int: Kind.INT, str: Kind.TEXT, bool: Kind.BOOL, datetime.date: Date}

# What names a kind: one of this module, or Python's own type.
AnyKind = Union[ColumnKind, type]
Schema = Dict[str, ColumnKind]

# A cell of a result, and those of a column. A null is None.
Value = Union[int, str, bool, decimal.Decimal, datetime.date, None]
Column = List[Value]


def kind_of_type(given: AnyKind) -> ColumnKind:
    """The kind that `Int64`, `String`, `Boolean`, `Decimal(scale=2)` or `Date`, or `int`, `str`, `bool` or `datetime.date`, names."""
    if isinstance(given, (Kind, Decimal, DateKind)):
        return given
    if isinstance(given, type) and given in _OF_TYPES:
        return _OF_TYPES[given]
    if given in (Decimal, decimal.Decimal):
        raise UnsupportedError("a Decimal has a scale, the number of digits behind the point: write Decimal(scale=2)")
    raise UnsupportedError(
        f"there is no kind {given!r}: a column is an Int64, a String, a Boolean, a Decimal(scale=2) or a Date. Read anything else as a "
        "String"
    )


def schema_of(given: Mapping[str, AnyKind]) -> Schema:
    """The schema with these names and kinds, in this order. TypeError says that it is no mapping."""
    if not isinstance(given, Mapping):
        raise TypeError(f"a schema is a mapping of names to kinds, as {{'id': Int64, 'name': String}}, and not a {type(given).__name__}")
    schema = {str(name): kind_of_type(kind) for name, kind in given.items()}
    check_unicode(schema, "the name of a column")
    return schema


def is_unicode(text: str) -> bool:
    """Whether a text can be written. Half of a pair of surrogates cannot."""
    try:
        text.encode()
    except UnicodeEncodeError:
        return False
    return True


def check_unicode(texts: Iterable[str], what: str) -> None:
    """Raises if one of these is no text, or cannot be written."""
    for text in texts:
        if not isinstance(text, str) or not is_unicode(text):
            raise UnsupportedError(f"{what} is a Unicode text, without half of a surrogate pair, and not {text!r}")


# ---- scales

def number_of_scale(scale: int) -> ColumnKind:
    """The kind of numbers with so many places: a decimal, or an Int64 if there are none."""
    return Decimal(scale=scale) if scale else Kind.INT


def scale_of(kind: ColumnKind) -> Optional[int]:
    """How many places the numbers of a kind have; None if these are no numbers."""
    return kind.scale if isinstance(kind, Decimal) else 0 if kind == Kind.INT else None


# ---- values and their ints

def fits(number: int) -> bool:
    """Whether a whole number fits 64 bits."""
    return LEAST <= number <= MOST


def places_of(number: decimal.Decimal) -> int:
    """How many digits a number has behind the point, as it is written."""
    return max(0, -int(number.as_tuple().exponent))


def least_places_of(number: Union[int, decimal.Decimal]) -> int:
    """How many digits a number needs behind the point."""
    return places_of(number.normalize(_EXACT)) if isinstance(number, decimal.Decimal) else 0


def floor_at(number: Union[int, decimal.Decimal], scale: int) -> Tuple[int, bool]:
    """The greatest whole number that is not above a number times 10^scale, and whether it is the same."""
    numerator, denominator = number.as_integer_ratio()
    floor, rest = divmod(numerator * 10**scale, denominator)
    return floor, rest == 0


def int_at(number: Union[int, decimal.Decimal], scale: int) -> Optional[int]:
    """The int that a number is as a decimal of a scale; None if it has more places, or does not fit 64 bits."""
    floor, is_exact = floor_at(number, scale)
    return floor if is_exact and fits(floor) else None


def int_of_day(day: datetime.date) -> int:
    """The int that a day is in a plan."""
    return day.year * 10_000 + day.month * 100 + day.day


def value_of_int(number: int, kind: Notation) -> Union[decimal.Decimal, datetime.date]:
    """The decimal, or the day, that an int is."""
    if isinstance(kind, Decimal):
        return decimal.Decimal((int(number < 0), tuple(map(int, str(abs(number)))), -kind.scale))
    return datetime.date(number // 10_000, number // 100 % 100, number % 100)
