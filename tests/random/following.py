"""How the ints of each column are written, as it follows through the steps of a plan from the columns that they are made of.

A notation is the scale of a decimal, which is 0 of digits, or DATE. Sums and comparisons want the same notation on both sides, products
add scales, and quotients subtract them. Some literals may move the point: then an expression has several possible scales, of which a name
has to say one. A plan is refused where no notation follows. Texts and truth values have none.

Columns are a dict from the names of those that are ints to their notations, and nothing here computes a value.
"""
import re
from collections import namedtuple

from plans import DATE, MOST_PLACES, Binary, Column, Ending, Filter, GroupBy, Join, Literal, RollingSum, Select, Unary, WithColumns

# What an int expression that is no date may be: the scales that are possible, and the one that is read, or None if a name has to say it.
Scales = namedtuple("Scales", "possible read")

DIGITS = Scales(frozenset([0]), 0)
ALL_SCALES = frozenset(range(MOST_PLACES + 1))
DIGITS_OF_A_DATE = 8

DIFFER = "notations differ"
UNNAMED = "a scale has to be named"

ARITHMETIC = ("add", "sub", "mul", "floordiv", "mod")
SUMS = ("add", "sub", "mod", "fill_null")
COUNTS = ("count", "len", "n_unique")


class Refusal(Exception):
    """Why a step or an item is refused."""


def refuse_if(condition, reason=DIFFER):
    if condition:
        raise Refusal(reason)


# ---- parts of expressions

def names_in(expression):
    """The names of the columns that an expression has."""
    if isinstance(expression, Column):
        return {expression.name}
    if isinstance(expression, Unary):
        return names_in(expression.operand)
    if isinstance(expression, Binary):
        return names_in(expression.left) | names_in(expression.right)
    return set()


def literal_of(expression):
    """The literal that an expression is, whatever signs stand before it, or None if it is none."""
    while isinstance(expression, Unary) and expression.operator == "neg":
        expression = expression.operand
    return expression if isinstance(expression, Literal) else None


def multiplies(expression):
    """Whether an expression has a product of something with columns."""
    if isinstance(expression, Unary):
        return multiplies(expression.operand)
    if not isinstance(expression, Binary):
        return False
    is_product = expression.operator == "mul" and bool(names_in(expression))
    return is_product or multiplies(expression.left) or multiplies(expression.right)


def digits_of(literal):
    """The digits of a literal, without its sign; those of a null are those of 0."""
    return str(abs(literal.cell or 0))


def moving(places):
    """What a literal may be that may move the point by so many places or fewer; one that moves it by none is digits."""
    return Scales(frozenset(range(places + 1)), None) if places else DIGITS


def of_factor(literal):
    """What a literal may be in a product or as a dividend: a power of ten may move the point."""
    digits = digits_of(literal)
    return moving(len(digits) - 1 if re.fullmatch("10+", digits) else 0)


def of_divisor(literal):
    """What a literal may be as a divisor: the zeros at its end may move the point."""
    digits = digits_of(literal)
    return moving(len(digits) - len(digits.rstrip("0")) if digits != "0" else 0)


# ---- expressions

def of_expression(expression, columns):
    """What an expression may be: Scales, DATE, or None if it is no int. All its parts are judged."""
    if isinstance(expression, Column):
        notation = columns.get(expression.name)
        return notation if notation in (None, DATE) else Scales(frozenset([notation]), notation)
    if isinstance(expression, Literal):
        return of_factor(expression) if expression.kind == "int" else None
    if isinstance(expression, Unary):
        operand = of_expression(expression.operand, columns)
        refuse_if(expression.operator == "neg" and operand == DATE)
        return operand if expression.operator == "neg" else None
    return of_operation(expression, *of_sides(expression, columns))


def of_sides(expression, columns):
    """What both sides of an operation may be. A literal is another one as a divisor."""
    left, divisor = of_expression(expression.left, columns), literal_of(expression.right)
    is_divisor = divisor is not None and expression.operator == "floordiv"
    return left, of_divisor(divisor) if is_divisor else of_expression(expression.right, columns)


def of_operation(expression, left, right):
    """What an operation may be, by what its sides may be."""
    if left is None:
        return None
    if DATE in (left, right) and expression.operator in ARITHMETIC:
        return of_part_of_date(expression, left, right)
    if expression.operator == "mul":
        return combined(left, right, 1)
    if expression.operator == "floordiv":
        return combined(left, right, -1)
    both = of_both(expression, left, right)
    return both if expression.operator in SUMS else None


def combined(left, right, sign):
    """The sums, or the differences, of one scale of each side."""
    possible = frozenset(one + sign * other for one in left.possible for other in right.possible) & ALL_SCALES
    refuse_if(not possible)
    return Scales(possible, None if None in (left.read, right.read) else left.read + sign * right.read)


def of_part_of_date(expression, left, right):
    """A date has quotients and rests by a literal or by what may be digits, which are digits, and no other arithmetic."""
    refuse_if(left != DATE or right == DATE or expression.operator not in ("floordiv", "mod"))
    has_digits = bool(names_in(expression.right)) and 0 in right.possible
    refuse_if(not has_digits and not literal_of(expression.right))
    return DIGITS


def of_both(expression, left, right):
    """What both sides of a sum, a comparison or the like may be, which is the same. A side without columns is what the other side is."""
    if DATE in (left, right):
        refuse_if(not is_beside_date(expression.left, left) or not is_beside_date(expression.right, right))
        return DATE
    if bool(names_in(expression.left)) != bool(names_in(expression.right)):
        return left if names_in(expression.left) else right
    possible = left.possible & right.possible
    refuse_if(not possible)
    return Scales(possible, right.read if left.read is None else left.read)


def is_beside_date(expression, side):
    """Whether one side of a comparison or of `fill_null` is a date, or a null or a literal of as many digits, since the other is a date."""
    literal = literal_of(expression)
    return side == DATE or literal is not None and (literal.cell is None or len(digits_of(literal)) == DIGITS_OF_A_DATE)


# ---- items: columns that a step makes

# What a step makes: what it may be, the notations of its columns, whether it may be a date if it is digits, and whether it multiplies.
Item = namedtuple("Item", "may_be notations may_be_date multiplies")

# What arguments say of names, which int columns the sources have, and the last step that makes each name.
Names = namedtuple("Names", "given of_sources last")


def item_of(expression, columns):
    """What an expression makes, or None if that is no int. Digits that are made row by row may be a date, but for a rest."""
    may_be = of_expression(expression, columns)
    if may_be is None:
        return None
    is_rest = isinstance(expression, Binary) and expression.operator == "mod"
    return Item(may_be, [columns[name] for name in names_in(expression)], not is_rest, multiplies(expression))


def item_of_column(notation):
    """What has the notation of a column, such as its greatest value."""
    return Item(DATE if notation == DATE else Scales(frozenset([notation]), notation), [notation], False, False)


def notation_of_item(names, n, name, item):
    """The notation of what step `n` makes under a name."""
    given = names.given.get(name)
    if not item.notations:
        return given or 0
    if name in names.of_sources:
        return under_name_of_source(given, item)
    if given is not None:
        return under_given_name(given, names.last[name] == n, item)
    notation = without_name(item)
    refuse_if(notation is None, UNNAMED)
    return notation


def read(item):
    """The notation that is read, or None."""
    return DATE if item.may_be == DATE else item.may_be.read


def without_name(item):
    """The notation of an item whose name says nothing: the one that is read, or digits if it has digits and dates alone, or else None."""
    if read(item) is None and all(notation in (0, DATE) for notation in item.notations):
        return 0
    return read(item)


def may_be_given(given, item):
    """Whether an item may have a notation that is given to its name."""
    if given == DATE:
        return item.may_be == DATE or without_name(item) == 0 and item.may_be_date
    return item.may_be != DATE and given in item.may_be.possible


def under_name_of_source(given, item):
    """The notation under a name that a source has, given or not. What is read counts, but digits don't stand for a source's decimals."""
    notation = without_name(item)
    if given == DATE and may_be_given(DATE, item):
        return DATE
    if notation is None:
        of_source = given or 0
        refuse_if(not (item.multiplies and may_be_given(of_source, item)), UNNAMED if given is None else DIFFER)
        return of_source
    refuse_if(notation == 0 and given not in (None, 0, DATE))
    return notation


def under_given_name(given, is_last, item):
    """The notation under a name that no source has: where a step is the last to make it, the given one. Digits may have any scale there."""
    if is_last:
        is_digits = given != DATE and set(item.notations) == {0}
        refuse_if(not is_digits and not may_be_given(given, item))
        return given
    if read(item) is None and may_be_given(given, item):
        return given
    notation = without_name(item)
    refuse_if(notation is None)
    return notation


def notation_of_count(names, n, name):
    """Counts are digits, which is refused under a name of which only an argument says otherwise."""
    says_otherwise = names.given.get(name, 0) != 0 and name not in names.of_sources
    refuse_if(says_otherwise and names.last[name] == n)
    return 0


# ---- steps

def judged(place, judge, *arguments):
    """A judgement, whose refusal names the place."""
    try:
        return judge(*arguments)
    except Refusal as refusal:
        raise Ending(2, f"--decimal, --date: {place}: {refusal}") from None


def columns_after(names, n, step, kinds, columns, joins):
    """The columns after step `n`, where those before it have these kinds; `joins` are the columns of the sources before the last."""
    if isinstance(step, Filter):
        judged(f"step {n}", of_expression, step.predicate, columns)
        return columns
    if isinstance(step, (WithColumns, Select)):
        made = {}
        for place, (name, expression) in enumerate(step.outputs):
            made[name] = judged(f"step {n}, item {place}", notation_of_output, names, n, name, expression, columns)
        return with_ints(columns if isinstance(step, WithColumns) else {}, made)
    if isinstance(step, Join):
        return after_join(names, n, step, kinds, columns, joins[step.source])
    if isinstance(step, GroupBy):
        made = {name: columns.get(name) for name in step.keys}
        for place, aggregate in enumerate(step.aggregates):
            made[aggregate.name] = judged(f"step {n}, item {place}", notation_of_aggregate, names, n, aggregate, columns)
        return with_ints({}, made)
    return {**columns, step.name: judged(f"step {n}", notation_of_sum, names, n, step.name, columns[step.column])}


def with_ints(columns, made):
    """Columns with those that are made, of which the ints have a notation."""
    return {name: notation for name, notation in {**columns, **made}.items() if notation is not None}


def is_itself(name, expression):
    """Whether an output is a column under its own name, which no step makes."""
    return isinstance(expression, Column) and expression.name == name


def notation_of_output(names, n, name, expression, columns):
    """The notation of an output, or None if it is no int. A column under its own name keeps what it has."""
    if is_itself(name, expression):
        return columns.get(name)
    item = item_of(expression, columns)
    return notation_of_item(names, n, name, item) if item else None


def notation_of_aggregate(names, n, aggregate, columns):
    """The notation of an aggregate, or None if it is no int."""
    if aggregate.function in COUNTS:
        return notation_of_count(names, n, aggregate.name)
    notation = columns.get(aggregate.column)
    if aggregate.function == "sum":
        return notation_of_sum(names, n, aggregate.name, notation)
    return None if notation is None else notation_of_item(names, n, aggregate.name, item_of_column(notation))


def notation_of_sum(names, n, name, notation):
    """The notation of a sum over rows; dates have none."""
    refuse_if(notation == DATE)
    return notation_of_item(names, n, name, item_of_column(notation))


def after_join(names, n, step, kinds, left, right):
    """The columns of both sides. Keys have the same notation, and so has a right column with a new name that only an argument knows."""
    for place, name in enumerate(step.on):
        judged(f"step {n}, item {place}", refuse_if, left.get(name) != right.get(name))
    if step.how in ("semi", "anti"):
        return left
    added = {}
    for name, notation in right.items():
        if name not in step.on:
            new = f"{name}_right" if name in kinds else name
            is_judged = new != name and new not in names.of_sources and names.last.get(new, -1) < n
            judged(f"step {n}", refuse_if, is_judged and names.given.get(new, notation) != notation)
            added[new] = notation
    return {**left, **added}


# ---- plans

def made_by(step):
    """The names that a step makes; those of a join come from a source."""
    if isinstance(step, (WithColumns, Select)):
        return [name for name, expression in step.outputs if not is_itself(name, expression)]
    if isinstance(step, GroupBy):
        return [aggregate.name for aggregate in step.aggregates]
    return [step.name] if isinstance(step, RollingSum) else []


def names_of(plan, sources, columns_along, given):
    of_sources = {name for kinds in sources for name, kind in kinds.items() if kind == "int"}
    last = {}
    for n, step in enumerate(plan.steps):
        last.update({name: n for name in made_by(step) if columns_along[n + 1][name] == "int"})
    return Names(given, of_sources, last)


def notations_along(plan, sources, columns_along, given):
    """The notations of the int columns before each step and after the last, where arguments give these to names. The columns of each
    source, and those before each step and after the last, are dicts from names to kinds."""
    names = names_of(plan, sources, columns_along, given)
    *joins, columns = [{name: given.get(name, 0) for name, kind in kinds.items() if kind == "int"} for kinds in sources]
    along = [columns]
    for n, (step, kinds) in enumerate(zip(plan.steps, columns_along)):
        columns = columns_after(names, n, step, kinds, columns, joins)
        along.append(columns)
    return along
