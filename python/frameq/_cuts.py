"""Where a plan is cut: into steps that each file of its main source goes through by itself, and steps on the rows of all of them."""
import functools
import itertools
from typing import AbstractSet, Any, Container, Dict, Iterator, List, NamedTuple, Optional, Sequence, Set, Tuple

from ._kinds import Kind, Schema

# What a second grouping computes of the values that an aggregate has in the groups of parts. How many different values there are does not
# follow from how many each part has, so `n_unique` is not here.
_TOGETHER = {"len": "sum", "count": "sum", "sum": "sum", "min": "min", "max": "max", "first": "first", "last": "last"}
# The aggregates that are values of their column.
_OF_THE_COLUMN = ("min", "max", "first", "last")


class Cut(NamedTuple):
    """The steps on each file, then those on the rows of all files, and the number of the first of these; for both, the columns before
    each step and after the last.

    Without steps on all rows, the rows of the files are the result.
    """

    first: List[Dict[str, Any]]
    first_schemas: List[Schema]
    then: List[Dict[str, Any]]
    then_schemas: List[Schema]
    at: int


def first_of_many_rows(steps: Sequence[Dict[str, Any]]) -> int:
    """The number of the first step that looks at more than one row of the main source at a time, or how many steps there are."""
    return next((number for number, step in enumerate(steps) if "group_by" in step or "rolling_sum" in step), len(steps))


def cuts(steps: Sequence[Dict[str, Any]], schemas: Sequence[Schema], at: int, taken: Container[str]) -> Iterator[Cut]:
    """The ways to cut a plan before one of its steps, that which leaves the fewest rows first.

    `schemas` are the columns before each step, and after the last, and `taken` has the names that the plan has. The rows of a part are
    printed and read again, and a text that is empty and not null is read as null. So no way cuts the plan where such a text may be among
    them.
    """
    first, of_first, then, after = list(steps[:at]), list(schemas[: at + 1]), list(steps[at:]), list(schemas[at + 1 :])
    if not then:
        yield Cut(first, of_first, then, of_first[-1:], at)
        return
    empties, group = _columns_of_empty_texts(first), then[0].get("group_by")
    if group is not None:
        if _can_group_parts(group, empties):
            of_parts, columns, of_all = _grouped(group, of_first[-1], taken)
            yield Cut([*first, of_parts], [*of_first, columns], [of_all, *then[1:]], [columns, *after], at)
        needed = dict.fromkeys([*group["keys"], *(column for _, _, *of in group["aggs"] for column in of)])
        first.append({"select": [[name, {"col": name}] for name in needed]})
        of_first.append({name: of_first[-1][name] for name in needed})
    if not empties & set(of_first[-1]):
        yield Cut(first, of_first, then, [of_first[-1], *after], at)


def _can_group_parts(group: Dict[str, Any], empties: AbstractSet[str]) -> bool:
    """Whether the groups of parts can be grouped once more.

    The sum of a key is not: a part has its sums under the names of their columns, which is how a sum that is out of range is told.
    """
    keys, aggs = group["keys"], group["aggs"]
    of_texts = {*keys, *(column for _, function, *of in aggs for column in of if function in _OF_THE_COLUMN)}
    return all(agg[1] in _TOGETHER for agg in aggs) and not _summed(aggs) & set(keys) and not of_texts & empties


def _summed(aggs: Sequence[List[str]]) -> Set[str]:
    """The columns of sums."""
    return {column for _, function, *of in aggs for column in of if function == "sum"}


def _grouped(group: Dict[str, Any], columns: Schema, taken: Container[str]) -> Tuple[Dict[str, Any], Schema, Dict[str, Any]]:
    """The step by which the rows of each file are grouped, the columns after it, and the step by which all groups are grouped once more by
    the same keys."""
    keys, aggs = group["keys"], group["aggs"]
    others = _new_names(taken)
    after = {name: columns[name] for name in keys}
    of_parts, of_all = {}, []
    for name, function, *of in aggs:
        column = of[0] if function == "sum" else next(others)
        after[column] = columns[of[0]] if function in (*_OF_THE_COLUMN, "sum") else Kind.INT
        of_parts[column] = [column, function, *of]
        of_all.append([name, _TOGETHER[function], column])
    return {"group_by": {"keys": keys, "aggs": list(of_parts.values())}}, after, {"group_by": {"keys": keys, "aggs": of_all}}


def _new_names(taken: Container[str]) -> Iterator[str]:
    """Names that are not taken."""
    return (name for name in map("_{}".format, itertools.count()) if name not in taken)


def _columns_of_empty_texts(steps: Sequence[Dict[str, Any]]) -> Set[str]:
    """The columns after row-wise steps and joins that may have a text which is empty and not null. No file has one, only a literal is."""
    names: Set[str] = set()
    for step in steps:
        outputs = step.get("select", step.get("with_columns", []))
        new = {name for name, expression in outputs if _may_be_empty(expression, names)}
        names = new if "select" in step else names - {name for name, _ in outputs} | new
    return names


def _may_be_empty(expression: Any, names: AbstractSet[str]) -> bool:
    """Whether an expression may be a text which is empty and not null, if the columns of these names may be."""
    if isinstance(expression, list):
        return expression[0] == "fill_null" and any(_may_be_empty(part, names) for part in expression[1:])
    if isinstance(expression, dict):
        return expression.get("col") in names
    return bool(expression == "")


def gives_no_row_twice(join: Dict[str, Any]) -> bool:
    """Whether a join gives each left row once at most."""
    return join["how"] in ("semi", "anti")


def steps_to_most_matches(join: Dict[str, Any], taken: Container[str]) -> Optional[List[Dict[str, Any]]]:
    """The steps on the right source of a join that leave one row, whose last column says how many rows have the same keys at most, or no
    row. No column that they make has a name that is taken, by the source's columns, so each is in digits.

    None for a join that gives no left row twice.
    """
    if gives_no_row_twice(join):
        return None
    keys, (rows, every, most) = join["on"], itertools.islice(_new_names(taken), 3)
    present: List[Any] = [["is_not_null", {"col": key}] for key in keys]
    no_nulls = functools.reduce(lambda left, right: ["and", left, right], present)
    return [
        {"filter": join.get("nulls_equal", False) or no_nulls},
        {"group_by": {"keys": keys, "aggs": [[rows, "len"]]}},
        {"select": [[every, True], [rows, {"col": rows}]]},
        {"group_by": {"keys": [every], "aggs": [[most, "max", rows]]}},
    ]
