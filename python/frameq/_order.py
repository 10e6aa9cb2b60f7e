"""The order of sorted rows."""
from typing import List, NamedTuple, Sequence, Union

from ._kinds import Column


class SortKey(NamedTuple):
    """A column by which rows are sorted, and how: texts by their code points, false before true, nulls first or last."""

    values: Column
    descending: bool
    nulls_last: bool

    def sorted(self, places: List[int]) -> List[int]:
        """The places of rows in the order of this key. Rows that are equal by it stay in the order in which they are."""
        values = self.values
        nulls = [place for place in places if values[place] is None] if None in values else []
        rest = [place for place in places if values[place] is not None] if nulls else list(places)
        rest.sort(key=values.__getitem__, reverse=self.descending)  # type: ignore[arg-type]
        return rest + nulls if self.nulls_last else nulls + rest


def order_of(keys: Sequence[SortKey], height: int) -> List[int]:
    """The places of so many rows, sorted by the first key, and where rows are equal by it, by the next."""
    places = list(range(height))
    for key in reversed(keys):
        places = key.sorted(places)
    return places


def each_of(given: Union[bool, Sequence[bool]], count: int, what: str) -> List[bool]:
    """One truth value for each of so many keys."""
    values = [given] * count if isinstance(given, bool) else list(given)
    if len(values) != count:
        raise ValueError(f"the length of `{what}` ({len(values)}) does not match the length of `by` ({count})")
    return values
