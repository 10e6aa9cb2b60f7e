"""Plans as data, which the second implementation reads from JSON, and why there is no frame."""
from collections import namedtuple

Plan = namedtuple("Plan", "sources steps")
Source = namedtuple("Source", "files columns nulls")

Column = namedtuple("Column", "name")
Literal = namedtuple("Literal", "kind cell")
Unary = namedtuple("Unary", "operator operand")
Binary = namedtuple("Binary", "operator left right")

Filter = namedtuple("Filter", "predicate")
WithColumns = namedtuple("WithColumns", "outputs")
Select = namedtuple("Select", "outputs")
Join = namedtuple("Join", "source on how nulls_equal")
GroupBy = namedtuple("GroupBy", "keys aggregates")
RollingSum = namedtuple("RollingSum", "column window min_samples name")

# An output of a grouping; `len` reads no column.
Aggregate = namedtuple("Aggregate", "name function column")

# A notation is the scale of a decimal, from 0 to this, or DATE. Ints in digits have the scale 0.
DATE = "date"
MOST_PLACES = 18


class Ending(Exception):
    """Why there is no frame: the exit status, and the line that says so."""

    def __init__(self, status, line):
        super().__init__(line)
        self.status = status
        self.line = line
