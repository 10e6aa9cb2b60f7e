"""Which numbers a float has exactly."""

MOST_EXACT = 2**53  # up to here each whole number is a float


class LeftOut(Exception):
    """A judge cannot run a plan, or not exactly."""
