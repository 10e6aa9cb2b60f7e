"""Reports over CSV files in Polars' own names, run by frameq.

What these calls write is a plan of frameq, and the program reads, checks and runs it: the answer is the same for any batch size and any
number of threads, or it is one fault by name.

    import frameq as fq

    report = (
        fq.scan_csv("orders.csv", schema={"region": fq.String, "units": fq.Int64, "unit_cents": fq.Int64})
        .with_columns(cents=fq.col("units") * fq.col("unit_cents"))
        .group_by("region", maintain_order=True)
        .agg(fq.len().alias("orders"), fq.col("cents").sum())
        .collect()
    )
"""
from typing import NoReturn as _NoReturn

# The version of the program and of the Python package, which pyproject.toml takes from here. tests/manual compares it with the program's.
__version__ = "0.1.0"

from ._expressions import Expr, all, col, lit
from ._expressions import length as len
from ._faults import (
    ArgumentsError,
    BadCellError,
    ColumnNotFoundError,
    DuplicateError,
    FileError,
    FrameqError,
    HeaderError,
    InputsError,
    JoinRowsError,
    MemoryError,
    MinSamplesError,
    NoColumnError,
    NoSuchSourceError,
    NotBooleanError,
    OverflowError,
    PlanError,
    PlanJsonError,
    PlanShapeError,
    ProgramNotFoundError,
    ReadError,
    RollingSumRangeError,
    SumRangeError,
    TooManyColumnsError,
    TooManyRowsError,
    UnsupportedError,
    WidthError,
    WindowError,
    WriteError,
    WrongKindError,
)
from ._frames import GroupBy, LazyFrame, scan_csv
from ._kinds import Boolean, Date, Decimal, Int64, Kind, String, Utf8
from ._program import run_plan
from ._results import DataFrame

__all__ = [
    "ArgumentsError", "BadCellError", "Boolean", "ColumnNotFoundError", "DataFrame", "Date", "Decimal", "DuplicateError", "Expr",
    "FileError", "FrameqError", "GroupBy", "HeaderError", "InputsError", "Int64", "JoinRowsError", "Kind", "LazyFrame", "MemoryError",
    "MinSamplesError", "NoColumnError", "NoSuchSourceError", "NotBooleanError", "OverflowError", "PlanError", "PlanJsonError",
    "PlanShapeError", "ProgramNotFoundError", "ReadError", "RollingSumRangeError", "String", "SumRangeError", "TooManyColumnsError",
    "TooManyRowsError", "UnsupportedError", "Utf8", "WidthError", "WindowError", "WriteError", "WrongKindError", "all", "col", "len", "lit",
    "run_plan", "scan_csv",
]

# What Polars has and this package has not, and what to do instead.
_INSTEAD = {
    "concat": "name all the files in one scan_csv",
    "read_csv": "scan_csv, and collect() at the end",
    "when": "filter each case, or join the values from a file",
    "date": "write datetime.date(2024, 3, 5)",
    "coalesce": "write a.fill_null(b)",
    **{name: f'write col("a").{name}()' for name in ("sum", "min", "max", "count", "first", "last", "n_unique")},
    "mean": "there are no floats: sum() // count() is the mean, rounded down, and sum().quotient(count(), 2) keeps two places of it",
}
_INSTEAD_OF_KINDS = {
    **dict.fromkeys(("Float32", "Float64"), "there are no floats: an amount is a Decimal(scale=2)"),
    **dict.fromkeys(("Int8", "Int16", "Int32", "UInt8", "UInt16", "UInt32", "UInt64"), "a whole number is an Int64"),
    **dict.fromkeys(("Datetime", "Time", "Duration", "Categorical", "Enum"), "read it as a String"),
}


def __getattr__(name: str) -> _NoReturn:
    if name in _INSTEAD:
        raise UnsupportedError(f"frameq has no {name}(): {_INSTEAD[name]}")
    if name in _INSTEAD_OF_KINDS:
        raise UnsupportedError(f"there is no kind {name}: {_INSTEAD_OF_KINDS[name]}")
    raise AttributeError(f"module {__name__!r} has no attribute {name!r}")
