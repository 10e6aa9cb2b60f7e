"""Frames of pandas, with nullable columns."""
import io
from typing import Any, Callable, Dict, Sequence

from ._kinds import Column, ColumnKind, Date, Kind, Schema

_KINDS: Dict[ColumnKind, str] = {Kind.INT: "Int64", Kind.TEXT: "string", Kind.BOOL: "boolean"}

# Whole numbers from the negative of this one to it are floats without loss.
_MOST_EXACT = 2**53 - 1
_LEAST = str(-(2**63)).encode()


def frame_of_columns(schema: Schema, columns: Sequence[Column]) -> Any:
    """The frame of these values."""
    import pandas

    return pandas.DataFrame({name: _array_of(kind, values) for (name, kind), values in zip(schema.items(), columns)})


def frame_of_text(schema: Schema, text: bytes, values_of: Callable[[str], Column]) -> Any:
    """The frame of a CSV text without a character 0, by the reader of pandas. `values_of` gives a column that this reader may change."""
    import pandas

    frame = pandas.read_csv(
        io.BytesIO(text),
        header=0,
        names=list(schema),
        index_col=False,
        dtype={name: _KINDS.get(kind, "string") for name, kind in schema.items() if kind != Kind.INT},
        keep_default_na=False,
        na_values=[""],
        skip_blank_lines=False,
        low_memory=False,
    )
    frame.index = pandas.RangeIndex(len(frame))  # (without rows it is another)
    for name, kind in schema.items():
        if kind == Kind.INT:
            frame[name] = _array_of(kind, values_of(name)) if _may_be_changed(frame[name], text) else _nullable(frame[name])
        elif kind not in _KINDS:
            frame[name] = _array_of(kind, values_of(name))
    return frame


def _array_of(kind: ColumnKind, values: Column) -> Any:
    """The values as an array: decimals as objects, and dates in seconds; pandas before 2 has nanoseconds, and few centuries of them."""
    import numpy
    import pandas

    if kind in _KINDS:
        return pandas.array(values, dtype=_KINDS[kind])
    if kind == Date:
        return pandas.Series(numpy.array(values, dtype="datetime64[s]")).array
    return pandas.array(values, dtype=object)


def _may_be_changed(column: Any, text: bytes) -> bool:
    """Whether whole numbers may be others than in the text. Beside nulls pandas reads them as floats, and the least of them as a null."""
    return column.dtype.kind == "f" and (_LEAST in text or bool((column.abs() > _MOST_EXACT).any()))


def _nullable(column: Any) -> Any:
    """Whole numbers, and nulls, that were read as numbers of another kind."""
    import pandas

    return pandas.arrays.IntegerArray(column.fillna(0).to_numpy().astype("int64"), column.isna().to_numpy())
