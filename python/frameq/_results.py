"""The result of a run, as a small frame."""
import os
from itertools import islice
from typing import IO, Any, Dict, Iterable, Iterator, List, Mapping, NoReturn, Optional, Sequence, Tuple, Union

from ._expressions import kind_of, plain_names
from ._faults import ArgumentsError, UnsupportedError, WrongKindError
from ._kinds import AnyKind, Column, ColumnKind, Date, Decimal, Kind, Schema, Value, schema_of
from ._order import SortKey, each_of, order_of
from ._pandas import frame_of_columns, frame_of_text
from ._printed import columns_of, names_of, text_of
from ._shown import SHOWN_ROWS, as_glimpse, as_html, as_text
from ._whole import write_whole

Row = Tuple[Value, ...]
Flags = Union[bool, Sequence[bool]]
File = Union[str, "os.PathLike[str]", IO[str], IO[bytes]]

# What a frame of Polars has, and here only a plan.
_OF_PLANS = ("filter", "with_columns", "select", "drop", "rename", "join", "group_by", "unique")


class DataFrame:
    """Rows and the names and kinds of their columns, by Polars' names. A null is None. It does not change: each method gives another.

    `DataFrame(schema, rows)` is one that no run gave: a mapping of names to kinds, and a tuple of values for each row, whose kinds are
    taken as right. ValueError names the first row that has more or fewer values than there are columns, from 1; TypeError says that the
    schema is no mapping, and UnsupportedError that there is no such kind.

    What the program printed is read where a value is first asked for: WrongKindError then says that a cell is not of its column's kind.
    """

    # What the program printed is read when a value is first asked for, and rows are made then, too.
    __slots__ = ("_schema", "_text", "_columns", "_rows")

    def __init__(self, schema: Mapping[str, AnyKind], rows: Iterable[Sequence[Value]]) -> None:
        self._schema: Schema = schema_of(schema)
        self._text: Optional[bytes] = None
        self._rows: Optional[List[Row]] = [tuple(row) for row in rows]
        for number, row in enumerate(self._rows, 1):
            if len(row) != len(self._schema):
                raise ValueError(f"row {number} has {len(row)} values, and there are {len(self._schema)} columns")
        self._columns: Optional[List[Column]] = [list(values) for values in zip(*self._rows)] or [[] for _ in self._schema]

    def __getattr__(self, name: str) -> NoReturn:
        if name in _OF_PLANS:
            raise UnsupportedError(f"a result has no {name}(): write it before collect(), where it is a step of the plan")
        raise AttributeError(f"a frame has no {name!r}")

    @classmethod
    def _of(cls, schema: Schema, *, text: Optional[bytes] = None, columns: Optional[List[Column]] = None) -> "DataFrame":
        """The frame of a text that the program printed, or of columns."""
        frame = cls.__new__(cls)
        frame._schema, frame._text, frame._columns, frame._rows = schema, text, columns, None
        return frame

    def _values(self) -> List[Column]:
        """The values of each column."""
        if self._columns is None:
            try:
                self._columns = columns_of(self._text or b"", self._schema)
            except (KeyError, ValueError) as error:
                raise WrongKindError(f"a cell of the result is not of the kind that the schema has: {error}") from None
        return self._columns

    def _tuples(self) -> List[Row]:
        """The rows."""
        if self._rows is None:
            self._rows = list(zip(*self._values()))
        return self._rows

    def _column(self, name: str) -> Column:
        """The values of the column of this name."""
        kind_of(("col", name), self._schema)
        return self._values()[self.columns.index(name)]

    @property
    def columns(self) -> List[str]:
        """The names of the columns."""
        return list(self._schema)

    @property
    def schema(self) -> Schema:
        """The names and kinds of the columns."""
        return dict(self._schema)

    @property
    def height(self) -> int:
        """The number of rows."""
        if self._rows is not None:
            return len(self._rows)
        return len(next(iter(self._values()), []))

    @property
    def width(self) -> int:
        """The number of columns."""
        return len(self._schema)

    @property
    def shape(self) -> Tuple[int, int]:
        """The numbers of rows and of columns."""
        return self.height, self.width

    def __len__(self) -> int:
        return self.height

    # Comparisons.

    def __eq__(self, other: object) -> bool:
        """Whether both have the same names and kinds in the same order, and the same values; a null is the same as a null.

        In Polars this compares value by value, and `equals` is what gives one answer.
        """
        return isinstance(other, DataFrame) and list(self._schema.items()) == list(other._schema.items()) and self._has_rows_of(other)

    __hash__ = None  # type: ignore[assignment]

    def equals(self, other: "DataFrame", *, null_equal: bool = True) -> bool:
        """Whether both are the same. Unless `null_equal`, no frame with a null is the same as any.

        TypeError says that `other` is no frame.
        """
        if not isinstance(other, DataFrame):
            raise TypeError(f"equals takes a frame, and not a {type(other).__name__}")
        return self == other and (null_equal or not any(None in values for values in self._values()))

    def _has_rows_of(self, other: "DataFrame") -> bool:
        """Whether a frame with the same columns has the same rows; those of one text are not read for that."""
        is_one_text = self._text is not None and self._text == other._text
        return is_one_text or (self.height == other.height and self._values() == other._values())

    # Columns.

    def __getitem__(self, column: str) -> Column:
        return list(self._column(column))

    def __iter__(self) -> Iterator[Column]:
        """The values of each column, as Polars goes over columns; `iter_rows` goes over rows."""
        return iter([list(values) for values in self._values()])

    def get_column(self, name: str) -> Column:
        """The values of a column, as `frame[name]`. ColumnNotFoundError says that there is none of that name."""
        return self[name]

    def get_columns(self) -> List[Column]:
        """The values of each column."""
        return list(self)

    def iter_columns(self) -> Iterator[Column]:
        """The values of each column, one after another."""
        return iter(self)

    def to_dict(self) -> Dict[str, Column]:
        """The values of each column, by its name."""
        return dict(zip(self.columns, self))

    # Rows.

    def rows(self, *, named: bool = False) -> List[Any]:
        """The rows as tuples, or as dictionaries."""
        if named:
            return self.to_dicts()
        return list(self._tuples())

    def iter_rows(self, *, named: bool = False) -> Iterator[Any]:
        """Each row as a tuple, or as a dictionary."""
        return iter(self.rows(named=named))

    def to_dicts(self) -> List[Dict[str, Value]]:
        """The rows as dictionaries."""
        return [dict(zip(self._schema, row)) for row in self._tuples()]

    def head(self, n: int = 5) -> "DataFrame":
        """The first `n` rows; if `n` is negative, all but so many of the last."""
        return self._of(self._schema, columns=[values[:n] for values in self._values()])

    limit = head

    def tail(self, n: int = 5) -> "DataFrame":
        """The last `n` rows; if `n` is negative, all but so many of the first."""
        return self._of(self._schema, columns=[values[-n:] if n else [] for values in self._values()])

    def sort(
        self,
        by: Any,
        *more_by: Any,
        descending: Flags = False,
        nulls_last: Flags = False,
        multithreaded: bool = True,
        maintain_order: bool = False,
    ) -> "DataFrame":
        """The rows sorted by columns: texts by their bytes, false before true, and nulls first, unless they are to be last.

        `descending` and `nulls_last` are of all the columns, or have a truth value for each. Rows that are equal by all of them stay in
        their order, whether that is asked for or not.

        ColumnNotFoundError says that a column is not there, UnsupportedError that one is computed, and ValueError that there are more or
        fewer truth values than columns.
        """
        names = plain_names((by, *more_by), self._schema, "sort")
        columns = [self._column(name) for name in names]
        ways = zip(columns, each_of(descending, len(names), "descending"), each_of(nulls_last, len(names), "nulls_last"))
        order = order_of([SortKey(*way) for way in ways], self.height)
        return self._of(self._schema, columns=[list(map(values.__getitem__, order)) for values in self._values()])

    # What is made of it.

    def write_csv(self, file: Optional[File] = None, **others: Any) -> Optional[str]:
        """The CSV text of the frame, byte for byte as the program prints it, or None once it is in a file.

        The file is a path, or a file that is open. At a path it is written whole or not at all, as by `sink_csv`: WriteError says that it
        cannot be. UnsupportedError says that there is another argument.
        """
        if others:
            raise UnsupportedError(f"write_csv has no {', '.join(others)}: there is a header, commas, and quotes where they are needed")
        text = text_of(self._schema, self._values()).encode() if self._text is None else self._text
        if file is None:
            return text.decode()
        if isinstance(file, (str, os.PathLike)):
            write_whole(file, [text])
        else:
            _write_to(file, text)
        return None

    def to_pandas(self) -> Any:
        """A frame of pandas, with nullable columns. What the program printed is read by pandas' own reader.

        A decimal is a `decimal.Decimal`, in a column of objects, and a date a `datetime64`. ImportError says that there is no pandas.
        """
        if not self._text or b"\0" in self._text:
            return frame_of_columns(self._schema, self._values())
        return frame_of_text(self._schema, self._text, self._column)

    def to_polars(self) -> Any:
        """A frame of Polars. ImportError says that there is none."""
        import polars

        kinds = {Kind.INT: polars.Int64, Kind.TEXT: polars.String, Kind.BOOL: polars.Boolean, Date: polars.Date}

        def of_polars(kind: ColumnKind) -> Any:
            return polars.Decimal(38, kind.scale) if isinstance(kind, Decimal) else kinds[kind]

        return polars.DataFrame(self.to_dict(), schema={name: of_polars(kind) for name, kind in self._schema.items()})

    # How it is shown.

    def glimpse(
        self,
        *,
        max_items_per_column: int = 10,
        max_colname_length: int = 50,
        return_type: Optional[str] = None,
        return_as_string: bool = False,
    ) -> Union[str, "DataFrame", None]:
        """Prints a line for each column: its name, its kind and its first values.

        With `return_type="string"`, or `return_as_string`, the text is given and not printed; with "self", this frame is given, too.
        UnsupportedError says that `return_type` is another.
        """
        if return_type not in (None, "self", "string"):
            raise UnsupportedError(f'a glimpse is a "string", or it gives "self", and not {return_type!r}: there are no lists')
        firsts = [values[:max_items_per_column] for values in self._values()]
        text = as_glimpse(self._schema, self.height, firsts, max_colname_length)
        if return_as_string or return_type == "string":
            return text
        print(text, end="")
        return self if return_type == "self" else None

    def __repr__(self) -> str:
        return as_text(self._schema, self.height, self._shown_rows())

    def _repr_html_(self) -> str:
        """A table in HTML, which a notebook shows."""
        return as_html(self._schema, self.height, self._shown_rows())

    def _shown_rows(self) -> List[Row]:
        return list(islice(zip(*self._values()) if self._rows is None else self._rows, SHOWN_ROWS))


def _write_to(file: Any, text: bytes) -> None:
    """Writes to a file that is open for texts or for bytes."""
    try:
        file.write(text.decode())
    except TypeError:
        file.write(text)


def read_frame(text: bytes, schema: Optional[Schema]) -> DataFrame:
    """The frame that the program printed. Without a schema each column is a text."""
    names = names_of(text)
    if schema is None:
        schema = dict.fromkeys(names, Kind.TEXT)
    if list(schema) != names:
        raise ArgumentsError(f"the result has the columns {names!r}, and the schema has {list(schema)!r}")
    return DataFrame._of(schema, text=text)
