"""The CSV text of a frame, as the program prints it: read into columns, and printed."""
import datetime
import decimal
import json
import re
from itertools import islice
from typing import Any, Callable, Dict, Iterable, Iterator, List, Sequence, Tuple

from ._kinds import LEAST, MOST, Column, ColumnKind, Date, Decimal, Kind, Schema, Value, value_of_int

# How many bytes become cells at a time: few enough to stay in the caches meanwhile.
_PIECE = 1 << 14

_NEEDS_QUOTES = re.compile('[,"\r\n]')
_TRUTHS = {"": None, "true": True, "false": False}
_OF_TRUTHS = {value: cell for cell, value in _TRUTHS.items()}

# In the shape of a text each digit is a 0, and what is no digit, point, sign or comma is a question mark.
_SHAPES = bytes(ord("0" if chr(byte) in "0123456789" else chr(byte) if chr(byte) in ".-," else "?") for byte in range(256))


def names_of(text: bytes) -> List[str]:
    """The names of the columns."""
    return _cells(text[: end_of_names(text)].decode("utf-8")) if text else []


def end_of_names(text: bytes) -> int:
    """Where the rows begin."""
    return _end_of_record(text, 0, 0)


def columns_of(text: bytes, schema: Schema) -> List[Column]:
    """The values of each column. ValueError if a cell is none that the program prints of its column's kind."""
    readers = [_numbers_reader(kind.scale) if isinstance(kind, Decimal) else _READERS[kind] for kind in schema.values()]
    columns: List[Column] = [[] for _ in readers]
    for piece in _pieces(text, end_of_names(text)):
        cells = _cells(piece)
        for place, (column, read) in enumerate(zip(columns, readers)):
            try:
                column.extend(read(cells[place :: len(readers)]))
            except (KeyError, ValueError):
                wrong = next(cell for cell in cells[place :: len(readers)] if not _is_read(cell, read))
                name, kind = list(schema.items())[place]
                raise ValueError(f"{wrong!r} in the column {name!r} is no {kind!r}") from None
    return columns


def text_of(schema: Schema, columns: Sequence[Column]) -> str:
    """The text of a frame."""
    cells = [_printed(kind, values) for kind, values in zip(schema.values(), columns)]
    lines = [",".join(map(_quoted, schema)), *map(",".join, zip(*cells))]
    # (an empty line is no row)
    return "\n".join([*(line or '""' for line in lines), ""])


# ---- reading

def _end_of_record(text: bytes, start: int, near: int) -> int:
    """Where the first of the records from `start` on ends that does not end before `near`. A line feed in quotes ends no record."""
    end, quotes = start, 0
    while True:
        stop = text.find(b"\n", max(end, near)) + 1 or len(text)
        quotes += text.count(b'"', end, stop)
        end = stop
        if quotes % 2 == 0 or end == len(text):
            return end


def _pieces(text: bytes, start: int) -> Iterator[str]:
    """The text from the start of a record on, some whole records at a time."""
    while start < len(text):
        end = _end_of_record(text, start, start + _PIECE)
        yield text[start:end].decode("utf-8")
        start = end


def _cells(piece: str) -> List[str]:
    """The cells of whole records, one after another.

    What stands in quotes is taken out first, so that each comma and line feed that is left ends a cell. A cell in quotes is then one quote
    for each part of it, and a quote in it stands between two parts.
    """
    parts = piece.split('"')
    cells = '"'.join(parts[::2]).rstrip("\n").replace("\n", ",").split(",")
    if len(parts) == 1:
        return cells
    quoted = iter(parts[1::2])
    return [
        cell if '"' not in cell else next(quoted) if cell == '"' else '"'.join(islice(quoted, len(cell))) for cell in cells
    ]


def _is_read(cell: str, read: "_Reader") -> bool:
    """Whether a reader takes a cell."""
    try:
        return bool(list(read([cell])))
    except (KeyError, ValueError):
        return False


def _joined(cells: List[str]) -> Tuple[str, bytes]:
    """Cells with a comma after each, and the shape of that text."""
    text = ",".join([*cells, ""])
    return text, text.encode().translate(_SHAPES)


def _numbers_reader(scale: int) -> "_Reader":
    """What reads numbers of 64 bits that are printed with so many places behind the point.

    The reader of JSON is quick. In a text of this shape it takes what the program prints, and a 0 with a sign.
    """
    places = "." + "0" * scale if scale else ""
    # (what each number ends with, but a whole number has no point at all)
    end, signed_zero = f"{places},".encode() if scale else b".", f"-0{places},"
    # (a number of fewer digits fits 64 bits)
    many_digits = b"0" * (len(str(MOST)) - scale) + places[:1].encode()
    least, most = (value_of_int(bound, Decimal(scale=scale)) if scale else bound for bound in (LEAST, MOST))
    decode = json.JSONDecoder(parse_float=decimal.Decimal).decode

    def read(cells: List[str]) -> List[Value]:
        text, shape = _joined(cells)
        nulls = cells.count("")
        ends = len(cells) - nulls if scale else 0
        if b"?" in shape or signed_zero in text or shape.count(end) != ends:
            raise ValueError("not the numbers that are printed")
        values: List[Any] = decode("[" + (",".join([cell or "null" for cell in cells]) if nulls else text[:-1]) + "]")
        if len(values) != len(cells):
            raise ValueError("a comma in a number")
        if many_digits in shape:
            present = [value for value in values if value is not None] if nulls else values
            if min(present) < least or max(present) > most:
                raise ValueError("not of 64 bits")
        return values

    return read


def _read_texts(cells: List[str]) -> Sequence[Value]:
    if "" in cells:
        return [cell or None for cell in cells]
    return cells


def _read_truths(cells: List[str]) -> Iterable[Value]:
    return map(_TRUTHS.__getitem__, cells)


def _read_dates(cells: List[str]) -> List[Value]:
    _, shape = _joined(cells)
    if shape.replace(b"0000-00-00,", b"").strip(b","):
        raise ValueError("not dates as they are printed")
    of_text = datetime.date.fromisoformat
    return [of_text(cell) if cell else None for cell in cells]


_Reader = Callable[[List[str]], Iterable[Value]]
_READERS: Dict[ColumnKind, _Reader] = {
    Kind.INT: _numbers_reader(0), Kind.TEXT: _read_texts, Kind.BOOL: _read_truths, Date: _read_dates,
}


# ---- printing

def _quoted(text: str) -> str:
    """A text as a field, in quotes if it needs them."""
    return '"' + text.replace('"', '""') + '"' if _NEEDS_QUOTES.search(text) else text


def _printed(kind: ColumnKind, values: Iterable[Any]) -> Iterable[str]:
    """The cells of a column, whose values are of its kind."""
    if isinstance(kind, Decimal):
        return ["" if value is None else f"{decimal.Decimal(value):.{kind.scale}f}" for value in values]
    return _PRINTERS[kind](values)


_PRINTERS: Dict[ColumnKind, Callable[[Iterable[Any]], Iterable[str]]] = {
    Kind.INT: lambda values: ["" if value is None else str(value) for value in values],
    Kind.TEXT: lambda values: ["" if value is None else _quoted(value) for value in values],
    Kind.BOOL: lambda values: map(_OF_TRUTHS.__getitem__, values),
    Date: lambda values: ["" if value is None else value.isoformat() for value in values],
}
