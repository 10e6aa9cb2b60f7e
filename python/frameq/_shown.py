"""How frames are shown: as a text, in a notebook, and column by column."""
import datetime
import decimal
from html import escape
from typing import Dict, Iterable, List, Sequence, Tuple

from ._kinds import Column, ColumnKind, Date, Decimal, Kind, Schema, Value

Rows = Sequence[Tuple[Value, ...]]

# How many rows are shown, and how many characters of a cell.
SHOWN_ROWS, _SHOWN_WIDTH = 10, 24

_SHORT: Dict[ColumnKind, str] = {Kind.INT: "<i64>", Kind.TEXT: "<str>", Kind.BOOL: "<bool>", Date: "<date>"}


def as_text(schema: Schema, height: int, rows: Rows) -> str:
    """A frame of this height, with its first rows."""
    kinds = schema.values()
    table = [list(map(_in_a_line, schema)), [repr(kind) for kind in kinds], *([_cell(value) for value in row] for row in rows)]
    widths = [max(len(line[place]) for line in table) for place in range(len(schema))]
    lines = ["  ".join(map(_placed, line, widths, kinds)).rstrip() for line in table]
    return "\n".join([_shape(schema, height), *lines, *_rest(height, rows)])


def as_html(schema: Schema, height: int, rows: Rows) -> str:
    """A frame of this height, with its first rows, as a table in HTML."""
    kinds = schema.values()
    head = _line("th", map(escape, schema), kinds) + _line("td", map(repr, kinds), kinds)
    body = "".join(_line("td", map(_cell_of_html, row), kinds) for row in rows)
    rest = "".join(f"<small>{it}</small>" for it in _rest(height, rows))
    return (
        f'<div><small>{_shape(schema, height)}</small><table border="1" class="dataframe" style="white-space: pre-wrap">'
        f"<thead>{head}</thead><tbody>{body}</tbody></table>{rest}</div>"
    )


def as_glimpse(schema: Schema, height: int, firsts: Iterable[Column], name_length: int) -> str:
    """A frame of this height, with a line for each column and its first values."""
    names = [name if len(name) <= name_length else name[: name_length - 1] + "…" for name in map(_in_a_line, schema)]
    kinds = [f"<decimal[*,{kind.scale}]>" if isinstance(kind, Decimal) else _SHORT[kind] for kind in schema.values()]
    of_names, of_kinds = max(map(len, names), default=0), max(map(len, kinds), default=0)
    values = [", ".join(map(_glimpsed, first)) for first in firsts]
    lines = [f"$ {name.ljust(of_names)} {kind.rjust(of_kinds)} {it}" for name, kind, it in zip(names, kinds, values)]
    return "\n".join([f"Rows: {height}", f"Columns: {len(schema)}", *lines, ""])


def _shape(schema: Schema, height: int) -> str:
    return f"shape: ({height}, {len(schema)})"


def _rest(height: int, rows: Rows) -> List[str]:
    """A line that says how many rows are not shown, if there are any."""
    return [] if len(rows) == height else [f".. {height - len(rows)} rows more"]


def _glimpsed(value: Value) -> str:
    return _plain(value) if isinstance(value, (decimal.Decimal, datetime.date)) else "null" if value is None else repr(value)


def _plain(value: Value) -> str:
    """A value as a text; of a decimal all digits."""
    return f"{value:f}" if isinstance(value, decimal.Decimal) else str(value)


def _in_a_line(text: str) -> str:
    """A text in which each character that is not printable, such as a line feed, is escaped."""
    return "".join(it if it.isprintable() else repr(it)[1:-1] for it in text)


def _cell(value: Value) -> str:
    text = _in_a_line("null" if value is None else str(value).lower() if isinstance(value, bool) else _plain(value))
    return text if len(text) <= _SHOWN_WIDTH else text[: _SHOWN_WIDTH - 2] + ".."


def _is_number(kind: ColumnKind) -> bool:
    return kind == Kind.INT or isinstance(kind, Decimal)


def _placed(text: str, width: int, kind: ColumnKind) -> str:
    return text.rjust(width) if _is_number(kind) else text.ljust(width)


def _cell_of_html(value: Value) -> str:
    """A cell in HTML, where a null does not look like a text."""
    return "<em>null</em>" if value is None else escape(_cell(value))


def _line(tag: str, cells: Iterable[str], kinds: Iterable[ColumnKind]) -> str:
    """A line of a table in HTML, with the numbers on the right."""
    sides = ("right" if _is_number(kind) else "left" for kind in kinds)
    return "<tr>" + "".join(f'<{tag} style="text-align: {side}">{cell}</{tag}>' for cell, side in zip(cells, sides)) + "</tr>"
