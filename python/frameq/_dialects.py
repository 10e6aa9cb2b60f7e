"""What SQLite, PostgreSQL, DuckDB and Spark spell differently in SQL."""
import re
from typing import Callable, Dict, List, NamedTuple, Optional, Sequence, Tuple, Union

from ._kinds import LEAST, Decimal, Notation

# A table: its name, or the names of what it stands in, such as a schema, and its own.
Table = Union[str, Sequence[str]]


class Noted(NamedTuple):
    """How an engine makes ints of decimals and of dates, and these of ints. No decimal on the way has more than 38 digits."""

    quotient: str  # the operator that divides whole numbers
    part: str  # the type of what a day is made of

    @staticmethod
    def type_of(notation: Notation) -> str:
        """The type of a column."""
        return f"DECIMAL(19, {notation.scale})" if isinstance(notation, Decimal) else "DATE"

    @staticmethod
    def int_of(value: str, notation: Notation) -> str:
        """The int that a value is in a plan."""
        if isinstance(notation, Decimal):
            return f"CAST({value} * CAST(1{'0' * notation.scale} AS DECIMAL({notation.scale + 1}, 0)) AS BIGINT)"
        parts = [f"EXTRACT({part} FROM {value})" for part in ("YEAR", "MONTH", "DAY")]
        return f"CAST({parts[0]} * 10000 + {parts[1]} * 100 + {parts[2]} AS BIGINT)"

    def of_int(self, number: str, notation: Notation) -> str:
        """The value that an int of a plan is."""
        if isinstance(notation, Decimal):
            unit = f"CAST(0.{'1'.rjust(notation.scale, '0')} AS DECIMAL({notation.scale}, {notation.scale}))"
            return f"CAST(CAST({number} AS DECIMAL(19, 0)) * {unit} AS {self.type_of(notation)})"
        parts = [f"{number} {self.quotient} 10000", f"({number} {self.quotient} 100) % 100", f"{number} % 100"]
        return f"MAKE_DATE({', '.join(f'CAST({part} AS {self.part})' for part in parts)})"


class Dialect(NamedTuple):
    """The spellings of an engine."""

    name: str
    quote: str  # around an identifier, and twice for one inside it
    types: Dict[str, str]
    truths: Tuple[str, str]  # false and true
    same: str  # the operator that is true of two nulls, and false of a null and a value
    quotient: str  # the operator that divides whole numbers
    by_bytes: str  # stands after a text that is to be compared by its bytes
    kept: str  # stands before a subquery whose columns are to be computed once
    text: Callable[[str], str]  # a literal
    whole: Callable[[int], str]  # a literal
    total: Callable[[str, str], str]  # the sum of a column over a window or a group, judged as a whole
    no_name: str  # a pattern of the names that it cannot have
    fold: Callable[[str], str]  # two identifiers are the same if this makes them so
    most_bytes: Optional[int] = None  # of an identifier; what is longer it cuts
    least_and_greatest_truth: Tuple[str, str] = ("MIN", "MAX")  # the aggregates of truth values
    hashes_same: bool = True  # whether it joins by `same` without comparing each row with each
    computes_early: bool = False  # whether it computes what has no column before there is a row, and faults then
    noted: Optional[Noted] = None  # its decimals and dates, if it has both

    def with_notations(self) -> Noted:
        """How it has decimals and dates."""
        if self.noted is None:
            raise ValueError(
                f"{self.name} has no decimals and no dates: give its tables the ints, such as 1250 for 12.50 and 20240305 for a day, and "
                "these columns the kind Int64 in the schema of the scan whose query it is"
            )
        return self.noted

    def identifier(self, name: str) -> str:
        """A name as an identifier."""
        if not self.may_have(name):
            raise ValueError(
                f"{self.name} has no column or table named {name!r}: give it another name in the plan, and one of a source also in"
                " its files"
            )
        _utf8(name)
        return self.quote + name.replace(self.quote, self.quote * 2) + self.quote

    def may_have(self, name: str) -> bool:
        """Whether a name can be an identifier."""
        return self.cut(name) == name and not re.search(self.no_name, name)

    def cut(self, name: str, end: str = "") -> str:
        """A name with this end, and with as much of its front as an identifier has room for."""
        if self.most_bytes is None:
            return name + end
        return name.encode("utf-8", "surrogatepass")[: self.most_bytes - len(end)].decode("utf-8", "ignore") + end

    def table(self, table: Table) -> str:
        """A table, by each of its names."""
        return ".".join(map(self.identifier, names_of_table(table)))


def names_of_table(table: Table) -> List[str]:
    """The names of a table: its own is the last."""
    names = [table] if isinstance(table, str) else list(table)
    if not names:
        raise ValueError("a table has a name")
    return names


# ---- names and literals

def _utf8(text: str) -> bytes:
    """The bytes of a text; half of a pair of surrogates has none."""
    try:
        return text.encode("utf-8")
    except UnicodeEncodeError:
        raise ValueError(f"not a Unicode text: {text!r}") from None


def _ascii_lower(name: str) -> str:
    """A name with the letters A to Z made small."""
    return re.sub("[A-Z]+", lambda letters: letters.group().lower(), name)


def _any_lower(name: str) -> str:
    """A name in which two letters that are one in any letter case are the same."""
    return name.upper().lower()


def quoted_text(text: str) -> str:
    """A text in quotes, each of which is doubled within."""
    _utf8(text)
    return "'" + text.replace("'", "''") + "'"


def _sqlite_text(text: str) -> str:
    """A text of SQLite, where a query has no character 0."""
    if "\0" not in text:
        return quoted_text(text)
    return "(" + " || char(0) || ".join(quoted_text(part) for part in text.split("\0")) + ")"


def _postgres_text(text: str) -> str:
    """A text of PostgreSQL. What a backslash means in plain quotes depends on its settings."""
    if "\0" in text:
        raise ValueError("postgres has no text with the character 0")
    if "\\" in text:
        return "E" + quoted_text(text.replace("\\", "\\\\"))
    return quoted_text(text)


def _duckdb_text(text: str) -> str:
    if "\0" in text:
        raise ValueError("duckdb has no literal with the character 0: put the text into a table, and join that")
    return quoted_text(text)


def _spark_text(text: str) -> str:
    """A text of Spark. What backslashes, quotes and dollar signs mean there depends on its settings, so they are bytes."""
    if re.fullmatch(r"[\w .,:;/+-]*", text, re.ASCII):
        return f"'{text}'"
    return f"CAST(X'{_utf8(text).hex().upper()}' AS STRING)"


def _sqlite_whole(number: int) -> str:
    """A whole number. The least one is a difference, since its digits alone are past 64 bits."""
    if number == LEAST:
        return f"({LEAST + 1} - 1)"
    return str(number) if number >= 0 else f"({number})"


def _postgres_whole(number: int) -> str:
    """A whole number of 64 bits, where digits alone might have fewer."""
    return f"BIGINT '{number}'"


def _cast_whole(number: int) -> str:
    """A whole number of 64 bits, where digits alone might have fewer."""
    if number == LEAST:
        return f"(CAST({LEAST + 1} AS BIGINT) - CAST(1 AS BIGINT))"
    return f"CAST({number} AS BIGINT)"


# ---- sums

def _sqlite_total(column: str, over: str) -> str:
    """A sum in two halves of 32 bits each: SQLite ends with an error if a part of a sum is past 64 bits."""
    high, low = f"SUM({column} >> 32){over}", f"SUM({column} & 4294967295){over}"
    return f"(({high} + ({low} >> 32)) * 4294967296 + ({low} & 4294967295))"


def _wide_total(column: str, over: str) -> str:
    """A sum, which PostgreSQL and DuckDB keep in more than 64 bits."""
    return f"CAST(SUM({column}){over} AS BIGINT)"


def _spark_total(column: str, over: str) -> str:
    """A sum, with decimals on the way, which have room for it."""
    return f"CAST(SUM(CAST({column} AS DECIMAL(28, 0))){over} AS BIGINT)"


# ---- the dialects

DIALECTS = {
    "sqlite": Dialect(
        name="sqlite", quote='"', types={"int": "INTEGER", "text": "TEXT", "bool": "BOOLEAN"}, truths=("0", "1"),
        same="IS", quotient="/", by_bytes=" COLLATE BINARY", kept="MATERIALIZED ", text=_sqlite_text, whole=_sqlite_whole,
        total=_sqlite_total, no_name="\0", fold=_ascii_lower,
    ),
    "postgres": Dialect(
        name="postgres", quote='"', types={"int": "BIGINT", "text": "TEXT", "bool": "BOOLEAN"}, truths=("FALSE", "TRUE"),
        same="IS NOT DISTINCT FROM", quotient="/", by_bytes=' COLLATE "C"', kept="MATERIALIZED ", text=_postgres_text,
        whole=_postgres_whole, total=_wide_total, no_name=r"\0|\A\Z", fold=str, most_bytes=63,
        least_and_greatest_truth=("BOOL_AND", "BOOL_OR"), hashes_same=False, computes_early=True, noted=Noted("/", "INTEGER"),
    ),
    "duckdb": Dialect(
        name="duckdb", quote='"', types={"int": "BIGINT", "text": "TEXT", "bool": "BOOLEAN"}, truths=("FALSE", "TRUE"),
        same="IS NOT DISTINCT FROM", quotient="//", by_bytes="", kept="MATERIALIZED ", text=_duckdb_text, whole=_cast_whole,
        total=_wide_total, no_name=r"\0|\A\Z", fold=str.lower, noted=Noted("//", "BIGINT"),
    ),
    "spark": Dialect(
        name="spark", quote="`", types={"int": "BIGINT", "text": "STRING", "bool": "BOOLEAN"}, truths=("FALSE", "TRUE"),
        same="<=>", quotient="DIV", by_bytes="", kept="", text=_spark_text, whole=_cast_whole, total=_spark_total,
        no_name=r"\0|\A\Z|\$\{", fold=_any_lower, noted=Noted("DIV", "INT"),
    ),
}


def dialect_named(name: str) -> Dialect:
    """The dialect of this name."""
    if name not in DIALECTS:
        raise ValueError(f"no such dialect: {name!r}; there are {', '.join(DIALECTS)}")
    return DIALECTS[name]
