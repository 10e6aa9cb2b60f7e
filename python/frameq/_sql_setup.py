"""Scripts that make the tables of a plan's query from the plan's files."""
import json
import os
import shlex
from typing import Any, Dict, List, Optional, Sequence, Union

from ._dialects import Dialect, Table, dialect_named, quoted_text
from ._kinds import Notations
from ._notations import words_of
from ._program import word_of_file
from ._sql import row_column, sources_of

# The columns that each table of PostgreSQL has by itself.
_OF_POSTGRES = ("tableoid", "xmin", "cmin", "xmax", "cmax", "ctid")

# What there is no script for, and what to do instead.
_NO_SCRIPT = {
    "sqlite": "sqlite's own shell reads an empty field as an empty text: fill the tables from Python, with None for null",
    "duckdb": "no script of duckdb was ever run: load what frameq prints of each file, and number the rows in order",
    "spark": "spark reads the rows of files in no order: number them in what frameq prints of each file, and load that",
}

# Filters of what frameq prints, so that psql takes all of it. A line `\.` would be the end for psql, also within a quoted field. In
# quotes of its own it is not, and a field goes on after them. A line would be cut at a character 0, which becomes a byte that is an error.
_FILTERS = r"""tr '\000' '\377' | sed 's/^\\\.\(.\{0,1\}\)$/"\\."\1/'"""


def sql_setup(
    plan: Dict[str, Any], files: Sequence[str], dialect: str = "postgres", tables: Optional[Sequence[Table]] = None,
    program: Union[str, "os.PathLike[str]"] = "frameq", notations: Optional[Notations] = None,
) -> str:
    """A script of psql that makes the tables of the query of `sql` from files, for PostgreSQL 15 or later.

    `files` are those of the plan in its order, and `tables` as `sql` has them. The script has `program` read each file, by the columns and
    the null values of its source, in the folder and on the machine on which psql runs. So a table has the rows that a run would read,
    with their numbers. All tables are made, or none: the script ends at the first file in which frameq finds a fault, at a table that is
    there already, and at a text with the character 0, which PostgreSQL has not.

    ValueError says that another dialect has no such script, that the plan has another number of files, or that a name is none that psql
    and PostgreSQL can have.
    """
    spellings = dialect_named(dialect)
    if dialect in _NO_SCRIPT:
        raise ValueError(f"there is a script for postgres alone: {_NO_SCRIPT[dialect]}")
    sources, names = sources_of(plan, tables)
    if sum(source["files"] for source in sources) != len(files):
        raise ValueError(f"the plan has {sum(source['files'] for source in sources)} files, and there are names for {len(files)}")
    if len(set(map(spellings.table, names))) < len(names):
        raise ValueError(f"each source has a table of its own: {names!r}")
    lines = ["\\set ON_ERROR_STOP on", "\\encoding UTF8", "BEGIN;"]
    left = list(files)
    for source, name in zip(sources, names):
        own, left = left[: source["files"]], left[source["files"]:]
        lines += _table(spellings, spellings.table(name), source, row_column(sources), own, os.fspath(program), notations or {})
    return "\n".join([*lines, "COMMIT;", ""])


def _table(
    dialect: Dialect, table: str, source: Dict[str, Any], row: str, files: Sequence[str], program: str, notations: Notations
) -> List[str]:
    """The statements that make and fill the table of a source."""
    columns = []
    for name, kind in source["columns"]:
        if name in _OF_POSTGRES:
            raise ValueError(f"each table of postgres has a column {name!r} by itself: rename it in the source and in its files")
        is_noted = kind == "int" and name in notations
        type_of = dialect.with_notations().type_of(notations[name]) if is_noted else dialect.types[kind]
        columns.append(f"{dialect.identifier(name)} {type_of}{dialect.by_bytes if kind == 'text' else ''}")
    items = ",\n  ".join([f"{dialect.identifier(row)} BIGINT GENERATED ALWAYS AS IDENTITY", *columns])
    names = ", ".join(dialect.identifier(name) for name, _ in source["columns"])
    words = f"WITH (FORMAT csv, HEADER MATCH, FORCE_NULL ({names}), ENCODING 'UTF8')"
    printed = [_printed(source, file, program, notations) for file in files]
    copies = [f"\\copy {table} ({names}) FROM PROGRAM {quoted_text(command)} {words}" for command in printed]
    for copy in copies:
        if "\n" in copy or "\r" in copy:
            raise ValueError(f"psql copies by one line, and a name in this one has more: {copy!r}")
    return [f"CREATE TABLE {table} (\n  {items}\n);", *copies, f"ANALYZE {table};"]


def _printed(source: Dict[str, Any], file: str, program: str, notations: Notations) -> str:
    """The command of a shell that prints what frameq reads in a file. Where frameq gives no frame, or not all of it, the command prints a
    record of too many fields, which is an error."""
    if file == "-":
        raise ValueError("the script reads no standard input: name a file")
    plan = {"version": 2, "sources": [{**source, "files": 1}], "steps": []}
    of_source = {name: notations[name] for name, kind in source["columns"] if kind == "int" and name in notations}
    words = " ".join(map(shlex.quote, [program, "--details", *words_of(of_source), "--plan", "-", word_of_file(file)]))
    return f"export LC_ALL=C; (printf %s {shlex.quote(json.dumps(plan))} | {words} || echo {',' * len(source['columns'])}) | {_FILTERS}"
