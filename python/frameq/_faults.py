"""What is raised: one exception for each fault of the program, by its name."""
import builtins
import re
from typing import Any, Dict, List, Optional, Sequence, Tuple, Type


class FrameqError(Exception):
    """What every error of this package is.

    `line` is what the program said, `details` what it said more, and `status` its exit status. `file` is the path of the file that
    faulted, `row` its row after the header, from 1, and `column` the name of the column. `step` is the number of the plan's step, from
    0, `item` that of its output, and `call` the call that made the step. What a fault does not name is None; so is all of this, but for
    `details`, which are empty, where the package raises by itself.
    """

    line: Optional[str] = None
    details: Tuple[str, ...] = ()
    status: Optional[int] = None
    file: Optional[str] = None
    row: Optional[int] = None
    column: Optional[str] = None
    step: Optional[int] = None
    item: Optional[int] = None
    call: Optional[str] = None


class UnsupportedError(FrameqError, NotImplementedError):
    """A form that the plan language does not have. The message says what to do instead."""


class ProgramNotFoundError(FrameqError, FileNotFoundError):
    """There is no program to run."""


class ArgumentsError(FrameqError, ValueError):
    """The program refused its arguments (status 2), or a result has other columns than the schema that was given for it."""


class InputsError(ArgumentsError):
    """A plan was given more or fewer files than it has."""


class PlanError(FrameqError, ValueError):
    """The program refused the plan (status 3)."""


class PlanJsonError(PlanError):
    """The plan is not JSON."""


class PlanShapeError(PlanError):
    """The plan is JSON, and not a plan."""


class ColumnNotFoundError(PlanError, KeyError):
    """There is no column of that name."""

    __str__ = Exception.__str__


class WrongKindError(PlanError, TypeError):
    """An operand, a key or the column of a sum has another kind than it needs, or a cell of a result than its schema says."""


class DuplicateError(PlanError):
    """Two columns of a frame have one name, or a join has a key twice."""


class NotBooleanError(PlanError, TypeError):
    """The condition of a filter is no Boolean."""


class TooManyColumnsError(PlanError):
    """A frame has more than 64 columns."""


class NoColumnError(PlanError):
    """A source or a select has no column, a join or a grouping no key."""


class NoSuchSourceError(PlanError):
    """A join names a source that is none before the last."""


class WindowError(PlanError):
    """The window of a rolling sum is not 1 to 65,536."""


class MinSamplesError(PlanError):
    """The min_samples of a rolling sum are not 1 to its window."""


class FileError(FrameqError, ValueError):
    """What a file has is not what the plan says (status 4)."""


class HeaderError(FileError):
    """The header of a file is not the names of its schema, in order."""


class WidthError(FileError):
    """A row has more or fewer fields than the header."""


class BadCellError(FileError):
    """A field is not a value of its column's kind."""


class TooManyRowsError(FileError):
    """A file has more than 2,147,483,647 rows."""


class OverflowError(FrameqError, builtins.OverflowError):  # pylint: disable=redefined-builtin
    """A value does not fit 64 bits (status 4)."""


class SumRangeError(OverflowError):
    """The sum of a group does not fit 64 bits."""


class RollingSumRangeError(OverflowError):
    """A rolling sum does not fit 64 bits."""


class JoinRowsError(FrameqError, ValueError):
    """A join gives more than 4,294,967,295 rows (status 4)."""


class ReadError(FrameqError, OSError):
    """A file cannot be opened or read (status 5)."""


class WriteError(FrameqError, OSError):
    """The result cannot be written (status 5)."""


class MemoryError(FrameqError, builtins.MemoryError):  # pylint: disable=redefined-builtin
    """The program ran out of memory, or of threads (status 6)."""


# The lines of the program, and what each is raised as. Groups: f file, r row, c column, s step, i item.
_LINES: Tuple[Tuple[str, Type[FrameqError]], ...] = (
    (r"inputs: wanted \d+, got \d+", InputsError),
    (r"standard input \(-\) can be read only once", ArgumentsError),
    (r"the frame would replace the plan", ArgumentsError),
    (r"--decimal takes NAME=SCALE, with a scale from 0 to 18", ArgumentsError),
    (r"--decimal, --date: no such int column", ArgumentsError),
    (r"--decimal, --date: a name stands twice", ArgumentsError),
    (r"--decimal, --date: step (?P<s>\d+)(?:, item (?P<i>\d+))?: (?:notations differ|a scale has to be named)", ArgumentsError),
    (r"plan: not JSON", PlanJsonError),
    (r"plan: wrong shape", PlanShapeError),
    (r"plan: (?:source \d+|step (?P<s>\d+)): no such column", ColumnNotFoundError),
    (r"plan: (?:source \d+|step (?P<s>\d+)): wrong kind", WrongKindError),
    (r"plan: (?:source \d+|step (?P<s>\d+)): double name", DuplicateError),
    (r"plan: (?:source \d+|step (?P<s>\d+)): not a truth value", NotBooleanError),
    (r"plan: (?:source \d+|step (?P<s>\d+)): too many columns", TooManyColumnsError),
    (r"plan: (?:source \d+|step (?P<s>\d+)): no column", NoColumnError),
    (r"plan: (?:source \d+|step (?P<s>\d+)): no such source", NoSuchSourceError),
    (r"plan: (?:source \d+|step (?P<s>\d+)): window out of range", WindowError),
    (r"plan: (?:source \d+|step (?P<s>\d+)): min_samples out of range", MinSamplesError),
    (r"file (?P<f>\d+): header differs", HeaderError),
    (r"file (?P<f>\d+), row (?P<r>\d+): wrong number of fields", WidthError),
    (r"file (?P<f>\d+), row (?P<r>\d+), column (?P<c>\d+): bad cell", BadCellError),
    (r"file (?P<f>\d+): too many rows", TooManyRowsError),
    (r"step (?P<s>\d+), item (?P<i>\d+): overflow", OverflowError),
    (r"step (?P<s>\d+), item (?P<i>\d+): sum out of range", SumRangeError),
    (r"step (?P<s>\d+): rolling sum out of range", RollingSumRangeError),
    (r"step (?P<s>\d+): too many joined rows", JoinRowsError),
    (r"read failed: file (?P<f>\d+)", ReadError),
    (r"cannot read plan", ReadError),
    (r"write failed", WriteError),
    (r"out of memory", MemoryError),
)
_OF_STATUSES = {2: ArgumentsError, 3: PlanError, 4: FileError, 5: ReadError, 6: MemoryError}


def _columns_of_file(plan: Dict[str, Any], file: int) -> List[str]:
    """The names of the columns of the file with this number."""
    for source in plan["sources"]:
        if file < source["files"]:
            return [name for name, _ in source["columns"]]
        file -= source["files"]
    return []


def renumbered(said: str, files: Sequence[int], first_step: int) -> str:
    """What a run said, with the numbers of its files and of its steps in a larger run, where the first of its steps has this number."""
    said = re.sub(r"(?m)^(frameq: (?:read failed: )?file )(\d+)", lambda found: f"{found[1]}{files[int(found[2])]}", said)
    step = r"(?m)^(frameq: (?:--decimal, --date: )?step )(\d+)"
    return re.sub(step, lambda found: f"{found[1]}{first_step + int(found[2])}", said)


def fault(said: str, status: int, plan: Optional[Dict[str, Any]], files: Sequence[str], calls: Sequence[str]) -> FrameqError:
    """The exception of a run that ended with this status and said this on standard error."""
    # (a name in a line may have other characters at which Python's splitlines ends one)
    lines = said.split("\n")
    # (the last such line: a program that is not built yet says so before)
    line = next((it for it in reversed(lines) if it.startswith(("frameq: ", "error: "))), said.strip())
    if not line:
        line = f"the program was ended by signal {-status}" if status < 0 else f"the program ended with status {status}, and said nothing"
    text = line.removeprefix("frameq: ")
    for pattern, kind in _LINES:
        found = re.fullmatch(pattern, text)
        if found:
            break
    else:
        found, kind = None, _OF_STATUSES.get(status, FrameqError)
    groups = {name: int(value) for name, value in found.groupdict().items() if value is not None} if found else {}
    error = kind(text)
    error.line, error.status = line, status
    error.details = tuple(it[2:] for it in lines if it.startswith("  ")) if found else ()
    error.row, error.step, error.item = groups.get("r"), groups.get("s"), groups.get("i")
    if "f" in groups and groups["f"] < len(files):
        error.file = files[groups["f"]]
    if "c" in groups and plan:
        error.column = _columns_of_file(plan, groups["f"])[groups["c"]]
    if error.step is not None and error.step < len(calls):
        error.call = calls[error.step]
    where = [it for it in (error.file and f"in {error.file}", error.column and f'column "{error.column}"', error.call) if it]
    error.args = ("\n  ".join(["; ".join([text, *where]), *error.details]),)
    return error
