"""Runs a report in parts: one for each file of its main source, as tasks of an executor, and one here over the rows that these gave.

The answer is that of one run over all files. A fault is told by a run here: by that of the part which has it, or, where an earlier row may
have another in a later step, by that of the whole plan up to that file.
"""
import contextlib
import itertools
import math
import operator
import os
import tempfile
import warnings
from typing import TYPE_CHECKING, Any, Dict, Iterator, List, NamedTuple, Optional, Sequence, Tuple, Union

from ._cuts import Cut, cuts, first_of_many_rows, gives_no_row_twice, steps_to_most_matches
from ._faults import FrameqError, SumRangeError, UnsupportedError, fault, renumbered
from ._kinds import Kind, Schema
from ._notations import declared, noted, words_of
from ._printed import end_of_names
from ._program import Settings, find_program, printed
from ._results import DataFrame, read_frame
from ._tasks import Told, most_rows, run_all
from ._whole import check_place, write_whole

if TYPE_CHECKING:
    from concurrent.futures import Executor

# Limits of the program.
MOST_FILES, _MOST_ROWS, _MOST_JOINED_ROWS = 16, 2_147_483_647, 4_294_967_295
# The exit statuses of a fault in what was read, and of a file that cannot be read.
_FAULT, _UNREAD = 4, 5
# A row has at least two characters, one of them its line end.
_LEAST_BYTES_OF_A_ROW = 2
# What any file may begin with. A header whose first name begins with this character is read without it, unless it stands twice.
_MARK = b"\xef\xbb\xbf"
_PIECE = 1 << 20


class Report(NamedTuple):
    """A plan, its files in order, the calls that made its steps, its columns before each step and after the last, and those of each source.
    """

    plan: Dict[str, Any]
    files: List[str]
    calls: Sequence[str]
    schemas: Sequence[Schema]
    sources: Sequence[Schema]


def collect(report: Report, executor: "Executor", settings: Settings) -> DataFrame:
    """The frame that a plan makes of files."""
    with tempfile.TemporaryDirectory(prefix="frameq-") as room:
        parts = _Parts(report, executor, settings, room)
        parts.check()
        last = parts.last()
        text = parts.done(last) if isinstance(last, _Run) else b"".join(_frame_of(last))
    _warn(parts)
    return read_frame(text, report.schemas[-1])


def sink(report: Report, path: str, executor: "Executor", settings: Settings) -> None:
    """Puts what a plan makes of files in the place of a file."""
    with tempfile.TemporaryDirectory(prefix="frameq-") as room:
        parts = _Parts(report, executor, settings, room)
        parts.check()
        check_place(path)
        last = parts.last()
        if isinstance(last, _Run):
            parts.done(last, ["--output", os.path.abspath(path)])
        else:
            write_whole(path, _frame_of(last))
    _warn(parts)


def _warn(parts: "_Parts") -> None:
    """Says of the call of the package's user what a program said beside an answer."""
    if parts.said:
        warnings.warn(parts.said, stacklevel=4)


class _Run(NamedTuple):
    """A plan that does steps of a report over files, the arguments that say how ints are written, the numbers of these files in the report,
    and that of the first of the steps."""

    plan: Dict[str, Any]
    words: List[str]
    files: List[str]
    numbers: List[int]
    first_step: int = 0


class _Words(NamedTuple):
    """The arguments that say how ints are written in each run of a cut: in a task, in what tells its fault here, and in the last run."""

    of_task: List[str]
    of_fault: List[str]
    of_rest: List[str]


class _Parts:
    """A report that is run in parts, and what a program said beside an answer."""

    def __init__(self, report: Report, executor: "Executor", settings: Settings, room: str) -> None:
        if not callable(getattr(executor, "submit", None)):
            raise TypeError(f"an executor is one of concurrent.futures, as ThreadPoolExecutor(4), and not a {type(executor).__name__}")
        if settings.progress:
            raise UnsupportedError("progress is shown of one run: leave out progress, or executor")
        self.said = ""
        self._report, self._executor, self._room = report, executor, room
        # (the tasks run the program that is found here)
        self._settings = settings._replace(program=find_program(settings.program))
        *self._sides, self._main = report.plan["sources"]
        self._steps = report.plan["steps"]
        # the number of the first of the main files
        self._first = sum(side["files"] for side in self._sides)
        self._files = report.files[self._first :]
        self._fits_one_run = len(report.files) <= MOST_FILES
        self._names = frozenset(name for columns in (*report.sources, *report.schemas) for name in columns)

    def check(self) -> None:
        """Raises what a run of all files says before it reads: of the plan, and of the first file that cannot be opened."""
        for file in self._report.files:
            if file == "-" or (os.path.exists(file) and not os.path.isfile(file) and not os.path.isdir(file)):
                raise UnsupportedError(f"each task reads files, and {file!r} can be read only once: write it to a file first")
        few = min(len(self._files), max(1, MOST_FILES - self._first))
        all_of = self._plan([*self._sides, {**self._main, "files": few}], self._steps)
        self.done(_Run(all_of, self._words(self._report.sources, self._steps, self._report.schemas), [], []), ["--explain"])
        for number, file in enumerate(self._report.files):
            if not _can_be_opened(file):
                source = self._source_of(number)
                alone = self._plan([{**self._report.plan["sources"][source], "files": 1}], [])
                self.done(_Run(alone, self._words_of_source(source), [file], [number]))

    def last(self) -> Union[_Run, str]:
        """The run that is left when the parts are there; or the file that has their rows, if these are the result."""
        refused = None
        for cut in cuts(self._steps, self._report.schemas, self._place(), self._names):
            if self._fits_one_run and cut.then and cut.then == self._steps:
                break
            try:
                words = self._words_of_cut(cut)
            except UnsupportedError as error:
                refused = error
                continue
            files = self._rows_of_parts(cut, words)
            if files is not None and not cut.then:
                return files[0]
            if files is not None:
                return self._run(cut.then, words.of_rest, files, [self._first] * len(files), _source(cut.then_schemas[0]), cut.at)
        if self._fits_one_run:
            return self._whole(self._files, range(self._first, len(self._report.files)))
        if refused is not None:
            raise UnsupportedError(
                f"over more than {MOST_FILES} files the rows of files are put together before the last steps, and there {refused}; or give "
                "the column that is put together another name, by alias"
            )
        raise UnsupportedError(
            f"over more than {MOST_FILES} files no text may be empty and not null where the rows of files are put together: let lit and "
            'fill_null give another text than ""'
        )

    def done(self, run: _Run, words: Sequence[str] = ()) -> bytes:
        """What a run here prints. Raises its fault."""
        return self._printed(run, Told(*printed(run.plan, [*words, *run.words], run.files, self._settings)))

    def _printed(self, run: _Run, told: Told) -> bytes:
        """What a run printed. Raises its fault."""
        if told.status != 0:
            raise self._fault(run, told)
        self.said = self.said or told.said.strip()
        return told.printed

    def _fault(self, run: _Run, told: Told) -> FrameqError:
        """The fault of a run, as the report has it."""
        said = renumbered(told.said, run.numbers, run.first_step)
        return fault(said, told.status, self._report.plan, self._report.files, self._report.calls)

    # Before the parts.

    def _source_of(self, number: int) -> int:
        """The number of the source of the file of this number."""
        ends = itertools.accumulate(source["files"] for source in self._report.plan["sources"])
        return next(source for source, end in enumerate(ends) if number < end)

    def _place(self) -> int:
        """The number of the step before which the plan is cut: the first that looks at more than one row.

        Or it is a join before it that may give more rows than a join gives, since that limit counts the rows of all files.
        """
        place = first_of_many_rows(self._steps)
        joins = [number for number in range(place) if "join" in self._steps[number]]
        full = place
        for rows, matches in self._most_of_joins([self._steps[number]["join"] for number in joins]) if joins else ():
            most = itertools.accumulate([rows, *matches], operator.mul)
            next(most)
            full = next((number for number, joined in zip(joins, most) if joined > _MOST_JOINED_ROWS), place)
            if full == place:
                break
        return full

    def _most_of_joins(self, joins: Sequence[Dict[str, Any]]) -> Iterator[Tuple[float, List[float]]]:
        """How many rows all main files have at most, and a row after each of joins: first what takes the least time to know."""
        rows = _most_rows_by_size(self._files)
        rights = [self._files_of_side(join["source"]) for join in joins]
        yield rows, [1 if gives_no_row_twice(join) else _most_rows_by_size(right) for join, right in zip(joins, rights)]
        matches = [self._most_matches(join, right) for join, right in zip(joins, rights)]
        yield rows, matches
        yield most_rows(self._executor, [os.path.abspath(file) for file in self._files]), matches

    def _most_matches(self, join: Dict[str, Any], right: List[str]) -> float:
        """How many rows a join gives at most for one."""
        steps = steps_to_most_matches(join, self._report.sources[join["source"]])
        if steps is None:
            return 1
        plan = self._plan([self._sides[join["source"]]], steps)
        status, text, _ = printed(plan, self._words_of_source(join["source"]), right, self._settings)
        # (a fault of these files is told by a run that joins them)
        return max([1, *(int(line.rpartition(b",")[2]) for line in text.splitlines()[1:])]) if status == 0 else math.inf

    # The parts.

    def _rows_of_parts(self, cut: Cut, words: _Words) -> Optional[List[str]]:
        """Files with the rows of all parts, in order; or none if a sum of a part is out of range, since that of all files may fit."""
        room = tempfile.mkdtemp(dir=self._room)
        rows = _Rows(room, _MOST_ROWS if cut.then else math.inf)
        tasks = [self._task(cut, words.of_task, number) for number in range(len(self._files))]
        runs = [(task.plan, task.words, task.files) for task in tasks]
        with contextlib.closing(run_all(self._executor, runs, self._settings, room)) as all_told:
            for number, (task, told) in enumerate(zip(tasks, all_told)):
                if told.status != 0:
                    break
                rows.add(self._printed(task, told))
            else:
                return rows.files
        if isinstance(self._fault(task, told), SumRangeError):
            return None
        if told.status in (_FAULT, _UNREAD):
            self.done(self._run_to_fault(cut, words.of_fault, number))
        # (a file is not the same here, or the task ended in another way)
        raise self._fault(task, told)

    def _task(self, cut: Cut, words: List[str], number: int) -> _Run:
        """The steps on a main file, over it and the sources up to the last that they join, with paths that are right in any folder."""
        sides = self._sides[: _sources_joined(cut.first)]
        numbers = [*range(sum(side["files"] for side in sides)), self._first + number]
        plan = self._plan([*sides, {**self._main, "files": 1}], cut.first)
        return _Run(plan, words, [os.path.abspath(self._report.files[file]) for file in numbers], numbers)

    def _run_to_fault(self, cut: Cut, words: List[str], number: int) -> _Run:
        """The run here that tells why the part of a main file has no rows.

        A grouping passes on the fault that its rows end in. Other steps may have one of their own at an earlier row.
        """
        if not cut.then or "group_by" in cut.then[0]:
            return self._run(cut.first, words, self._files[number : number + 1], [self._first + number])
        before, file = self._files[:number], self._files[number]
        if self._first + number + 1 > MOST_FILES:
            before = self._copied(before)
        return self._whole([*before, file], [*range(self._first, self._first + len(before)), self._first + number])

    def _copied(self, files: Sequence[str]) -> List[str]:
        """Fewer files with the same fields."""
        rows = _Rows(tempfile.mkdtemp(dir=self._room), _MOST_ROWS)
        plan = self._plan([{"files": 1, "columns": [[name, Kind.TEXT.value] for name, _ in self._main["columns"]]}], [])
        for number, file in enumerate(files):
            rows.add(self.done(_Run(plan, [], [file], [self._first + number])))
        return rows.files

    # Plans and files.

    def _plan(self, sources: Sequence[Dict[str, Any]], steps: Sequence[Dict[str, Any]]) -> Dict[str, Any]:
        return {**self._report.plan, "sources": list(sources), "steps": list(steps)}

    # How ints are written in a run follows from its own sources and steps: a column that a part makes is one of a source in the last run.

    def _words(self, sources: Sequence[Schema], steps: Sequence[Dict[str, Any]], schemas: Sequence[Schema]) -> List[str]:
        return words_of(declared(sources, steps, schemas))

    def _words_of_source(self, source: int) -> List[str]:
        return words_of(noted([self._report.sources[source]]))

    def _words_of_cut(self, cut: Cut) -> _Words:
        """Raises where a run of the cut would have a column for another kind than it is: it has other sources than a run of all steps."""
        *sides, main = self._report.sources
        of_task = self._words([*sides[: _sources_joined(cut.first)], main], cut.first, cut.first_schemas)
        of_fault = self._words(self._report.sources, cut.first, cut.first_schemas)
        return _Words(of_task, of_fault, self._words([*sides, cut.then_schemas[0]], cut.then, cut.then_schemas) if cut.then else [])

    def _whole(self, files: Sequence[str], numbers: Sequence[int]) -> _Run:
        """All steps over files of the main source."""
        return self._run(self._steps, self._words(self._report.sources, self._steps, self._report.schemas), files, numbers)

    def _run(
        self,
        steps: Sequence[Dict[str, Any]],
        words: List[str],
        files: Sequence[str],
        numbers: Sequence[int],
        source: Optional[Dict[str, Any]] = None,
        first: int = 0,
    ) -> _Run:
        """Steps over all sources that are joined, and files of the main source, or of another."""
        if self._first + len(files) > MOST_FILES:
            raise UnsupportedError("more rows of files are put together than one run takes: filter them before that, or group them")
        plan = self._plan([*self._sides, {**(source or self._main), "files": len(files)}], steps)
        return _Run(plan, words, [*self._report.files[: self._first], *files], [*range(self._first), *numbers], first)

    def _files_of_side(self, side: int) -> List[str]:
        """The files of a source that is joined."""
        start = sum(source["files"] for source in self._sides[:side])
        return self._report.files[start : start + self._sides[side]["files"]]


class _Rows:
    """The rows of printed frames, one frame after another, in as few files as may have so many rows each."""

    def __init__(self, room: str, most: float) -> None:
        self.files: List[str] = []
        self._room, self._most, self._lines = room, most, 0

    def add(self, frame: bytes) -> None:
        """Adds the rows of a frame, which has no more of them than lines."""
        lines = frame.count(b"\n")
        is_new = not self.files or self._lines + lines > self._most
        if is_new:
            self.files.append(os.path.join(self._room, f"rows-{len(self.files)}.csv"))
            self._lines = 0
        self._lines += lines
        with open(self.files[-1], "ab") as file:
            file.write(_MARK + frame if is_new else memoryview(frame)[end_of_names(frame) :])


def _sources_joined(steps: Sequence[Dict[str, Any]]) -> int:
    """How many sources there are up to the last that steps join."""
    return 1 + max((step["join"]["source"] for step in steps if "join" in step), default=-1)


def _source(columns: Schema) -> Dict[str, Any]:
    """A source with these columns."""
    return {"columns": [[name, kind.value] for name, kind in columns.items()]}


def _frame_of(path: str) -> Iterator[bytes]:
    """The pieces of the frame whose rows a file has."""
    with open(path, "rb") as file:
        file.seek(len(_MARK))
        yield from iter(lambda: file.read(_PIECE), b"")


def _can_be_opened(path: str) -> bool:
    try:
        with open(path, "rb"):
            return True
    except IsADirectoryError:  # (which can be opened, and not be read)
        return True
    except OSError:
        return False


def _most_rows_by_size(files: Sequence[str]) -> int:
    """As many rows as files have at most."""
    return sum(os.path.getsize(file) for file in files) // _LEAST_BYTES_OF_A_ROW
