"""Finds the program, and runs plans by it."""
import contextlib
import errno
import json
import os
import shutil
import subprocess
import sys
import tempfile
import warnings
from typing import IO, Any, Dict, Iterator, List, Mapping, NamedTuple, NoReturn, Optional, Sequence, Tuple, Union

from ._faults import ArgumentsError, PlanJsonError, ProgramNotFoundError, UnsupportedError, fault
from ._kinds import AnyKind, ColumnKind, Declared, Kind, Schema, is_unicode, kind_of_type, schema_of
from ._notations import words_of
from ._progress import open_screen, run_shown
from ._results import DataFrame, read_frame

Path = Union[str, "os.PathLike[str]"]
# The file of a plan, or its JSON object.
Plan = Union[Path, Dict[str, Any]]

_PACKAGE = os.path.dirname(os.path.abspath(__file__))
_REPOSITORY = os.path.dirname(os.path.dirname(_PACKAGE))
# The program of a wheel, which is inside the package.
_INSIDE = os.path.join(_PACKAGE, "bin", "frameq")
# What is said of an executable file that is no program, or one of another machine, or a script whose interpreter is not there or is none.
_NO_PROGRAM = (errno.ENOEXEC, errno.ENOENT, errno.EACCES)


class Settings(NamedTuple):
    """How to run a plan: rows in a batch, threads, and the program, each None for its default; and whether to show how far it is."""

    batch: Optional[int] = None
    workers: Optional[int] = None
    program: Optional[Path] = None
    progress: bool = False

    def words(self) -> List[str]:
        """The arguments that say so."""
        batch = [] if self.batch is None else ["--batch", str(self.batch)]
        return batch if self.workers is None else [*batch, "--workers", str(self.workers)]


def find_program(program: Optional[Path] = None) -> str:
    """The path of the program, from the root: the one given, or that of the variable FRAMEQ, or that inside this package, or `frameq` on
    the path, or that of the repository of this package.

    ProgramNotFoundError says that the one given, or that of FRAMEQ, is no program, or that there is none.
    """
    given = program or os.environ.get("FRAMEQ")
    if given:
        if not _can_be_argument(os.fspath(given)) or not os.access(given, os.X_OK) or os.path.isdir(given):
            raise ProgramNotFoundError(f"there is no program {os.fspath(given)!r}")
        return os.path.abspath(given)
    built = os.path.join(_REPOSITORY, "crates", "frameq", "out", "frameq")
    for place in (_INSIDE, shutil.which("frameq"), built, os.path.join(_REPOSITORY, "frameq")):
        if place and os.access(place, os.X_OK) and os.path.isfile(place):
            return os.path.abspath(place)
    raise ProgramNotFoundError("there is no program frameq: install a package that has it, or set FRAMEQ to where it is")


def run_inside() -> NoReturn:
    """The command `frameq` of a wheel: the program inside the package takes the place of this process."""
    os.execv(_INSIDE, ["frameq", *sys.argv[1:]])


def run_found() -> NoReturn:
    """The command `python -m frameq`: the program that this package finds takes the place of this process. If there is none, or it doesn't
    run on this machine, one line says so, and the exit status is 1.
    """
    try:
        os.execv(find_program(), ["frameq", *sys.argv[1:]])
    except OSError as error:
        sys.exit(f"frameq: {error}")


@contextlib.contextmanager
def _plan_file(plan: Plan) -> Iterator[str]:
    """The file of a plan; that of an object is there for a while."""
    if not isinstance(plan, dict):
        yield os.path.abspath(os.fspath(plan))
        return
    with tempfile.TemporaryDirectory(prefix="frameq-") as room:
        path = os.path.join(room, "plan.json")
        text = json.dumps(plan, ensure_ascii=False)
        if not is_unicode(text):
            raise PlanJsonError("plan: not JSON: a text has half of a surrogate pair")
        with open(path, "w", encoding="utf-8") as file:
            file.write(text)
        yield path


def _plan_object(plan: Plan) -> Optional[Dict[str, Any]]:
    """The JSON object of a plan, if it is one."""
    if isinstance(plan, dict):
        return plan
    try:
        with open(plan, encoding="utf-8") as file:
            given = json.load(file)
    except (OSError, ValueError, RecursionError):
        return None
    return given if isinstance(given, dict) else None


def names_of_files(given: Union[Path, Sequence[Path]], call: str) -> List[str]:
    """The names of files, of one or of several. UnsupportedError says that one is no name."""
    is_one = isinstance(given, (str, bytes, os.PathLike)) or hasattr(given, "read")
    files: Any = [given] if is_one else given
    names = [os.fspath(file) if isinstance(file, os.PathLike) else file for file in files]
    if not all(isinstance(name, str) for name in names):
        raise UnsupportedError(f"{call} takes names of files, and no open file or bytes; the name - is standard input")
    for name in names:
        if not _can_be_argument(name):
            raise UnsupportedError(f"no file has the name {name!r}: it has half of a surrogate pair, or a character 0")
    return names


def _can_be_argument(word: str) -> bool:
    """Whether a program can be given a word. A byte of a file's name that is not UTF-8 can be: the program says what is wrong with it."""
    try:
        return b"\0" not in os.fsencode(word)
    except UnicodeEncodeError:
        return False


def word_of_file(file: str) -> str:
    """A file as an argument: a name that looks like an option is one below this folder."""
    return os.path.join(os.curdir, file) if file.startswith("-") and file != "-" else file


def _run(
    plan: Plan,
    words: Sequence[str],
    files: Sequence[str],
    calls: Sequence[str],
    settings: Settings,
    out: Union[int, IO[bytes]],
) -> bytes:
    """Runs the program, and gives what it wrote if that is not written elsewhere. Raises its fault."""
    status, written, said = _answer(plan, words, files, settings, out)
    if status != 0:
        raise fault(said, status, _plan_object(plan), files, calls)
    if said:
        # (a program that is not built says that what ran is not proved; it is said of the call of the package's user)
        warnings.warn(said.strip(), stacklevel=4)
    return written


def _answer(
    plan: Plan, words: Sequence[str], files: Sequence[str], settings: Settings, out: Union[int, IO[bytes]]
) -> Tuple[int, bytes, str]:
    """Runs the program: its exit status, what it wrote if that is not written elsewhere, and what it said."""
    program = find_program(settings.program)
    with _plan_file(plan) as path:
        command = [program, "--plan", path, "--details", *settings.words(), *words, *map(word_of_file, files)]
        for word in command:
            if not _can_be_argument(word):
                raise ArgumentsError(f"no argument can be {word!r}: it has half of a surrogate pair, or a character 0")
        return _ran(command, out, settings.progress)


def printed(plan: Plan, words: Sequence[str], files: Sequence[str], settings: Settings) -> Tuple[int, bytes, str]:
    """Runs the program: its exit status, what it printed, and what it said."""
    with tempfile.TemporaryFile() as out:
        status, _, said = _answer(plan, words, files, settings, out)
        out.seek(0)
        return status, out.read(), said


def _ran(command: List[str], out: Union[int, IO[bytes]], progress: bool) -> Tuple[int, bytes, str]:
    """The exit status of a run, what it wrote if that is not written elsewhere, and what it said."""
    screen = open_screen() if progress else None
    try:
        if screen is not None:
            status, said = run_shown(command, out, screen)
            return status, b"", said.decode("utf-8", "replace")
        ran = subprocess.run(command, stdout=out, stderr=subprocess.PIPE, check=False)
    except OSError as error:
        if error.errno not in _NO_PROGRAM:
            raise
        raise ProgramNotFoundError(f"{command[0]!r} is no program that runs on this machine: {error.strerror}") from None
    return ran.returncode, ran.stdout or b"", ran.stderr.decode("utf-8", "replace")


# Here `words` are the arguments that say how columns are written.

def explain(plan: Dict[str, Any], words: Sequence[str], calls: Sequence[str], program: Optional[Path]) -> str:
    """What the program says of a plan."""
    return _run(plan, ["--explain", *words], [], calls, Settings(program=program), subprocess.PIPE).decode("utf-8")


def collect(
    plan: Plan, words: Sequence[str], files: Sequence[str], schema: Optional[Schema], calls: Sequence[str], settings: Settings
) -> DataFrame:
    """The frame that a plan makes of files."""
    with tempfile.TemporaryFile() as out:
        _run(plan, words, files, calls, settings, out)
        out.seek(0)
        return read_frame(out.read(), schema)


def sink(plan: Dict[str, Any], words: Sequence[str], files: Sequence[str], path: str, calls: Sequence[str], settings: Settings) -> None:
    """Has the program put what a plan makes of files in the place of a file."""
    _run(plan, ["--output", os.path.abspath(path), *words], files, calls, settings, subprocess.DEVNULL)


def run_plan(
    plan: Plan,
    files: Sequence[Path],
    *,
    schema: Optional[Mapping[str, AnyKind]] = None,
    notations: Optional[Mapping[str, ColumnKind]] = None,
    batch: Optional[int] = None,
    workers: Optional[int] = None,
    program: Optional[Path] = None,
    progress: bool = False,
) -> DataFrame:
    """Runs a plan that exists, a file or its JSON object, over files. Without the schema of its result each column is a text.

    `notations` says which int columns of its sources, or which steps make, are a Decimal or a Date, and which that steps make are an Int64,
    beside those of the schema. The other arguments are those of `collect`.

    Each fault of the run is a FrameqError by its name. ArgumentsError also says that the schema has other columns than the result,
    WrongKindError that a cell of the result is not of its kind, and UnsupportedError that a name is written in two ways, or that a file is
    no name. TypeError says that the schema, or `notations`, is no mapping.
    """
    names = names_of_files(files, "run_plan")
    columns = None if schema is None else schema_of(schema)
    words = words_of(_all_notations(columns or {}, notations or {}, plan))
    frame = collect(plan, words, names, columns, (), Settings(batch, workers, program, progress))
    if columns is not None:
        frame._values()  # (so a kind that is not the result's is refused by this call)
    return frame


def _all_notations(schema: Schema, given: Mapping[str, ColumnKind], plan: Plan) -> Declared:
    """The notations that are given, and those of the columns of a result. Under a source's name the result may have another."""
    if not isinstance(given, Mapping):
        raise TypeError(f"notations are a mapping of names to a Decimal or a Date, and not a {type(given).__name__}")
    notations: Declared = {name: kind_of_type(kind) for name, kind in given.items()}
    for name, kind in notations.items():
        if kind.value != Kind.INT.value:
            raise UnsupportedError(f"a notation is a Decimal or a Date, or an Int64 where it is digits, and not a {kind!r}, of {name!r}")
    for name, kind in schema.items():
        if not isinstance(kind, Kind) and notations.setdefault(name, kind) != kind and name not in _names_of_sources(plan):
            raise UnsupportedError(f"the column {name!r} is a {notations[name]!r} and a {kind!r}, and a run writes a name in one way")
    return notations


def _names_of_sources(plan: Plan) -> List[str]:
    """The columns of the sources of a plan, as far as it is one."""
    try:
        return [name for source in (_plan_object(plan) or {})["sources"] for name, _ in source["columns"]]
    except (KeyError, TypeError, ValueError):
        return []
