"""What the tests of SQL share: how to write plans, and random plans with what frameq says of them."""
import itertools
import os
import subprocess
import tempfile
from concurrent.futures import ThreadPoolExecutor
from typing import Any, Dict, Iterator, List, NamedTuple, Sequence

from repository import program

import cases
import oracle

SEED = os.environ.get("SEED", "1")

# How many processes of frameq run at once, and how many cases are drawn at a time.
PROCESSES = 2
BATCH = 100

LEAST, GREATEST = -(2**63), 2**63 - 1
A_B = [["a", "int"], ["b", "int"]]


def plan_of(sources, *steps) -> Dict[str, Any]:
    """A plan over sources with these columns, the last of which is the main one."""
    return {"version": 2, "sources": [{"files": 1, "columns": columns} for columns in sources], "steps": list(steps)}


def column(name: str) -> Any:
    return {"col": name}


def quoted(name: str) -> str:
    """A name as an identifier."""
    return '"' + name.replace('"', '""') + '"'


def row_name(sources: Sequence[Sequence[str]]) -> str:
    """The name of the column that numbers rows, as the documentation of `sql` says it, over sources with columns of these names."""
    name = "row"
    while any(name == column.casefold() for columns in sources for column in columns):
        name += "_"
    return name


class Answered(NamedTuple):
    """A random case, what frameq says of it, and its plan with the columns of its sources and those along its steps."""

    number: int
    case: cases.Case
    answer: oracle.Answer
    plan: Any = None
    sources: Any = ()
    along: Any = ()

    def tables(self) -> List[List[tuple]]:
        """The rows of each source, as the second implementation reads them, up to the first that is none."""
        streams = oracle.streams_of_sources(self.plan, self.sources, self.case.files)
        return [[tuple(map(as_text, row.values())) for row in stream.rows] for stream in streams]

    def rows(self, table: Sequence[Sequence[Any]]) -> List[Dict[str, Any]]:
        """Rows of an engine as the second implementation has them."""
        to_cell: dict = {"int": int, "text": str.encode, "bool": bool}
        columns = self.along[-1].items()
        return [{name: None if it is None else to_cell[kind](it) for (name, kind), it in zip(columns, row)} for row in table]


def as_text(cell):
    """A cell of the second implementation, of which a text is bytes, as engines take it."""
    return cell.decode() if isinstance(cell, bytes) else cell


def answered(path: str, number: int, case: cases.Case) -> Answered:
    """A case with what frameq says of it."""
    with tempfile.TemporaryDirectory() as folder:
        paths = [os.path.join(folder, name) for name in ["plan.json", *(f"{place}.csv" for place in range(len(case.files)))]]
        for name, data in zip(paths, [case.plan, *case.files]):
            with open(name, "wb") as file:
                file.write(data)
        words = [path, "--batch", str(case.batch), "--workers", "1", "--plan", *paths]
        ran = subprocess.run(words, capture_output=True, timeout=60, check=False)
    answer = oracle.Answer(ran.returncode, ran.stdout, ran.stderr)
    if answer.status not in (0, 4):
        return Answered(number, case, answer)
    plan = oracle.read_plan(case.plan)
    return Answered(number, case, answer, plan, *oracle.check(plan))


def random_cases() -> Iterator[List[Answered]]:
    """Random cases, some at a time, without end."""
    path, numbers = program(), itertools.count()
    with ThreadPoolExecutor(PROCESSES) as pool:
        while True:
            drawn = [(number, cases.case(SEED, number)) for number in itertools.islice(numbers, BATCH)]
            yield list(pool.map(lambda pair: answered(path, *pair), drawn))
