"""Tasks of an executor, and what they tell."""
import functools
import os
import queue
import uuid
from typing import TYPE_CHECKING, Any, Dict, Generator, List, NamedTuple, Sequence, Tuple

from ._program import Settings, printed

if TYPE_CHECKING:
    from concurrent.futures import Executor

_PIECE = 1 << 20


class Told(NamedTuple):
    """The exit status of a run, what it printed, and what it said."""

    status: int
    printed: bytes
    said: str


# A pool of processes, or of machines, finds these functions by their names. Each call has an argument of its own, since some executors take
# calls with equal arguments for one, and a file may have changed since the last.

def _run(_: str, plan: Dict[str, Any], words: Sequence[str], files: Sequence[str], settings: Settings) -> Told:
    """Runs a plan."""
    return Told(*printed(plan, words, files, settings))


def _count(_: str, file: str) -> int:
    """As many rows as a file has at most, by its line ends."""
    with open(file, "rb") as lines:
        return 1 + sum(piece.count(b"\n") + piece.count(b"\r") for piece in iter(lambda: lines.read(_PIECE), b""))


def most_rows(executor: "Executor", files: Sequence[str]) -> int:
    """As many rows as files have at most."""
    return sum(executor.map(_count, _names(len(files)), files))


def run_all(
    executor: "Executor", runs: Sequence[Tuple[Dict[str, Any], Sequence[str], Sequence[str]]], settings: Settings, room: str
) -> Generator[Told, None, None]:
    """What the runs of plans, with arguments, over files tell, in their order.

    What comes before its turn waits in a file of a folder, so that it takes no memory.
    """
    arrived: "queue.SimpleQueue[int]" = queue.SimpleQueue()
    futures, early = {}, {}
    try:
        for number, (name, (plan, words, files)) in enumerate(zip(_names(len(runs)), runs)):
            futures[number] = executor.submit(_run, name, plan, words, files, settings)
            futures[number].add_done_callback(functools.partial(_note, arrived, number))
        for turn in range(len(runs)):
            while turn in futures:
                number = arrived.get()
                told = futures.pop(number).result()
                if number != turn:
                    early[number] = _laid_down(told, os.path.join(room, str(number)))
            yield _taken_up(*early.pop(turn)) if turn in early else told
    finally:
        for future in futures.values():
            future.cancel()


def _names(count: int) -> List[str]:
    """So many names that nothing else has."""
    return [f"{uuid.uuid4()}" for _ in range(count)]


def _note(arrived: "queue.SimpleQueue[int]", number: int, _: Any) -> None:
    arrived.put(number)


def _laid_down(told: Told, path: str) -> Tuple[Told, str]:
    """What was told, but for what was printed, and the file that has that."""
    with open(path, "xb") as file:
        file.write(told.printed)
    return told._replace(printed=b""), path


def _taken_up(told: Told, path: str) -> Told:
    """What was told, with what was printed; its file is gone then."""
    with open(path, "rb") as file:
        text = file.read()
    os.unlink(path)
    return told._replace(printed=text)
