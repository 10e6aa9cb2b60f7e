"""Files that are written whole, or stay as they were."""
import contextlib
import errno
import itertools
import os
import stat
from typing import BinaryIO, Iterable, Iterator, Tuple, Union

from ._faults import WriteError


def write_whole(path: Union[str, "os.PathLike[str]"], text: Iterable[bytes]) -> None:
    """Puts a text, which is given in pieces, in the place of a file, as the program does by `--output`.

    A new file beside it is written, stored and renamed. A link is followed (one to nothing is refused), and the permissions of a file
    that is there are kept. A pipe or a device is written as it is.
    """
    with _write_errors():
        _write(os.fspath(path), text)


def check_place(path: str) -> None:
    """Raises if no file can be made that takes the place of a file."""
    with _write_errors():
        if _is_made_anew(path):
            file, new = _file_beside(os.path.realpath(path))
            file.close()
            os.unlink(new)
        elif os.path.isdir(path):
            raise IsADirectoryError(errno.EISDIR, os.strerror(errno.EISDIR), path)


@contextlib.contextmanager
def _write_errors() -> Iterator[None]:
    try:
        yield
    except (OSError, ValueError) as error:  # (the latter where no path has such a character)
        raise WriteError(f"write failed: {error}") from None


def _is_made_anew(path: str) -> bool:
    """Whether there is a file in a place, or nothing; and not a pipe or a device."""
    return not os.path.lexists(path) or stat.S_ISREG(os.stat(path).st_mode)


def _write(path: str, text: Iterable[bytes]) -> None:
    if not _is_made_anew(path):
        with open(path, "wb") as device:
            device.writelines(text)
        return
    place = os.path.realpath(path)
    file, new = _file_beside(place)
    try:
        with file:
            if os.path.lexists(path):
                os.fchmod(file.fileno(), stat.S_IMODE(os.stat(path).st_mode))
            file.writelines(text)
            file.flush()
            os.fsync(file.fileno())
        os.replace(new, place)
    except BaseException:
        with contextlib.suppress(OSError):
            os.unlink(new)
        raise


def _file_beside(place: str) -> Tuple[BinaryIO, str]:
    """A new file in the folder of a place, and its path."""
    numbers = itertools.count()
    while True:
        new = os.path.join(os.path.dirname(place), f".frameq-python-{next(numbers)}")
        with contextlib.suppress(FileExistsError):
            return open(new, "xb"), new
