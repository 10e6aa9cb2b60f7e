"""Shows how far a run is.

The program draws that on a terminal alone. So its standard error is one here, and what it draws is passed on.
"""
import os
import re
import subprocess
import sys
from typing import IO, BinaryIO, List, NamedTuple, Optional, TextIO, Tuple, Union

_CLEAR = "\r\x1b[K"
# What is drawn while the program runs: how much of a file is read, in the place of what was drawn before, or, if more follows, nothing.
_DRAWN = re.compile(rb"\r\x1b\[K(?:frameq: file \d+: \d+ (?:of \d+ )?MB|(?=\r))")


class Screen(NamedTuple):
    """A terminal for the program's standard error, the end at which what it says arrives, and the stream on which it is drawn."""

    terminal: int
    arrivals: BinaryIO
    stream: TextIO


def open_screen() -> Optional[Screen]:
    """Where progress is shown: on standard error, if that is a terminal or a notebook's. None if it is a file or a pipe."""
    stream = sys.stderr
    in_notebook = type(stream).__module__.partition(".")[0] == "ipykernel"
    if not in_notebook and not getattr(stream, "isatty", bool)():
        return None
    try:
        import tty

        arrivals, terminal = os.openpty()
    except (ImportError, OSError):  # (this system has no terminals to open, or no more of them)
        return None
    tty.setraw(terminal)
    return Screen(terminal, open(arrivals, "rb", buffering=0), stream)


def run_shown(command: List[str], out: Union[int, IO[bytes]], screen: Screen) -> Tuple[int, bytes]:
    """Runs the program, and draws what it draws. Gives its exit status, and what else it said."""
    with screen.arrivals:
        try:
            process = subprocess.Popen([command[0], "--progress", *command[1:]], stdout=out, stderr=screen.terminal)
        finally:
            os.close(screen.terminal)
        with process:
            try:
                said = _pass_on(screen)
            except BaseException:
                process.kill()
                raise
    return process.returncode, said


def _pass_on(screen: Screen) -> bytes:
    """What arrives until the terminal is closed, but for what is drawn: that is passed on meanwhile."""
    said, drawn = b"", 0
    for piece in iter(lambda: _arrival(screen), b""):
        said, count = _DRAWN.subn(lambda found: _draw(found.group(), screen), said + piece)
        drawn += count
    if drawn:
        _draw(_CLEAR.encode(), screen)
    return said.replace(_CLEAR.encode(), b"")


def _arrival(screen: Screen) -> bytes:
    """Some bytes, or none once the terminal is closed."""
    try:
        return screen.arrivals.read(4096)
    except OSError:  # (so Linux says that it is)
        return b""


def _draw(text: bytes, screen: Screen) -> bytes:
    """Draws a text, of which then nothing is left."""
    screen.stream.write(text.decode())
    screen.stream.flush()
    return b""
