"""Rows of calls of the libraries, in which each allocation fails in turn: the tests of tests/calls/src/refusals.rt.txt."""
import os
import re
import shutil
import subprocess

from counts import LONGEST_RUN, together
from trying import keep_program

HERE = os.path.dirname(os.path.abspath(__file__))
ROOT = os.path.dirname(os.path.dirname(HERE))
KIT = os.path.dirname(os.path.dirname(os.path.realpath(shutil.which("rt") or "/bin/rt")))
LONGEST_BUILD = 900  # seconds

FAILED_ALLOCATION = 1000  # the number that fails; the allocations before a row are as many as let it be in the row
LAST_UNMET = 20  # a row that starts threads has some allocations more or fewer; past its end, as many numbers in a row meet none


def build_calls(room):
    """Builds the tests by `rt try`, which runs each of them once. Gives their program, their names, and what was said.

    `rt try` builds anew for each number. So one number is built in, and the program is kept.
    """
    os.mkdir(room)
    subprocess.run([f"{ROOT}/tools/stage", "--add", "tests/calls", f"{room}/staged"], check=True)
    program, words = f"{room}/calls", ["--test", "--fail-alloc", str(FAILED_ALLOCATION), "--", "refusals::"]
    status, said = keep_program(words, f"{room}/staged/crates/fq_calls", room, program, LONGEST_BUILD)
    names = re.findall(r"^test (\S+) \.\.\. ok$", said, re.MULTILINE)
    return program if status == 0 and names and os.path.exists(program) else None, names, said


def run_calls(program, name, before):
    """What a test says of its row after so many allocations, or how it failed."""
    loader = [f"{KIT}/toolchain/lib/ld-linux-x86-64.so.2", "--inhibit-cache", "--library-path", f"{KIT}/toolchain/lib"]
    environment: dict = {}
    try:
        ran = subprocess.run([*loader, program, name, str(before)], stdin=subprocess.DEVNULL, stdout=subprocess.DEVNULL,
                             stderr=subprocess.PIPE, timeout=LONGEST_RUN, env=environment, check=False)
    except subprocess.TimeoutExpired:
        return "it did not end"
    said = ran.stderr.decode(errors="replace").strip()
    return said if ran.returncode == 0 else f"status {ran.returncode}: {said[-400:]}"


def try_row(count, program, name):
    """Makes each allocation of a row fail, from the last one before it on."""
    kind, unmet = f"calls: {name.removeprefix('refusals::')}", 0
    for it in range(1, FAILED_ALLOCATION + 1):
        ending = run_calls(program, name, FAILED_ALLOCATION - it)
        is_right = ending in ("early", "unmet", "failed", "same") and (ending == "early" or it > 1)
        count.add(kind, ending if is_right else "wrong", None if is_right else f"allocation {it}: {ending}")
        unmet = unmet + 1 if ending == "unmet" else 0
        if unmet == LAST_UNMET:
            return
    count.add(kind, "incomplete", f"it needs more than {FAILED_ALLOCATION} allocations")


def try_calls(count, pool, room):
    if not shutil.which("rt"):
        count.add("calls", "not run", "there is no rt")
        return
    program, names, said = build_calls(room)
    if not program:
        count.add("calls", "not built", f"the rows are not built, or do not pass:\n{said}")
        return
    together(((try_row, count, program, name) for name in names), pool)
