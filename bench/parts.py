#!/usr/bin/env python3
"""Times parts of frameq beside plain Rust twins that do the same work.

    bench/parts.py scan [MEGABYTES]     a scan of files; both programs run in turn
    bench/parts.py groups               groupings; each program prints its own times and sums
    bench/parts.py joins                joins; each program prints its own times and sums

Both have to give the same answers.

Each task is a folder here with a program over the crates, kept as text, which tools/stage proves and builds. The twin of `scan` is its
`twin.rs`, and those of the others are in `twins`. All are built first, with the Rattle toolchain and with `rustc` or `cargo`.
"""
import os
import random
import re
import statistics
import subprocess
import sys
import tempfile
import time

HERE = os.path.dirname(os.path.abspath(__file__))
RUNS = 5


def build(folder, task):
    """The path of the program of a task, which is proved and built in a folder."""
    words = [f"{HERE}/../tools/stage", "--build", f"bench/{task}", f"{folder}/{task}"]
    return subprocess.run(words, stdout=subprocess.PIPE, check=True, text=True).stdout.strip()


# ---- scan

def csv_file(folder, name, header, row, megabytes):
    """A file of about so many megabytes, whose rows `row` gives."""
    path = os.path.join(folder, name)
    with open(path, "w", encoding="ascii") as file:
        file.write(header + "\n")
        while file.tell() < megabytes * 1_000_000:
            file.write("".join(row() for _ in range(10_000)))
    return path


def scan_inputs(folder, megabytes):
    draw = random.Random(1)
    number = lambda: draw.randrange(-1_000_000, 1_000_000)
    ints = csv_file(folder, "ints.csv", "id,v", lambda: f"{number()},{number()}\n", megabytes)
    texts = csv_file(folder, "texts.csv", "id,name", lambda: f"{number()},customer {number()}\n", megabytes)
    return [("two ints", ints, []), ("int and text", texts, ["text"])]


def seconds(program, words, path):
    with open(path, "rb") as file:
        start = time.perf_counter()
        answer = subprocess.run([program, *words], stdin=file, stdout=subprocess.PIPE, check=True).stdout
        return time.perf_counter() - start, answer


def scan(folder, megabytes=200):
    own = build(folder, "scan")
    twin = f"{folder}/twin"
    subprocess.run(["rustc", "-O", "-C", "target-cpu=x86-64", "--edition", "2021", "-o", twin, f"{HERE}/scan/twin.rs"], check=True)
    for name, path, words in scan_inputs(folder, int(megabytes)):
        times, printed = {own: [], twin: []}, set()
        for _ in range(RUNS):
            for program in (own, twin):
                taken, answer = seconds(program, words, path)
                times[program].append(taken)
                printed.add(answer)
        if len(printed) != 1:
            sys.exit(f"scan, {name}: the answers differ")
        best = [min(times[program]) for program in (own, twin)]
        median = [statistics.median(times[program]) for program in (own, twin)]
        print(f"scan, {name}: {os.path.getsize(path)} bytes, {printed.pop().decode().strip()} rows; best {best[0]:.2f} s, "
              f"twin {best[1]:.2f} s, ratio {best[0] / best[1]:.2f}; median {median[0]:.2f} s, twin {median[1]:.2f} s")


# ---- groups and joins

def beside_twins(folder, task):
    own = build(folder, task)
    subprocess.run(["cargo", "build", "--release", "--offline", "--quiet", "--bin", task], cwd=f"{HERE}/twins", check=True,
                   env={**os.environ, "CARGO_TARGET_DIR": f"{folder}/twins"})
    if answers(own) != answers(f"{folder}/twins/release/{task}"):
        sys.exit(f"{task}: the answers differ")


def answers(program):
    """What a program computed: its lines, which are shown, without its name and its times."""
    said = subprocess.run([program], stdout=subprocess.PIPE, check=True, text=True).stdout
    print(said, end="", flush=True)
    return {re.sub(r"^[^,]*, (.*?):.*?(\d+ rows)", r"\1: \2", line) for line in said.splitlines()}


def groups(folder):
    beside_twins(folder, "groups")


def joins(folder):
    beside_twins(folder, "joins")


TASKS: dict = {"scan": scan, "groups": groups, "joins": joins}


if __name__ == "__main__":
    if len(sys.argv) < 2 or sys.argv[1] not in TASKS:
        sys.exit(__doc__)
    with tempfile.TemporaryDirectory() as room:
        TASKS[sys.argv[1]](room, *sys.argv[2:])
