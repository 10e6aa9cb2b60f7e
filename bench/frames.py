#!/usr/bin/env python3
"""Times what the Python package makes of results, beside Python's csv, and pandas if this Python has it.

    bench/frames.py [--rows N] [--runs N] [--program PATH]

Two files are made, those of bench/program.py: N rows of sales, with 4 columns, and N/6 of visits, with 12, some of them quoted. A plan
without steps gives the same rows again. A line has the best and the median seconds of a call, and the best as a part of what csv.reader
takes to read the file into a list, and to go over its rows without keeping them. In each round each call runs once, in a process of its
own.
"""
import argparse
import csv
import importlib
import os
import statistics
import subprocess
import sys
import tempfile
import time

import program

ROOT = os.path.dirname(os.path.dirname(os.path.abspath(__file__)))
sys.path.insert(0, os.path.join(ROOT, "python"))

import frameq as fq

SALES = {"id": fq.Int64, "region": fq.String, "quantity": fq.Int64, "cents": fq.Int64}
VISITS = {
    **dict.fromkeys(["visit"], fq.Int64),
    **dict.fromkeys(["host", "path", "agent", "referrer", "city", "address", "note"], fq.String),
    **dict.fromkeys(["bytes", "millis", "status"], fq.Int64),
    "cached": fq.Boolean,
}
FILES = {"sales": (SALES, program.make_sales), "visits": (VISITS, lambda path, rows: program.make_visits(path, rows // 6))}


def go_over_csv(path, _):
    with open(path, encoding="utf-8", newline="") as file:
        for _ in csv.reader(file):
            pass


def read_by_csv(path, _):
    with open(path, encoding="utf-8", newline="") as file:
        return list(csv.reader(file))


def read_by_pandas(path, _):
    import pandas

    return pandas.read_csv(path)


def collect(path, schema):
    return fq.scan_csv(path, schema=schema).collect()


CALLS: dict = {
    "csv.reader, none kept": go_over_csv,
    "csv.reader": read_by_csv,
    "collect()": collect,
    "collect().get_columns()": lambda *it: collect(*it).get_columns(),
    "collect().rows()": lambda *it: collect(*it).rows(),
    "collect().sort(..)": lambda path, schema: collect(path, schema).sort(list(schema)[-1]),
    "collect().write_csv(..)": lambda *it: collect(*it).write_csv(os.devnull),
    "pandas.read_csv": read_by_pandas,
    "collect().to_pandas()": lambda *it: collect(*it).to_pandas(),
}


def timed(call, path, name):
    """The seconds of a call in a process of its own, or None if a package is not there."""
    ran = subprocess.run([sys.executable, __file__, "--call", call, path, name], stdout=subprocess.PIPE, check=True, text=True)
    return float(ran.stdout) if ran.stdout else None


def call_once(call, path, name):
    """Prints the seconds of a call. What it imports is imported before."""
    if "pandas" in call:
        try:
            importlib.import_module("pandas")
        except ImportError:
            return
    began = time.perf_counter()
    answer = CALLS[call](path, FILES[name][0])
    print(time.perf_counter() - began)
    del answer


def compare(name, path, runs):
    """Prints a line for each call on a file."""
    seconds = {call: [] for call in CALLS}
    for _ in range(runs):
        for call, taken in seconds.items():
            taken.append(timed(call, path, name))
    bases = [min(seconds["csv.reader"]), min(seconds["csv.reader, none kept"])]
    for call, taken in seconds.items():
        if None not in taken:
            parts = "".join(f", {min(taken) / base:5.2f}" for base in bases)
            print(f"{name:7} {call:24} {min(taken):6.2f} s, median {statistics.median(taken):6.2f}{parts}")


def main():
    parser = argparse.ArgumentParser(description=__doc__.splitlines()[0])
    parser.add_argument("--rows", type=int, default=1_000_000)
    parser.add_argument("--runs", type=int, default=5)
    parser.add_argument("--program")
    parser.add_argument("--call", nargs=3, help=argparse.SUPPRESS)
    given = parser.parse_args()
    if given.call:
        call_once(*given.call)
        return
    if given.program:
        os.environ["FRAMEQ"] = os.path.abspath(given.program)
    with tempfile.TemporaryDirectory() as room:
        for name, (_, make) in FILES.items():
            path = os.path.join(room, f"{name}.csv")
            make(path, given.rows)
            compare(name, path, given.runs)
            os.unlink(path)


if __name__ == "__main__":
    main()
