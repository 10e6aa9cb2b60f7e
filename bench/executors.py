#!/usr/bin/env python3
"""Times reports in parts on executors beside one run over the same rows.

    bench/executors.py [--files N] [--megabytes N] [--runs N] [--program PATH]

N files of so many megabytes are made, the sales of bench/program.py, and half as many files, each of two of them, so that a run takes
them. A line has the best and the median seconds of a report, written to a file: in one run with 4 workers over the fewer files, and with
one worker a task on 4 threads and on 4 processes. All have to write the same. In each round each runs once.
"""
import argparse
import filecmp
import functools
import os
import shutil
import statistics
import sys
import tempfile
import time
from concurrent.futures import ProcessPoolExecutor, ThreadPoolExecutor

import program

ROOT = os.path.dirname(os.path.dirname(os.path.abspath(__file__)))
sys.path.insert(0, os.path.join(ROOT, "python"))

import frameq as fq

SALES = {"id": fq.Int64, "region": fq.String, "quantity": fq.Int64, "cents": fq.Int64}
# The bytes of a row, about.
ROW = 27.6
AT_ONCE = 4

REPORTS = {
    "group": lambda sales: sales.group_by("region").agg(
        fq.col("quantity").sum().alias("units"), fq.col("quantity").count().alias("sold"), fq.col("cents").min().alias("lowest")
    ),
    "filter": lambda sales: sales.filter(fq.col("quantity") > 50).with_columns(total=fq.col("quantity") * fq.col("cents")),
    "filter, few rows left": lambda sales: sales.filter(fq.col("cents") > 990_000),
}


def make_files(room, count, megabytes):
    """The paths of so many files, and of half as many with the same rows."""
    first = os.path.join(room, "part-0.csv")
    program.make_sales(first, int(megabytes * 1_000_000 / ROW))
    parts = [first, *(shutil.copyfile(first, os.path.join(room, f"part-{number}.csv")) for number in range(1, count))]
    pairs = []
    for number in range(0, count, 2):
        pairs.append(os.path.join(room, f"pair-{number}.csv"))
        with open(pairs[-1], "wb") as pair:
            for place, path in enumerate(parts[number : number + 2]):
                with open(path, "rb") as part:
                    header = part.readline()
                    pair.write(header * (place == 0))
                    shutil.copyfileobj(part, pair, 1 << 20)
    return parts, pairs


def seconds(call):
    began = time.perf_counter()
    call()
    return time.perf_counter() - began


def compare(report, parts, pairs, runs, room):
    """Prints a line for each way to run a report."""
    over = lambda files: REPORTS[report](fq.scan_csv(files, schema=SALES))
    taken, results = {}, []
    with ThreadPoolExecutor(AT_ONCE) as threads, ProcessPoolExecutor(AT_ONCE) as processes:
        ways = {
            "one run, 4 workers": lambda result: over(pairs).sink_csv(result, workers=AT_ONCE),
            "4 threads": lambda result: over(parts).sink_csv(result, workers=1, executor=threads),
            "4 processes": lambda result: over(parts).sink_csv(result, workers=1, executor=processes),
        }
        for _ in range(runs):
            for way, run in ways.items():
                result = os.path.join(room, way)
                taken.setdefault(way, []).append(seconds(functools.partial(run, result)))
                results.append(result)
    if not all(filecmp.cmp(results[0], result, shallow=False) for result in set(results)):
        sys.exit(f"{report}: the answers differ")
    for way, each in taken.items():
        print(f"{report:22} {way:20} {min(each):6.2f} s, median {statistics.median(each):6.2f}, {os.path.getsize(results[0])} bytes")


def main():
    parser = argparse.ArgumentParser(description=__doc__.splitlines()[0])
    parser.add_argument("--files", type=int, default=32)
    parser.add_argument("--megabytes", type=float, default=50)
    parser.add_argument("--runs", type=int, default=5)
    parser.add_argument("--program")
    given = parser.parse_args()
    if given.program:
        os.environ["FRAMEQ"] = os.path.abspath(given.program)
    with tempfile.TemporaryDirectory() as room:
        parts, pairs = make_files(room, given.files, given.megabytes)
        for report in REPORTS:
            compare(report, parts, pairs, given.runs, room)


if __name__ == "__main__":
    main()
