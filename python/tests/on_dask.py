#!/usr/bin/env python3
"""Runs random plans in parts on Dask's scheduler with four processes, and reports whose tasks end their process.

    python/tests/on_dask.py PROGRAM FIRST LAST      the random plans of test_parts from FIRST on, before LAST

test_parts runs it by a Python that has Dask.
"""
import os
import sys
import tempfile

import dask
import distributed

from repository import fq

from test_parts import differences


def program_that_kills(room, path, condition):
    """A program that kills the process which runs it for a task, if the shell says so."""
    script = os.path.join(room, "script")
    with open(script, "w", encoding="utf-8") as text:
        text.write(f'#!/bin/sh\ncase "$*" in *--explain*) ;; *) cd "{room}"; {condition} && kill -9 $PPID;; esac\nexec "{path}" "$@"\n')
    os.chmod(script, 0o755)
    return script


def check_death(client, path):
    """Dask runs a task once more whose process has ended. If that ends, too, its exception is raised, and there is no file."""
    with tempfile.TemporaryDirectory() as room:
        file, result = os.path.join(room, "main.csv"), os.path.join(room, "result.csv")
        with open(file, "w", encoding="utf-8") as text:
            text.write("k\n1\n")
        frame, executor = fq.scan_csv([file] * 2, schema={"k": fq.Int64}), client.get_executor()
        once = program_that_kills(room, path, "mkdir killed 2> /dev/null")
        if frame.collect(program=once, executor=executor).rows() != [(1,), (1,)] or not os.path.exists(os.path.join(room, "killed")):
            sys.exit("a task ended its process once, and the answer was another")
        try:
            frame.sink_csv(result, program=program_that_kills(room, path, "true"), executor=executor)
        except distributed.KilledWorker:
            if os.path.exists(result):
                sys.exit("a task ended its processes, and a file was written")
        else:
            sys.exit("a task ended its processes, and nothing was raised")


def main():
    path, first, last = sys.argv[1], int(sys.argv[2]), int(sys.argv[3])
    dask.config.set({"distributed.scheduler.allowed-failures": 1})
    with distributed.LocalCluster(n_workers=4, threads_per_worker=1, processes=True, dashboard_address=None, silence_logs=60) as cluster:
        with distributed.Client(cluster) as client:
            found = differences(range(first, last), path, client.get_executor())
            if found:
                sys.exit(f"of {last - first} plans on Dask, {len(found)} are different: {found[0]}")
            check_death(client, path)
    print(f"{last - first} plans on Dask, none different")


if __name__ == "__main__":
    main()
