#!/usr/bin/env python3
"""Times plans as SQL, by SQLite and PostgreSQL, beside frameq on the same files.

    bench/queries.py [--rows N] [--runs N] [--task NAME]... [--program PATH]

The files and the tasks are those of bench/program.py, without the wide ones, and one more: a join, and a grouping by a column that it
adds. SQLite and PostgreSQL have tables of them, loaded before; PostgreSQL is a server of its own, with the settings of its package. Each
engine prints its answer as CSV into a file. In each round each of them runs once; in the first, which is not timed, all have to print the
same rows in the same order. A line has for each engine, and for frameq with two workers, which reads the files, the seconds of its best
run, and in brackets the least that a run took of the processor, that of the server too.
"""
import argparse
import csv
import itertools
import json
import os
import sqlite3
import sys
import tempfile
import time

import program
from program import ORDERS, PRODUCT_LABELS, ROOT, Task, make_inputs, measure

sys.path[:0] = [os.path.join(ROOT, "python"), os.path.join(ROOT, "python", "tests")]

from frameq._sql import sql
from frameq._sql_setup import sql_setup
from postgres import Server, server_programs

LABEL_GROUPS = Task(
    name="left join with 100,000 rows, then group by one of their texts",
    sources=f"{PRODUCT_LABELS},{ORDERS}",
    steps='{"join":{"source":0,"on":["product"],"how":"left"}},'
          '{"group_by":{"keys":["label"],"aggs":[["cents","sum","cents"],["orders","len"]]}}',
    files=["products.csv", "orders.csv"],
    awk=None, miller=None, sqlite=None, pandas=None, data_table=None,
)
TASKS = {**{key: task for key, task in program.TASKS.items() if key not in ("wide", "hosts")}, "label groups": LABEL_GROUPS}


def plan_of(task):
    return json.loads(task.plan())


def tables_of(task):
    """The tables of a task, which have the names of its files."""
    return [file[: -len(".csv")] for file in task.files]


def sources_by_file(tasks):
    """The source of each file."""
    return {file: source for task in tasks for file, source in zip(task.files, plan_of(task)["sources"])}


def load_sqlite(path, sources, folder):
    """Fills a database of SQLite from Python."""
    connection = sqlite3.connect(path)
    for file, source in sources.items():
        kinds = [("INTEGER" if kind == "int" else "TEXT", name) for name, kind in source["columns"]]
        columns = ", ".join(f'"{name}" {kind}' for kind, name in kinds)
        table = file[: -len(".csv")]
        connection.execute(f'CREATE TABLE "{table}" ("row" INTEGER PRIMARY KEY, {columns})')
        with open(os.path.join(folder, file), newline="", encoding="utf-8") as rows:
            cells = ([cell or None for cell in row] for number, row in enumerate(csv.reader(rows)) if number)
            marks = ", ".join("?" * len(kinds))
            connection.executemany(f'INSERT INTO "{table}" VALUES (NULL, {marks})', cells)
    connection.commit()
    connection.close()


def load_postgres(server, sources, folder, frameq):
    """Fills the server's database by the script of frameq."""
    for file, source in sources.items():
        plan = {"version": 2, "sources": [source], "steps": []}
        ran = server.psql(sql_setup(plan, [file], tables=[file[: -len(".csv")]], program=frameq).encode(), folder=folder)
        if ran.returncode:
            sys.exit(ran.stderr.decode())


def words_of(server, frameq, folder, key, task):
    """The command of each engine that runs a task."""
    queries = {}
    for dialect in ("sqlite", "postgres"):
        queries[dialect] = os.path.join(folder, f"{key}.{dialect}.sql")
        with open(queries[dialect], "w", encoding="utf-8") as file:
            file.write(sql(plan_of(task), dialect, tables_of(task)) + ";\n")
    plan = os.path.join(folder, f"{key}.json")
    with open(plan, "w", encoding="utf-8") as file:
        file.write(task.plan())
    return {
        "frameq": [frameq, "--plan", plan, "--workers", "2", *task.files],
        "SQLite": ["sqlite3", "-csv", "-header", "-separator", ",", "-newline", "\n", "tables.db", f".read '{queries['sqlite']}'"],
        "PostgreSQL": [*server.psql_words(), "-v", "ON_ERROR_STOP=1", "--csv", "-f", queries["postgres"]],
    }


def main():
    parser = argparse.ArgumentParser(description=__doc__.splitlines()[0])
    parser.add_argument("--rows", type=int, default=1_000_000)
    parser.add_argument("--runs", type=int, default=3)
    parser.add_argument("--task", action="append", choices=TASKS)
    parser.add_argument("--program", help="the frameq to run [the one that tools/build builds]")
    given = parser.parse_args()
    programs = server_programs()
    if not programs:
        sys.exit("PostgreSQL is not installed")
    frameq = program.binary(given.program)
    tasks = {key: TASKS[key] for key in given.task or TASKS}
    with tempfile.TemporaryDirectory() as folder:
        sources = sources_by_file(tasks.values())
        make_inputs(folder, given.rows, sources)
        load_sqlite(os.path.join(folder, "tables.db"), sources, folder)
        server = Server(programs, settings=[])
        try:
            server.start()
            load_postgres(server, sources, folder, frameq)
            os.environ.update(server.environment)
            for key, task in tasks.items():
                print_task(task.name, words_of(server, frameq, folder, key, task), server, folder, given.runs)
        finally:
            server.stop()


def same_rows(one, other):
    """Whether two answers have the same names and the same rows in the same order."""
    with open(one, newline="", encoding="utf-8") as first, open(other, newline="", encoding="utf-8") as second:
        return all(row == same for row, same in itertools.zip_longest(csv.reader(first), csv.reader(second)))


def processes_of(server):
    """The processes of a server, besides its first."""
    with open(f"/proc/{server.process.pid}/task/{server.process.pid}/children", encoding="ascii") as file:
        return set(file.read().split())


def of_sessions(server):
    """The seconds of the processor that the sessions of a server took which have ended."""
    with open(f"/proc/{server.process.pid}/stat", encoding="ascii") as file:
        fields = file.read().rpartition(")")[2].split()
    return (int(fields[13]) + int(fields[14])) / os.sysconf("SC_CLK_TCK")


def timed(command, server, folder, output):
    """The seconds of a run, and of the processor."""
    processes, before = processes_of(server), of_sessions(server)
    taken = measure(command, folder, output)
    while processes_of(server) - processes:  # until the session has ended
        time.sleep(0.01)
    return taken.seconds, taken.user + taken.system + of_sessions(server) - before


def print_task(name, words, server, folder, runs):
    """Prints the line of a task."""
    rounds = {engine: [] for engine in words}
    outputs = {engine: os.path.join(folder, f"{engine}.csv") for engine in words}
    expected = next(iter(outputs.values()))
    for number in range(runs + 1):
        for engine, command in words.items():
            rounds[engine].append(timed(command, server, folder, outputs[engine]))
            if number == 0 and not same_rows(expected, outputs[engine]):
                sys.exit(f"{name}: {engine} has another answer")
    with open(expected, "rb") as file:
        rows = sum(1 for _ in file) - 1
    bests = {engine: [min(seconds) for seconds in zip(*taken[1:])] for engine, taken in rounds.items()}
    print(f"{name}: {rows} rows; " + ", ".join(f"{engine} {best[0]:.2f} ({best[1]:.2f})" for engine, best in bests.items()), flush=True)


if __name__ == "__main__":
    main()
