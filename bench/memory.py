#!/usr/bin/env python3
"""Measures the time and the peak memory of frameq over files of growing size.

    bench/memory.py [--megabytes N]... [--program PATH] [--workers N] [--runs N]

For each size a file of sales is made, the same at each call, and each task runs over it, once or N times. A line has the task, the
size of the file and of what was printed, the best seconds, the best of the processor's seconds, the peak memory, and the bound on it.
The exit status is 1 if a bound is exceeded.
"""
import argparse
import os
import random
import subprocess
import sys
import tempfile
import time
from dataclasses import dataclass
from typing import Callable, List

ROOT = os.path.dirname(os.path.dirname(os.path.abspath(__file__)))
MEGABYTE = 1_000_000
SHOPS = 100
PRODUCTS = 100_000
MAKERS = 500


def make_sales(path, size):
    """Sales of this many bytes: a number, one of 100,000 products, one of a hundred shops, and a price below 1,000,000."""
    draw = random.Random(1)
    number = written = 0
    with open(path, "w", encoding="ascii") as file:
        file.write("id,product,shop,cents\n")
        while written < size:
            lines = "".join(
                f"{at},{draw.randrange(PRODUCTS)},shop {draw.randrange(SHOPS)},{draw.randrange(1_000_000)}\n"
                for at in range(number, number + 10_000))
            number += 10_000
            written += len(lines)
            file.write(lines)


def make_products(path):
    """Each product, and its maker."""
    with open(path, "w", encoding="ascii") as file:
        file.write("product,maker\n")
        file.writelines(f"{number},maker {number % MAKERS}\n" for number in range(PRODUCTS))


SALES = '{"files":1,"columns":[["id","int"],["product","int"],["shop","text"],["cents","int"]]}'
PRODUCT_LIST = '{"files":1,"columns":[["product","int"],["maker","text"]]}'


@dataclass
class Task:
    """A plan over the files, and the bound on its peak memory in MB, by the megabytes that it prints."""
    name: str
    sources: str
    steps: str
    files: List[str]
    bound: Callable[[float], float]

    def plan(self):
        return f'{{"version":1,"sources":[{self.sources}],"steps":[{self.steps}]}}\n'


TASKS = [
    Task(
        name=f"group by one of {SHOPS} texts",
        sources=SALES,
        steps='{"group_by":{"keys":["shop"],"aggs":[["sold","len"],["earned","sum","cents"]]}}',
        files=["sales.csv"],
        bound=lambda printed: 64,
    ),
    Task(
        name=f"left join with {PRODUCTS:,} rows, then a group",
        sources=f"{PRODUCT_LIST},{SALES}",
        steps='{"join":{"source":0,"on":["product"],"how":"left"}},'
              '{"group_by":{"keys":["maker"],"aggs":[["sold","len"],["earned","sum","cents"]]}}',
        files=["products.csv", "sales.csv"],
        bound=lambda printed: 128,
    ),
    Task(
        name="filter of half of the rows",
        sources=SALES,
        steps='{"filter":["ge",{"col":"cents"},500000]}',
        files=["sales.csv"],
        bound=lambda printed: 1.2 * printed + 64,
    ),
    Task(
        name="rolling sum over 100 rows, then a filter that keeps 1 % of them",
        sources=SALES,
        steps='{"rolling_sum":{"column":"cents","window":100,"name":"rolled"}},{"filter":["ge",{"col":"cents"},990000]}',
        files=["sales.csv"],
        bound=lambda printed: 1.2 * printed + 64,
    ),
]


def run(words, folder):
    """Runs a command with its output to a file: the seconds, the processor's seconds, the peak memory in MB, and the megabytes printed."""
    began = time.monotonic()
    with open(os.path.join(folder, "printed"), "wb") as out:
        child = subprocess.Popen(words, cwd=folder, stdin=subprocess.DEVNULL, stdout=out)
        _, status, usage = os.wait4(child.pid, 0)
    if status:
        sys.exit(f"{words[0]} ended with status {os.waitstatus_to_exitcode(status)}")
    printed = os.path.getsize(os.path.join(folder, "printed")) / MEGABYTE
    return time.monotonic() - began, usage.ru_utime + usage.ru_stime, usage.ru_maxrss * 1024 / MEGABYTE, printed


def main():
    words = argparse.ArgumentParser(description="Measures the time and the peak memory that frameq takes.")
    words.add_argument("--megabytes", type=int, action="append", help="size of the large file [100, then 1000]")
    words.add_argument("--program", help="the frameq to measure [the one that tools/build builds]")
    words.add_argument("--workers", default="2", help="workers [2]")
    words.add_argument("--runs", type=int, default=1, help="runs of each task [1]")
    given = words.parse_args()
    if not given.program:
        subprocess.run([os.path.join(ROOT, "tools", "build")], check=True)
        given.program = os.path.join(ROOT, "crates", "frameq", "out", "frameq")
    program = os.path.abspath(given.program)
    exceeded = 0
    with tempfile.TemporaryDirectory() as folder:
        make_products(os.path.join(folder, "products.csv"))
        print("| Task | File, MB | Printed, MB | Seconds | Peak memory, MB | Bound, MB |\n|---|---|---|---|---|---|")
        for size in given.megabytes or [100, 1000]:
            make_sales(os.path.join(folder, "sales.csv"), size * MEGABYTE)
            for task in TASKS:
                plan = os.path.join(folder, "plan.json")
                with open(plan, "w", encoding="ascii") as file:
                    file.write(task.plan())
                command = [program, "--plan", plan, "--workers", given.workers] + task.files
                seconds, processor, memory, printed = zip(*(run(command, folder) for _ in range(given.runs)))
                bound = task.bound(printed[0])
                exceeded += max(memory) > bound
                print(f"| {task.name} | {size} | {printed[0]:.1f} | {min(seconds):.2f} ({min(processor):.2f}) "
                      f"| {max(memory):.0f} | {bound:.0f} |", flush=True)
    return 1 if exceeded else 0


if __name__ == "__main__":
    sys.exit(main())
