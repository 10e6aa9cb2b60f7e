#!/usr/bin/env python3
"""Times frameq on whole plans beside the other programs on PATH that do the same work.

    bench/program.py [--rows N] [--runs N] [--task NAME]... [--program PATH] [--other PATH] [--beside N] [--save FILE]
    bench/program.py --draw FILE

Inputs are made first, the same at each call. In each round every program runs once on each task, one after another; the
first round is not timed, and there the answers are compared, as sets of rows. Peers: another frameq (--other), mawk, Miller,
SQLite, pandas, and R's data.table, if they are installed. With --beside N the timed rounds run beside N processes that never
rest; under `taskset -c 0` all run on one core. The figures can be saved as JSON, and three of the tasks are then drawn beside it, as
speed.svg; --draw draws saved figures again and runs nothing.
"""
import argparse
import contextlib
import csv
import multiprocessing
import os
import random
import statistics
import subprocess
import sys
import tempfile
import time
from dataclasses import dataclass
from typing import Callable, Dict, List, Optional

import pictures

ROOT = os.path.dirname(os.path.dirname(os.path.abspath(__file__)))
OWN = os.path.join(ROOT, "crates", "frameq", "out", "frameq")
WORKERS = (1, 2, 4)
REGIONS = 1_000
PRODUCTS = 200_000
SHOPS = 100
WINDOW = 100


# ---- inputs

def quantity(draw):
    return draw.randrange(1, 100) if draw.randrange(100) else ""


def make_sales(path, rows):
    """Sales: a number, one of a thousand regions, a quantity (none in one of a hundred rows), and a price."""
    draw = random.Random(1)
    with open(path, "w", encoding="ascii") as file:
        file.write("id,region,quantity,cents\n")
        for start in range(0, rows, 10_000):
            file.writelines(
                f"{number},region {draw.randrange(REGIONS)},{quantity(draw)},{draw.randrange(1, 1_000_000)}\n"
                for number in range(start, min(start + 10_000, rows)))


def make_orders(path, rows):
    """Orders: a number, one of 200,000 products, one of 100 shops, and a price."""
    draw = random.Random(2)
    with open(path, "w", encoding="ascii") as file:
        file.write("order,product,shop,cents\n")
        for start in range(0, rows, 10_000):
            file.writelines(
                f"{number},{draw.randrange(PRODUCTS)},shop {draw.randrange(SHOPS)},{draw.randrange(1, 1_000_000)}\n"
                for number in range(start, min(start + 10_000, rows)))


def make_products(path):
    """Every second product, each with its label."""
    with open(path, "w", encoding="ascii") as file:
        file.write("product,label\n")
        file.writelines(f"{number},label {number % 977}\n" for number in range(0, PRODUCTS, 2))


def make_visits(path, rows):
    """Visits: 12 columns, of which eight are texts and three of these are quoted, for the commas in them."""
    draw = random.Random(3)
    names = [f"street {number}, house {number % 89}" for number in range(1_000)]
    with open(path, "w", encoding="ascii") as file:
        file.write("visit,host,path,agent,referrer,city,address,note,bytes,millis,status,cached\n")
        for start in range(0, rows, 10_000):
            file.writelines(
                f'{number},host-{draw.randrange(100)}.example.org,/shelves/{draw.randrange(5000)}/books,'
                f'"Reader/{draw.randrange(40)}.0 (like others, mostly)",https://example.net/{draw.randrange(900)},'
                f'city {draw.randrange(300)},"{names[draw.randrange(1_000)]}","seen, and {draw.randrange(10)} more times",'
                f'{draw.randrange(1, 1_000_000)},{draw.randrange(1, 5_000)},{draw.choice((200, 200, 200, 304, 404))},'
                f'{draw.choice(("true", "false"))}\n'
                for number in range(start, min(start + 10_000, rows)))


def make_regions(path):
    """Four of five regions, each with its manager."""
    with open(path, "w", encoding="ascii") as file:
        file.write("region,manager\n")
        file.writelines(f"region {number},manager {number % 37}\n" for number in range(REGIONS) if number % 5)


def make_inputs(folder, rows, files):
    """Makes those of the files that are named."""
    makers = {
        "sales.csv": lambda path: make_sales(path, rows),
        "regions.csv": make_regions,
        "orders.csv": lambda path: make_orders(path, rows),
        "products.csv": make_products,
        "visits.csv": lambda path: make_visits(path, rows // 6),
    }
    for file in files:
        makers[file](os.path.join(folder, file))


# ---- tasks

SALES = '{"files":1,"columns":[["id","int"],["region","text"],["quantity","int"],["cents","int"]]}'
ORDERS = '{"files":1,"columns":[["order","int"],["product","int"],["shop","text"],["cents","int"]]}'
PRODUCT_LABELS = '{"files":1,"columns":[["product","int"],["label","text"]]}'
VISITS = '{"files":1,"columns":[["visit","int"],["host","text"],["path","text"],["agent","text"],["referrer","text"],' \
         '["city","text"],["address","text"],["note","text"],["bytes","int"],["millis","int"],["status","int"],["cached","bool"]]}'
MANAGERS = '{"files":1,"columns":[["region","text"],["manager","text"]]}'


@dataclass
class Task:
    """One piece of work: the plan's sources and steps, its files (the last is the main one), and what each peer runs."""
    name: str
    sources: str
    steps: str
    files: List[str]
    # what each peer runs; None if it has no CSV with quotes, or nothing of the kind
    awk: Optional[str]
    miller: Optional[List[str]]
    sqlite: Optional[str]
    pandas: Optional[str]
    data_table: Optional[str]

    def plan(self):
        return f'{{"version":2,"sources":[{self.sources}],"steps":[{self.steps}]}}\n'


FILTER = Task(
    name="filter and a computed column",
    sources=SALES,
    steps='{"filter":["gt",{"col":"quantity"},50]},'
          '{"with_columns":[["total",["mul",{"col":"quantity"},{"col":"cents"}]]]}',
    files=["sales.csv"],
    awk='NR == 1 { print $0, "total"; next } $3 != "" && $3 > 50 { print $0, $3 * $4 }',
    miller=["filter", 'is_not_empty($quantity) && $quantity > 50', "then", "put", "$total = $quantity * $cents"],
    sqlite="SELECT *, quantity * cents AS total FROM sales WHERE quantity <> '' AND quantity > 50;",
    pandas="d = sales(); d = d[(d.quantity > 50).fillna(False)]; answer = d.assign(total=d.quantity * d.cents)",
    data_table="d <- sales()[quantity > 50]; d[, total := as.numeric(quantity) * cents]; answer <- d",
)

COMPUTE = Task(
    name="two computed columns, then a filter",
    sources=SALES,
    steps='{"with_columns":[["total",["mul",{"col":"quantity"},{"col":"cents"}]],["raised",["add",{"col":"cents"},100]]]},'
          '{"filter":["gt",{"col":"total"},25000000]}',
    files=["sales.csv"],
    awk='NR == 1 { print $0, "total", "raised"; next } $3 != "" { t = $3 * $4; if (t > 25000000) print $0, t, $4 + 100 }',
    miller=["filter", 'is_not_empty($quantity)', "then", "put", "$total = $quantity * $cents; $raised = $cents + 100",
            "then", "filter", "$total > 25000000"],
    sqlite="SELECT *, quantity * cents AS total, cents + 100 AS raised FROM sales "
           "WHERE quantity <> '' AND quantity * cents > 25000000;",
    pandas="d = sales(); d = d.assign(total=d.quantity * d.cents, raised=d.cents + 100); "
           "answer = d[(d.total > 25000000).fillna(False)]",
    data_table="d <- sales(); d[, total := as.numeric(quantity) * cents]; d[, raised := cents + 100]; "
               "answer <- d[total > 25000000]",
)

GROUP = Task(
    name="group by one of 1,000 texts: sum, count, min",
    sources=SALES,
    steps='{"group_by":{"keys":["region"],'
          '"aggs":[["units","sum","quantity"],["sold","count","quantity"],["lowest","min","cents"]]}}',
    files=["sales.csv"],
    awk='NR == 1 { next } '
        '!($2 in units) { order[++groups] = $2; lowest[$2] = $4 } '
        '{ units[$2] += $3; sold[$2] += $3 != ""; if ($4 < lowest[$2]) lowest[$2] = $4 } '
        'END { print "region", "units", "sold", "lowest"; '
        'for (i = 1; i <= groups; i++) { r = order[i]; print r, units[r], sold[r], lowest[r] } }',
    miller=["stats1", "-a", "sum,count,min", "-f", "quantity,cents", "-g", "region",
            "then", "rename", "quantity_sum,units,quantity_count,sold,cents_min,lowest",
            "then", "cut", "-o", "-f", "region,units,sold,lowest"],
    sqlite="SELECT region, sum(nullif(quantity, '')) AS units, count(nullif(quantity, '')) AS sold, min(cents) AS lowest "
           "FROM sales GROUP BY region;",
    pandas="groups = sales().groupby('region', sort=False); "
           "answer = groups.agg(units=('quantity', 'sum'), sold=('quantity', 'count'), lowest=('cents', 'min')).reset_index()",
    data_table="answer <- sales()[, .(units = sum(as.numeric(quantity), na.rm = TRUE), sold = sum(!is.na(quantity)), "
               "lowest = min(cents)), by = region]",
)

JOIN = Task(
    name="left join with a small file on a text",
    sources=f"{MANAGERS},{SALES}",
    steps='{"join":{"source":0,"on":["region"],"how":"left"}}',
    files=["regions.csv", "sales.csv"],
    awk='NR == FNR { manager[$1] = $2; next } FNR == 1 { print $0, "manager"; next } { print $0, manager[$2] }',
    miller=["join", "--ur", "-j", "region", "-f", "regions.csv", "then", "template", "-f", "id,region,quantity,cents,manager"],
    sqlite="SELECT id, sales.region, quantity, cents, manager FROM sales LEFT JOIN regions ON sales.region = regions.region;",
    pandas="answer = sales().merge(regions(), how='left', on='region')",
    data_table="d <- sales(); d[regions(), on = 'region', manager := i.manager]; answer <- d",
)

ROLL = Task(
    name=f"rolling sum over {WINDOW} rows",
    sources=SALES,
    steps=f'{{"rolling_sum":{{"column":"cents","window":{WINDOW},"name":"rolled"}}}}',
    files=["sales.csv"],
    awk='NR == 1 { print $0, "rolled"; next } '
        f'{{ n = NR - 1; at = n % {WINDOW}; sum += $4 - last[at]; last[at] = $4; print $0, n < {WINDOW} ? "" : sum }}',
    miller=["put", f'begin {{ @sum = 0 }} @last[NR] = $cents; @sum += $cents; '
            f'if (NR > {WINDOW}) {{ @sum -= @last[NR - {WINDOW}]; unset @last[NR - {WINDOW}] }} '
            f'$rolled = NR < {WINDOW} ? "" : @sum'],
    sqlite=f"SELECT id, region, quantity, cents, CASE WHEN count(*) OVER w = {WINDOW} THEN sum(cents) OVER w END AS rolled "
           f"FROM sales WINDOW w AS (ORDER BY rowid ROWS {WINDOW - 1} PRECEDING);",
    pandas=f"d = sales(); answer = d.assign(rolled=d.cents.rolling({WINDOW}).sum().astype('Int64'))",
    data_table=f"d <- sales(); d[, rolled := frollsum(cents, {WINDOW})]; answer <- d",
)

SHOP_GROUPS = Task(
    name=f"group by one of {SHOPS} texts: sum, count",
    sources=ORDERS,
    steps='{"group_by":{"keys":["shop"],"aggs":[["cents","sum","cents"],["orders","count","order"]]}}',
    files=["orders.csv"],
    awk='NR == 1 { next } !($3 in n) { order[++groups] = $3 } { sum[$3] += $4; n[$3]++ } '
        'END { print "shop", "cents", "orders"; for (i = 1; i <= groups; i++) { k = order[i]; print k, sum[k], n[k] } }',
    miller=["stats1", "-a", "sum,count", "-f", "cents", "-g", "shop", "then", "rename", "cents_sum,cents,cents_count,orders"],
    sqlite="SELECT shop, sum(cents) AS cents, count(*) AS orders FROM orders GROUP BY shop;",
    pandas="answer = orders().groupby('shop', sort=False).agg(cents=('cents', 'sum'), orders=('order', 'count')).reset_index()",
    data_table="answer <- orders()[, .(cents = sum(as.numeric(cents)), orders = .N), by = shop]",
)

PRODUCT_GROUPS = Task(
    name=f"group by one of {PRODUCTS:,} ints: sum, count",
    sources=ORDERS,
    steps='{"group_by":{"keys":["product"],"aggs":[["cents","sum","cents"],["orders","count","order"]]}}',
    files=["orders.csv"],
    awk='NR == 1 { next } !($2 in n) { order[++groups] = $2 } { sum[$2] += $4; n[$2]++ } '
        'END { print "product", "cents", "orders"; for (i = 1; i <= groups; i++) { k = order[i]; print k, sum[k], n[k] } }',
    miller=["stats1", "-a", "sum,count", "-f", "cents", "-g", "product", "then", "rename", "cents_sum,cents,cents_count,orders"],
    sqlite="SELECT product, sum(cents) AS cents, count(*) AS orders FROM orders GROUP BY product;",
    pandas="answer = orders().groupby('product', sort=False).agg(cents=('cents', 'sum'), orders=('order', 'count')).reset_index()",
    data_table="answer <- orders()[, .(cents = sum(as.numeric(cents)), orders = .N), by = product]",
)

LABEL_JOIN = Task(
    name=f"left join with {PRODUCTS // 2:,} rows on an int",
    sources=f"{PRODUCT_LABELS},{ORDERS}",
    steps='{"join":{"source":0,"on":["product"],"how":"left"}}',
    files=["products.csv", "orders.csv"],
    awk='NR == FNR { label[$1] = $2; next } FNR == 1 { print $0, "label"; next } { print $0, label[$2] }',
    miller=["join", "--ur", "-j", "product", "-f", "products.csv", "then", "template", "-f", "order,product,shop,cents,label"],
    sqlite='SELECT "order", orders.product, shop, cents, label FROM orders LEFT JOIN products ON orders.product = products.product;',
    pandas="answer = orders().merge(products(), how='left', on='product')",
    data_table="d <- orders(); d[products(), on = 'product', label := i.label]; answer <- d",
)

SEMI_JOIN = Task(
    name=f"semi join with {PRODUCTS // 2:,} rows on an int",
    sources=f"{PRODUCT_LABELS},{ORDERS}",
    steps='{"join":{"source":0,"on":["product"],"how":"semi"}}',
    files=["products.csv", "orders.csv"],
    awk='NR == FNR { there[$1]; next } FNR == 1 || $2 in there',
    miller=["join", "-j", "product", "-f", "products.csv", "then", "cut", "-o", "-f", "order,product,shop,cents"],
    sqlite="SELECT * FROM orders WHERE product IN (SELECT product FROM products);",
    pandas="answer = orders(); answer = answer[answer['product'].isin(products()['product'])]",
    data_table="d <- orders(); answer <- d[product %in% products()$product]",
)

ANTI_JOIN = Task(
    name=f"anti join with {PRODUCTS // 2:,} rows on an int",
    sources=f"{PRODUCT_LABELS},{ORDERS}",
    steps='{"join":{"source":0,"on":["product"],"how":"anti"}}',
    files=["products.csv", "orders.csv"],
    awk='NR == FNR { there[$1]; next } FNR == 1 || !($2 in there)',
    miller=["join", "--np", "--ur", "-j", "product", "-f", "products.csv"],
    sqlite="SELECT * FROM orders WHERE product NOT IN (SELECT product FROM products);",
    pandas="answer = orders(); answer = answer[~answer['product'].isin(products()['product'])]",
    data_table="answer <- orders()[!products(), on = 'product']",
)

WIDE_FILTER = Task(
    name="12 columns with quotes: filter of two ints",
    sources=VISITS,
    steps='{"filter":["and",["gt",{"col":"bytes"},500000],["lt",{"col":"millis"},1000]]}',
    files=["visits.csv"],
    awk=None,
    miller=["filter", "$bytes > 500000 && $millis < 1000"],
    sqlite=None,
    pandas=None,
    data_table="answer <- visits()[bytes > 500000 & millis < 1000]",
)

WIDE_GROUP = Task(
    name="12 columns with quotes: group by a text, sum, max",
    sources=VISITS,
    steps='{"group_by":{"keys":["host"],"aggs":[["bytes","sum","bytes"],["slowest","max","millis"]]}}',
    files=["visits.csv"],
    awk=None,
    miller=["stats1", "-a", "sum,max", "-f", "bytes,millis", "-g", "host", "then", "rename", "bytes_sum,bytes,millis_max,slowest",
            "then", "cut", "-o", "-f", "host,bytes,slowest"],
    sqlite=None,
    pandas="answer = visits().groupby('host', sort=False).agg(bytes=('bytes', 'sum'), slowest=('millis', 'max')).reset_index()",
    data_table="answer <- visits()[, .(bytes = sum(as.numeric(bytes)), slowest = max(millis)), by = host]",
)

TASKS = {
    "filter": FILTER, "compute": COMPUTE, "group": GROUP, "join": JOIN, "roll": ROLL, "shops": SHOP_GROUPS,
    "products": PRODUCT_GROUPS, "labels": LABEL_JOIN, "semi": SEMI_JOIN, "anti": ANTI_JOIN, "wide": WIDE_FILTER, "hosts": WIDE_GROUP,
}


# ---- programs

@dataclass
class Program:
    """What is timed: its name, its version, and the command that runs a task in the folder of the inputs."""
    name: str
    version: str
    words: Callable[[str, Task], List[str]]
    does: Callable[[Task], object] = lambda task: True


def first_line(words):
    """The first line that a command prints, or None if it does not run."""
    try:
        ran = subprocess.run(words, stdin=subprocess.DEVNULL, stdout=subprocess.PIPE, stderr=subprocess.STDOUT, check=True)
    except (OSError, subprocess.CalledProcessError):
        return None
    lines = ran.stdout.decode(errors="replace").strip().splitlines()
    return lines[0] if lines else ""


def frameq(path, name="frameq"):
    is_own = os.path.exists(OWN) and os.path.samefile(path, OWN)
    version = first_line(["git", "-C", ROOT, "describe", "--always", "--dirty"] if is_own else [path, "--version"]) or "no version known"
    words = lambda workers: lambda key, task: [path, "--plan", f"{key}.json", "--workers", str(workers), *task.files]
    return [Program(f"{name}, {workers} worker{'s' * (workers > 1)}", version, words(workers)) for workers in WORKERS]


def mawk():
    version = first_line(["mawk", "-W", "version"])
    # Whole numbers are printed whole, however large.
    start = ["mawk", "-F", ",", "-v", "OFS=,", "-v", "OFMT=%.0f", "-v", "CONVFMT=%.0f"]
    return version and Program("mawk", version, lambda key, task: [*start, task.awk, *task.files], lambda task: task.awk)


def miller():
    version = first_line(["mlr", "--version"])
    words = lambda key, task: ["mlr", "--csv", *task.miller, task.files[-1]]
    return version and Program("Miller", version, words, lambda task: task.miller)


SQLITE_TABLES = [
    "CREATE TABLE sales(id INTEGER, region TEXT, quantity INTEGER, cents INTEGER);",
    "CREATE TABLE regions(region TEXT PRIMARY KEY, manager TEXT);",
    'CREATE TABLE orders("order" INTEGER, product INTEGER, shop TEXT, cents INTEGER);',
    "CREATE TABLE products(product INTEGER PRIMARY KEY, label TEXT);",
    ".mode csv", ".headers on",
]


def imported(task):
    return [f".import --skip 1 {file} {file.removesuffix('.csv')}" for file in task.files]


def sqlite():
    version = first_line(["sqlite3", "--version"])
    words = lambda key, task: ["sqlite3", ":memory:", *SQLITE_TABLES, *imported(task), task.sqlite]
    return version and Program("SQLite", version.split()[0], words, lambda task: task.sqlite)


PANDAS_START = """
import pandas, sys
KINDS = {'id': 'int64', 'region': 'str', 'quantity': 'Int64', 'cents': 'int64'}
def sales(): return pandas.read_csv('sales.csv', dtype=KINDS)
def regions(): return pandas.read_csv('regions.csv')
def orders(): return pandas.read_csv('orders.csv')
def products(): return pandas.read_csv('products.csv')
def visits(): return pandas.read_csv('visits.csv')
"""


PANDAS_END = "answer.to_csv(sys.stdout, index=False)"


def pandas():
    for folder in os.environ.get("PATH", "").split(os.pathsep):
        python = os.path.join(folder, "python3")
        version = os.access(python, os.X_OK) and first_line([python, "-c", "import pandas; print(pandas.__version__)"])
        if version:
            words = lambda key, task, python=python: [python, "-c", f"{PANDAS_START}{task.pandas}\n{PANDAS_END}"]
            return Program("pandas", version, words, lambda task: task.pandas)
    return None


DATA_TABLE_START = """
suppressPackageStartupMessages(library(data.table))
options(scipen = 99)
sales <- function() fread('sales.csv')
regions <- function() fread('regions.csv')
orders <- function() fread('orders.csv')
products <- function() fread('products.csv')
# its truth values as texts, since fwrite writes TRUE for true
visits <- function() fread('visits.csv', colClasses = list(character = 'cached'))
"""


def data_table():
    about = "cat(format(packageVersion('data.table')), 'with', data.table::getDTthreads(), 'threads')"
    version = first_line(["Rscript", "-e", about])
    script = lambda task: f"{DATA_TABLE_START}{task.data_table}\nfwrite(answer, '/dev/stdout')\n"
    words = lambda key, task: ["Rscript", "-e", script(task)]
    return version and Program("data.table", version, words, lambda task: task.data_table)


# ---- runs

@dataclass
class Measure:
    """What one run took: seconds on the clock, of the processor for itself and in the system, and the peak memory in MB."""
    seconds: float
    user: float
    system: float
    megabytes: float


def measure(words, folder, output):
    """Runs a command in the folder, with the answer in the file `output`."""
    with open(output, "wb") as out:
        start = time.perf_counter()
        child = subprocess.Popen(words, cwd=folder, stdin=subprocess.DEVNULL, stdout=out)
        _, status, usage = os.wait4(child.pid, 0)
        seconds = time.perf_counter() - start
    child.returncode = os.waitstatus_to_exitcode(status)
    if child.returncode:
        sys.exit(f"{words[0]} ended with status {child.returncode}")
    return Measure(seconds, usage.ru_utime, usage.ru_stime, usage.ru_maxrss * 1024 / 1e6)


def rows_of(path):
    with open(path, newline="", encoding="utf-8") as file:
        return sorted(csv.reader(file))


def same_answer(one, other):
    """Whether two answers have the same names and the same rows, in whatever order."""
    with open(one, "rb") as first, open(other, "rb") as second:
        if first.read() == second.read():
            return True
    return rows_of(one) == rows_of(other)


def compare_answers(key, task, programs, folder):
    """The first round: every answer is to be that of the first program."""
    expected, output = os.path.join(folder, "expected"), os.path.join(folder, "output")
    measure(programs[0].words(key, task), folder, expected)
    for program in programs[1:]:
        measure(program.words(key, task), folder, output)
        # In a process of its own, since what this one has held would count towards the memory of those it starts.
        with multiprocessing.Pool(1) as judge:
            is_same = judge.apply(same_answer, (expected, output))
        if not is_same:
            sys.exit(f"{task.name}: {program.name} has another answer")
    with open(expected, "rb") as file:
        return sum(1 for _ in file) - 1


@contextlib.contextmanager
def busy(count):
    """Runs so many processes that never rest, as on a machine that has other work."""
    others = [subprocess.Popen(["sh", "-c", "while :; do :; done"]) for _ in range(count)]
    try:
        yield
    finally:
        for other in others:
            other.kill()
            other.wait()


def timed_rounds(key, task, programs, folder, runs, others):
    measures: Dict[str, List[Measure]] = {program.name: [] for program in programs}
    with busy(others):
        for _ in range(runs):
            for program in programs:
                measures[program.name].append(measure(program.words(key, task), folder, os.path.join(folder, "output")))
    return measures


def figures_of(programs, measures):
    """What the runs of each program on a task come to. `seconds`, `user` and `system` are those of the best run."""
    figures = []
    for program in programs:
        runs = measures[program.name]
        best = min(runs, key=lambda one: one.seconds)
        figures.append({
            "name": program.name, "version": program.version, "seconds": round(best.seconds, 3), "user": round(best.user, 3),
            "system": round(best.system, 3), "median": round(statistics.median(one.seconds for one in runs), 3),
            "megabytes": round(max(one.megabytes for one in runs)),
        })
    return figures


def print_table(figures):
    beside = next(one["seconds"] for one in figures if one["name"] == pictures.DEFAULT)
    print(f"  {'':22} {'best s':>8} {'user s':>8} {'system s':>8} {'median s':>9} {'MB':>7}   best, beside {pictures.DEFAULT}")
    for one in figures:
        print(f"  {one['name']:22} {one['seconds']:8.3f} {one['user']:8.3f} {one['system']:8.3f} {one['median']:9.3f} "
              f"{one['megabytes']:7}   {one['seconds'] / beside:.2f}")


def binary(given: Optional[str]):
    """The program to time: the one given, or else the one that tools/build builds."""
    if given:
        return os.path.abspath(given)
    subprocess.run([os.path.join(ROOT, "tools", "build")], check=True)
    return OWN


def arguments():
    parser = argparse.ArgumentParser(description="Times frameq on whole plans beside other programs.")
    parser.add_argument("--rows", type=int, default=1_000_000, help="rows of each large file but the wide one, which has a sixth [1000000]")
    parser.add_argument("--runs", type=int, default=5, help="timed runs of each program on each task [5]")
    parser.add_argument("--task", action="append", choices=TASKS, help="a task; may be given again [all]")
    parser.add_argument("--program", help="the frameq to time [the one that tools/build builds]")
    parser.add_argument("--other", metavar="PATH", help="another frameq to time in the same rounds")
    parser.add_argument("--beside", type=int, default=0, metavar="N", help="time beside N busy processes [0]")
    parser.add_argument("--save", metavar="FILE", help="save the figures as JSON, and draw speed.svg in its folder")
    parser.add_argument("--draw", metavar="FILE", help="only draw figures that were saved")
    return parser.parse_args()


def main():
    given = arguments()
    if given.draw:
        pictures.draw(given.draw)
        return
    own = frameq(binary(given.program))
    if given.other:
        own += frameq(os.path.abspath(given.other), "other")
    peers = [peer for peer in (mawk(), miller(), sqlite(), pandas(), data_table()) if peer]
    cores = len(os.sched_getaffinity(0))
    tables = []
    print(f"{cores} cores; frameq {own[0].version}; " + "; ".join(f"{peer.name} {peer.version}" for peer in peers))
    with tempfile.TemporaryDirectory() as folder:
        keys = given.task or list(TASKS)
        make_inputs(folder, given.rows, {file for key in keys for file in TASKS[key].files})
        print(f"{given.runs} runs of each" + (f", beside {given.beside} busy processes" if given.beside else ""))
        for key in keys:
            task = TASKS[key]
            with open(os.path.join(folder, f"{key}.json"), "w", encoding="ascii") as file:
                file.write(task.plan())
            programs = [program for program in (*own, *peers) if program.does(task)]
            rows = compare_answers(key, task, programs, folder)
            size = sum(os.path.getsize(os.path.join(folder, file)) for file in task.files)
            print(f"\n{task.name}: {size / 1e6:.1f} MB, {rows} rows out, all answers alike", flush=True)
            figures = figures_of(programs, timed_rounds(key, task, programs, folder, given.runs, given.beside))
            print_table(figures)
            tables.append({"task": task.name, "programs": figures})
    if given.save:
        note = f"{given.rows:,} rows ({given.rows // 6:,} with 12 columns); best of {given.runs} runs, interleaved; cores: {cores}"
        note += f"; beside {given.beside} busy processes" if given.beside else ""
        pictures.save({"note": note, "tables": tables}, given.save)
        pictures.draw(given.save)


if __name__ == "__main__":
    main()
