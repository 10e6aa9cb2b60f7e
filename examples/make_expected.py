#!/usr/bin/env python3
"""Computes the expected outputs of the three longer examples with SQLite and plain Python, never with frameq.

    examples/make_expected.py

Writes `expected` in each folder. Where the run has to end in a fault, it writes `error`, and the status in `command`. The files are
committed; a run gives the same bytes again. Each frame is an SQL query over the same files. Each fault of a file is searched row by row.
"""
import csv
import os
import re
import sqlite3

HERE = os.path.dirname(os.path.abspath(__file__))
LARGEST = 2**63 - 1


# ---- files

def records(folder, name):
    with open(os.path.join(HERE, folder, name), newline="", encoding="utf-8") as file:
        return list(csv.reader(file))


def field(text):
    """A field as frameq prints it: quoted where it has a comma, a quote or a line break in it; null is empty."""
    text = "" if text is None else str(text)
    return '"' + text.replace('"', '""') + '"' if re.search('[,"\r\n]', text) else text


def write(folder, name, text):
    with open(os.path.join(HERE, folder, name), "w", newline="", encoding="utf-8") as file:
        file.write(text)


def expect_fault(folder, status, line):
    write(folder, "error", f"frameq: {line}\n")
    with open(os.path.join(HERE, folder, "command"), encoding="utf-8") as file:
        words = file.readline()
    write(folder, "command", f"{words}status {status}\n")


# ---- frames, by SQL

def load(database, table, folder, names, kinds, nulls=()):
    """Makes a table of the files' rows, with their place in `row`. A field that is empty or one of `nulls` is null."""
    columns = ", ".join(f'"{column}" {kind}' for column, kind in kinds.items())
    database.execute(f"CREATE TABLE {table} (row INTEGER PRIMARY KEY, {columns})")
    rows = [row for name in names for row in records(folder, name)[1:]]
    values = [[None if text == "" or text in nulls else text for text in row] for row in rows]
    marks = ", ".join("?" * len(kinds))
    database.executemany(f"INSERT INTO {table} VALUES (NULL, {marks})", values)


def expect_frame(folder, database, query):
    answer = database.execute(query)
    lines = [[column[0] for column in answer.description], *answer]
    write(folder, "expected", "".join(",".join(map(field, line)) + "\n" for line in lines))


# ---- monthly_accounts

def monthly_accounts():
    database = sqlite3.connect(":memory:")
    load(database, "bookings", "monthly_accounts", [f"quarter_{quarter}.csv" for quarter in (1, 2, 3, 4)],
         {"number": "INTEGER", "month": "TEXT", "day": "TEXT", "account": "TEXT", "text": "TEXT", "credit": "INTEGER", "debit": "INTEGER"})
    expect_frame("monthly_accounts/by_month", database, """
        SELECT month, account, count(*) AS bookings, ifnull(sum(credit), 0) AS credit, ifnull(sum(debit), 0) AS debit,
               ifnull(sum(credit), 0) - ifnull(sum(debit), 0) AS change, max(debit) AS largest_debit
        FROM bookings WHERE credit IS NOT NULL OR debit IS NOT NULL
        GROUP BY month, account ORDER BY min(row)""")
    balance = lambda account: f"""
        (SELECT ifnull(sum(credit), 0) - ifnull(sum(debit), 0) FROM bookings b WHERE b.account = '{account}' AND b.month <= m.month)"""
    expect_frame("monthly_accounts/balances", database, f"""
        SELECT month, bank, savings, cash, card, bank + savings + cash + card AS total FROM (
            SELECT month, {balance('bank')} AS bank, {balance('savings')} AS savings, {balance('cash')} AS cash, {balance('card')} AS card
            FROM (SELECT DISTINCT month FROM bookings) m ORDER BY month)""")
    expect_frame("monthly_accounts/statement", database, """
        SELECT number, day, text, ifnull(credit, 0) - ifnull(debit, 0) AS change,
               sum(ifnull(credit, 0) - ifnull(debit, 0)) OVER (ORDER BY row ROWS UNBOUNDED PRECEDING) AS balance
        FROM bookings WHERE account = 'cash' ORDER BY row""")


# ---- weekly_activity

def weekly_activity():
    database = sqlite3.connect(":memory:")
    load(database, "users", "weekly_activity", ["users.csv"], {"user": "INTEGER", "name": "TEXT", "team": "TEXT", "plan": "TEXT"})
    load(database, "plans", "weekly_activity", ["plans.csv"], {"plan": "TEXT", "label": "TEXT", "monthly_cents": "INTEGER"})
    load(database, "invited", "weekly_activity", ["invited.csv"], {"email": "TEXT", "user": "INTEGER"})
    load(database, "events", "weekly_activity", ["january.csv", "february.csv", "march.csv"],
         {"week": "TEXT", "day": "TEXT", "user": "INTEGER", "action": "TEXT", "minutes": "INTEGER", "test": "TEXT"})
    expect_frame("weekly_activity/by_plan", database, """
        SELECT e.week, p.label, count(DISTINCT e.user) AS users, count(*) AS events, count(minutes) AS timed,
               ifnull(sum(minutes), 0) AS minutes, max(minutes) AS longest
        FROM events e JOIN users u ON e.user = u.user LEFT JOIN plans p ON u.plan IS p.plan
        WHERE e.test = 'false' GROUP BY e.week, p.label ORDER BY min(e.row)""")
    expect_frame("weekly_activity/inactive", database, """
        SELECT u.user, u.name, ifnull(u.team, '(none)') AS team, p.label,
               CASE WHEN p.monthly_cents > 0 THEN 'true' WHEN p.monthly_cents <= 0 THEN 'false' END AS pays
        FROM users u LEFT JOIN plans p ON u.plan IS p.plan
        WHERE NOT EXISTS (SELECT * FROM events e WHERE e.user = u.user) ORDER BY u.row""")
    expect_frame("weekly_activity/unknown", database, """
        SELECT e.user, count(*) AS events, min(e.day) AS first_day, max(e.day) AS last_day
        FROM events e WHERE NOT EXISTS (SELECT * FROM users u WHERE u.user = e.user) GROUP BY e.user ORDER BY min(e.row)""")
    expect_frame("weekly_activity/invited", database, """
        SELECT week, users, events, minutes,
               CASE WHEN count(*) OVER four = 4 THEN sum(minutes) OVER four END AS four_weeks
        FROM (SELECT week, count(DISTINCT user) AS users, count(*) AS events, ifnull(sum(minutes), 0) AS minutes, min(row) AS first
              FROM events WHERE test = 'false' AND user IN (SELECT user FROM invited WHERE user IS NOT NULL) GROUP BY week)
        WINDOW four AS (ORDER BY first ROWS 3 PRECEDING) ORDER BY first""")


# ---- export_cleaning

EXPORT = ["april.csv", "may.csv", "june.csv"]
CORRECTED = ["april.csv", "may_corrected.csv", "june.csv"]
MARKS = {"n/a", "-", "?"}


def is_value(kind, text, nulls):
    """Whether a field is null or a value of its kind."""
    if text == "" or text in nulls or kind == "text":
        return True
    if kind == "bool":
        return text.lower() in ("true", "false")
    return re.fullmatch(r"[+-]?[0-9]+", text) is not None and -LARGEST - 1 <= int(text) <= LARGEST


def fault_of_files(names, columns, nulls=()):
    """The first fault of the files, in their order and in that of their rows, or None."""
    for number, name in enumerate(names):
        header, *rows = records("export_cleaning", name)
        if header != list(columns):
            return f"file {number}: header differs"
        for row, fields in enumerate(rows, 1):
            if len(fields) != len(columns):
                return f"file {number}, row {row}: wrong number of fields"
            for column, (kind, text) in enumerate(zip(columns.values(), fields)):
                if not is_value(kind, text, nulls):
                    return f"file {number}, row {row}, column {column}: bad cell"
    return None


def export_cleaning():
    documented = {"order": "int", "day": "text", "customer": "text", "country": "text", "units": "int", "unit_cents": "int", "paid": "bool"}
    with_text = {
        "Order no": "int", "Day": "text", "Customer": "text", "Country": "text", "Units": "int", "Unit price": "int", "Paid": "text",
    }
    exported = {**with_text, "Paid": "bool"}
    expect_fault("export_cleaning/1_header", 4, fault_of_files(EXPORT, documented))
    expect_fault("export_cleaning/2_paid", 4, fault_of_files(EXPORT, exported))
    # The check of a plan comes before its files are read, and step 1 is a filter by a text.
    expect_fault("export_cleaning/3_condition", 3, "plan: step 1: not a truth value")
    expect_fault("export_cleaning/4_numbers", 4, fault_of_files(EXPORT, with_text))
    expect_fault("export_cleaning/6_comma", 4, fault_of_files(EXPORT, with_text, MARKS))
    # No fault of the files is left, and in step 2 the product of one row is too large.
    assert fault_of_files(CORRECTED, with_text, MARKS) is None
    rows = [row for name in CORRECTED for row in records("export_cleaning", name)[1:]]
    products = [int(row[4]) * int(row[5]) for row in rows if row[6] == "yes" and not MARKS & {row[4], row[5]}]
    assert sum(product > LARGEST for product in products) == 1
    expect_fault("export_cleaning/7_overflow", 4, "step 2, item 0: overflow")

    kinds = {
        "order_no": "INTEGER", "day": "TEXT", "customer": "TEXT", "country": "TEXT", "units": "INTEGER", "unit_cents": "INTEGER",
        "paid": "TEXT",
    }
    database = sqlite3.connect(":memory:")
    load(database, "april", "export_cleaning", ["april.csv"], {column: "TEXT" for column in kinds})
    load(database, "orders", "export_cleaning", CORRECTED, kinds, {*MARKS, str(LARGEST)})
    spelling = {"spelling": "TEXT", "country": "TEXT"}
    load(database, "listed", "export_cleaning", ["spellings.csv"], spelling)
    load(database, "all_listed", "export_cleaning", ["spellings.csv", "more_spellings.csv"], spelling)
    expect_frame("export_cleaning/5_marks", database, """
        SELECT order_no AS "order", units, unit_cents FROM april
        WHERE units GLOB '[^0-9]*' OR unit_cents GLOB '[^0-9]*' ORDER BY row""")
    expect_frame("export_cleaning/8_spellings", database, """
        SELECT country AS spelling, count(*) AS rows, min(order_no) AS first_order FROM orders
        WHERE country IS NOT NULL AND country NOT IN (SELECT spelling FROM listed) GROUP BY country ORDER BY min(row)""")
    # Two rows are one order where all of their fields are the same; here this is so exactly where their numbers are.
    different = "SELECT DISTINCT order_no, day, customer, country, units, unit_cents, paid FROM orders"
    assert database.execute("SELECT count(DISTINCT order_no) FROM orders").fetchone() == \
        database.execute(f"SELECT count(*) FROM ({different})").fetchone()
    expect_frame("export_cleaning/9_report", database, """
        SELECT s.country, count(*) AS orders, count(units * unit_cents) AS counted, ifnull(sum(units), 0) AS units,
               ifnull(sum(units * unit_cents), 0) AS cents
        FROM (SELECT *, min(row) FROM orders GROUP BY order_no) o LEFT JOIN all_listed s ON o.country = s.spelling
        WHERE paid = 'yes' GROUP BY s.country ORDER BY min(o.row)""")


if __name__ == "__main__":
    monthly_accounts()
    weekly_activity()
    export_cleaning()
