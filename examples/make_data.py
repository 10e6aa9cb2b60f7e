#!/usr/bin/env python3
"""Writes the CSV files of the three longer examples. They are committed; a run gives the same bytes again.

    examples/make_data.py

Only the standard library is used, and every draw comes from a generator with a fixed seed.
"""
import csv
import datetime
import os
import random

HERE = os.path.dirname(os.path.abspath(__file__))
ONE_DAY = datetime.timedelta(days=1)


def write(folder, name, header, rows, ends="\n"):
    with open(os.path.join(HERE, folder, name), "w", newline="", encoding="utf-8") as file:
        writer = csv.writer(file, lineterminator=ends)
        writer.writerow(header)
        writer.writerows(rows)


def days(first, last):
    day = datetime.date.fromisoformat(first)
    while day.isoformat() <= last:
        yield day
        day += ONE_DAY


# ---- monthly_accounts: the bookings of a club in one year, a file for each quarter

ACCOUNTS = ["bank", "savings", "cash", "card"]
BOOKING = ["number", "month", "day", "account", "text", "credit", "debit"]
OPENING = {"bank": 1_250_000, "savings": 3_000_000, "cash": 18_500, "card": 0}

# For each account: the text of a booking, the column of its amount, and the range of its amount in cents.
USUAL = {
    "bank": [("Membership fee", "credit", 2_000, 6_000), ("Donation", "credit", 500, 25_000), ("Course, evening", "credit", 6_000, 12_000),
             ("Materials", "debit", 800, 14_000), ("Travel", "debit", 1_000, 22_000)],
    "cash": [("Tickets", "credit", 500, 4_000), ("Drinks and snacks", "credit", 150, 2_500), ("Postage", "debit", 85, 1_500),
             ("Groceries", "debit", 900, 4_200)],
    "card": [("Fuel", "debit", 2_500, 9_000), ('Print shop "Blitz"', "debit", 600, 12_000), ("Train tickets", "debit", 1_500, 13_000)],
}


def bookings_of(day, draw):
    """The bookings of a day without their numbers: account, text, credit and debit. A voided booking has no amount."""
    if (day.month, day.day) == (1, 1):
        for account in ACCOUNTS:
            yield account, "Opening balance", OPENING[account], None
    if day.day == 1:
        yield "bank", "Rent, hall", None, 35_000
    if day.day == 15:
        yield "bank", "To savings", None, 30_000
        yield "savings", "From bank", 30_000, None
    if day.day == 28:
        yield "bank", "Card settlement", None, 250_000
        yield "card", "Card settlement", 250_000, None
    if (day.month, day.day) in ((6, 30), (12, 31)):
        yield "savings", "Interest", draw.randrange(15_000, 25_000), None
    for _ in range(draw.randrange(5, 14)):
        account = draw.choice(["bank", "bank", "bank", "bank", "cash", "cash", "card"])
        text, column, least, most = draw.choice(USUAL[account])
        cents = draw.randrange(least, most)
        if draw.randrange(50) == 0:
            yield account, f"{text} (voided)", None, None
        elif column == "credit":
            yield account, text, cents, None
        else:
            yield account, text, None, cents


def make_monthly_accounts():
    draw = random.Random(1)
    quarters = {1: [], 2: [], 3: [], 4: []}
    number = 0
    for day in days("2025-01-01", "2025-12-31"):
        for account, text, credit, debit in bookings_of(day, draw):
            number += 1
            quarters[(day.month + 2) // 3].append([number, day.isoformat()[:7], day.isoformat(), account, text, credit, debit])
    for quarter, rows in quarters.items():
        write("monthly_accounts", f"quarter_{quarter}.csv", BOOKING, rows)
    write("monthly_accounts", "columns.csv", ["account", *(f"is_{account}" for account in ACCOUNTS)],
          [[account, *(int(account == other) for other in ACCOUNTS)] for account in ACCOUNTS])


# ---- weekly_activity: what the users of a web service did in 13 weeks, a file for each month

FIRST = ["Ada", "Grace", "Alan", "Emmy", "Leonhard", "Mary", "Paul", "Mei", "Lena", "Paulo", "Ngozi", "Björn", "Chloé", "Ivan", "Sara"]
LAST = ["Okafor", "Brandt", "Reis", "Tanaka", "Lindqvist", "Petrov", "Moreau", "Haddad", "Novák", "Kim", "O'Brien", "Silva", "Wolff"]
TEAMS = ["design", "sales", "support", "engineering", ""]
PLANS = ["", "", "team", "team", "team", "business", "trial"]
ACTIONS = ["login", "view", "view", "edit", "edit", "export", "invite"]
USERS = 240


def make_weekly_activity():
    draw = random.Random(2)
    users = [[user, f"{draw.choice(FIRST)} {draw.choice(LAST)}", draw.choice(TEAMS), draw.choice(PLANS)] for user in range(1, USERS + 1)]
    write("weekly_activity", "users.csv", ["user", "name", "team", "plan"], users)
    # Users on the free plan have no plan; nothing is known of the plan "trial".
    plans = [["", "Free", 0], ["team", "Team", 1200], ["business", "Business", 2900]]
    write("weekly_activity", "plans.csv", ["plan", "label", "monthly_cents"], plans)
    quiet = set(draw.sample(range(1, USERS + 1), 18))
    active = [user for user in range(1, USERS + 1) if user not in quiet]
    invited = draw.sample(active, 25)
    # Two of those who were invited have no user number yet.
    write("weekly_activity", "invited.csv", ["email", "user"],
          [[f"guest{number}@example.org", "" if number in (7, 19) else user] for number, user in enumerate(invited)])
    months = {"2024-12": [], "2025-01": [], "2025-02": [], "2025-03": []}
    for day in days("2024-12-30", "2025-03-30"):
        year, week, weekday = day.isocalendar()
        for _ in range(draw.randrange(20, 36) if weekday > 5 else draw.randrange(50, 85)):
            kind = draw.randrange(100)
            # Visitors who are not logged in have no user, and the users from 901 were deleted.
            user = "" if kind < 6 else draw.randrange(901, 907) if kind == 6 else draw.choice(active)
            action = draw.choice(ACTIONS)
            minutes = "" if action == "login" else min(180, int(draw.expovariate(1 / 12)) + 1)
            months[day.isoformat()[:7]].append([f"{year}-W{week:02}", day.isoformat(), user, action, minutes,
                                                "true" if draw.randrange(40) == 0 else "false"])
    header = ["week", "day", "user", "action", "minutes", "test"]
    write("weekly_activity", "january.csv", header, months["2024-12"] + months["2025-01"])
    write("weekly_activity", "february.csv", header, months["2025-02"])
    write("weekly_activity", "march.csv", header, months["2025-03"])


# ---- export_cleaning: the orders of a web shop as its export has them, a file for each month

ORDER = ["Order no", "Day", "Customer", "Country", "Units", "Unit price", "Paid"]
SPELLINGS = {
    "Germany": ["Germany", "germany", "GER", "DE"],
    "France": ["France", "france", "FR"],
    "Italy": ["Italy", "IT", "Italia"],
    "Austria": ["Austria", "AT"],
}
UNLISTED = {"Schweiz": "Switzerland", "Germny": "Germany", "CH": "Switzerland"}
LARGEST = 2**63 - 1


def order(number, day, draw):
    kind = draw.randrange(100)
    country = "" if kind < 2 else draw.choice(list(UNLISTED)) if kind < 4 else draw.choice(SPELLINGS[draw.choice(list(SPELLINGS))])
    units = "n/a" if draw.randrange(90) == 0 else draw.randrange(1, 13)
    price = "-" if draw.randrange(70) == 0 else draw.randrange(2, 200) * 50 - 5
    paid = "?" if draw.randrange(60) == 0 else draw.choice(["yes", "yes", "yes", "no"])
    name = f"{draw.choice(FIRST)} {draw.choice(LAST)}"
    return [number, day.isoformat(), name, country, units, price, paid]


def make_export_cleaning():
    draw = random.Random(3)
    months = {"2025-04": [], "2025-05": [], "2025-06": []}
    number = 20_000
    for day in days("2025-04-01", "2025-06-30"):
        for _ in range(draw.randrange(22, 36)):
            number += 1
            months[day.isoformat()[:7]].append(order(number, day, draw))
    april, may, june = months.values()
    april[0][6] = "yes"
    # The export of a month repeats the last orders of the month before.
    may = april[-24:] + may
    june = may[-31:] + june
    # One customer's order has no limit, which the shop writes as the largest number.
    june[412][4:] = [LARGEST, 495, "yes"]
    # A name with a comma, which the export of May does not quote.
    may[317][2] = "Brandt, Lena"
    for name, rows in ("april.csv", april), ("may_corrected.csv", may), ("june.csv", june):
        write("export_cleaning", name, ORDER, rows, ends="\r\n")
    with open(os.path.join(HERE, "export_cleaning", "may_corrected.csv"), newline="", encoding="utf-8") as file:
        text = file.read().replace('"Brandt, Lena"', "Brandt, Lena")
    with open(os.path.join(HERE, "export_cleaning", "may.csv"), "w", newline="", encoding="utf-8") as file:
        file.write(text)
    write("export_cleaning", "spellings.csv", ["spelling", "country"],
          [[spelling, country] for country, spellings in SPELLINGS.items() for spelling in spellings])
    write("export_cleaning", "more_spellings.csv", ["spelling", "country"], UNLISTED.items())


if __name__ == "__main__":
    make_monthly_accounts()
    make_weekly_activity()
    make_export_cleaning()
