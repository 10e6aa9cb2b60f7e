"""Each example, written by the calls of the package: the same plan, the same arguments, the same bytes."""
import datetime
import decimal
import json
import os
import shlex
import tempfile
import unittest

from repository import ROOT, fq, program

EXAMPLES = os.path.join(ROOT, "examples")
C, LIT = fq.col, fq.lit
TEXT, INT, BOOL, DATE, AMOUNT = fq.String, fq.Int64, fq.Boolean, fq.Date, fq.Decimal(scale=2)

CUSTOMERS = {"customer": INT, "total": INT, "name": TEXT}
TOTALS = {"customer": INT, "total": INT}
BLOCKED = {"customer": INT, "blocked": BOOL}
ORDERS = {"order": INT, "customer": INT}
CENTS = {"account": INT, "cents": INT}
OFFERS = {"region": TEXT, "product": TEXT, "cents": INT}
SALES = {"month": TEXT, "region": TEXT, "product": TEXT, "units": INT, "unit_cents": INT, "returned": BOOL}
EXPORT = {"Order no": INT, "Day": TEXT, "Customer": TEXT, "Country": TEXT, "Units": INT, "Unit price": INT, "Paid": TEXT}
MARKS = {**EXPORT, "Units": TEXT, "Unit price": TEXT}
SPELLINGS = {"spelling": TEXT, "country": TEXT}
NAMES = ["order", "day", "customer", "country", "units", "unit_cents", "paid"]
NULLS = ["n/a", "-", "?"]
ALL_NULLS = [*NULLS, "9223372036854775807"]
LEDGER = {"number": INT, "month": TEXT, "day": TEXT, "account": TEXT, "text": TEXT, "credit": INT, "debit": INT}
USERS = {"user": INT, "name": TEXT, "team": TEXT, "plan": TEXT}
PLANS = {"plan": TEXT, "label": TEXT, "monthly_cents": INT}
EVENTS = {"week": TEXT, "day": TEXT, "user": INT, "action": TEXT, "minutes": INT, "test": BOOL}
ACCOUNTS = {"account": TEXT, "is_bank": INT, "is_savings": INT, "is_cash": INT, "is_card": INT}


def scan(files, schema, null_values=None):
    return fq.scan_csv(list(files), schema=schema, null_values=null_values)


def renamed(frame, country="country"):
    names = dict(zip(EXPORT, NAMES), Country=country)
    return frame.select(**{new: C(old) for old, new in names.items()})


def by_country(frame):
    frame = frame.with_columns(cents=C("units") * C("unit_cents"))
    return frame.group_by("country", maintain_order=True).agg(fq.len().alias("orders"), C("units", "cents").sum())


def change():
    return (C("credit").fill_null(0) - C("debit").fill_null(0)).alias("change")


# Each example's frame, from its files in the order of the command line.
FRAMES = {
    "bad_cell": lambda *f: scan(f, {"sensor": TEXT, "reading": INT}).group_by("sensor").agg(total=C("reading").sum()),
    "dirty_export": lambda countries, *weeks: (
        scan(weeks, {"day": TEXT, "code": TEXT, "units": INT, "returned": BOOL}, ["NULL", "N/A", "-", "unknown"])
        .join(scan([countries], {"code": TEXT, "country": TEXT}, "?"), on="code", how="left")
        .with_columns(kept=~C("returned").fill_null(False))
        .filter("kept")
        .group_by("country")
        .agg(fq.len().alias("rows"), C("units").count().alias("counted"), C("units").sum(), C("day").first().alias("first_day"))
    ),
    "lapsed_customers": lambda spring, summer, blocked, customers: (
        scan([customers], {"customer": INT, "name": TEXT, "city": TEXT})
        .join(scan([spring, summer], {**ORDERS, "cents": INT}), on="customer", how="anti")
        .join(scan([blocked], BLOCKED), on="customer", how="left")
        .filter(~C("blocked").fill_null(False))
        .group_by("city")
        .agg(customers=fq.len(), first=C("name").first())
    ),
    "missing_readings": lambda *f: (
        scan(f, {"sensor": TEXT, "reading": INT, "checked": BOOL})
        .with_columns(high=C("checked") & (C("reading") > 80), missing=C("reading").is_null())
        .filter(C("high").fill_null(True) | C("missing"))
        .group_by("sensor")
        .agg(
            fq.len().alias("rows"),
            C("reading").count().alias("readings"),
            C("reading").sum().alias("total"),
            C("reading").min().alias("lowest"),
            C("high").last().alias("last_high"),
        )
    ),
    "monthly_revenue": lambda *f: (
        scan(f, {"invoice": INT, "day": DATE, "customer": TEXT, "amount": AMOUNT})
        .with_columns(month=C("day") // 100)
        .group_by("month")
        .agg(
            fq.len().alias("invoices"),
            C("amount").sum().alias("revenue"),
            C("amount").max().alias("largest"),
            C("day").max().alias("last_day"),
        )
    ),
    "monthly_sales": lambda *f: (
        scan(f, SALES)
        .filter(~C("returned"))
        .with_columns(cents=C("units") * C("unit_cents"))
        .group_by("month", "region", maintain_order=True)
        .agg(fq.len().alias("orders"), C("units").sum(), C("cents").sum(), C("cents").max().alias("largest"))
    ),
    "orders_with_customers": lambda customers, orders: (
        scan([orders], {**ORDERS, "cents": INT})
        .join(scan([customers], {"customer": INT, "name": TEXT, "city": TEXT}), on="customer", how="left", maintain_order="left_right")
        .select("order", C("name").fill_null("(unknown)"), "city", "cents")
    ),
    "rolling_week": lambda *f: scan(f, {"day": TEXT, "visitors": INT}).with_columns(
        C("visitors").rolling_sum(7).alias("week"), week_of_five=C("visitors").rolling_sum(7, min_samples=5)
    ),
    "export_cleaning/1_header": lambda *f: by_country(
        scan(f, dict(zip(NAMES, [*EXPORT.values()][:-1] + [BOOL]))).filter("paid")
    ),
    "export_cleaning/2_paid": lambda *f: by_country(renamed(scan(f, {**EXPORT, "Paid": BOOL})).filter(C("paid"))),
    "export_cleaning/4_numbers": lambda *f: by_country(renamed(scan(f, EXPORT)).filter(C("paid") == "yes")),
    "export_cleaning/5_marks": lambda *f: (
        scan(f, MARKS)
        .filter(((C("Units") < "0") | (C("Units") >= ":")) | ((C("Unit price") < "0") | (C("Unit price") >= ":")))
        .select(order="Order no", units="Units", unit_cents="Unit price")
    ),
    "export_cleaning/6_comma": lambda *f: by_country(renamed(scan(f, EXPORT, NULLS)).filter(paid="yes")),
    "export_cleaning/7_overflow": lambda *f: by_country(renamed(scan(f, EXPORT, NULLS)).filter(paid="yes")),
    "export_cleaning/8_spellings": lambda spellings, *f: (
        scan(f, EXPORT, ALL_NULLS)
        .select(C("Order no").alias("order"), C("Country").alias("spelling"))
        .filter(C("spelling").is_not_null())
        .join(scan([spellings], SPELLINGS), on=["spelling"], how="anti")
        .group_by(["spelling"])
        .agg([fq.len().alias("rows"), C("order").first().alias("first_order")])
    ),
    "export_cleaning/9_report": lambda one, two, *f: (
        renamed(scan(f, EXPORT, ALL_NULLS), country="spelling")
        .unique(maintain_order=True)
        .filter(C("paid") == "yes")
        .with_columns(cents=C("units") * C("unit_cents"))
        .join(scan([one, two], SPELLINGS), on="spelling", how="left")
        .group_by("country")
        .agg(fq.len().alias("orders"), C("cents").count().alias("counted"), C("units").sum(), C("cents").sum())
    ),
    "monthly_accounts/balances": lambda columns, *f: (
        scan(f, LEDGER)
        .with_columns(change())
        .join(scan([columns], ACCOUNTS), on="account")
        .with_columns((C("change") * C(f"is_{name}")).alias(name) for name in ("bank", "savings", "cash", "card"))
        .group_by("month")
        .agg(C("bank", "savings", "cash", "card").sum())
        .with_columns(C(["bank", "savings", "cash", "card"]).rolling_sum(window_size=12, min_samples=1))
        .with_columns(total=(C("bank") + C("savings")) + (C("cash") + C("card")))
    ),
    "monthly_accounts/by_month": lambda *f: (
        scan(f, LEDGER)
        .with_columns(change(), voided=C("credit").is_null() & C("debit").is_null())
        .filter(~C("voided"))
        .group_by("month", "account")
        .agg(fq.len().alias("bookings"), C("credit", "debit", "change").sum(), largest_debit=C("debit").max())
    ),
    "monthly_accounts/statement": lambda *f: (
        scan(f, LEDGER)
        .filter(C("account") == "cash")
        .with_columns(change())
        .with_columns(balance=C("change").rolling_sum(65536, min_samples=1))
        .select("number", "day", "text", "change", "balance")
    ),
    "weekly_activity/by_plan": lambda users, plans, *f: (
        scan(f, EVENTS)
        .filter(~C("test"))
        .join(scan([users], USERS), on="user")
        .join(scan([plans], PLANS), on="plan", how="left", nulls_equal=True)
        .group_by("week", "label")
        .agg(
            C("user").n_unique().alias("users"),
            events=fq.len(),
            timed=C("minutes").count(),
            minutes=C("minutes").sum(),
            longest=C("minutes").max(),
        )
    ),
    "weekly_activity/inactive": lambda january, february, march, plans, users: (
        scan([users], USERS)
        .join(scan([january, february, march], EVENTS), on="user", how="anti")
        .join(scan([plans], PLANS), on="plan", how="left", nulls_equal=True)
        .select("user", "name", C("team").fill_null("(none)"), "label", pays=C("monthly_cents") > 0)
    ),
    "weekly_activity/invited": lambda invited, *f: (
        scan(f, EVENTS)
        .filter(~C("test"))
        .join(scan([invited], {"email": TEXT, "user": INT}), on="user", how="semi")
        .group_by("week")
        .agg(C("user").n_unique().alias("users"), fq.len().alias("events"), C("minutes").sum())
        .with_columns(four_weeks=C("minutes").rolling_sum(4))
    ),
    "weekly_activity/unknown": lambda users, *f: (
        scan(f, EVENTS)
        .join(scan([users], USERS), on="user", how="anti")
        .group_by("user")
        .agg(fq.len().alias("events"), C("day").min().alias("first_day"), C("day").max().alias("last_day"))
    ),
    "cookbook/amounts": lambda *f: (
        scan(f, {"item": TEXT, "price": AMOUNT, "units": INT, "rate": AMOUNT})
        .with_columns(total=C("price") * C("units"))
        .with_columns(exact=C("total") * C("rate"))
        .with_columns(tax=(C("exact") + decimal.Decimal("0.005")).quotient(1, 2))
        .select("item", "total", "exact", "tax")
    ),
    "cookbook/monthly_vat": lambda *f: (
        scan(f, {"day": DATE, "item": TEXT, "price": AMOUNT, "units": INT, "rate": INT})
        .with_columns(month=C("day") // 100, net=C("price") * C("units"))
        .with_columns(vat=(C("net") * C("rate") + decimal.Decimal("0.50")).quotient(100, 2))
        .group_by("month", "rate")
        .agg(C("net").sum(), C("vat").sum())
        .with_columns(gross=C("net") + C("vat"))
    ),
    "cookbook/distinct": lambda *f: scan(f, {"region": TEXT, "product": TEXT, "units": INT}).group_by("region", "product").agg(),
    "cookbook/mean": lambda *f: (
        scan(f, {"region": TEXT, "cents": INT})
        .with_columns(all=LIT(True))
        .group_by("all")
        .agg(C("cents").count().alias("sales"), C("cents").sum().alias("total"))
        .select("sales", "total", mean=C("total") // C("sales"))
    ),
    "cookbook/weeks": lambda calendar, *f: (
        scan(f, {"day": TEXT, "visits": INT})
        .join(scan([calendar], {"day": TEXT, "week": TEXT, "holiday": TEXT}), on="day", how="left")
        .filter(C("holiday").is_null())
        .group_by("week")
        .agg(fq.len().alias("days"), C("visits").sum())
    ),
    "cookbook/joined_condition": lambda customers, *f: (
        scan(f, {"order": INT, "customer": INT, "cents": INT})
        .join(scan([customers], {"customer": INT, "city": TEXT}), on="customer")
        .filter(C("city") == "Bonn")
        .select("order", "cents")
    ),
    "cookbook/row_of_the_maximum": lambda sales, *f: (
        scan(f, OFFERS)
        .group_by("region")
        .agg(C("cents").max())
        .join(scan([sales], OFFERS), on=["region", "cents"])
    ),
    "cookbook/german_export": lambda *f: (
        scan(f, {"order": INT, "day": DATE, "customer": TEXT, "amount": AMOUNT})
        .group_by("customer")
        .agg(C("amount").sum(), last_day=C("day").max())
    ),
    "cookbook/missing_days": lambda visits, calendar: (
        scan([calendar], {"day": TEXT})
        .join(scan([visits], {"day": TEXT, "visitors": INT}), on="day", how="left")
        .with_columns(week=C("visitors").rolling_sum(7, min_samples=5))
    ),
    "guide/amounts_and_dates": lambda *f: (
        scan(f, {"day": DATE, "item": TEXT, "price": AMOUNT, "units": INT})
        .filter((C("day") >= datetime.date(2024, 2, 1)) & (C("price") >= 10))
        .with_columns(C("day").dt.month().alias("month"), (C("price") * C("units")).alias("total"))
    ),
    "guide/anti_join": lambda blocked, *f: scan(f, ORDERS).join(scan([blocked], BLOCKED), on="customer", how="anti"),
    "guide/semi_join": lambda blocked, *f: scan(f, ORDERS).join(scan([blocked], BLOCKED), on="customer", how="semi"),
    "guide/inner_join": lambda customers, *f: scan(f, TOTALS).join(scan([customers], CUSTOMERS), on="customer"),
    "guide/left_join": lambda customers, *f: scan(f, TOTALS).join(scan([customers], CUSTOMERS), "customer", "left"),
    "guide/nulls_equal": lambda regions, *f: scan(f, {"shop": INT, "region": TEXT}).join(
        scan([regions], {"region": TEXT, "manager": TEXT}), on="region", how="left", nulls_equal=True
    ),
    "guide/arithmetic": lambda *f: scan(f, {"a": INT, "b": INT}).with_columns(
        (C("a") // C("b")).alias("quotient"), (C("a") % C("b")).alias("rest"), (-C("b")).alias("negative")
    ),
    "guide/comparisons": lambda *f: scan(f, {"a": INT, "b": INT}).with_columns(
        (C("a") < C("b")).alias("less"), (C("a") == C("b")).alias("equal"), C("a").eq_missing(C("b")).alias("same")
    ),
    "guide/filter": lambda *f: scan(f, {"name": TEXT, "price": INT}).filter(C("price") >= 100, C("name") != "lamp"),
    "guide/group_by": lambda *f: (
        scan(f, {"team": TEXT, "points": INT})
        .group_by("team", maintain_order=True)
        .agg(
            fq.len().alias("games"),
            C("points").count().alias("scored"),
            C("points").sum().alias("total"),
            C("points").min().alias("least"),
            C("points").max().alias("most"),
            C("points").first().alias("opening"),
            C("points").last().alias("latest"),
            C("points").n_unique().alias("different"),
        )
    ),
    "guide/logic": lambda *f: scan(f, {"p": BOOL, "q": BOOL}).with_columns(
        (C("p") & C("q")).alias("both"),
        (C("p") | C("q")).alias("either"),
        (~C("p")).alias("not_p"),
        C("p").is_null().alias("unknown"),
        C("p").fill_null(C("q")).alias("p_or_q"),
    ),
    "guide/null_values": lambda *f: scan(f, {"station": TEXT, "reading": INT}, ["NA", "-", "n/a"]),
    "guide/overflow": lambda *f: scan(f, {"a": INT, "b": INT}).with_columns(p=C("a") + 1).with_columns(q=C("b") + 1),
    "guide/rolling_sum": lambda *f: scan(f, {"day": INT, "visits": INT}).with_columns(
        C("visits").rolling_sum(window_size=3, min_samples=2).alias("recent")
    ),
    "guide/select": lambda *f: scan(f, {"id": INT, "name": TEXT, "price": INT}).select(
        C("name").alias("item"), "price", LIT("EUR").alias("currency"), LIT(None, dtype=INT).alias("discount")
    ),
    "guide/sources": lambda *f: scan(f, {"id": int, "name": str, "paid": bool}),
    "guide/sum_as_a_whole": lambda *f: scan(f, CENTS).group_by("account").agg(C("cents").sum().alias("balance")),
    "guide/sum_out_of_range": lambda *f: scan(f, CENTS).group_by("account").agg(balance=C("cents").sum()),
    "guide/with_columns": lambda *f: scan(f, {"name": TEXT, "price": INT, "units": INT}).with_columns(
        (C("price") * C("units")).alias("total"), C("price") - 5
    ),
}

# Examples whose plan the package does not write: a filter by a text, which it refuses at once, no run, and faults by another option.
OTHERS = {
    "export_cleaning/3_condition",
    "export_cleaning/check",
    "export_cleaning/draft",
    "guide/explain",
    *(f"details/{name}" for name in os.listdir(os.path.join(EXAMPLES, "details"))),
}


def read(*path):
    with open(os.path.join(EXAMPLES, *path), "rb") as file:
        return file.read()


def command_lines(name):
    """The command of an example, and the status in which it ends if that is not 0."""
    return read(name, "command").decode().splitlines()


def words_of(name):
    """The words of an example's command behind its plan: those of `--decimal` and of `--date`, and its files."""
    words, options = shlex.split(command_lines(name)[0])[3:], {"--decimal": [], "--date": []}
    while words[0] in options:
        option, entries, *words = words
        options[option] += entries.split(",")
    return options, words


class Examples(unittest.TestCase):
    """The frames of the examples."""

    def frame(self, name):
        _, files = words_of(name)
        return FRAMES[name](*(os.path.join(EXAMPLES, name, file) for file in files))

    def test_all_are_here(self):
        """No example is left out."""
        folders = {os.path.relpath(folder, EXAMPLES) for folder, _, files in os.walk(EXAMPLES) if "command" in files}
        self.assertEqual(folders, {*FRAMES, *OTHERS})

    def test_plans(self):
        """The plan of each is that of its folder."""
        for name in FRAMES:
            with self.subTest(name):
                self.assertEqual(self.frame(name).plan(), json.loads(read(name, "plan.json")))

    def test_notations(self):
        """The decimals and the dates of each are those of its command, which says less of what steps make."""
        for name in FRAMES:
            options, _ = words_of(name)
            with self.subTest(name):
                notations = self.frame(name).notations()
                dates = {column for column, kind in notations.items() if kind == DATE}
                decimals = {column: f"{column}={getattr(kind, 'scale', 0)}" for column, kind in notations.items() if kind != DATE}
                self.assertEqual({*options["--decimal"]} - {*decimals.values()}, set())
                self.assertEqual({*options["--date"]} - dates, set())
                of_sources = {column for source in self.frame(name).plan()["sources"] for column, _ in source["columns"]}
                said = {*options["--date"], *(entry.rpartition("=")[0] for entry in options["--decimal"])}
                self.assertEqual(({*decimals} | dates) & of_sources - said, set())

    def test_values(self):
        """Amounts and days are values of Python."""
        result = self.frame("monthly_revenue").collect(program=program())
        amounts = [decimal.Decimal(it) for it in ("1339.90", "1250.00")]
        self.assertEqual(result.rows()[0], (202311, 2, *amounts, datetime.date(2023, 11, 28)))

    def test_results(self):
        """What each writes or raises is what its folder has."""
        path = program()
        with tempfile.TemporaryDirectory() as room:
            for name in FRAMES:
                with self.subTest(name):
                    self.run_one(name, path, os.path.join(room, "result.csv"))

    def run_one(self, name, path, result):
        if not os.path.exists(os.path.join(EXAMPLES, name, "error")):
            self.frame(name).sink_csv(result, program=path)
            with open(result, "rb") as file:
                self.assertEqual(file.read(), read(name, "expected"))
            return
        with self.assertRaises(fq.FrameqError) as raised:
            self.frame(name).sink_csv(result, program=path)
        self.assertEqual((raised.exception.line + "\n").encode(), read(name, "error"))
        self.assertTrue(raised.exception.details)
        self.assertEqual(f"status {raised.exception.status}", command_lines(name)[1])


if __name__ == "__main__":
    unittest.main()
