import csv
import sys

rows = csv.reader(open("export.csv", encoding="latin-1", newline=""), delimiter=";")
sys.stdout.reconfigure(encoding="utf-8", newline="")
mended = csv.writer(sys.stdout, lineterminator="\n")
mended.writerow(next(rows))
for order, day, customer, amount in rows:
    day = "-".join(reversed(day.split(".")))
    amount = amount.replace(".", "").replace(",", ".")
    mended.writerow([order, day, customer, amount])
