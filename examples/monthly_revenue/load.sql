\set ON_ERROR_STOP on
CREATE TABLE revenue (month BIGINT, invoices BIGINT, revenue NUMERIC, largest NUMERIC, last_day DATE);
\copy revenue FROM PROGRAM 'frameq --plan plan.json --decimal amount=2 --date day 2023.csv 2024.csv' (FORMAT csv, HEADER)
