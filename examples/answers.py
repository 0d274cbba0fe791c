#!/usr/bin/env python3
"""Turns the answers of debtors from CSV into requests: examples/answers.py LANE [POOL] < ANSWERS > REQUESTS

The first row names the columns, as in the CSV of `notices` with one column more: debtor, creditor, invoice and answer are needed, others may be there. An
answer is `confirm`, `dispute`, or one of these with an amount behind a space: `confirm 200.00` agrees to a part, `received 50.00` tells of a payment outside
the bureau. A row with no answer is passed over. A row with another one is named on the error stream, and the status is then 1."""
import csv
import re
import sys

VERBS = {"confirm": "CONFIRM {creditor} {invoice} {debtor}", "dispute": "DISPUTE {creditor} {invoice} {debtor}", "received": "RECEIVE {creditor} {invoice}"}
FORM = re.compile(r"(confirm)( \d+\.\d\d)?|(dispute)|(received)( \d+\.\d\d)")


def main():
    lane, *pool = sys.argv[1:]
    status = 0
    for number, row in enumerate(csv.DictReader(sys.stdin), 1):
        answer = (row["answer"] or "").strip().lower()
        form = FORM.fullmatch(answer)
        if form:
            verb, _, amount = answer.partition(" ")
            print(" ".join([lane, *(f"@{it}" for it in pool), VERBS[verb].format(**row), *amount.split()]))
        elif answer:
            print(f"row {number}: no answer: {answer}", file=sys.stderr)
            status = 1
    return status


if __name__ == "__main__":
    sys.exit(main())
