#!/usr/bin/env python3
"""Turns an accounting program's export into the CSV that `import` takes: examples/convert.py RULES < EXPORT > INVOICES

RULES is a file such as examples/convert/german.ini. Its sections and what they may say:

  [file]     encoding, delimiter, skip (lines before the row of names), decimal (the mark before the cents), date (as strptime has it)
  [columns]  creditor, invoice, debtor, amount, due: the names of the export's columns; sign: the column that tells a debit from a credit note
  [values]   creditor or debtor: a firm, where no column has it; credit: what the column `sign` says of a credit note
  [stop]     a column and the words, separated by `|`, at which a row is no invoice, such as that of a total

Firms and invoices get names of the bureau, which are kept in the file names.csv of the folder, so that each has the same one next time: keep it beside the
journal. Rows that are left out are listed on the error stream with their causes. Status 0; 1 where the rules or the row of names do not fit."""
import configparser
import csv
import datetime
import io
import re
import sys
from pathlib import Path

FIELDS = ("creditor", "invoice", "debtor", "amount", "due")
NAMES = Path("names.csv")


class Names:
    """The bureau's names of firms, and of the invoices of each creditor, with what the exports call them."""

    def __init__(self):
        rows = csv.reader(NAMES.open(encoding="utf-8", newline="")) if NAMES.exists() else ()
        self.name = {(owner, theirs): ours for owner, theirs, ours in rows}

    def of(self, owner, theirs):
        """The name of a firm (of no owner), or of an owner's invoice: its own words in capitals, made unlike all others of the owner."""
        if (owner, theirs) not in self.name:
            taken = {ours for (other, _), ours in self.name.items() if other == owner}
            plain = re.sub(r"[^A-Z0-9]+", "-", theirs.upper()).strip("-")
            plain = (plain if plain[:1].isalpha() else f"N{plain}")[:16]
            tries = (plain, *(f"{plain[: 15 - len(str(it))]}-{it}" for it in range(2, 10**6)))
            self.name[owner, theirs] = next(it for it in tries if it not in taken)
        return self.name[owner, theirs]

    def keep(self):
        with NAMES.open("w", encoding="utf-8", newline="") as file:
            csv.writer(file, lineterminator="\n").writerows((*theirs, ours) for theirs, ours in self.name.items())


def amount_of(text, decimal):
    """An amount with its cents behind a point. A minus sign may stand on either side."""
    text = re.sub(rf"[^0-9{re.escape(decimal)}-]", "", text).replace(decimal, ".")
    units, _, cents = text.strip("-").partition(".")
    if not units.isdigit() or len(cents) > 2 or (cents and not cents.isdigit()):
        raise ValueError("no amount")
    return "-" * ("-" in text) + f"{int(units)}.{cents:0<2}"


def invoice_of(row, rules, names):
    """The five fields of a row, or a ValueError with the cause why it is none."""
    columns, values = rules["columns"], rules["values"]
    for column, words in rules["stop"].items():
        if row.get(column, "").strip() in words.split("|"):
            raise ValueError("no invoice")
    theirs = {it: (row.get(columns.get(it, "")) or values.get(it, "")).strip() for it in FIELDS}
    if not all(theirs.values()):
        raise ValueError("a field is missing")
    amount = amount_of(theirs["amount"], rules["file"].get("decimal", "."))
    if amount.startswith("-") or ("sign" in columns and row.get(columns["sign"]) == values.get("credit")):
        raise ValueError("credit note")
    due = datetime.datetime.strptime(theirs["due"], rules["file"].get("date", "%Y-%m-%d")).date()
    creditor, debtor = names.of("", theirs["creditor"]), names.of("", theirs["debtor"])
    return creditor, names.of(creditor, theirs["invoice"]), debtor, amount, due.isoformat()


def main():
    rules = configparser.ConfigParser(interpolation=None, delimiters="=")
    rules.optionxform = str
    rules.read_dict({it: {} for it in ("file", "columns", "values", "stop")})
    with open(sys.argv[1], encoding="utf-8") as file:
        rules.read_file(file)
    text = sys.stdin.buffer.read().decode(rules["file"].get("encoding", "utf-8-sig"))
    lines = text.splitlines(keepends=True)[int(rules["file"].get("skip", 0)) :]
    rows = csv.DictReader(io.StringIO("".join(lines), newline=""), delimiter=rules["file"].get("delimiter", ",").replace("tab", "\t"))
    lacking = set(rules["columns"].values()) - set(rows.fieldnames or ())
    if lacking:
        sys.exit(f"convert: the export has no column {min(lacking)}")
    names, seen, out = Names(), {}, csv.writer(sys.stdout, lineterminator="\n")
    out.writerow(FIELDS)
    for number, row in enumerate(rows, 1):
        try:
            found = invoice_of(row, rules, names)
            if found[:2] in seen:
                raise ValueError("the same invoice as before" if seen[found[:2]] == found else "the same invoice with other terms")
            seen[found[:2]] = found
            out.writerow(found)
        except ValueError as why:
            print(f"row {number}: {why}: {' '.join(filter(None, map(str, row.values())))}", file=sys.stderr)
    names.keep()


if __name__ == "__main__":
    main()
