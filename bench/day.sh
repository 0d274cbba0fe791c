#!/usr/bin/env bash
# Writes the requests of a day of 40 firms to standard output: bench/day.sh
# Lane 1 registers the firms and files 300 invoices of 100.00, each owed by a firm to the next one of a ring. After a fence four
# lanes confirm them; after another one a claim is disputed, F-1 is funded with 50.00, which it offers, and a FUNDED round is closed.
# 299 claims of 40 firms are then settled with 25950.00: 600.00 by F-40 and 650.00 by each other firm, of which F-1 spends 50.00.
set -eu
exec python3 - <<'PYTHON'
FIRMS, INVOICES, LANES = 40, 300, 4


def claim(invoice):
    debtor = (invoice - 1) % FIRMS + 1
    return f"F-{debtor % FIRMS + 1} J-{invoice} F-{debtor}"


for firm in range(1, FIRMS + 1):
    print(f"1 FIRM F-{firm}")
for invoice in range(1, INVOICES + 1):
    print(f"1 FILE {claim(invoice)} 100.00 2025-{invoice % 12 + 1:02}-{invoice % 28 + 1:02}")
print("FENCE")
for invoice in range(1, INVOICES + 1):
    print(f"{invoice % LANES + 1} CONFIRM {claim(invoice)}")
print("FENCE")
print("1 DISPUTE F-1 J-40 F-40")
print("1 FUND F-1 50.00")
print("1 OFFER F-1 50.00")
print("1 CLOSE FUNDED 2025-12-31")
PYTHON
