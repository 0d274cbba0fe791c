#!/usr/bin/env bash
# Times the commands on a full book: bench/commands.sh
# Prints the milliseconds of `import` of 262,144 invoices beside Python's csv module on the same file, which checks the same fields and
# writes the same lines; of an `audit`, `positions`, `notices` and `weigh` of a book of 16,384 firms and 262,144 claims; and of
# `trial 16384 262144 1`, with its peak memory. Then it closes a round of all these claims, and times an `audit`, `statement 1` and
# `history`, which has to be what the runs printed, beside `cat` of the same bytes; and `pools`, `seal`, `account F-1`, `since` of the
# last hundred acts, `parts 1`, and a `forecast` before that round. Each is the least of three. The journal is in memory.
# Run by hand.
set -euo pipefail

. "$(dirname "$0")/program.sh"
python3 - "$program" <<'PYTHON'
import datetime
import re
import subprocess
import sys
import time

program = sys.argv[1]
FIRMS, CLAIMS = 16_384, 262_144

with open("invoices.csv", "w") as rows:
    rows.write("creditor,invoice,debtor,amount,due\n")
    for claim in range(1, CLAIMS + 1):
        debtor = claim % FIRMS
        cents = claim * 48_271 % 999_983 + 1
        rows.write(f"F-{(debtor + 1) % FIRMS + 1},I-{claim},F-{debtor + 1},{cents // 100}.{cents % 100:02},2025-{claim % 12 + 1:02}-{claim % 28 + 1:02}\n")

with open("reader.py", "w") as reader:
    reader.write(r'''
import csv, datetime, re, sys
NAME, AMOUNT = re.compile("[A-Z][A-Z0-9-]{0,15}"), re.compile("(0|[1-9][0-9]{0,9})[.][0-9]{2}")
rows = csv.reader(sys.stdin)
assert next(rows) == ["creditor", "invoice", "debtor", "amount", "due"]
for creditor, invoice, debtor, amount, due in rows:
    assert NAME.fullmatch(creditor) and NAME.fullmatch(invoice) and NAME.fullmatch(debtor) and AMOUNT.fullmatch(amount) and amount != "0.00"
    datetime.date.fromisoformat(due)
    sys.stdout.write(f"1 FILE {creditor} {invoice} {debtor} {amount} {due}\n")
''')


def least(words, source, target, times=3):
    spent = []
    for _ in range(times):
        with open(source) as given, open(target, "w") as taken:
            began = time.perf_counter()
            subprocess.run(words, stdin=given, stdout=taken, check=True)
            spent.append(time.perf_counter() - began)
    return min(spent) * 1000


ours = least([program, "import", "1"], "invoices.csv", "filed")
theirs = least([sys.executable, "reader.py"], "invoices.csv", "filed.python")
assert open("filed").read() == open("filed.python").read()
print(f"import {ours:.0f} ms, Python's csv {theirs:.0f} ms, quotient {ours / theirs:.2f}")

with open("filed") as filed, open("requests", "w") as requests:
    for firm in range(1, FIRMS + 1):
        requests.write(f"1 FIRM F-{firm}\n")
    for line in filed:
        requests.write(line)
        _, _, creditor, invoice, debtor, _, _ = line.split()
        requests.write(f"1 CONFIRM {creditor} {invoice} {debtor}\n")
with open("requests") as requests, open("printed", "w") as printed:
    subprocess.run([program, "run"], stdin=requests, stdout=printed, check=True)
for words in (["audit"], ["positions"], ["notices", "2026-01-10"], ["weigh", "PLAIN", "2026-01-10"], ["forecast", "PLAIN", "2026-01-10"]):
    print(f"{words[0]} {least([program, *words], '/dev/null', 'table'):.0f} ms")

with open("printed", "a") as printed:
    subprocess.run([program, "run"], input=b"1 CLOSE PLAIN 2026-01-10\n", stdout=printed, check=True)
audit = least([program, "audit"], "/dev/null", "table")
statement = least([program, "statement", "1"], "/dev/null", "table")
history = least([program, "history"], "/dev/null", "table")
assert open("table").read() == open("printed").read()
bytes_alone = least(["cat"], "printed", "table")
acts = int(subprocess.run([program, "audit"], stdout=subprocess.PIPE, check=True).stdout.split()[2])
for words in (["pools"], ["seal"], ["account", "F-1"], ["since", str(acts - 100)], ["since", "0"], ["parts", "1"]):
    spent = least([program, *words], "/dev/null", "table")
    print(f"with a round: {' '.join(words)} {spent:.0f} ms, {spent / audit:.2f} times audit, {spent / statement:.2f} times statement")
print(f"with a round: audit {audit:.0f} ms, statement {statement:.0f} ms, history {history:.0f} ms, cat {bytes_alone:.0f} ms, quotient {history / (audit + bytes_alone):.2f}")
PYTHON
/usr/bin/time -f 'trial: %e s, %U s of the processor, %M KB at its peak' "$program" trial 16384 262144 1
