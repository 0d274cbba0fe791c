#!/usr/bin/env python3
"""A second checker of statements, for an auditor who trusts nothing of ours: examples/check.py < STATEMENT

Written from docs/RULES.md, 'Statements', alone. It prints `yes TOTAL` where the prices prove the discharges, and else `no` with the reason.
Status 0: yes; 1: no; 2: the input is no statement."""
import re
import sys
from collections import Counter


def reason(parties, claims):
    """Why the prices do not prove the discharges, or nothing where they do. Amounts are in cents."""
    inflow, outflow, bound = Counter(), Counter(), 0
    for creditor, invoice, debtor, amount, discharge in claims:
        if discharge > amount:
            return f"{creditor} {invoice}: the discharge is above the amount"
        inflow[creditor] += discharge
        outflow[debtor] += discharge
        bound += amount * max(0, 1 + parties[debtor][2] - parties[creditor][2])
    for firm, (spend, room, price) in parties.items():
        if not -spend <= inflow[firm] - outflow[firm] <= room:
            return f"{firm}: its balance leaves its window"
        if abs(price) > len(parties):
            return f"{firm}: its price is out of range"
        bound += price * room if price > 0 else -price * spend
    total = inflow.total()
    return f"the total {total} is not the bound {bound}, in cents" if total != bound else None


text, money, name = sys.stdin.read(), r"(\d+)\.(\d\d)", r"([A-Z][A-Z0-9-]{0,15})"
rows = re.findall(rf"^PARTY {name} {money} {money} (-?\d+)$", text, re.M)
parties = {it[0]: (int(it[1] + it[2]), int(it[3] + it[4]), int(it[5])) for it in rows}
found = re.findall(rf"^CLAIM {name} {name} {name} {money} {money}$", text, re.M)
claims = [(*it[:3], int(it[3] + it[4]), int(it[5] + it[6])) for it in found]
is_whole = re.fullmatch(r"ROUND \d+ (PLAIN|FUNDED)\n(PARTY .*\n)*(CLAIM .*\n)*END\n", text) and text.count("\n") == len(parties) + len(claims) + 2
if not is_whole or {firm for it in claims for firm in (it[0], it[2])} - parties.keys():
    sys.exit(print("this is no statement", file=sys.stderr) or 2)
why, total = reason(parties, claims), sum(it[4] for it in claims)
print(f"no: {why}" if why else f"yes {total // 100}.{total % 100:02}")
sys.exit(1 if why else 0)
