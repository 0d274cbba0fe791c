"""Reads a statement from standard input and judges it as `check` does, without proof: a yardstick for its time.

It takes the lines apart, finds parties by a dictionary, and tests amounts, windows, prices and the bound. It asks less of the
spelling than `check`.
"""

import sys


def cents(text):
    units, hundredths = text.split(".")
    return int(units) * 100 + int(hundredths)


def main():
    parties, keys, claims = {}, set(), []
    for line in sys.stdin.read().splitlines():
        match line.split(" "):
            case ["PARTY", firm, spend, room, price]:
                parties[firm] = (cents(spend), cents(room), int(price))
            case ["CLAIM", creditor, invoice, debtor, amount, discharged]:
                assert (creditor, invoice) not in keys
                keys.add((creditor, invoice))
                claims.append((debtor, creditor, cents(amount), cents(discharged)))
    change = dict.fromkeys(parties, 0)
    bound = total = 0
    for debtor, creditor, amount, discharged in claims:
        assert discharged <= amount
        change[creditor] += discharged
        change[debtor] -= discharged
        total += discharged
        bound += amount * max(0, 1 + parties[debtor][2] - parties[creditor][2])
    for firm, (spend, room, price) in parties.items():
        assert -spend <= change[firm] <= room and abs(price) <= len(parties)
        bound += max(price * room, -price * spend)
    print(f"{'yes' if total == bound else 'no'} {total // 100}.{total % 100:02}")


main()
