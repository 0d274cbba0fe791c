#!/usr/bin/env bash
# Writes requests of drawn claims and one round to standard output: bench/drawn.sh FIRMS CLAIMS SEED [HORIZON]
# Each claim has a debtor, a creditor and an amount drawn by a linear congruential generator of 32 bits, and is confirmed.
# The last line closes a PLAIN round with the horizon, by default 2025-12-31. With `none` there is no such line.
set -eu
exec python3 - "${1:?usage: bench/drawn.sh FIRMS CLAIMS SEED [HORIZON]}" "${2:?}" "${3:?}" "${4:-2025-12-31}" <<'PYTHON'
import sys

firms, claims, state = map(int, sys.argv[1:4])
horizon = sys.argv[4]


def draw():
    global state
    state = (state * 1_664_525 + 1_013_904_223) % 2**32
    return state // 65_536


def drawn():
    """A debtor and a creditor, from 1, and cents."""
    debtor = draw() % firms
    creditor = draw() % (firms - 1)
    creditor += creditor >= debtor
    return debtor + 1, creditor + 1, draw() + 1


def requests():
    for firm in range(1, firms + 1):
        yield f"1 FIRM F-{firm}"
    for claim in range(1, claims + 1):
        debtor, creditor, cents = drawn()
        key = f"F-{creditor} I-{claim} F-{debtor}"
        yield f"1 FILE {key} {cents // 100}.{cents % 100:02} 2025-01-01"
        yield f"1 CONFIRM {key}"
    if horizon != "none":
        yield f"1 CLOSE PLAIN {horizon}"


for line in requests():
    print(line)
PYTHON
