#!/usr/bin/env bash
# Writes a request text of so many lines to standard output: bench/inputs.sh LINES
# It begins with two firms. Then come one firm and nine claims, each filed and at once confirmed, again and again.
# The same number gives the same bytes. All lines are accepted: past 16,384 firms only claims follow, up to 262,144.
set -eu
exec python3 - "${1:?usage: bench/inputs.sh LINES}" <<'PYTHON'
import sys

MOST_FIRMS = 16_384
MOST_CLAIMS = 262_144


def requests():
    yield "1 FIRM F-1"
    yield "1 FIRM F-2"
    firms, claims = 2, 0
    while claims < MOST_CLAIMS:
        if claims % 9 == 0 and firms < MOST_FIRMS:
            firms += 1
            yield f"1 FIRM F-{firms}"
        claims += 1
        debtor = claims * 7_919 % firms
        creditor = (debtor + 1 + claims * 104_729 % (firms - 1)) % firms
        claim = f"F-{creditor + 1} I-{claims} F-{debtor + 1}"
        cents = claims * 48_271 % 999_983 + 1
        due = f"2025-{claims % 12 + 1:02}-{claims % 28 + 1:02}"
        yield f"1 FILE {claim} {cents // 100}.{cents % 100:02} {due}"
        yield f"1 CONFIRM {claim}"


lines = int(sys.argv[1])
for _, request in zip(range(lines), requests()):
    print(request)
PYTHON
