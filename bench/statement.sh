#!/usr/bin/env bash
# Writes a statement of so many claims to standard output: bench/statement.sh CLAIMS
# The firms stand in a ring and owe one another the same, so that everything is discharged and prices of 0 prove it.
# The number of claims is a multiple of 4, and of 16 above 65,536; it is at most 262,144.
set -eu
exec python3 - "${1:?usage: bench/statement.sh CLAIMS}" <<'PYTHON'
import sys

claims = int(sys.argv[1])
firms = claims // 4 if claims <= 65_536 else claims // 16
print("ROUND 1 PLAIN")
for firm in range(firms):
    print(f"PARTY F-{firm} 0.00 0.00 0")
for claim in range(claims):
    cents = claim // firms * 48_271 % 999_983 + 1
    amount = f"{cents // 100}.{cents % 100:02}"
    print(f"CLAIM F-{(claim + 1) % firms} I-{claim} F-{claim % firms} {amount} {amount}")
print("END")
PYTHON
