#!/usr/bin/env bash
# Carries a pool over into a new one: examples/carry.sh DATE OLD NEW [PROGRAM] > REQUESTS
# Writes the requests that register the firms of the pool OLD in the pool NEW and give them its accounts, open claims and parts, so that the positions of both
# are the same, and the open amounts and parts in the notices. The open amount of a claim becomes its amount, withdrawn and settled claims stay behind, and a
# confirmed claim whose part is 0.00 is filed alone. MAIN is a pool, too. PROGRAM stands in for ./bureau; DATE is a day on which notices are told.
set -eu -o pipefail
day=$1 old=$2 new=$3
program=${4:-$(dirname "$0")/../bureau}
[ "$old" = MAIN ] && pool=() || pool=("$old")
positions=$("$program" positions "${pool[@]}")
notices=$("$program" notices "$day" "${pool[@]}")
printf '%s\n==\n%s\n' "$positions" "$notices" | awk -F, -v to="1 @$new" '
  # An amount of a request is at most 9999999999.99, and an account may have more.
  function put(verb, firm, amount,   most) {
    most = "9999999999.99"
    for (; amount + 0 > most + 0; amount = sprintf("%.2f", amount - most)) print to, verb, firm, most
    if (amount + 0 > 0) print to, verb, firm, amount
  }
  /^==/ { in_notices = 1; next }
  $1 == "firm" || $1 == "debtor" { next }
  !in_notices {
    print to, "FIRM", $1
    # Limits come first where the balance needs them, and last where the way to the balance could leave them.
    if ($2 ~ /^-/) { if ($3 != "0.00" || $4 != "10000000000000.00") print to, "LIMIT", $1, $3, $4; put("DRAW", $1, substr($2, 2)) }
    else { put("FUND", $1, $2); if ($3 != "0.00" || $4 != "10000000000000.00") print to, "LIMIT", $1, $3, $4 }
    if ($5 != "0.00") print to, "OFFER", $1, $5
    next
  }
  { claims[++count] = $0 }
  END {
    for (at = 1; at <= count; at++) {
      split(claims[at], it, ",")
      claim = it[2] " " it[3] " " it[1]
      print to, "FILE", claim, it[6], it[8]
      if (it[4] == "disputed") print to, "DISPUTE", claim
      if (it[4] == "confirmed" && it[7] == it[6]) print to, "CONFIRM", claim
      else if (it[4] == "confirmed" && it[7] + 0 > 0) print to, "CONFIRM", claim, it[7]
    }
  }'
