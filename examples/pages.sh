#!/usr/bin/env bash
# A page for each party of a published round: examples/pages.sh ROUND FOLDER [POOL [PROGRAM]]
# Writes FOLDER/FIRM.txt, which has the page of `parts`, and below it a line for each chain of `explain` in which the firm has a part:
#   CHAIN AMOUNT pays CREDITOR INVOICE gets DEBTOR INVOICE
# In an open chain the first firm, which `explain` does not name, pays alone, and the last one gets alone. PROGRAM stands in for ./bureau.
set -eu -o pipefail
round=$1 folder=$2 pool=${3:-MAIN}
program=${4:-$(dirname "$0")/../bureau}
[ "$pool" = MAIN ] && named=() || named=("$pool")
mkdir -p "$folder"
pages=$("$program" parts "$round" "$pool")
statement=$("$program" statement "$round" "${named[@]}")
chains=$(printf '%s\n' "$statement" | "$program" explain)
printf '%s\n==\n%s\n==\n%s\n' "$pages" "$statement" "$chains" | awk -v folder="$folder" '
  function tell(firm, text) { print text >> (folder "/" firm ".txt") }
  /^==$/ { part++; next }
  # A page begins with the line of the round, and its second line names the firm.
  part == 0 && $1 == "ROUND" { head = $0; next }
  part == 0 && $1 == "PARTY" { firm = $2; printf "" > (folder "/" firm ".txt"); tell(firm, head) }
  part == 0 { tell(firm, $0) }
  part == 1 && $1 == "CLAIM" { debtor[$2 "/" $3] = $4 }
  part == 2 && NF > 2 {
    for (at = 3; at <= NF; at++) {
      split($at, claim, "/")
      gets[claim[1]] = " gets " debtor[$at] " " claim[2]
      pays[debtor[$at]] = " pays " claim[1] " " claim[2]
    }
    for (at = 3; at <= NF; at++) {
      split($at, claim, "/")
      if (at == 3 && $1 == "OPEN") tell(debtor[$at], "CHAIN " $2 pays[debtor[$at]])
      tell(claim[1], "CHAIN " $2 pays[claim[1]] gets[claim[1]])
    }
    split("", gets)
    split("", pays)
  }'
