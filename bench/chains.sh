#!/usr/bin/env bash
# Times `explain` on the statements of drawn rounds: bench/chains.sh [NET..]
# A net is one of bench/nets.py without windows. Its claims are filed, confirmed and closed by a run, whose statement `check` and
# `explain` read then. Prints the claims, the chains, the claims that they give in all, the bytes of the text; the seconds of
# `check`, of `explain` and of `wc -w` on the text, each the least of three; what `explain` takes beyond `check` by what `wc -w`
# takes; and the peak memory of `explain` beyond that of `check`, in bytes a claim. Run by hand. Without nets it takes four.
set -euo pipefail

[ $# -gt 0 ] || set -- drawn local power thin
. "$(dirname "$0")/program.sh"

# least FILE COMMAND..: the least seconds of three runs on a file
least() {
  local input=$1
  shift
  for _ in 1 2 3; do
    local begun=${EPOCHREALTIME/./}
    "$@" <"$input" >written
    echo "$((${EPOCHREALTIME/./} - begun))"
  done | sort -g | awk 'NR == 1 { printf "%.6f\n", $1 / 1e6 }'
}

# peak FILE COMMAND..: the peak memory of a run on a file, in kilobytes
peak() {
  local input=$1
  shift
  /usr/bin/time -f '%M' -o peak "$@" <"$input" >written
  cat peak
}

printf '%-12s %8s %8s %10s %12s %8s %8s %8s %6s %8s\n' net claims chains given bytes check explain wc-w ratio B/claim
for net; do
  python3 "$here/nets.py" "$net" 1 statement | awk '
    $1 == "PARTY" { print "1 FIRM", $2 }
    $1 == "CLAIM" { print "1 FILE", $2, $3, $4, $5, "2025-01-01"; print "1 CONFIRM", $2, $3, $4 }
    END { print "1 CLOSE PLAIN 2025-12-31" }' >requests
  rm -f bureau.journal
  "$program" run <requests | sed -n '/^ROUND/,/^END/p' >statement
  "$program" explain <statement >text
  awk -v net="$net" -v n="$(grep -c '^CLAIM' statement)" -v l="$(wc -l <text)" -v w="$(wc -w <text)" -v b="$(wc -c <text)" \
    -v c="$(least statement "$program" check)" -v e="$(least statement "$program" explain)" -v s="$(least text wc -w)" \
    -v p="$(peak statement "$program" check)" -v q="$(peak statement "$program" explain)" \
    'BEGIN { printf "%-12s %8d %8d %10d %12d %8.2f %8.2f %8.2f %6.2f %8.1f\n", net, n, l, w - 2 * l, b, c, e, s, (e - c) / s, (q - p) * 1024 / n }'
done
