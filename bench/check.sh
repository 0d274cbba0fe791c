#!/usr/bin/env bash
# Times `check` on statements of growing size: bench/check.sh [CLAIMS..]
# Prints for each size the bytes, the nanoseconds a byte of reading and of the verdict, those of bench/reader.py in Python on the
# same file, how many times as long that takes as reading and verdict together, and the peak memory of `check` a byte.
# Reading is timed on the statement with one more line after END, which is refused when all else was read; the verdict is
# the rest of the time. Each figure is the least of three runs. Run by hand.
set -eu

[ $# -gt 0 ] || set -- 100 1000 10000 100000 262144
. "$(dirname "$0")/program.sh"

whole=$(mktemp)
longer=$(mktemp)
figures=$(mktemp)
trap 'rm -f "$whole" "$longer" "$figures"' EXIT

# least FILE COMMAND..: the least seconds of three runs on a file
least() {
  local input=$1
  shift
  for _ in 1 2 3; do
    local begun=$EPOCHREALTIME
    "$@" <"$input" >/dev/null || true
    local ended=$EPOCHREALTIME
    awk -v a="$begun" -v b="$ended" 'BEGIN { printf "%.6f\n", b - a }'
  done | sort -g | head -n 1
}

printf '%8s %10s %12s %12s %12s %8s %12s\n' claims bytes read-ns/B verdict-ns/B python-ns/B ratio peak-B/byte
for claims; do
  "$here/statement.sh" "$claims" >"$whole"
  { cat "$whole"; echo END; } >"$longer"
  bytes=$(wc -c <"$whole")
  /usr/bin/time -f '%M' -o "$figures" "$program" check <"$whole" >/dev/null
  awk -v c="$claims" -v n="$bytes" -v k="$(cat "$figures")" \
    -v r="$(least "$longer" "$program" check)" -v a="$(least "$whole" "$program" check)" \
    -v p="$(least "$whole" python3 "$here/reader.py")" \
    'BEGIN { v = a > r ? a - r : 0
             printf "%8d %10d %12.1f %12.1f %12.1f %8.2f %12.1f\n", c, n, r * 1e9 / n, v * 1e9 / n, p * 1e9 / n, p / a, k * 1024 / n }'
done
