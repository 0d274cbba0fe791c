#!/usr/bin/env bash
# Times the built program on request texts of growing size: bench/run.sh [LINES..]
# Prints for each size the seconds, the microseconds a line, the peak memory in kilobytes and the bytes of it a line.
# Run by hand. Without sizes it takes 1,000, 10,000 and 100,000 lines.
set -eu

[ $# -gt 0 ] || set -- 1000 10000 100000
. "$(dirname "$0")/program.sh"

input=$(mktemp)
figures=$(mktemp)
trap 'rm -f "$input" "$figures"' EXIT

printf '%10s %10s %12s %12s %12s\n' lines seconds us/line peak-KB bytes/line
for lines; do
  "$here/inputs.sh" "$lines" >"$input"
  rm -f bureau.journal
  /usr/bin/time -f '%e %M' -o "$figures" "$program" run <"$input" >/dev/null
  read -r seconds kilobytes <"$figures"
  awk -v n="$lines" -v s="$seconds" -v k="$kilobytes" \
    'BEGIN { printf "%10d %10.2f %12.2f %12d %12.1f\n", n, s, s * 1e6 / n, k, k * 1024 / n }'
done
