#!/usr/bin/env bash
# Times a run whose acts come by one lane, and one whose acts come by sixteen: bench/lanes.sh [ACTS [FOLDER]]
# Prints the acts a second of each, the microseconds of the processors an act, and how many times as much sixteen lanes are. The
# journal is a file in a new folder within FOLDER, so that its disk is timed: each act that is accepted is synced there. Each time is
# the least of three runs, in turn.
# Then it prints how many acts of the other lanes were answered while one lane had a round of 262,144 claims solved, with the
# journal in memory. Run by hand. Without words it takes 3,200 acts, and the folder of temporary files.
set -euo pipefail

acts=${1:-3200}
folder=$(mktemp -d -p "$(realpath "${2:-${TMPDIR:-/tmp}}")")
trap 'rm -rf "$folder"' EXIT

# Sixteen firms, and then so many acts, each of the next firm and the next lane.
write() {
  awk -v lanes="$1" -v acts="$2" 'BEGIN {
    for (firm = 1; firm <= 16; firm++) print "1 FIRM F-" firm
    print "FENCE"
    for (act = 0; act < acts; act++) print act % lanes + 1, "FUND F-" act % 16 + 1, "1.00"
  }'
}

# Requests of drawn claims, a fence, and then a round in the first lane while the others put in funds.
write_round() {
  "$here/drawn.sh" 16384 262144 1 none
  echo FENCE
  echo '1 CLOSE PLAIN 2025-12-31'
  awk -v acts="$1" 'BEGIN { for (act = 0; act < acts; act++) print act % 15 + 2, "FUND F-" act % 16 + 1, "1.00" }'
}

# Microseconds of a run over an input whose every act is accepted, by the clock and of the processors.
timed() {
  rm -f bureau.journal
  local begun=${EPOCHREALTIME/./} ended
  /usr/bin/time -f '%U %S' -o "$folder/spent" "$program" run <"$folder/$1" >"$folder/written"
  ended=${EPOCHREALTIME/./}
  [ "$(grep -c ' = ok$' "$folder/written")" -eq "$((acts + 16))" ] || { echo "bench: an act was not accepted" >&2; exit 1; }
  awk -v clock="$((ended - begun))" '{ print clock, ($1 + $2) * 1e6 }' "$folder/spent"
}

. "$(dirname "$0")/program.sh"
in_memory=$PWD
write 1 "$acts" >"$folder/one"
write 16 "$acts" >"$folder/sixteen"
write_round 60000 >"$folder/round"

cd "$folder"
for _ in 1 2 3; do
  one=$(timed one)
  sixteen=$(timed sixteen)
  echo "$one $sixteen"
done | awk -v acts="$acts" '
  NR == 1 || $1 < one { one = $1 }
  NR == 1 || $2 < spent_one { spent_one = $2 }
  NR == 1 || $3 < sixteen { sixteen = $3 }
  NR == 1 || $4 < spent { spent = $4 }
  END {
    printf "%8s %10s %12s\n", "lanes", "acts/s", "us/act"
    printf "%8d %10d %12.1f\n%8d %10d %12.1f\n", 1, acts * 1e6 / one, spent_one / acts, 16, acts * 1e6 / sixteen, spent / acts
    printf "sixteen lanes by one: %.2f times as many a second, %.2f times the time of the processors\n", one / sixteen, spent / spent_one
  }'

cd "$in_memory"
rm -f bureau.journal
"$program" run <"$folder/round" | awk '
  / PUBLISH / { open = 0 }
  open { count++ }
  / CLOSE .* = opened / { open = 1 }
  END { print "answered while a round was solved:", count + 0, "of 60000 acts" }'
